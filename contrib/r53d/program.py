"""The program `r53` as the tools use it: on a copy of a store, for as long as a question takes.

A store that is served isn't touched: what a tool runs, it runs in a temporary folder on a copy of the two files and the tables.
"""
import json
import os
import shutil
import subprocess
import tempfile
import threading

from . import journal

HERE = os.path.dirname(os.path.realpath(__file__))
BUILT = os.path.join(HERE, "..", "..", "crates", "r53", "out", "r53")


class Refused(Exception):
    """The program ended by itself: its exit status, and its line on standard error."""

    def __init__(self, status, text):
        super().__init__(text or "r53: status %d" % status)
        self.status = status


def find(given=None):
    """The path of the program: what is given, else that of the environment's R53, `r53` on the path, or this repository's."""
    for path in (given,) if given else (os.environ.get("R53"), shutil.which("r53"), BUILT):
        if path and os.access(path, os.X_OK):
            return os.path.abspath(path)
    return None


def compact(thing):
    """A JSON value on one line, in octets."""
    return json.dumps(thing, separators=(",", ":")).encode()


def ended(process, stderr):
    """What to raise for a process that ended before its work was done."""
    status = process.wait()
    text = stderr.decode("utf-8", "replace").strip()
    return Refused(status, text or ("r53: signal %d" % -status if status < 0 else "r53: status %d" % status))


def words(program, folder, *given):
    """Runs the program with these words in a folder: what it wrote. Raises Refused where it ends otherwise than with 0."""
    with subprocess.Popen([program, *given], cwd=folder, stdin=subprocess.DEVNULL, stdout=subprocess.PIPE,
                          stderr=subprocess.PIPE) as process:
        stdout, stderr = process.communicate()
        if process.returncode:
            raise ended(process, stderr)
    return stdout


def opens(program, folder):
    """Sees that the program opens the store in a folder. Raises Refused."""
    with subprocess.Popen([program, "dump"], cwd=folder, stdin=subprocess.DEVNULL, stdout=subprocess.DEVNULL,
                          stderr=subprocess.PIPE) as process:
        stderr = process.stderr.read()
        if process.wait():
            raise ended(process, stderr)


def dump(program, folder):
    """The objects of a dump, in its order."""
    return [json.loads(line) for line in words(program, folder, "dump").splitlines()]


class Session:
    """A run of the program in a folder, that takes lines and gives their replies."""

    def __init__(self, program, folder):
        self.process = subprocess.Popen([program, "run"], cwd=folder, stdin=subprocess.PIPE, stdout=subprocess.PIPE,
                                        stderr=subprocess.PIPE, bufsize=-1)

    def __enter__(self):
        return self

    def __exit__(self, *_):
        try:
            self.process.stdin.close()
        except OSError:
            pass
        self.process.kill()
        self.process.wait()
        self.process.stdout.close()
        self.process.stderr.close()

    def raw(self, line):
        """The reply to a line of octets that isn't blank. Raises Refused where the program ended."""
        return next(self.many([line]))

    def line(self, thing):
        """The reply to a line that is given as an object."""
        return self.raw(compact(thing))

    def many(self, lines):
        """The replies to lines of octets, in order; they are written while replies are read."""
        lines = list(lines)
        writer = threading.Thread(target=self.write, args=(lines,), daemon=True)
        writer.start()
        for _ in lines:
            reply = self.process.stdout.readline()
            if not reply.endswith(b"\n"):
                raise ended(self.process, self.process.stderr.read())
            yield json.loads(reply)
        writer.join()

    def write(self, lines):
        try:
            for line in lines:
                self.process.stdin.write(line + b"\n")
            self.process.stdin.flush()
        except (OSError, ValueError):
            pass

    def end(self):
        """Ends the input, and waits. Raises Refused where the status isn't 0."""
        self.process.stdin.close()
        if self.process.wait():
            raise ended(self.process, self.process.stderr.read())


class Copy:
    """A temporary folder with a copy of a store, which goes when it is left."""

    def __init__(self, folder):
        self.origin = folder

    def __enter__(self):
        self.temporary = tempfile.TemporaryDirectory(prefix="r53ctl-")
        try:
            journal.copy_store(self.origin, self.temporary.name)
        except BaseException:
            self.temporary.cleanup()
            raise
        return self.temporary.name

    def __exit__(self, *_):
        self.temporary.cleanup()
