"""The program as a child: lines go in one behind another, and each has its reply. And its dump, of which the checks are read."""
import fcntl
import json
import os
import signal
import subprocess
import time
from collections import deque

from .loop import READ, WRITE

try:
    import ctypes
    PRCTL = ctypes.CDLL(None).prctl
except (ImportError, MemoryError, OSError, AttributeError):
    PRCTL = None

PIPE = 1 << 20
PR_SET_PDEATHSIG = 1


def dies_with_driver():
    """The program is killed where the driver ends without ending it. Where the system can't, it ends with its input."""
    if PRCTL is not None:
        PRCTL(PR_SET_PDEATHSIG, signal.SIGKILL)


class Child:
    """A run of the program in a folder. `lock` is the descriptor of the lock that it holds too."""

    def __init__(self, loop, program, folder, lock, on_end):
        self.loop, self.on_end = loop, on_end
        self.process = subprocess.Popen(
            [program, "run"], cwd=folder, stdin=subprocess.PIPE, stdout=subprocess.PIPE, stderr=subprocess.PIPE,
            pass_fds=(lock,), preexec_fn=dies_with_driver, process_group=0, bufsize=0)
        self.pending, self.out, self.into, self.scanned = deque(), bytearray(), bytearray(), 0
        self.given, self.oldest, self.has_replied = 0, 0.0, False
        for pipe in (self.process.stdin, self.process.stdout):
            os.set_blocking(pipe.fileno(), False)
            widen(pipe)
        self.loop.set(self.process.stdout, READ, self.read)
        self.loop.urgent.add(self.process.stdout.fileno())

    @property
    def is_free(self):
        """Whether each line has its reply."""
        return not self.pending

    def give(self, line, then):
        """Hands over a line of octets; `then` is called with its reply, which has its line feed."""
        if not self.pending:
            self.oldest = time.monotonic()
        self.pending.append(then)
        self.given += len(line) + 1
        self.out += line + b"\n"
        self.write()

    def write(self, _=None):
        if self.process.stdin.closed:
            return
        try:
            while self.out:
                del self.out[:os.write(self.process.stdin.fileno(), self.out)]
        except BlockingIOError:
            pass
        except OSError:
            self.out.clear()
        self.loop.set(self.process.stdin, WRITE if self.out else 0, self.write)

    def read(self, _):
        try:
            data = os.read(self.process.stdout.fileno(), PIPE)
        except BlockingIOError:
            return
        if not data:
            self.ended()
            return
        self.into += data
        while (end := self.into.find(b"\n", self.scanned)) >= 0:
            reply = bytes(self.into[:end + 1])
            del self.into[:end + 1]
            self.scanned = 0
            self.oldest, self.has_replied = time.monotonic(), True
            self.pending.popleft()(reply)
        self.scanned = len(self.into)

    def end_input(self):
        """The program ends once it has taken what it was given."""
        if not self.process.stdin.closed:
            self.loop.drop(self.process.stdin)

    def kill(self):
        self.process.kill()

    def ended(self):
        """The program closed its output: it has ended, or is killed. Tells its status and its line on standard error."""
        self.end_input()
        self.loop.drop(self.process.stdout)
        self.on_end(*status_of(self.process))


def status_of(process):
    """The exit status of a process that has ended, or is killed, and its line on standard error, which is closed."""
    os.set_blocking(process.stderr.fileno(), False)
    try:
        status = process.wait(5)
    except subprocess.TimeoutExpired:
        process.kill()
        status = process.wait()
    text = (process.stderr.read(4096) or b"").decode("utf-8", "replace").strip()
    process.stderr.close()
    return status, text


class Checks:
    """A dump that is read as far as its health checks, which stand before all else.

    `then` is called with the failure threshold of each endpoint's check by its number, None for that of each calculated one; or with
    None, a status and a line where the dump ended by a fault.
    """

    def __init__(self, loop, program, folder, lock, then):
        self.loop, self.then = loop, then
        self.process = subprocess.Popen(
            [program, "dump"], cwd=folder, stdin=subprocess.DEVNULL, stdout=subprocess.PIPE, stderr=subprocess.PIPE,
            pass_fds=(lock,), preexec_fn=dies_with_driver, process_group=0, bufsize=0)
        os.set_blocking(self.process.stdout.fileno(), False)
        self.into, self.found = bytearray(), {}
        self.loop.set(self.process.stdout, READ, self.read)

    def read(self, _):
        try:
            data = os.read(self.process.stdout.fileno(), PIPE)
        except BlockingIOError:
            return
        if not data:
            status, text = self.end()
            if status:
                self.then(None, status, text)
            else:
                self.then(self.found)
            return
        *lines, self.into = (self.into + data).split(b"\n")
        for line in lines:
            check = json.loads(line).get("HealthCheck")
            if check is None:
                self.kill()
                self.then(self.found)
                return
            self.found[int(check["Id"][1:])] = check.get("FailureThreshold")

    def end(self):
        self.loop.drop(self.process.stdout)
        return status_of(self.process)

    def kill(self):
        """Ends it; `then` isn't called any more."""
        self.process.kill()
        self.end()


def widen(pipe):
    """Lets a pipe hold a line of a megabyte, where the system allows it."""
    try:
        fcntl.fcntl(pipe.fileno(), fcntl.F_SETPIPE_SZ, PIPE)
    except OSError:
        pass
