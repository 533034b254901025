"""A service in a temporary folder, and what tests ask of it."""
import contextlib
import io
import json
import os
import signal
import socket
import subprocess
import sys
import tempfile
import time
import unittest

HERE = os.path.dirname(os.path.realpath(__file__))
CONTRIB = os.path.dirname(HERE)
sys.path.insert(0, CONTRIB)

from r53d import control, program, send, wire  # noqa: E402

R53D = os.path.join(CONTRIB, "r53d", "r53d")
R53CTL = os.path.join(CONTRIB, "r53d", "r53ctl")
R53 = os.environ.get("R53", os.path.join(CONTRIB, "..", "crates", "r53", "out", "r53"))
IS_LONG = bool(os.environ.get("R53_LONG"))
PATIENCE = 20


def until(test, what, seconds=PATIENCE):
    """Waits until a test is true, and answers what it gave."""
    end = time.monotonic() + seconds
    while time.monotonic() < end:
        if got := test():
            return got
        time.sleep(0.02)
    raise AssertionError("waited for " + what)


def script(folder, text, name="script"):
    """The path of a shell script in a folder; `$R53` in it is the program."""
    path = os.path.join(folder, name)
    with open(path, "w") as file:
        file.write("#!/bin/sh\n%s\n" % text.replace("$R53", R53))
    os.chmod(path, 0o755)
    return path


def is_alive(pid):
    """Whether a process is there and no zombie."""
    try:
        with open("/proc/%d/stat" % pid, encoding="ascii", errors="replace") as file:
            return file.read().rsplit(")", 1)[1].split()[0] != "Z"
    except OSError:
        return False


class Service:
    """r53d over a store in a folder. Settings are given as words, and those of this host's own service don't count."""

    def __init__(self, folder, **settings):
        self.folder = folder
        self.socket = settings.pop("socket", os.path.join(folder, "r53d.socket"))
        self.log = settings.pop("log", os.path.join(folder, "log"))
        words = {"config": os.devnull, "query-port": 0, "report-port": 0, "lock-wait": 5, "socket": self.socket, "log": self.log,
                 **{k.replace("_", "-"): v for k, v in settings.items()}}
        self.skip = os.path.getsize(self.log) if os.path.exists(self.log) else 0
        self.process = subprocess.Popen(
            [sys.executable, "-B", R53D, "--init", "--folder", folder] + [w for k, v in words.items() for w in ("--" + k, str(v))],
            env={**os.environ, "R53": R53}, stderr=subprocess.PIPE, stdout=subprocess.DEVNULL)

    def events(self, event=None):
        """The objects of the log since this service began, those of an event where one is given."""
        if not os.path.exists(self.log):
            return []
        with open(self.log, "rb") as file:
            file.seek(self.skip)
            found = [json.loads(line) for line in file if line.endswith(b"\n")]
        return [one for one in found if event is None or one.get("event") == event]

    def ready(self, times=1):
        """Waits until the program serves for the n-th time."""
        def look():
            if self.process.poll() is not None:
                raise AssertionError("r53d ended: %r" % self.process.stderr.read())
            found = self.events("serving")
            return found[times - 1] if len(found) >= times else None
        told = until(look, "r53d to serve")
        self.query_port, self.report_port, self.child = told["query_port"], told["report_port"], told["child"]
        return self

    def lines(self, *things):
        """The replies to lines, given as objects or octets."""
        return send.ask(self.socket, [one if isinstance(one, bytes) else program.compact(one) for one in things])

    def status(self):
        return self.lines(b"!status")[0]["r53d"]

    def query(self, name, number=1, seconds=2):
        """What a client of the query port is answered; it asks again where nothing comes."""
        with socket.socket(socket.AF_INET, socket.SOCK_DGRAM) as sock:
            sock.settimeout(seconds)
            for _ in range(5):
                sock.sendto(wire.query(name, number), ("127.0.0.1", self.query_port))
                try:
                    return wire.read_reply(sock.recv(65535))
                except TimeoutError:
                    continue
        raise AssertionError("no answer to %s" % name)

    def values(self, name):
        return [record.value for record in self.query(name).answer]

    def report(self, *texts):
        with socket.socket(socket.AF_INET, socket.SOCK_DGRAM) as sock:
            for text in texts:
                sock.sendto(text.encode(), ("127.0.0.1", self.report_port))

    def stop(self):
        """Ends it cleanly; answers its status and what stands on its standard error."""
        if self.process.poll() is None:
            self.process.send_signal(signal.SIGTERM)
        err = self.process.communicate(timeout=PATIENCE)[1]
        return self.process.returncode, err.decode()

    def kill(self):
        """Kills it, and waits until its program has gone too."""
        if self.process.poll() is None:
            self.process.kill()
            self.process.wait()
        self.process.stderr.close()


class Case(unittest.TestCase):
    """A test with a folder of its own; services that it started end with it."""

    def setUp(self):
        self.temporary = tempfile.TemporaryDirectory(prefix="r53d-test-")
        self.addCleanup(self.temporary.cleanup)
        if os.environ.get("R53_TIMES"):
            began = time.monotonic()
            self.addCleanup(lambda: print("%.1f s" % (time.monotonic() - began), self.id(), file=sys.stderr))
        self.folder = self.temporary.name

    def service(self, folder=None, **settings):
        service = Service(folder or self.folder, **settings)
        self.addCleanup(service.kill)
        return service

    def tool(self, *words, status=0, text=None, folder=None):
        """Runs r53ctl in this process; answers what it wrote, standard error where the status is 2."""
        given = [] if "--program" in words else ["--program", R53]
        out, err = (io.TextIOWrapper(io.BytesIO(), write_through=True) for _ in range(2))
        kept, sys.stdin = sys.stdin, io.TextIOWrapper(io.BytesIO((text or "").encode()))
        try:
            with contextlib.redirect_stdout(out), contextlib.redirect_stderr(err):
                got = control.main([words[0], "--config", os.devnull, "--folder", folder or self.folder, *given, *words[1:]])
        except SystemExit as end:
            got = end.code
        finally:
            sys.stdin = kept
        out, err = (stream.buffer.getvalue().decode() for stream in (out, err))
        self.assertEqual(got, status, out + err)
        return err if status == 2 else out + err if status == 3 else out

    def dump(self, folder=None):
        """The octets of a dump of the store, by the program on a copy."""
        with program.Copy(folder or self.folder) as copy:
            return program.words(R53, copy, "dump")

    def all_ok(self, replies):
        for reply in replies:
            self.assertIn("Ok", reply, reply)
        return replies


# ---- lines

def zone(name="example.com"):
    return {"CreateHostedZone": {"Name": name}}


def check(threshold=1):
    return {"CreateHealthCheck": {"HealthCheckConfig": {"Type": "TCP", "FailureThreshold": threshold}}}


def one_set(name, *values, **more):
    records = [{"Value": value} for value in values]
    return {"Name": name, "Type": "A", **more, "TTL": 60, "ResourceRecords": records}


def batch(*sets, action="CREATE", zone="Z1"):
    changes = [{"Action": action, "ResourceRecordSet": one} for one in sets]
    return {"ChangeResourceRecordSets": {"HostedZoneId": zone, "ChangeBatch": {"Changes": changes}}}


def failover(name="www.example.com"):
    return batch(one_set(name, "192.0.2.1", SetIdentifier="p", Failover="PRIMARY", HealthCheckId="h1"),
                 one_set(name, "192.0.2.2", SetIdentifier="s", Failover="SECONDARY"))


def down(ident="h1", times=1):
    """Reports of all checkers that the endpoint fails."""
    return ["OBS %s %d 0" % (ident, checker) for checker in range(50) for _ in range(times)]
