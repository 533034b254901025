"""The driver: one loop that keeps the program running, from its start to the clean stop.

What the program is given next is decided in `hand.py`; what is looked at now and then is in `upkeep.py`. Statuses: 0 after a clean
stop; those of the program where it refuses the store (1, 2), or ends before it served for the first time. After it has served, a fault has
it started again, after 0.1 seconds, then twice as long each time up to 30.
"""
import json
import os
import signal
import socket
import sys
import time
from contextlib import contextmanager

from . import journal, lock, logs, metrics, notify, program, reports, tcp
from .child import Checks, Child
from .clients import Clients
from .hand import Hand
from .loop import READ, Loop
from .upkeep import Upkeep

REPLAY = 256
ROOM_FOR_REPORTS = 1 << 20
FIRST_DELAY, GOOD = 0.1, 60.0
FINAL = (1, 2)


class Stop(Exception):
    """The driver ends with a status, and with a line on standard error where there is one."""

    def __init__(self, status, text=""):
        super().__init__(text)
        self.status = status


@contextmanager
def named(what):
    """Lets a fault of the system tell what it is about."""
    try:
        yield
    except OSError as fault:
        raise OSError(fault.errno or 0, fault.strerror or str(fault), fault.filename or what) from None


def status_number(status):
    """The exit status that tells how a process ended, by itself or by a signal."""
    return status if status >= 0 else 128 - status


class Driver:
    """The whole service. `settings` has the keys of settings.KEYS; `may_make` says that a missing store is made.

    `state` is "down", "starting" or "serving"; `checks` has the failure threshold of each endpoint's check by number, None for others.
    """

    def __init__(self, settings, may_make=False):
        self.settings, self.may_make = settings, may_make
        self.counts, self.checks = metrics.Counts(), {}
        self.hand, self.upkeep = Hand(self), Upkeep(self)
        self.child = self.looking = self.fault = None
        self.clients = self.page = self.tcp = self.report_sock = self.reports = self.lock = self.log = None
        self.state, self.was_ready, self.stopping, self.renewing = "down", False, False, False
        self.delay, self.again_at, self.good_since = FIRST_DELAY, 0.0, 0.0
        self.query_port, self.begun, self.stop_by = settings.query_port, time.time(), 0.0

    # ---- the whole run

    def run(self):
        """Serves until it is told to stop; answers the exit status."""
        status, text = 0, ""
        try:
            self.open()
            while True:
                self.step()
                self.hand.answer_words()
                self.loop.once(self.timeout())
                self.watch()
        except Stop as stop:
            status, text = stop.status, str(stop)
        finally:
            self.close()
        if text:
            print(text, file=sys.stderr)
        return status

    def step(self):
        """Starts the program where it is away, and gives it its next line where it is free."""
        if self.child is None:
            if self.stopping:
                raise Stop(0)
            if time.monotonic() >= self.again_at:
                self.start()
        elif self.is_free():
            self.hand.next_line()
        elif self.state == "serving" and self.child.is_free:
            self.child.end_input()

    def is_free(self):
        """Whether the program waits for a line, and is to get one."""
        return self.state == "serving" and self.child.is_free and not (self.stopping or self.renewing)

    def timeout(self):
        """How many seconds the loop may wait for events."""
        until = [self.upkeep.look_at, self.upkeep.journal_at]
        if self.hand.wake_at is not None:
            until.append(self.hand.wake_at)
        if self.child is None:
            until.append(self.again_at)
        if self.is_free() or self.clients.asking:
            return 0
        return max(0.0, min(until) - time.monotonic())

    def watch(self):
        """What is due after each wait."""
        now = time.monotonic()
        self.hand.watch(now)
        if self.stopping and now > self.stop_by:
            self.log.event("killed", text="the program didn't end")
            raise Stop(128 + signal.SIGKILL)
        self.upkeep.watch(now)

    # ---- opening and closing

    def open(self):
        """Takes the lock, looks at the store, and opens all sockets. Raises Stop."""
        s = self.settings
        self.loop = Loop()
        self.program = program.find(s.program)
        if self.program is None:
            raise Stop(2, "r53d: no program r53 is there")
        if not os.path.isdir(s.folder):
            raise Stop(2, "r53d: %s: no folder is there" % s.folder)
        try:
            self.log = logs.Log(s.log, s.log_most, self.loop)
            self.lock = lock.take(s.folder, s.lock_wait)
            self.make_store()
            self.reports = reports.ReportFile(s.folder)
            self.open_sockets()
        except lock.Locked as fault:
            raise Stop(2, "r53d: %s" % fault) from None
        except OSError as fault:
            where = "%s: " % fault.filename if getattr(fault, "filename", None) else ""
            raise Stop(6, "r53d: %s%s" % (where, (fault.strerror or str(fault)).lower())) from None
        self.catch_signals()
        self.log.event("begun", pid=os.getpid(), folder=os.path.abspath(s.folder), program=self.program)

    def make_store(self):
        """Makes an empty store where none is there and that is allowed. Raises Stop."""
        if self.may_make and journal.may_be_made(self.settings.folder):
            try:
                program.words(self.program, self.settings.folder, "init")
            except program.Refused as fault:
                raise Stop(status_number(fault.status), str(fault)) from None

    def open_sockets(self):
        """Opens the control socket, the report port, and the page and TCP where they are wanted. Raises OSError."""
        s = self.settings
        with named(s.socket):
            self.clients = Clients(self.loop, s.socket, self.hand.line_came)
        with named("report_port %d of %s" % (s.report_port, s.report_address)):
            self.open_report_port()
        if s.metrics_port:
            with named("metrics_port %d" % s.metrics_port):
                self.page = metrics.Server(self.loop, s.metrics_port, self.upkeep.asked_for_page)
        if s.tcp_port:
            with named("tcp_port %d of %s" % (s.tcp_port, s.tcp_address)):
                self.tcp = tcp.Server(self.loop, s.tcp_address, s.tcp_port, self.hand.asked_by_tcp)

    def open_report_port(self):
        s = self.settings
        family = socket.AF_INET6 if ":" in s.report_address else socket.AF_INET
        self.report_sock = socket.socket(family, socket.SOCK_DGRAM | socket.SOCK_CLOEXEC | socket.SOCK_NONBLOCK)
        self.report_sock.setsockopt(socket.SOL_SOCKET, socket.SO_RCVBUF, ROOM_FOR_REPORTS)
        self.report_sock.bind((s.report_address, s.report_port))
        self.report_port = self.report_sock.getsockname()[1]
        self.take_reports(True)

    def take_reports(self, is_taken):
        """Whether the report port is read, from now on."""
        self.loop.set(self.report_sock, READ if is_taken else 0, self.hand.report_came)

    def catch_signals(self):
        """Signals end a wait of the loop, and are looked at in it."""
        self.signal_in, self.signal_out = socket.socketpair()
        for end in (self.signal_in, self.signal_out):
            end.setblocking(False)
        signal.set_wakeup_fd(self.signal_out.fileno(), warn_on_full_buffer=False)
        for number in (signal.SIGTERM, signal.SIGINT, signal.SIGHUP):
            signal.signal(number, lambda *_: None)
        self.loop.set(self.signal_in, READ, self.signal_came)

    def signal_came(self, _):
        for number in self.signal_in.recv(64):
            if number == signal.SIGHUP:
                self.log.reopen()
            elif number in (signal.SIGTERM, signal.SIGINT):
                self.stop()

    def stop(self):
        """Ends the program after the line in its hand; lines that wait aren't handed over."""
        if self.stopping:
            return
        self.stopping = True
        self.stop_by = time.monotonic() + self.settings.stop_within
        notify.send("STOPPING=1")
        self.log.event("stopping")
        self.clients.stop_listening()
        if self.state == "starting" and self.child is not None:
            self.fault = 0, ""
            self.child.kill()
        self.hand.wake()

    def close(self):
        """Closes all, in whatever state."""
        if self.looking is not None:
            self.looking.kill()
        if self.child is not None:
            self.child.kill()
            self.child.process.wait()
            self.hand.end(self.child.pending)
        if self.clients is not None:
            self.clients.stop_listening()
            self.clients.flush(1.0)
        for thing in (self.page, self.tcp, self.hand.mail, self.report_sock):
            if thing is not None:
                thing.close()
        if self.reports is not None:
            self.reports.flush()
            self.reports.close()
        if self.log is not None:
            self.log.end(1.0)
        if self.lock is not None:
            os.close(self.lock)

    # ---- the program's life

    def start(self):
        """Starts the program, which opens the store, and beside it a dump, which tells of the checks; no line is given before that."""
        self.state, self.fault = "starting", None
        folder = self.settings.folder
        try:
            self.child = Child(self.loop, self.program, folder, self.lock, self.child_ended)
            self.looking = Checks(self.loop, self.program, folder, self.lock, self.looked)
        except OSError as fault:
            self.fault = 5, "r53d: %s" % (fault.strerror or fault).lower()
            self.end_start()

    def end_start(self):
        """What can't be started ends by `fault`. Raises Stop where it isn't tried again."""
        if self.child is not None:
            self.child.kill()
        else:
            self.faulty(*self.fault)

    def looked(self, checks, *fault):
        """The checks are known, or the dump ended by a fault: then the reports are replayed, before the program binds."""
        self.looking = None
        if checks is None:
            self.fault = fault
            self.end_start()
            return
        self.checks = checks
        self.reports.views.keep_only(self.checks)
        self.reports.tidy()
        self.replaying = self.reports.views.replay(self.checks)
        self.replayed = self.replay_left = 0
        self.replay()

    def replay(self, reply=None):
        """Hands over the next reports that are replayed; then Bind."""
        self.replay_left -= reply is not None
        if self.replay_left > 0:
            return
        lines = [program.compact(thing) for _, thing in zip(range(REPLAY), self.replaying)]
        self.replayed += len(lines)
        self.replay_left = len(lines)
        for line in lines:
            self.child.give(line, self.replay)
        if not lines:
            self.child.give(b'{"Bind":{"QueryPort":%d,"ReportPort":0}}' % self.query_port, self.bound)

    def bound(self, reply):
        """The program has its ports: from here on it serves. Raises Stop."""
        ports = json.loads(reply)
        if ports.get("Ok") != "Bind":
            raise Stop(6, "r53d: the program didn't bind: %s" % reply.decode().strip())
        self.query_port = ports["QueryPort"]
        self.state, self.good_since = "serving", time.monotonic()
        self.hand.begin(ports["ReportPort"], self.good_since)
        self.log.event("serving", query_port=self.query_port, report_port=self.report_port, replayed=self.replayed,
                       child=self.child.process.pid)
        if not self.was_ready:
            self.was_ready = True
            notify.send("READY=1\nSTATUS=serving on 127.0.0.1:%d" % self.query_port)

    def child_ended(self, status, text):
        """The program has ended. Whoever waits for a reply of it is told. Raises Stop."""
        pending, self.child = self.child.pending, None
        if self.looking is not None:
            self.looking.kill()
            self.looking = None
        if self.fault is not None:
            (status, text), self.fault = self.fault, None
        self.hand.end(pending)
        self.upkeep.end()
        if self.stopping and status == 0:
            raise Stop(0)
        if self.renewing and status == 0:
            self.renewing, self.state, self.again_at = False, "down", 0.0
        else:
            self.faulty(status, text)

    def faulty(self, status, text):
        """The program ended by itself: once more after a while, or never where the store is refused. Raises Stop."""
        self.log.event("ended", status=status, text=text)
        if status in FINAL or self.stopping or (not self.was_ready and status > 0):
            raise Stop(status_number(status), text)
        now = time.monotonic()
        if self.good_since and now - self.good_since > GOOD:
            self.delay = FIRST_DELAY
        self.state, self.good_since = "down", 0.0
        self.again_at, self.delay = now + self.delay, min(2 * self.delay, self.settings.restart_most)
        self.counts.restarts += 1
