"""What the program is given next: the lines of clients, and Serve lines in between.

The program does one thing at a time: it takes a line, or it serves as many turns as a Serve line says. So lines, for 3 ms at most, and
Serve lines take turns. A Serve is as short as a line may wait, and one that waits for datagrams is ended by a datagram to the
program's report port when a line comes. At each moment at most one line of a client is in the program's hand; where the program
ends with it, nobody knows whether it was done, and its client is told so.
"""
import json
import time
from collections import deque

from . import logs, program, reports
from .mail import Mail
from .turns import Turns

SLICE = 0.003
QUIET = 0.1
FEW = 16
BURST = 128
SLACK = 0.0005
WORDS = 8
MOST_QUEUED = 10000
MOST_REPORT = 64
RENEW = 1 << 39

NO_REPLY = b'{"Error":"NoReply"}\n'
NOT_FOR_CLIENTS = b'{"Error":"NotForClients","Member":"Serve"}\n'
UNKNOWN_WORD = b'{"Error":"UnknownWord"}\n'

KINDS = frozenset((
    "CreateHostedZone", "DeleteHostedZone", "ListResourceRecordSets", "ChangeResourceRecordSets", "CreateCidrCollection",
    "ChangeCidrCollection", "DeleteCidrCollection", "CreateHealthCheck", "UpdateHealthCheck", "DeleteHealthCheck",
    "GetHealthCheckStatus", "Observe", "Query", "Bind", "Serve", "Compact"))


def kind_of(thing):
    """The one member of a line's object and its value; ("other", None) where it is none that is known."""
    if isinstance(thing, dict) and len(thing) == 1:
        kind, value = next(iter(thing.items()))
        if kind in KINDS and isinstance(value, dict):
            return kind, value
    return "other", None


def check_number(ident):
    return int(ident[1:])


class Hand:
    """The lines that wait, and the Serve line in the program's hand.

    `own` has lines of the driver with what takes their replies; `serving` is (turns, when it began) of a Serve line, and `wake_at` when
    wakes are sent to end it. `queue` has datagrams that are to be passed on; `early` those that came while the program starts, which
    aren't noted yet, since those that are noted are replayed.
    """

    def __init__(self, driver):
        self.driver, self.counts = driver, driver.counts
        self.turns, self.mail, self.own, self.tcp_waiters = Turns(), None, deque(), []
        self.serving, self.is_woken, self.wake_at = None, False, None
        self.queue, self.early = deque(), deque()
        self.slice_end, self.handed, self.own_turn, self.line_end = 0.0, 0, False, 0.0

    def begin(self, port, now):
        """The program serves, with this report port."""
        self.mail, self.line_end = Mail(port), now
        self.note_early(True)
        self.forward()

    def end(self, pending):
        """The program has ended, with these lines in its hand."""
        if self.mail is not None:
            self.mail.close()
        self.mail = self.serving = self.wake_at = None
        self.own.clear()
        self.queue.clear()
        self.note_early(False)
        self.driver.take_reports(True)
        waiters, self.tcp_waiters = self.tcp_waiters, []
        for then in waiters:
            then(None)
        for then in pending:
            if isinstance(then, Request):
                then(NO_REPLY)

    # ---- turns

    def next_line(self):
        """Gives the program a line or a Serve line."""
        now, clients = time.monotonic(), self.driver.clients
        waits = clients.has_lines()
        if (waits or self.own) and (self.handed == 0 or now < self.slice_end):
            self.handed += 1
            self.own_turn = bool(self.own) and (not waits or not self.own_turn)
            if self.own_turn:
                self.driver.child.give(*self.own.popleft())
            else:
                self.hand_over(clients.next(), now)
        else:
            self.serve(now, waits or bool(self.own) or self.driver.upkeep.compacting)

    def serve(self, now, is_urgent):
        """Gives a Serve line; where lines wait, wakes see to it that it doesn't wait for datagrams.

        One of many turns ends soon after the load does: after 100 ms by wakes, whether a line waits or not.
        """
        count = self.turns.count
        self.serving, self.is_woken = (count, now), False
        self.wake_at = now + QUIET if count > 1 else None
        if is_urgent:
            self.wake()
        self.mail.handed()
        self.driver.child.give(b'{"Serve":{"Turns":%d}}' % count, self.served)

    def wake(self):
        """Ends the Serve soon: by as many wakes as it has turns where these are few, and else where it doesn't end in time.

        Wakes that it doesn't need take turns of the next one. The loop waits for whole milliseconds, so slack may be one and a half.
        """
        if self.serving is None or self.mail is None:
            return
        count, began = self.serving
        self.is_woken = True
        if count <= FEW:
            self.mail.wake(count)
        self.wake_at = max(time.monotonic(), began + count * self.turns.each) + SLACK

    def watch(self, now):
        """Sends wakes where a Serve lasts too long."""
        if self.wake_at is not None and now >= self.wake_at and self.serving is not None:
            self.mail.more(min(self.serving[0], BURST))
            self.wake_at = now + SLACK

    def served(self, reply):
        """A Serve line's reply."""
        counts, now = json.loads(reply), time.monotonic()
        wakes = self.mail.took(counts["Reports"] + counts["Unknown"], counts["Turns"], counts["Quiet"])
        self.counts.serve(counts, wakes)
        brought = 0 if counts["Quiet"] else counts["Turns"] - wakes
        self.turns.took(counts["Turns"], brought, now - self.serving[1])
        self.serving = self.wake_at = None
        self.slice_end, self.handed = now + SLICE, 0
        self.forward()
        if self.driver.child.given > RENEW:
            self.driver.renewing = True
        self.driver.upkeep.served()

    def line_came(self):
        """A line has come: a wait of the program ends."""
        if self.serving is not None and not self.is_woken:
            self.wake()

    # ---- lines of clients

    def hand_over(self, client, now):
        """Hands a client's line over, or answers it where it is the driver's to answer."""
        line, came = client.take()
        request = Request(self, client, line, now, now - max(came, self.line_end))
        self.counts.waited(request.waited)
        if request.kind == "Serve":
            request(NOT_FOR_CLIENTS)
        else:
            self.driver.child.give(line, request)

    def answer_words(self):
        """Answers lines to the driver itself, some at a time, which don't wait for the program."""
        for _ in range(min(WORDS, len(self.driver.clients.asking))):
            if client := self.driver.clients.next_asking():
                line, came = client.take()
                now = time.monotonic()
                Request(self, client, line, now, now - came)(self.word(line.strip()))

    def word(self, word):
        """The reply to a line to the driver itself."""
        if word == b"!status":
            return program.compact({"Ok": "!status", "r53d": self.driver.upkeep.status()}) + b"\n"
        if word == b"!compact":
            self.driver.upkeep.compacting = True
            return b'{"Ok":"!compact"}\n'
        return UNKNOWN_WORD

    def note(self, kind, value, reply):
        """What a command that was done changes in what the driver knows of checks and reports."""
        checks, kept = self.driver.checks, self.driver.reports
        if kind == "Observe":
            kept.take(check_number(value["HealthCheckId"]), int(value["Checker"]), value["Pass"])
            kept.flush()
        elif kind == "CreateHealthCheck":
            config = value["HealthCheckConfig"]
            is_calculated = config["Type"] == "CALCULATED"
            checks[check_number(reply["HealthCheck"]["Id"])] = None if is_calculated else int(config.get("FailureThreshold", 3))
        elif kind == "DeleteHealthCheck":
            number = check_number(value["HealthCheckId"])
            checks.pop(number, None)
            kept.views.forget(number)

    # ---- queries over TCP

    def asked_by_tcp(self, line, then):
        """Asks the program a Query line; `then` is called with its reply as an object, or with None where there is none."""
        if self.driver.state != "serving":
            then(None)
            return
        self.tcp_waiters.append(then)
        self.own.append((line, self.tcp_answered))
        self.line_came()

    def tcp_answered(self, reply):
        got = json.loads(reply)
        self.counts.tcp += "Ok" in got and got["Reply"] is not None
        self.tcp_waiters.pop(0)(got)

    # ---- reports

    def report_came(self, _):
        """Takes datagrams of the report port, notes the reports, and passes all on.

        The longest report has 21 octets, so what is longer than 64 is none when it is cut there either.
        """
        for _ in range(64):
            try:
                datagram = self.driver.report_sock.recv(MOST_REPORT)
            except BlockingIOError:
                break
            except OSError:
                continue
            if self.driver.state == "starting":
                self.early.append(datagram)
                continue
            self.note_report(datagram)
            if self.mail is not None:
                self.queue.append(datagram)
        self.forward()
        self.driver.reports.flush()

    def note_report(self, datagram):
        report = reports.read_report(datagram)
        if report and self.driver.checks.get(report[0]):
            self.driver.reports.take(*report)

    def note_early(self, is_passed_on):
        """Notes what came while the program started."""
        for datagram in self.early:
            self.note_report(datagram)
        if is_passed_on:
            self.queue.extend(self.early)
        self.early.clear()

    def forward(self):
        """Passes on as much as the program's port has room for; where much is left, the report port isn't read."""
        while self.queue and self.mail is not None and self.mail.has_room() and self.mail.send(self.queue[0]):
            self.queue.popleft()
        self.driver.take_reports(len(self.queue) + len(self.early) < MOST_QUEUED)


class Request:
    """A client's line in the program's hand: called with its reply."""

    def __init__(self, hand, client, line, at, waited):
        self.hand, self.client, self.line, self.at, self.waited = hand, client, line, at, waited
        thing = logs.parse(line)
        self.is_json = thing is not None
        self.kind, self.value = kind_of(thing)

    def __call__(self, reply):
        driver, now = self.hand.driver, time.monotonic()
        got = logs.parse(reply) if len(reply) < 65536 else {"Ok": self.kind}
        outcome = got.get("Error", "Ok")
        if outcome == "Ok" and self.value is not None:
            self.hand.note(self.kind, self.value, got)
        driver.counts.line(self.kind, outcome)
        driver.log.line(self.client.number, self.client.peer, self.line, self.is_json, reply[:-1], self.waited, now - self.at)
        if self.line[:1] != b"!":
            self.hand.line_end = now
        self.client.reply(reply)
        driver.clients.done(self.client)
