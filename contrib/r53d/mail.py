"""The program's report port, to which the driver alone sends: reports that it passes on, and datagrams that end a wait.

A wake is a datagram that is no report; a Serve line counts it as unknown. The port is a queue, so from how many datagrams a
Serve took it follows how many wakes were among them, and these are no unknown ones of others.

The system drops what comes to a full port and tells nobody. So reports are sent while fewer than 128 datagrams are there, which fit. The program
looks at the port after 64 queries at the latest: where it took none in 65 turns, or had a quiet turn, what was sent before is gone.
Where wakes fill the port of a program that stands still, which of them were dropped isn't known, and some are counted as unknown ones.
"""
import socket
from collections import deque

WAKE = b"-"
MOST_THERE = 128
LOOKS_AFTER = 65


class Mail:
    """What was sent to the port and not yet taken, oldest first, as runs [is_wake, number, number sent before]."""

    def __init__(self, port):
        self.sock = socket.socket(socket.AF_INET, socket.SOCK_DGRAM | socket.SOCK_CLOEXEC | socket.SOCK_NONBLOCK)
        self.sock.connect(("127.0.0.1", port))
        self.runs = deque()
        self.sent = self.there = self.mark = self.dry = self.dry_mark = 0

    def has_room(self):
        """Whether a report may be sent."""
        return self.there < MOST_THERE

    def send(self, datagram, is_wake=False):
        """Whether the datagram went out."""
        try:
            self.sock.send(datagram)
        except OSError:
            return False
        if self.runs and self.runs[-1][0] == is_wake:
            self.runs[-1][1] += 1
        else:
            self.runs.append([is_wake, 1])
        self.sent += 1
        self.there += 1
        return True

    def wake(self, number):
        """Sees to it that so many datagrams are there, so that as many turns don't wait."""
        while self.there < number and self.send(WAKE, True):
            pass

    def more(self, number):
        """Sends so many wakes, whatever is thought to be there."""
        for _ in range(number):
            if not self.send(WAKE, True):
                break

    def handed(self):
        """A Serve line is handed over: at a quiet turn of it all that was sent before is gone."""
        self.mark = self.sent
        if not self.dry:
            self.dry_mark = self.sent

    def take(self, number):
        """Forgets the oldest ones; answers how many wakes were among them."""
        wakes = 0
        while number and self.runs:
            run = self.runs[0]
            now = min(run[1], number)
            wakes += now if run[0] else 0
            run[1] -= now
            number -= now
            self.there -= now
            if not run[1]:
                self.runs.popleft()
        return wakes

    def took(self, number, turns, quiet):
        """A Serve of so many turns took so many datagrams from the port; answers how many of them were wakes."""
        wakes = self.take(number)
        self.dry = 0 if number else self.dry + turns
        if quiet:
            self.forget(self.mark)
        elif self.dry >= LOOKS_AFTER:
            self.forget(self.dry_mark)
        return wakes

    def forget(self, mark):
        """Those among the first `mark` that were sent are gone."""
        self.take(max(0, self.there - (self.sent - mark)))
        self.dry = 0

    def close(self):
        self.sock.close()
