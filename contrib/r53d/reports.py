"""What the checkers saw last, kept over restarts of the program in a small file.

The program forgets reports when it ends, and takes every endpoint for healthy when it begins. What it would show of a checker
follows from two things: its view, which for each failure threshold (1 to 10) is the last result that came so often in a row,
and the row of equal results at the end, of which ten count. Both are kept for each check and checker, and
replayed as `Observe` lines by the threshold that the check has.

The file has lines of two kinds. `OBS h1 0 1` is a report as it came; `VIEW h1 0 1110000000 0 5` stands for all before it: the
views at the thresholds 1 to 10, the last result, and how often in a row it came. A line that is neither is skipped, such as one that a crash cut.

A long file is written anew, a line for each view. Nothing is served while the driver writes, so that goes on piece by piece, beside the long
file and as reports come, and a thread waits for the disk.
"""
import os
import re
import threading
import time

from .journal import private

REPORT = re.compile(rb"OBS h([1-9][0-9]{0,9}) (0|[1-9]|[1-4][0-9]) ([01])\n?")
VIEW = re.compile(rb"VIEW h([1-9][0-9]{0,9}) (0|[1-9]|[1-4][0-9]) ([01]{10}) ([01]) ([0-9]{1,2})")
MOST = 10
ALL = (1 << MOST) - 1
FILE = "r53d.reports"
SLACK = 20000
PIECE = 100
TRY_AGAIN = 1.0
BITS = ["".join("01"[shown >> n & 1] for n in range(MOST)) for shown in range(ALL + 1)]


class View:
    """What is kept of one checker of one endpoint. Bit n - 1 of `shown` is its view at the threshold n, 1 for a pass."""

    __slots__ = ("shown", "last", "row")

    def __init__(self, shown=ALL, last=True, row=0):
        self.shown, self.last, self.row = shown, last, row

    def take(self, passed):
        self.row = min(self.row + 1, MOST) if passed == self.last else 1
        self.last = passed
        reached = (1 << self.row) - 1
        self.shown = self.shown | reached if passed else self.shown & ~reached

    def results(self, threshold):
        """The fewest results after which a new checker shows the same at this threshold."""
        shown = bool(self.shown >> (threshold - 1) & 1)
        out = [] if shown else [False] * threshold
        return out if self.last == shown else out + [self.last] * self.row

    def text(self, check, checker):
        return "VIEW h%d %d %s %d %d\n" % (check, checker, BITS[self.shown], self.last, self.row)


class Views:
    """The views of all checkers, by check and checker."""

    def __init__(self):
        self.of = {}

    def take(self, check, checker, passed):
        view = self.of.get((check, checker))
        if view is None:
            view = self.of[check, checker] = View()
        view.take(passed)

    def read(self, lines):
        """Takes the lines of a file; answers how many it took."""
        count = 0
        for line in lines:
            line = line.rstrip(b"\n")
            if got := REPORT.fullmatch(line):
                self.take(int(got[1]), int(got[2]), got[3] == b"1")
            elif got := VIEW.fullmatch(line):
                shown = sum(1 << n for n, bit in enumerate(got[3]) if bit == 0x31)
                self.of[int(got[1]), int(got[2])] = View(shown, got[4] == b"1", min(int(got[5]), MOST))
            else:
                continue
            count += 1
        return count

    def forget(self, check):
        for key in [key for key in self.of if key[0] == check]:
            del self.of[key]

    def keep_only(self, checks):
        """Forgets the checks that aren't among these."""
        for key in [key for key in self.of if key[0] not in checks]:
            del self.of[key]

    def replay(self, thresholds):
        """The `Observe` lines, as objects, that bring back the views of checks with these thresholds by number."""
        for (check, checker), view in sorted(self.of.items()):
            threshold = thresholds.get(check)
            for passed in view.results(threshold) if threshold else ():
                yield {"Observe": {"HealthCheckId": "h%d" % check, "Checker": checker, "Pass": passed}}

    def text(self):
        return "".join(view.text(*key) for key, view in sorted(self.of.items())).encode()


def read_report(datagram):
    """(check, checker, passed) of a report's datagram, or None."""
    got = REPORT.fullmatch(datagram)
    return (int(got[1]), int(got[2]), got[3] == b"1") if got else None


def load(folder):
    """The views that a folder's file tells, and the number of its lines that were taken."""
    views = Views()
    try:
        with open(os.path.join(folder, FILE), "rb") as file:
            return views, views.read(file)
    except FileNotFoundError:
        return views, 0


class Successor:
    """A file that is to take the place of the long one: what is in `left` it lacks yet, and of all else it has each report that came."""

    def __init__(self, path, views):
        self.path, self.views, self.left, self.new = path, views, dict.fromkeys(views.of), bytearray()
        self.file = os.open(path, os.O_WRONLY | os.O_APPEND | os.O_CREAT | os.O_TRUNC, 0o600)
        self.syncing, self.is_synced, self.fault = None, False, None

    def take(self, check, checker, line):
        """Takes a report that is in the views already."""
        if (check, checker) not in self.left:
            self.new += line

    def go_on(self):
        """Writes what came, and a piece of what is left; whether all is on the disk. Raises OSError."""
        for _ in range(min(PIECE, len(self.left))):
            key, _ = self.left.popitem()
            if key in self.views.of:
                self.new += self.views.of[key].text(*key).encode()
        write_whole(self.file, self.new)
        self.new.clear()
        if not self.left and self.syncing is None:
            self.syncing = threading.Thread(target=self.sync, daemon=True)
            self.syncing.start()
        if self.fault is not None:
            raise self.fault
        return self.is_synced

    def sync(self):
        try:
            os.fsync(self.file)
            self.is_synced = True
        except OSError as fault:
            self.fault = fault

    def drop(self):
        if self.syncing is not None:
            self.syncing.join()
        os.close(self.file)
        unlink(self.path)


class ReportFile:
    """The views with their file: each report is appended as it comes, and the file is written anew where it is long.

    `successor` is the file that takes its place then, as long as it isn't whole.
    """

    def __init__(self, folder):
        self.path = os.path.join(folder, FILE)
        self.views, self.lines = load(folder)
        self.file, self.successor, self.again_at = None, None, 0.0
        self.new = bytearray()
        self.lost = 0

    def take(self, check, checker, passed):
        self.views.take(check, checker, passed)
        line = b"OBS h%d %d %d\n" % (check, checker, passed)
        self.new += line
        self.lines += 1
        if self.successor is not None:
            self.successor.take(check, checker, line)

    def flush(self):
        """Writes the reports that came since the last call.

        Where the disk refuses, they are counted in `lost` and kept in memory, and the whole file is tried again after a second.
        """
        if not self.new:
            return
        try:
            if self.file is None:
                if time.monotonic() < self.again_at:
                    raise BlockingIOError
                self.rewrite()
            else:
                write_whole(self.file, self.new)
                self.succeed()
        except OSError as fault:
            self.lost += self.new.count(b"\n")
            if not isinstance(fault, BlockingIOError):
                self.again_at = time.monotonic() + TRY_AGAIN
            self.close()
        self.new.clear()

    def tidy(self):
        """Writes the file anew before anything is served; where the disk refuses, the next report tries that again."""
        if self.views.of:
            try:
                self.rewrite()
            except OSError:
                pass

    def succeed(self):
        """Goes on with the file that takes this one's place, where this one is long. Raises OSError."""
        if self.successor is None:
            if self.lines <= SLACK + 4 * len(self.views.of):
                return
            self.successor = Successor(self.path + ".new", self.views)
        if self.successor.go_on():
            os.replace(self.successor.path, self.path)
            os.close(self.file)
            self.file, self.successor, self.lines = self.successor.file, None, len(self.views.of)

    def rewrite(self):
        """Writes one line a view in the file's place, all at once. Raises OSError."""
        self.close()
        temporary = self.path + ".new"
        text = self.views.text()
        try:
            with open(temporary, "wb", opener=private) as file:
                file.write(text)
                file.flush()
                os.fsync(file.fileno())
            os.replace(temporary, self.path)
        except OSError:
            unlink(temporary)
            raise
        self.file = os.open(self.path, os.O_WRONLY | os.O_APPEND)
        self.lines = len(self.views.of)

    def close(self):
        if self.file is not None:
            os.close(self.file)
            self.file = None
        if self.successor is not None:
            self.successor.drop()
            self.successor = None


def write_whole(file, octets):
    """Writes octets to a file. Raises OSError where a part is written too."""
    if os.write(file, octets) < len(octets):
        raise OSError


def unlink(path):
    """Removes a file, where it is there."""
    try:
        os.unlink(path)
    except OSError:
        pass
