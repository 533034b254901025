"""The log: one JSON object a line, for each control line with its client and reply, and for each event of the driver.

The service waits for nobody who reads it: where a pipe, a socket or a terminal takes no more, up to a mebibyte is kept for it. A file on a
full disk lacks lines; one of which a part was written is ended by a line feed once there is room.
"""
import json
import os
import select
import stat
import time
from datetime import datetime, timezone

from .loop import WRITE

STDOUT = 1
PIECE = 4096
MOST_LEFT = 1 << 20


def refuse(_):
    raise ValueError


def parse(line):
    """The JSON value of octets, or None where they are none (numbers such as NaN are none)."""
    try:
        return json.loads(line.decode("utf-8"), parse_constant=refuse, parse_int=float)
    except (ValueError, RecursionError):
        return None


def text_of(octets):
    return json.dumps(octets.decode("utf-8", "backslashreplace"))


def is_read(file):
    """Whether a descriptor is one that another process reads, and that may take no more for a while."""
    mode = os.fstat(file).st_mode
    return stat.S_ISFIFO(mode) or stat.S_ISSOCK(mode) or os.isatty(file)


class Log:
    """Writes to a file, or to standard output at `-`. A text of more than `most` bytes is cut; its length is told beside it.

    `lost` counts lines that weren't written; `left` has what a reader hasn't taken yet; `is_torn` says that the file ends within a line.
    """

    def __init__(self, path, most, loop=None):
        self.path, self.most, self.loop, self.lost = path, most, loop, 0
        self.left, self.is_torn = bytearray(), False
        self.file = STDOUT
        self.open()
        self.is_read = is_read(self.file)

    def open(self):
        """Opens the file, again where it was renamed. Raises OSError."""
        if self.path != "-":
            before = self.file
            self.file = os.open(self.path, os.O_WRONLY | os.O_APPEND | os.O_CREAT | os.O_CLOEXEC, 0o600)
            self.is_torn = False
            if before != STDOUT:
                os.close(before)

    def reopen(self):
        """Opens the file anew; where that fails the old one is written further."""
        try:
            self.open()
        except OSError:
            self.lost += 1

    def write(self, text):
        """Writes a line, or what there is room for."""
        data = text.encode("utf-8", "backslashreplace") + b"\n"
        if not self.is_read:
            self.append(data)
        elif len(self.left) + len(data) > MOST_LEFT:
            self.lost += 1
        else:
            self.left += data
            self.give()

    def append(self, data):
        """Writes a line to a file, on a line of its own."""
        head = b"\n" if self.is_torn else b""
        try:
            count = os.write(self.file, head + data)
        except OSError:
            count = 0
        if count:
            self.is_torn = len(head) < count < len(head) + len(data)
        self.lost += count < len(head) + len(data)

    def give(self, _=None):
        """Writes as much of `left` as the reader takes, and the rest when it takes more."""
        room = select.poll()
        room.register(self.file, select.POLLOUT)
        try:
            while self.left and room.poll(0):
                del self.left[:os.write(self.file, self.left[:PIECE])]
        except BlockingIOError:
            pass
        except OSError:
            self.lost += self.left.count(b"\n")
            self.left.clear()
        if self.loop is not None:
            self.loop.set(self.file, WRITE if self.left else 0, self.give)

    def end(self, seconds):
        """Gives the reader so many seconds to take what is left."""
        until = time.monotonic() + seconds
        while self.left and time.monotonic() < until:
            time.sleep(0.01)
            self.give()

    @staticmethod
    def now():
        return datetime.now(timezone.utc).strftime("%Y-%m-%dT%H:%M:%S.%fZ")

    def event(self, event, **more):
        self.write(json.dumps({"time": self.now(), "event": event, **more}, separators=(",", ":")))

    def part(self, name, octets, is_json):
        """A member with a line or a reply: as it came where it is JSON, else as a text."""
        if len(octets) > self.most:
            return '"%s":%s,"%s_bytes":%d' % (name, text_of(octets[:self.most]), name, len(octets))
        return '"%s":%s' % (name, octets.decode() if is_json else text_of(octets))

    def line(self, client, peer, line, is_json, reply, waited, took):
        """A control line: from the process `peer` through the connection `client`, after how many milliseconds of each."""
        self.write('{"time":"%s","client":%d,"pid":%d,"uid":%d,%s,%s,"waited_ms":%.3f,"took_ms":%.3f}' % (
            self.now(), client, *peer, self.part("line", line, is_json), self.part("reply", reply, True),
            1000 * waited, 1000 * took))
