"""The two files of a store, read from outside (docs/JOURNAL.md): which one decides, its entries, and a copy of files in use.

**A copy while the program writes.** Each file is copied from its first byte to its last. An entry's bytes are written before
its gate is opened, so a gate that was copied open has its whole entry behind it, and one that was copied closed ends the
copy's entries: the copy of a file holds all that was acknowledged before the copy began. A compaction may end between the
two copies: then both open, and the later generation decides, as in the store itself. Only where a file is taken for a
new compaction while it is copied could a copy mix two of its contents; that changes its header, so the headers are read before
and after, and where they differ the copy is made again.
"""
import os
import time
from typing import NamedTuple

HEADER, NEW = 20, 34
MAGIC = b"R53ZJ01"
SIDES = ("a", "b")
CHUNK = 1 << 20
ATTEMPTS = 50


class StoreFault(Exception):
    """No store is there, or none could be read; its text says where."""


class Header(NamedTuple):
    """The head of an open file: its side, generation, and the length of its snapshot in bytes."""
    side: str
    generation: int
    snapshot: int


def path_of(folder, side):
    return os.path.join(folder, "r53-%s.journal" % side)


def header_octets(folder, side):
    """The first 20 bytes of a file, or what there is of them; none where the file is missing."""
    try:
        with open(path_of(folder, side), "rb", buffering=0) as file:
            return file.read(HEADER)
    except FileNotFoundError:
        return b""


def read_header(side, octets):
    """The header that 20 bytes are, or None where the file isn't open."""
    if len(octets) < HEADER or octets[0] != 1 or octets[1:8] != MAGIC:
        return None
    return Header(side, int.from_bytes(octets[8:16], "big"), int.from_bytes(octets[16:20], "big"))


def deciding(folder):
    """The header of the file that decides. Raises StoreFault where no file is open."""
    found = [h for h in (read_header(s, header_octets(folder, s)) for s in SIDES) if h]
    if not found:
        raise StoreFault("%s: no store is there" % folder)
    return max(found, key=lambda h: (h.generation, h.side == "a"))


def may_be_made(folder):
    """Whether no store is there, nor what could be one: no file, or what a making leaves that was stopped, which is no open file
    and no longer than a new store."""
    sizes = [os.path.getsize(path_of(folder, s)) if os.path.exists(path_of(folder, s)) else 0 for s in SIDES]
    return sizes[0] <= NEW and sizes[1] == 0 and read_header("a", header_octets(folder, "a")) is None


# ---- entries

def gates(file, at):
    """The place and length of each entry of an open file from a gate on, up to the closed one; then (place, None)."""
    buffer, start = b"", at
    while True:
        if at + 5 > start + len(buffer):
            start, buffer = at, os.pread(file, CHUNK, at)
        head = buffer[at - start:at - start + 5]
        if not head or head[0] != 1:
            yield at, None
            return
        length = int.from_bytes(head[1:5], "big")
        yield at, length
        at += 5 + length


class Opened:
    """The file that decides: its snapshot, and its entries one by one."""

    def __init__(self, folder):
        self.header = deciding(folder)
        self.file = os.open(path_of(folder, self.header.side), os.O_RDONLY)

    def __enter__(self):
        return self

    def __exit__(self, *_):
        os.close(self.file)

    def snapshot(self):
        return os.pread(self.file, self.header.snapshot, HEADER)

    def entries(self):
        """(place of the gate, octets) of each entry in order. Raises StoreFault where the file ends before a closed gate."""
        size = os.fstat(self.file).st_size
        for at, length in gates(self.file, HEADER + self.header.snapshot):
            if at + (1 if length is None else 5 + length) > size:
                raise StoreFault("file %s ends within the entry at byte %d" % (self.header.side, at))
            if length is not None:
                yield at, os.pread(self.file, length, at + 5)


# ---- a copy

def private(path, flags):
    """Opens a file that its owner alone may read."""
    return os.open(path, flags, 0o600)


def copy_file(from_path, to_path, is_synced=False):
    """Copies a file from its first byte on, for the eyes of its owner alone; a missing one is left out."""
    try:
        source = open(from_path, "rb", buffering=0)
    except FileNotFoundError:
        return
    with source, open(to_path, "wb", opener=private) as target:
        while chunk := source.read(CHUNK):
            target.write(chunk)
        if is_synced:
            target.flush()
            os.fsync(target.fileno())


def copy_store(folder, to, is_synced=False):
    """Copies the two files of a store, in use or not, and the tables, into the folder `to`. Raises StoreFault."""
    deciding(folder)
    for _ in range(ATTEMPTS):
        before = [header_octets(folder, s) for s in SIDES]
        for side in SIDES:
            copy_file(path_of(folder, side), path_of(to, side), is_synced)
        if before == [header_octets(folder, s) for s in SIDES]:
            copy_file(os.path.join(folder, "r53.tables"), os.path.join(to, "r53.tables"), is_synced)
            return
    raise StoreFault("%s: compactions kept changing the files" % folder)


# ---- its length, as it grows

class Watch:
    """The length of the file that decides, followed from gate to gate. `length` is in bytes, the closed gate counted.

    `is_whole` says that the last look came to the closed gate; else the file is longer than that.
    """

    def __init__(self, folder):
        self.folder = folder
        self.header = None
        self.length, self.is_whole = 0, False

    def look(self, seconds=None):
        """Follows the gates that were opened since the last look, for so many seconds at most, and one at least."""
        header = deciding(self.folder)
        if header != self.header:
            self.header, self.length = header, HEADER + header.snapshot + 1
        end = None if seconds is None else time.monotonic() + seconds
        file = os.open(path_of(self.folder, header.side), os.O_RDONLY)
        try:
            for at, length in gates(file, self.length - 1):
                is_new, self.length, self.is_whole = at >= self.length, at + 1, length is None
                if is_new and end is not None and time.monotonic() >= end:
                    break
        finally:
            os.close(file)
        return self

    def is_due(self, factor, least):
        """Whether a compaction is due: the file has `least` bytes, and is `factor` times as long as its snapshot."""
        if self.header is None:
            return False
        return self.length >= least and self.length >= factor * (HEADER + self.header.snapshot)
