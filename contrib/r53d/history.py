"""`r53ctl log`: the journal as control lines, and the line that undoes one of them.

Entries are counted from 1 in the file that decides; a compaction begins anew. They are read of a copy, since two compactions would take the
file for another content while it is read.
"""
import json
import sys
from collections import deque

from . import commands, journal, program
from .control import Fault
from .undo import State


def entries(opened):
    """(number, place, bytes with the gate and length, control line) of each entry. Raises StoreFault."""
    for number, (at, octets) in enumerate(opened.entries(), 1):
        try:
            yield number, at, 5 + len(octets), commands.read_command(octets)
        except commands.OctetFault as fault:
            raise journal.StoreFault("entry %d at byte %d: %s" % (number, at, fault)) from None


def compact(line):
    return json.dumps(line, separators=(",", ":"))


def made(line, counts):
    """The id of what a line made, or None; `counts` has how many were made before, by letter."""
    letter = {"CreateHostedZone": "Z", "CreateHealthCheck": "h", "CreateCidrCollection": "c"}.get(next(iter(line)))
    if letter is None:
        return None
    counts[letter] += 1
    return "%s%d" % (letter, counts[letter])


def write(opened, given):
    header = opened.header
    counts = commands.read_counts(opened.snapshot())
    if not given.lines:
        print("# file %s, generation %d, snapshot of %d bytes" % (header.side, header.generation, header.snapshot))
    kept = deque(maxlen=max(0, given.last or 0))
    for number, at, size, line in entries(opened):
        ident = made(line, counts)
        text = compact(line)
        if not given.lines:
            text = "%d %s %d %d %d %s%s" % (number, header.side, header.generation, at, size, text,
                                            " # " + ident if ident else "")
        if given.last is None:
            print(text)
        else:
            kept.append(text)
    for text in kept:
        print(text)
    return 0


def undo(opened, wanted):
    """Writes the line that undoes an entry. Raises Fault where there is no such entry."""
    state = State(opened.snapshot())
    out, later, touched = None, 0, set()
    for number, at, _, line in entries(opened):
        try:
            if number == wanted:
                out, touched = state.opposite(line), state.touched(line)
            elif number > wanted:
                later += bool(touched & state.touched(line))
            state.make(line)
        except KeyError:
            raise journal.StoreFault("entry %d at byte %d changes what isn't there" % (number, at)) from None
    if out is None:
        raise Fault("no entry %d is in the journal" % wanted)
    line, note = out
    if later:
        note = (note + "; " if note else "") + "%d later %s the same" % (later, "entry changes" if later == 1 else "entries change")
    if note:
        print("r53ctl: entry %d: %s" % (wanted, note), file=sys.stderr)
    if line is not None:
        print(compact(line))
    return 0


def run(given, place):
    with program.Copy(place.folder) as folder, journal.Opened(folder) as opened:
        try:
            return write(opened, given) if given.undo is None else undo(opened, given.undo)
        except commands.OctetFault as fault:
            raise journal.StoreFault("the snapshot: %s" % fault) from None
