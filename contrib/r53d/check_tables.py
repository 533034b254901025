"""`r53ctl check-tables`: the program itself reads a file of tables, over a new store in a temporary folder."""
import os
import re
import shutil
import sys
import tempfile

from . import program
from .control import Fault

BAD = re.compile(r"r53: bad tables: line ([0-9]+)")


def rows(path):
    """How many rows of each kind a file has, by their first word."""
    counts = {"geo": 0, "lat": 0}
    with open(path, "rb") as file:
        for line in file:
            word = line.split(b" ", 1)[0].decode("latin-1")
            if word in counts:
                counts[word] += 1
    return counts


def line_at(path, number):
    with open(path, "rb") as file:
        for n, line in enumerate(file, 1):
            if n == number:
                return line.rstrip(b"\n").decode("utf-8", "backslashreplace")[:200]
    return ""


def run(given, place):
    if not os.path.isfile(given.file):
        raise Fault("%s: no file is there" % given.file)
    with tempfile.TemporaryDirectory(prefix="r53ctl-") as folder:
        shutil.copyfile(given.file, os.path.join(folder, "r53.tables"))
        program.words(place.program, folder, "init")
        try:
            program.words(place.program, folder, "run")
        except program.Refused as fault:
            bad = BAD.search(str(fault))
            if not bad:
                raise
            print("%s: bad tables: line %s: %s" % (given.file, bad[1], line_at(given.file, int(bad[1]))), file=sys.stderr)
            return 1
    counts = rows(given.file)
    print("%s: %d rows of places, %d of latencies" % (given.file, counts["geo"], counts["lat"]))
    return 0
