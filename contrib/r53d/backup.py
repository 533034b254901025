"""`r53ctl backup`: a copy of a store, in use or not, that the program opens."""
import os

from . import journal, program, reports
from .control import Fault

FILES = [journal.path_of("", side) for side in journal.SIDES] + ["r53.tables", reports.FILE]


def copy(place, directory):
    """Makes the copy, and sees that the program opens it. Raises StoreFault, Refused or OSError."""
    journal.copy_store(place.folder, directory, is_synced=True)
    journal.copy_file(os.path.join(place.folder, reports.FILE), os.path.join(directory, reports.FILE), is_synced=True)
    folder = os.open(directory, os.O_RDONLY | os.O_DIRECTORY)
    try:
        os.fsync(folder)
    finally:
        os.close(folder)
    program.opens(place.program, directory)


def run(given, place):
    if not os.path.isdir(given.directory):
        raise Fault("%s: no folder is there" % given.directory)
    there = [name for name in FILES if os.path.lexists(os.path.join(given.directory, name))]
    if there:
        raise Fault("%s: %s is there already" % (given.directory, there[0]))
    try:
        copy(place, given.directory)
    except BaseException:
        for name in FILES:
            reports.unlink(os.path.join(given.directory, name))
        raise
    made = journal.Watch(given.directory).look()
    print("%s: file %s, generation %d, %d bytes" % (given.directory, made.header.side, made.header.generation, made.length))
    return 0
