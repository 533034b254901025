"""r53ctl from its words: finds the store and the service, and calls the command."""
import json
import os
import sys
from importlib import import_module

from . import journal, parsers, program, settings

COMMANDS = {"send": "send", "ask": "ask", "diff": "differences", "log": "history", "status": "state", "backup": "backup",
            "check-tables": "check_tables"}


class Fault(Exception):
    """What ends a tool with status 2; its text is the one line that says why."""


class Place:
    """Where the store, the service and the program are."""

    def __init__(self, given):
        chosen = settings.load(given.config, {"folder": given.folder, "socket": given.socket, "program": given.program})
        self.folder, self.socket, self.given_program = chosen.folder, chosen.socket, chosen.program

    @property
    def program(self):
        """The program's path. Raises Fault where there is none."""
        path = program.find(self.given_program)
        if path is None:
            raise Fault("no program r53 is there; name it by --program, or by the environment's R53")
        return path


def read_lines(path):
    """(number, octets) of each line of a file that isn't blank, standard input at `-`. Raises Fault."""
    try:
        if path == "-":
            data = sys.stdin.buffer.read()
        else:
            with open(path, "rb") as file:
                data = file.read()
    except OSError as fault:
        raise Fault("%s: %s" % (path, fault.strerror.lower())) from None
    return [(n, line) for n, line in enumerate(data.split(b"\n"), 1) if not is_blank(line)]


def is_blank(line):
    """Whether a line has no reply."""
    return not line.strip(b" \t\r")


def check_json(path, number, line):
    """Sees that a line is JSON, or a word to r53d. Raises Fault."""
    if line[:1] == b"!":
        return
    try:
        json.loads(line.decode("utf-8"))
    except (ValueError, RecursionError) as fault:
        raise Fault("%s: line %d: bad JSON: %s" % (path, number, str(fault).lower())) from None


def main(words):
    """Runs a command; answers its exit status."""
    given = parsers.r53ctl().parse_args(words)
    try:
        return import_module("r53d." + COMMANDS[given.command]).run(given, Place(given))
    except BrokenPipeError:
        os._exit(141)
    except (Fault, settings.BadSettings, journal.StoreFault, program.Refused) as fault:
        text = str(fault)
    except OSError as fault:
        text = "%s%s" % ("%s: " % fault.filename if fault.filename else "", (fault.strerror or str(fault)).lower())
    except KeyboardInterrupt:
        return 130
    print("r53ctl: %s" % text, file=sys.stderr)
    return 2
