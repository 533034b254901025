"""The words of r53d and r53ctl: one parser each, from which the help, the man pages and the completions are made."""
import argparse

from . import settings

STATUSES_R53D = (
    ("0", "a clean stop"),
    ("1", "other words, or bad settings"),
    ("2", "the program refused the store or the tables, another process has the lock, or a folder or the program is missing"),
    ("3, 4, 5, 7, 8", "the program ended with this status before it had served"),
    ("6", "a port or a file couldn't be opened, by the program or by r53d"),
    ("128 + n", "the program was ended by the signal n while r53d stopped"))

STATUSES_R53CTL = (
    ("0", "what was asked was done, and every line answered Ok"),
    ("1", "a line or the tables were refused, or (ask) the explanation differs from the answer"),
    ("2", "other words, or something is missing or can't be read; one line says what"),
    ("3", "(send) the service ended the connection while lines had no reply; (diff --exit-code) something changes"))


class Parser(argparse.ArgumentParser):
    """A parser that tells a fault in one line, and ends with its own status."""

    fault_status = 2

    def error(self, message):
        self.exit(self.fault_status, "%s: %s\n" % (self.prog, message))


def r53d():
    """The parser of r53d: a word for each setting, beside the file."""
    parser = Parser(prog="r53d", allow_abbrev=False,
                    description="Serves a store of r53: runs the program, and hands it the lines of a control socket between its turns.")
    parser.fault_status = 1
    parser.add_argument("--config", metavar="FILE", help="TOML file with the settings; else %s, where it is there" % settings.PLACE)
    parser.add_argument("--init", action="store_true", help="make an empty store where the folder has none")
    for key, (kind, default, text) in settings.KEYS.items():
        shown = "" if default is None else " (%s)" % (int(default) if kind is float else default)
        parser.add_argument("--" + key.replace("_", "-"), metavar=metavar(key, kind), type=kind, help=text + shown)
    return parser


def metavar(key, kind):
    """The word that stands for a setting's value; it tells completions what it is."""
    if kind is not str:
        return "N"
    return {"folder": "DIR", "report_address": "ADDRESS", "tcp_address": "ADDRESS"}.get(key, "FILE")


def where(parser):
    """The words that say which store or service is meant."""
    parser.add_argument("--config", metavar="FILE", help="settings of r53d, for its folder, socket and program")
    parser.add_argument("--folder", metavar="DIR", help="folder of the store (that of the settings, else the current one)")
    parser.add_argument("--socket", metavar="FILE", help="control socket (that of the settings, else r53d.socket in the folder)")
    parser.add_argument("--program", metavar="FILE", help="the program r53")


def r53ctl():
    """The parser of r53ctl: a command for each thing that is asked."""
    parser = Parser(prog="r53ctl", allow_abbrev=False, description="Gives lines to r53d, and asks what a store would answer.")
    commands = parser.add_subparsers(dest="command", metavar="COMMAND", required=True, parser_class=Parser)

    def command(name, text):
        sub = commands.add_parser(name, help=text, description=text[0].upper() + text[1:] + ".", allow_abbrev=False)
        where(sub)
        return sub

    sub = command("send", "hand control lines to the service, and write their replies")
    sub.add_argument("file", metavar="FILE", nargs="?", default="-", help="file with a line each; standard input at -")
    sub.add_argument("--quiet", action="store_true", help="write replies that aren't Ok alone")

    sub = command("ask", "say what a client would be answered, and why, by the program on a copy of the store")
    sub.add_argument("name", metavar="NAME", help="the name that is asked for")
    sub.add_argument("type", metavar="TYPE", help="its type, such as A, or a number")
    sub.add_argument("--from", dest="address", metavar="ADDRESS", default="127.0.0.1", help="address of the client (127.0.0.1)")
    sub.add_argument("--subnet", metavar="PREFIX", help="client subnet that the query tells")
    choice = sub.add_mutually_exclusive_group()
    choice.add_argument("--words", metavar="N,..", help="up to eight random words, of which the first choices are made (zeros)")
    choice.add_argument("--sweep", action="store_true", help="say the share of each answer over all words")
    sub.add_argument("--json", action="store_true", help="write one JSON object")

    sub = command("diff", "say what lines would change, by the program on a copy of the store, or why they are refused")
    sub.add_argument("file", metavar="FILE", help="control lines; standard input at -")
    sub.add_argument("--zone", metavar="ID", help="FILE is one change batch in JSON, for this zone")
    sub.add_argument("--format", choices=("text", "markdown"), default="text", help="form of what is written (text)")
    sub.add_argument("--colour", choices=("auto", "always", "never"), default="auto", help="colours in text (auto)")
    sub.add_argument("--exit-code", action="store_true", help="end with 3 where something changes")

    sub = command("log", "write the journal as control lines, with the number, side, generation, place and bytes of each entry")
    sub.add_argument("--undo", metavar="N", type=int, help="write the line that undoes entry N")
    sub.add_argument("--lines", action="store_true", help="write the control lines alone")
    sub.add_argument("--last", metavar="N", type=int, help="write the last N entries")

    sub = command("status", "show checks, groups, trees of aliases and counts")
    sub.add_argument("--name", metavar="NAME", help="show groups at this name or below it")
    sub.add_argument("--watch", metavar="SECONDS", nargs="?", const=2.0, type=float, help="show it again and again, every 2 seconds")
    sub.add_argument("--json", action="store_true", help="write one JSON object")

    sub = command("backup", "copy the store, in use or not, the tables and the last reports into a folder, and see that the program opens it")
    sub.add_argument("directory", metavar="DIR", help="a folder without a store")

    sub = command("check-tables", "say whether the program takes a file of tables, and its first bad line")
    sub.add_argument("file", metavar="FILE", help="the tables")
    return parser
