"""The man pages and completions, made from the parsers, so that each word has one text.

`make-pages` writes them into contrib/man and contrib/completion; a test says where they are older than the parsers.
"""
import argparse
import os

from . import parsers, settings

DATE = "2026-11-29"

R53D_TEXT = """The program \\fBr53\\fR takes a line or serves so many turns, one after the other. r53d runs it in the folder of its store, gives it
turns all the time, and in between the lines of its clients: each connection to the control socket gets a reply line for each of its
lines, in order. Lines and replies are those of r53 run (docs/FORMATS.md).
.PP
The aim is that serving holds a line up for 5 ms at most under load; where it is quiet a datagram ends the wait, which else is 100 ms. How long
lines waited the metrics tell. Lines that came before from other clients are taken first.
.PP
Reports come to a port of r53d, which keeps the last ones of each checker in \\fIr53d.reports\\fR, passes all on to the program, and replays
them before the program binds its ports. A journal is compacted by a rule. Where the program ends by a fault it is started again, after 0.1 seconds
and then twice as long each time up to 30; never where it refused the store or the tables. The line that was in its hand is answered
{"Error":"NoReply"}: it may have been done, or not.
.PP
Lines to r53d itself begin with an exclamation mark, and are answered whatever the program does: \\fB!status\\fR tells its state,
\\fB!compact\\fR begins a compaction. A Serve line is answered {"Error":"NotForClients"}."""

R53D_SIGNALS = (("SIGTERM, SIGINT", "a clean stop: the line in hand is answered, and others aren't taken"),
                ("SIGHUP", "the log file is opened anew"))

R53CTL_TEXT = """Commands that ask of a store run the program on a copy of its two files, so a store that is served stays as it is. The copy
is taken file by file from the first byte to the last, and again where a compaction begins meanwhile, so it holds all that was acknowledged before."""


def escape(text):
    """A text as roff has it."""
    text = text.replace("\\", "\\e").replace("-", "\\-")
    return "\\&" + text if text[:1] in (".", "'") else text


def option_head(action):
    """The words of an option or an argument, in bold, with its value in italics."""
    value = "" if action.nargs == 0 else " \\fI%s\\fR" % escape(action.metavar or "|".join(action.choices))
    if action.nargs == "?":
        value = " [%s]" % value.strip()
    if not action.option_strings:
        return value.strip()
    return ", ".join("\\fB%s\\fR" % escape(word) for word in action.option_strings) + value


def options(parser):
    """The roff lines of a parser's words."""
    out = []
    for action in parser._actions:
        if not isinstance(action, argparse._SubParsersAction):
            out += [".TP", option_head(action), escape(action.help)]
    return out


def head(name, section, text):
    return ['.TH %s %d "%s" "r53" "r53"' % (name.upper(), section, DATE), ".SH NAME", "%s \\- %s" % (name, escape(text))]


def table(title, rows):
    out = [".SH " + title]
    for left, right in rows:
        out += [".TP", ".B " + escape(left), escape(right)]
    return out


def subcommands(parser):
    """The commands of a parser: name, parser and text."""
    action = next(a for a in parser._actions if isinstance(a, argparse._SubParsersAction))
    texts = {choice.dest: choice.help for choice in action._choices_actions}
    return [(name, sub, texts[name]) for name, sub in action.choices.items()]


def r53d_page():
    parser = parsers.r53d()
    lines = head("r53d", 8, "a service around the name server r53")
    lines += [".SH SYNOPSIS", ".B r53d", "[\\fIOPTION\\fR]...", ".SH DESCRIPTION", R53D_TEXT, ".SH OPTIONS"] + options(parser)
    lines += [".SH SETTINGS", "A TOML file has the options that have a value, but \\fB\\-\\-config\\fR, under their names with _ in place of \\-:",
              ", ".join(escape(key) for key in settings.KEYS) + ".", "An option counts more than the file. A relative folder in the file is",
              "meant from the file's own folder."]
    lines += table("SIGNALS", R53D_SIGNALS) + table("EXIT STATUS", parsers.STATUSES_R53D)
    lines += table("FILES", (("r53-a.journal, r53-b.journal, r53.tables", "the store and the tables, in the folder"),
                             ("r53d.lock", "the lock of one writer"), ("r53d.reports", "the last reports"),
                             (settings.PLACE, "the settings, where no other file is named")))
    return "\n".join(lines + [".SH SEE ALSO", "\\fBr53ctl\\fR(1)"]) + "\n"


def r53ctl_page():
    lines = head("r53ctl", 1, "lines to r53d, and questions to a store")
    lines += [".SH SYNOPSIS", ".B r53ctl", "\\fICOMMAND\\fR [\\fIOPTION\\fR]...", ".SH DESCRIPTION", R53CTL_TEXT]
    for name, sub, text in subcommands(parsers.r53ctl()):
        lines += [".SH " + escape(name.upper()), escape(text[0].upper() + text[1:] + ".")] + options(sub)
    lines += table("EXIT STATUS", parsers.STATUSES_R53CTL)
    lines += table("ENVIRONMENT", (("R53", "path of the program, where no word and no setting names it"), ("NO_COLOR", "no colours in diff")))
    return "\n".join(lines + [".SH SEE ALSO", "\\fBr53d\\fR(8)"]) + "\n"


# ---- completions

def long_words(parser):
    """The options of a parser."""
    return [word for action in parser._actions for word in action.option_strings]


def takes_files(parser):
    """The options whose value is a file or a folder."""
    return [word for action in parser._actions for word in action.option_strings if action.metavar in ("FILE", "DIR")]


def bash_page():
    out = ["# Completion of r53d and r53ctl for bash, made from their parsers.", "_r53d() {",
           '    local word="${COMP_WORDS[COMP_CWORD]}" before="${COMP_WORDS[COMP_CWORD-1]}"', '    case "$before" in',
           "        %s) mapfile -t COMPREPLY < <(compgen -f -- \"$word\"); return ;;" % "|".join(takes_files(parsers.r53d())), "    esac",
           "    mapfile -t COMPREPLY < <(compgen -W \"%s\" -- \"$word\")" % " ".join(long_words(parsers.r53d())), "}", "complete -o filenames -F _r53d r53d", "",
           "_r53ctl() {", '    local word="${COMP_WORDS[COMP_CWORD]}"', "    if [ \"$COMP_CWORD\" -eq 1 ]; then"]
    found = subcommands(parsers.r53ctl())
    out += ["        mapfile -t COMPREPLY < <(compgen -W \"%s\" -- \"$word\")" % " ".join(name for name, _, _ in found), "        return", "    fi",
            '    case "$word" in', "        -*) ;;", "        *) mapfile -t COMPREPLY < <(compgen -f -- \"$word\"); return ;;", "    esac",
            '    case "${COMP_WORDS[1]}" in']
    for name, sub, _ in found:
        out.append("        %s) mapfile -t COMPREPLY < <(compgen -W \"%s\" -- \"$word\") ;;" % (name, " ".join(long_words(sub))))
    return "\n".join(out + ["    esac", "}", "complete -o filenames -F _r53ctl r53ctl"]) + "\n"


def quote(text):
    return text.replace("'", "'\\''").replace("[", "\\[").replace("]", "\\]").replace(":", "\\:")


def zsh_words(parser):
    """The specifications of a parser's words for _arguments."""
    out = []
    for action in parser._actions:
        kind = "_files" if action.metavar in ("FILE", "DIR") else "(%s)" % " ".join(action.choices) if action.choices else ""
        if isinstance(action, argparse._SubParsersAction):
            continue
        label = action.metavar or action.dest
        for word in action.option_strings:
            value = "" if action.nargs == 0 else "%s:%s:%s" % (":" if action.nargs == "?" else "", label, kind)
            out.append("'%s[%s]%s'" % (word, quote(action.help), value))
        if not action.option_strings:
            out.append("'%s:%s:%s'" % (":" if action.nargs == "?" else "", label, kind))
    return out


def zsh_page():
    def arguments(parser):
        return " \\\n        ".join(["_arguments -s"] + zsh_words(parser))
    out = ["#compdef r53d r53ctl", "# Completion of r53d and r53ctl for zsh, made from their parsers.", "_r53d() {",
           "    " + arguments(parsers.r53d()), "}", "", "_r53ctl() {", "    local -a commands", "    commands=("]
    found = subcommands(parsers.r53ctl())
    out += ["        '%s:%s'" % (name, text.replace("'", "'\\''")) for name, _, text in found]
    out += ["    )", "    if (( CURRENT == 2 )); then", "        _describe command commands", "        return", "    fi",
            "    local command=$words[2]", "    shift words", "    (( CURRENT-- ))", "    case $command in"]
    for name, sub, _ in found:
        out += ["    %s)" % name, "        " + arguments(sub), "        ;;"]
    return "\n".join(out + ["    esac", "}", "", 'if [[ $service == r53ctl ]]; then _r53ctl "$@"; else _r53d "$@"; fi']) + "\n"


def pages():
    """The texts by their places under contrib/."""
    return {"man/r53d.8": r53d_page(), "man/r53ctl.1": r53ctl_page(), "completion/r53.bash": bash_page(),
            "completion/_r53": zsh_page()}


def write(contrib):
    """Writes all of them."""
    for place, text in pages().items():
        path = os.path.join(contrib, place)
        os.makedirs(os.path.dirname(path), exist_ok=True)
        with open(path, "w", encoding="utf-8") as file:
            file.write(text)
