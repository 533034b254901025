"""`r53ctl diff`: lines over a copy of a store, by the program; what they change is the difference of two dumps."""
import json
import os
import sys

from . import names, program
from .control import Fault, check_json, read_lines
from .hand import kind_of
from .logs import parse
from .texts import check_text, collection_text, set_text

RED, GREEN, BOLD, PLAIN = "\033[31m", "\033[32m", "\033[1m", "\033[0m"


def lines_of(given):
    """(number, octets) of the lines that are tried. Raises Fault."""
    lines = read_lines(given.file)
    if given.zone is None:
        for number, line in lines:
            check_json(given.file, number, line)
            if kind_of(parse(line))[0] in ("Bind", "Serve"):
                raise Fault("%s: line %d: a copy of a store isn't served" % (given.file, number))
        return lines
    text = b"\n".join(line for _, line in lines)
    try:
        batch = json.loads(text.decode("utf-8"))
    except ValueError as fault:
        raise Fault("%s: bad JSON: %s" % (given.file, str(fault).lower())) from None
    if isinstance(batch, dict) and "ChangeBatch" in batch:
        batch = batch["ChangeBatch"]
    return [(1, program.compact({"ChangeResourceRecordSets": {"HostedZoneId": given.zone, "ChangeBatch": batch}}))]


# ---- a dump by key

def lines_by_place(dump):
    """The lines of a dump, each with the zone in which it stands or none; and the names of the zones."""
    found, zones, zone = set(), {}, ""
    for line in dump.splitlines():
        if line.startswith(b'{"HostedZone":'):
            value = json.loads(line)["HostedZone"]
            zone = value["Id"]
            zones[zone] = value["Name"]
        found.add((zone, line))
    return found, zones


def parts(lines):
    """The objects of lines with their zones by key, each key beginning with the thing in which it stands."""
    found = {}
    for zone, line in lines:
        (kind, value), = json.loads(line).items()
        if kind == "HealthCheck":
            found["health checks", value["Id"]] = value
        elif kind == "CidrCollection":
            found["collections", value["Id"]] = value
        elif kind == "HostedZone":
            found[zone,] = value
        else:
            found[zone, value["Name"], value["Type"], value.get("SetIdentifier", "")] = value
    return found


def order(key):
    """Checks, collections, then zones by number; in each by number or in zone order."""
    rank = {"health checks": 0, "collections": 1}.get(key[0], 2)
    number = int(key[0][1:]) if rank == 2 else int(key[1][1:])
    if rank < 2 or len(key) == 1:
        return rank, number, [], "", ""
    return rank, number, names.order_key(key[1]), key[2], key[3]


def text_lines(key, value):
    """The lines of text of a thing."""
    if key[0] == "health checks":
        return [check_text(value)]
    if key[0] == "collections":
        return [collection_text(value)]
    return ["zone %s" % value["Name"]] if len(key) == 1 else set_text(value)


def differences(before, after):
    """(key, removed lines, added lines) of each thing that isn't the same in both."""
    for key in sorted(set(before) | set(after), key=order):
        if before.get(key) != after.get(key):
            old = text_lines(key, before[key]) if key in before else []
            new = text_lines(key, after[key]) if key in after else []
            yield key, [line for line in old if line not in new], [line for line in new if line not in old]


def heading(key, zones):
    return "%s (%s)" % (zones[key[0]], key[0]) if key[0] in zones else key[0]


# ---- writing

class Writer:
    """Writes what changes as text, with colours or without, or as markdown."""

    def __init__(self, given):
        self.is_markdown = given.format == "markdown"
        colours = given.colour == "always" or (given.colour == "auto" and sys.stdout.isatty() and "NO_COLOR" not in os.environ)
        self.colours = colours and not self.is_markdown
        self.out = []

    def paint(self, colour, text):
        return colour + text + PLAIN if self.colours else text

    def changes(self, found, zones):
        """Writes the changes; answers how many lines went and came."""
        gone = come = 0
        here = None
        for key, old, new in found:
            title = heading(key, zones)
            if title != here:
                self.title(title, here is None)
                here = title
            self.out += [self.paint(RED, "- " + line) for line in old] + [self.paint(GREEN, "+ " + line) for line in new]
            gone, come = gone + len(old), come + len(new)
        if self.is_markdown and here is not None:
            self.out.append("```")
        return gone, come

    def title(self, text, is_first):
        if self.is_markdown:
            self.out += ([] if is_first else ["```", ""]) + ["**%s**" % text, "", "```diff"]
        else:
            self.out.append(self.paint(BOLD, text))

    def end(self, text):
        self.out += ["", text] if self.out and self.is_markdown else [text]
        print("\n".join(self.out))


def refusal_text(number, line, reply):
    """What is said of a refused line."""
    more = ["%s %s" % (member, value) for member, value in reply.items() if member not in ("Error", "Number")]
    text = "line %d is refused: %s" % (number, ", ".join([reply["Error"]] + more))
    if "Change" in reply:
        try:
            body = next(iter(json.loads(line).values()))
            change = body["ChangeBatch"]["Changes"][reply["Change"]]
            text += ": %s %s" % (change.get("Action"), json.dumps(change.get("ResourceRecordSet")))
        except (KeyError, IndexError, TypeError, AttributeError):
            pass
    return text


def run(given, place):
    lines = lines_of(given)
    with program.Copy(place.folder) as folder:
        before, zones = lines_by_place(program.words(place.program, folder, "dump"))
        refused = None
        with program.Session(place.program, folder) as session:
            for number, line in lines:
                reply = session.raw(line)
                if "Ok" not in reply:
                    refused = refusal_text(number, line, reply)
                    break
            session.end()
        writer = Writer(given)
        if refused:
            writer.end(refused)
            return 1
        after, zones_after = lines_by_place(program.words(place.program, folder, "dump"))
    changed = differences(parts(before - after), parts(after - before))
    gone, come = writer.changes(changed, {**zones, **zones_after})
    writer.end("%d removed, %d added" % (gone, come))
    return 3 if given.exit_code and (gone or come) else 0
