"""`r53ctl status`: what a service does, and its checks, groups and trees of aliases with their health.

Health comes from the service, by its control socket; where none serves, from the reports that it kept, by the program on a copy.
"""
import json
import os
import sys
import time

from . import journal, names, program, send, world
from .ask import Question
from .control import Fault
from .texts import check_text, policy_text

MOST_GROUPS = 100
MOST_LINKS = 17
PATIENCE = 20.0
CLEAR = "\033[H\033[J"


class Looker:
    """Looks at a store again and again; the dump is taken anew where a file has changed."""

    def __init__(self, place):
        self.place, self.stamp, self.objects = place, None, None

    def look(self):
        """(the world with health, passing by check, the service's own state or None). Raises Fault."""
        service = self.service()
        if service is None or service["state"] != "serving":
            with program.Copy(self.place.folder) as folder, Question(self.place, folder) as question:
                return question.world, question.passing, service
        self.dump()
        seen = world.World(self.objects)
        lines = [program.compact({"GetHealthCheckStatus": {"HealthCheckId": ident}}) for ident in seen.checks]
        passing = {}
        for ident, reply in zip(seen.checks, send.ask(self.place.socket, lines, PATIENCE) if lines else []):
            seen.statuses[ident], passing[ident] = reply.get("Healthy", True), reply.get("Passing", 0)
        return seen, passing, service

    def service(self):
        """The state of the service, or None where none listens."""
        try:
            send.connect(self.place.socket).close()
        except Fault:
            return None
        return send.ask(self.place.socket, [b"!status"], PATIENCE)[0]["r53d"]

    def dump(self):
        paths = [journal.path_of(self.place.folder, side) for side in journal.SIDES]
        stamp = [(s.st_mtime_ns, s.st_size) for s in (os.stat(path) for path in paths if os.path.exists(path))]
        if stamp != self.stamp or self.objects is None:
            with program.Copy(self.place.folder) as folder:
                self.objects, self.stamp = program.dump(self.place.program, folder), stamp


def mark(is_healthy):
    return "healthy" if is_healthy else "SICK"


def count_lines(seen, folder, service):
    """The lines on the store and the service."""
    opened = journal.Watch(folder).look()
    sets = sum(len(group) for zone in seen.zones.values() for _, _, group in zone.groups())
    out = ["%d zones, %d sets, %d checks, %d collections" % (len(seen.zones), sets, len(seen.checks), len(seen.collections)),
           "journal: file %s, generation %d, %d bytes, %d of them the snapshot" % (
               opened.header.side, opened.header.generation, opened.length, opened.header.snapshot)]
    if service is None:
        return out + ["no service answers on the socket; health is that of the reports that were kept"]
    counts = service["counts"]
    return out + [
        "service: %s, port %s, process %s, restarts %d" % (service["state"], service["query_port"], service["pid"], service["restarts"]),
        "served: %(Answered)d answered, %(Silent)d silent, %(Reports)d reports, %(Unknown)d unknown" % counts]


def check_lines(seen, passing):
    for ident, check in seen.checks.items():
        of = len(check["ChildHealthChecks"]) if check["Type"] == "CALCULATED" else 50
        yield "%s, %d of %d pass: %s" % (check_text(check), passing.get(ident, 0), of, mark(seen.statuses.get(ident, True)))


def tree_lines(seen, zone, owner, kind, depth):
    """A group with its sets, and below each alias the group that it leads to."""
    group = zone.group(owner, kind)
    member = world.policy_of(group[0])
    yield "%s%s %s, %s, %d of %d healthy" % ("  " * depth, owner, kind, world.NAMES[member],
                                             sum(seen.is_healthy(zone, s) for s in group), len(group))
    for thing in group:
        alias = thing.get("AliasTarget")
        what = "alias to " + alias["DNSName"] if alias else ", ".join(r["Value"] for r in thing["ResourceRecords"])
        sick = seen.why_sick(zone, thing)
        yield "%s- %s%s: %s" % ("  " * depth + "  ", " ".join((policy_text(thing) + " " + what).split()), "",
                                "healthy" if sick is None else "SICK, " + sick)
        if alias and depth < 2 * MOST_LINKS:
            yield from tree_lines(seen, zone, alias["DNSName"], kind, depth + 2)


def group_lines(seen, under):
    """The groups that choose or lead on and that no alias leads to, as trees."""
    shown = left = 0
    for zone in seen.zones.values():
        targets = {(s["AliasTarget"]["DNSName"], kind) for _, kind, sets in zone.groups() for s in sets if "AliasTarget" in s}
        for owner, kind, sets in zone.groups():
            is_plain = world.policy_of(sets[0]) is None and "AliasTarget" not in sets[0] and "HealthCheckId" not in sets[0]
            if is_plain or (not under and (owner, kind) in targets) or not names.is_below(owner, under or "."):
                continue
            if shown == MOST_GROUPS:
                left += 1
                continue
            shown += 1
            yield from tree_lines(seen, zone, owner, kind, 0)
    if left:
        yield "%d groups more; --name shows those at a name" % left


def as_object(seen, passing, service):
    return {"Service": service, "Zones": len(seen.zones), "Checks": [
        {**check, "Healthy": seen.statuses.get(ident, True), "Passing": passing.get(ident, 0)}
        for ident, check in seen.checks.items()], "Groups": [
        {"Zone": zone.ident, "Name": owner, "Type": kind, "Policy": world.NAMES[world.policy_of(sets[0])],
         "Healthy": sum(seen.is_healthy(zone, s) for s in sets), "Sets": len(sets)}
        for zone in seen.zones.values() for owner, kind, sets in zone.groups()]}


def show(looker, given):
    """The text of a look."""
    under = names.canonical(given.name) if given.name else None
    seen, passing, service = looker.look()
    if given.json:
        return json.dumps(as_object(seen, passing, service))
    out = count_lines(seen, looker.place.folder, service)
    if seen.checks:
        out += ["", "checks"] + list(check_lines(seen, passing))
    groups = list(group_lines(seen, under))
    return "\n".join(out + (["", "groups"] + groups if groups else []))


def show_again(looker, given):
    """The text of a look, or why there is none for the moment."""
    try:
        return show(looker, given)
    except BrokenPipeError:
        raise
    except (Fault, program.Refused, journal.StoreFault, OSError) as fault:
        return "r53ctl: %s" % fault


def run(given, place):
    looker = Looker(place)
    try:
        if given.watch is None:
            print(show(looker, given))
            return 0
        text = show(looker, given)
        while True:
            print((CLEAR if sys.stdout.isatty() else "") + text, flush=True)
            time.sleep(max(given.watch, 0.1))
            text = show_again(looker, given)
    except names.NameFault as fault:
        raise Fault("%s: %s" % (given.name, fault)) from None
    except KeyboardInterrupt:
        return 0
