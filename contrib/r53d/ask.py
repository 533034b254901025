"""`r53ctl ask`: what a client would be answered, by the program on a copy of the store, and why."""
import ipaddress
import itertools
import json
import os
import random

from . import explain, names, program, reports, values, wire, world
from .control import Fault

MOST_EXACT = 65536
SAMPLE = 16384


class Question:
    """The copy of a store with a program over it, where the reports that r53d kept have been replayed."""

    def __init__(self, place, folder):
        self.objects = program.dump(place.program, folder)
        self.world = world.World(self.objects)
        try:
            self.world.places, self.world.latencies = world.read_tables(os.path.join(folder, "r53.tables"))
        except ValueError:
            raise Fault("%s: bad tables; r53ctl check-tables says where" % os.path.join(place.folder, "r53.tables")) from None
        self.session = program.Session(place.program, folder)
        self.replay(place.folder)

    def __enter__(self):
        return self

    def __exit__(self, *_):
        self.session.__exit__()

    def replay(self, folder):
        """Brings back health, and asks for the status of each check."""
        views, _ = reports.load(folder)
        thresholds = {int(ident[1:]): check.get("FailureThreshold") for ident, check in self.world.checks.items()}
        for _ in self.session.many(program.compact(line) for line in views.replay(thresholds)):
            pass
        ask = [program.compact({"GetHealthCheckStatus": {"HealthCheckId": ident}}) for ident in self.world.checks]
        self.passing = {}
        for ident, reply in zip(self.world.checks, self.session.many(ask)):
            self.world.statuses[ident], self.passing[ident] = reply["Healthy"], reply["Passing"]

    def replies(self, packet, address, all_words):
        """The reply to a packet from an address for each list of eight words; None where there is none."""
        lines = (program.compact({"Query": {"Packet": packet.hex(), "Address": address, "Words": list(words)}})
                 for words in all_words)
        for got in self.session.many(lines):
            if "Ok" not in got:
                raise Fault("the program refused the query: %s" % json.dumps(got))
            yield None if got["Reply"] is None else wire.read_reply(bytes.fromhex(got["Reply"]))


def is_number(text):
    """Whether a text is 1 to 20 decimal digits."""
    return text.isascii() and text.isdigit() and len(text) <= 20


def read_words(text):
    """Eight words from up to eight numbers with commas between. Raises Fault."""
    parts = text.split(",") if text else []
    if len(parts) > 8 or not all(is_number(p) and int(p) < 1 << 64 for p in parts):
        raise Fault("--words %s: not up to eight numbers below 2^64" % text)
    return [int(p) for p in parts] + [0] * (8 - len(parts))


def read_question(given):
    """(name, type's text, packet, client's address) of the words. Raises Fault."""
    try:
        name = names.canonical(given.name)
    except names.NameFault as fault:
        raise Fault("%s: %s" % (given.name, fault)) from None
    kind = given.type.upper()
    number = values.NUMBERS.get(kind) or (int(kind) if is_number(kind) and int(kind) < 65536 else None)
    if number is None:
        raise Fault("%s: no type" % given.type)
    try:
        ipaddress.ip_address(given.address)
        subnet = ipaddress.ip_network(given.subnet) if given.subnet else None
    except ValueError as fault:
        raise Fault(str(fault)) from None
    client = str(subnet.network_address) if subnet and subnet.prefixlen else given.address
    return name, values.TYPES.get(number, kind), wire.query(name, number, given.subnet), client


# ---- one answer

def step_lines(step):
    """The lines of text of a step."""
    if "Step" in step:
        return ["  " + step["Step"]]
    more = "".join([", word %d" % step["Word"] if "Word" in step else "", ", " + step["Row"] if "Row" in step else ""])
    out = ["  %s in %s: %s%s" % (step["Group"], step["Zone"], step["Policy"], more)]
    for one in step["Sets"]:
        mark = "->" if one["Chosen"] else "  "
        named = [one["Set"]] + [detail(one[m]) for m in one if m in world.POLICIES] + (
            ["alias to " + one["Alias"]] if "Alias" in one else [])
        health = "healthy" if one["Healthy"] else "sick: " + one["Sick"]
        out.append("  %s %s (%s)" % (mark, " ".join(word for word in named if word) or "the set", health))
    return out


def detail(value):
    """The text of a policy's member."""
    if isinstance(value, dict):
        return " ".join(str(part) for part in value.values())
    return "weight %d" % value if isinstance(value, int) else value


def object_of(reply):
    """A reply as an object, its records too."""
    out = reply._asdict()
    for section in ("answer", "authority", "additional"):
        out[section] = [record._asdict() for record in out[section]]
    return out


def one_answer(question, name, kind, packet, client, given):
    words = read_words(given.words)
    reply = next(question.replies(packet, given.address, [words]))
    walk = explain.Walk(question.world, client, words)
    walk.ask(name, kind)
    agrees = reply is not None and (sorted(walk.answer) == sorted(reply.answer) or "tc" in reply.flags)
    if given.json:
        print(json.dumps({"Answer": reply and object_of(reply), "Why": walk.steps, "Agrees": agrees}))
        return 0 if agrees else 1
    print("%s %s from %s: %s%s" % (name, kind, client, reply.head() if reply else "no reply",
                                   "" if not reply or reply.scope is None else ", scope %d" % reply.scope))
    for section, records in (("", reply.answer), ("authority: ", reply.authority)) if reply else ():
        for record in records:
            print("  " + section + record.text())
    print("why:")
    for step in walk.steps:
        print("\n".join(step_lines(step)))
    if not agrees:
        print("  this explanation would give another answer; the answer is the program's")
    return 0 if agrees else 1


# ---- the shares

def all_words(periods):
    """All words up to their periods where these are few, else a sample; and whether they are all."""
    count = 1
    for period in periods:
        count *= period
    if count <= MOST_EXACT:
        return list(itertools.product(*(range(p) for p in periods))), True
    draw = random.Random(53)
    return [[draw.getrandbits(64) for _ in range(8)] for _ in range(SAMPLE)], False


def shares(question, name, kind, packet, client, given):
    words, is_exact = all_words(explain.periods(question.world, client, name, kind))
    counts, paths, records = {}, {}, {}
    for one, reply in zip(words, question.replies(packet, given.address, words)):
        key = (reply.rcode,) + tuple(sorted(reply.answer)) if reply else ("no reply",)
        counts[key] = counts.get(key, 0) + 1
        if key not in paths:
            walk = explain.Walk(question.world, client, one)
            walk.ask(name, kind)
            paths[key], records[key] = walk.path, reply.answer if reply else []
    ordered = sorted(counts, key=lambda key: (-counts[key], key))
    if given.json:
        print(json.dumps({"Words": len(words), "Exact": is_exact, "Shares": [
            {"Count": counts[key], "Share": counts[key] / len(words), "Rcode": key[0], "Sets": paths[key],
             "Answer": [record._asdict() for record in records[key]]} for key in ordered]}))
        return 0
    print("%s %s from %s: %s of %d words" % (name, kind, client, "all" if is_exact else "a sample", len(words)))
    for key in ordered:
        texts = [record.value for record in records[key]] or [key[0]]
        print("  %6.2f%%  %s  by %s" % (100 * counts[key] / len(words), ", ".join(texts), " > ".join(paths[key]) or "no set"))
    return 0


def run(given, place):
    name, kind, packet, client = read_question(given)
    with program.Copy(place.folder) as folder, Question(place, folder) as question:
        answer = shares if given.sweep else one_answer
        return answer(question, name, kind, packet, client, given)
