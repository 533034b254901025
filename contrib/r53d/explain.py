"""Why an answer is what it is: the groups that are chosen from, and what decides in each, by docs/RULES.md.

This is a reading of the rules beside the program, which gives the answer. The two are compared, and where they differ the
answer counts.
"""
import ipaddress
from math import lcm

from . import names
from .wire import Record
from .world import NAMES, policy_of

MOST_CHOICES = 17
MOST_CNAMES = 8
WILDCARD = "\\052."


class Walk:
    """The way of one query. `steps` tells each choice and each turn of the way, as objects; `answer` the records."""

    def __init__(self, world, client, words):
        self.world, self.client = world, ipaddress.ip_address(client)
        self.words = words
        self.made = 0
        self.steps, self.answer, self.path = [], [], []

    # ---- names (How a name is answered)

    def ask(self, name, kind):
        """Follows a query for a written name and a type; the records of the answer section stand in `answer` then."""
        zone = self.world.zone_of(name)
        if zone is None:
            return self.tell("no zone holds %s" % name)
        while name is not None:
            name = self.link(zone, name, kind)
        return None

    def tell(self, text):
        self.steps.append({"Step": text})

    def link(self, zone, name, kind):
        """One name of a chain of CNAME records; the next one, or None."""
        cut = self.cut_above(zone, name)
        if cut is not None:
            return self.tell("%s is delegated at %s" % (name, cut))
        owner = self.owner_of(zone, name)
        if owner is None:
            return self.tell("%s doesn't exist in %s (%s)" % (name, zone.name, zone.ident))
        if zone.group(owner, kind):
            chosen = self.group(zone, owner, kind)
            self.add(name, kind, chosen)
            if not chosen:
                self.tell("no set of %s %s answers this client" % (owner, kind))
            return None
        if not zone.group(owner, "CNAME"):
            return self.tell("%s has no %s set" % (owner, kind))
        chosen = self.group(zone, owner, "CNAME")
        if not chosen:
            return self.tell("no set of %s CNAME answers this client" % owner)
        if sum(record.type == "CNAME" for record in self.answer) >= MOST_CNAMES:
            return self.tell("eight CNAME records are enough")
        self.add(name, "CNAME", chosen)
        target = self.answer[-1].value
        if self.world.zone_of(target) is not zone:
            return self.tell("%s is in another zone, or in none" % target)
        return target

    @staticmethod
    def cut_above(zone, name):
        """The name nearest the apex, below it, that has an NS set and holds the name; or None."""
        found = None
        for above in names.parents(name):
            if above == zone.name:
                return found
            found = above if zone.group(above, "NS") else found
        return found

    def owner_of(self, zone, name):
        """The name whose sets answer: the name itself, or the wildcard below its closest encloser; None where there is none."""
        if name in zone.exists:
            return name
        closest = next(above for above in names.parents(name) if above in zone.exists)
        wildcard = WILDCARD + (closest if closest != "." else "")
        if wildcard not in zone.exists:
            return None
        self.tell("%s is answered by the wildcard at %s" % (name, closest))
        return wildcard

    def add(self, name, kind, chosen):
        """The records that the chosen sets give."""
        if chosen:
            ttl, seen = min(thing["TTL"] for thing in chosen), set()
            for thing in chosen:
                for value in (record["Value"] for record in thing["ResourceRecords"]):
                    if value not in seen:
                        self.answer.append(Record(name, ttl, kind, value))
                    seen.add(value)

    # ---- groups (From a group to the sets that answer)

    def group(self, zone, owner, kind):
        """The sets that answer, from a group and through aliases."""
        for _ in range(MOST_CHOICES):
            chosen = self.choose(zone, owner, kind)
            if not chosen or "AliasTarget" not in chosen[0]:
                return chosen
            owner = chosen[0]["AliasTarget"]["DNSName"]
        return []

    def choose(self, zone, owner, kind):
        sets = zone.group(owner, kind)
        member = policy_of(sets[0]) if sets else None
        word = self.words[self.made % 8]
        step = {"Group": "%s %s" % (owner, kind), "Zone": zone.ident, "Policy": NAMES[member]}
        sick = {id(thing): self.world.why_sick(zone, thing) for thing in sets}
        chosen = self.by_policy(zone, sets, member, word, step) if sets else []
        step["Sets"] = [self.line(thing, sick[id(thing)], any(thing is one for one in chosen)) for thing in sets]
        if member in ("Weight", "MultiValueAnswer"):
            step["Word"] = word
        self.made += 1
        self.steps.append(step)
        self.path += [thing.get("SetIdentifier", owner) for thing in chosen]
        return chosen

    @staticmethod
    def line(thing, sick, is_chosen):
        """What a step tells of a set."""
        out = {"Set": thing.get("SetIdentifier", ""), "Healthy": sick is None, "Chosen": is_chosen}
        if sick:
            out["Sick"] = sick
        member = policy_of(thing)
        if member not in (None, "MultiValueAnswer"):
            out[member] = thing[member]
        if "AliasTarget" in thing:
            out["Alias"] = thing["AliasTarget"]["DNSName"]
        return out

    def by_policy(self, zone, sets, member, word, step):
        is_healthy = {id(thing): self.world.is_healthy(zone, thing) for thing in sets}
        considered = [thing for thing in sets if is_healthy[id(thing)]] or sets

        def first(ordered):
            return [next((thing for thing in ordered if is_healthy[id(thing)]), ordered[0])] if ordered else []
        if member is None:
            return sets[:1]
        if member == "Weight":
            return weighted(considered, word)
        if member == "MultiValueAnswer":
            return considered if len(considered) <= 8 else [considered[(word + i) % len(considered)] for i in range(8)]
        if member == "Failover":
            return first(sorted(sets, key=lambda thing: thing["Failover"]))
        if member == "GeoLocation":
            return first(self.places(sets, step))
        if member == "Region":
            return self.nearest(considered, step)
        return first(self.located(sets, step))

    def places(self, sets, step):
        """The sets whose place holds the client, the smallest place first."""
        found = self.world.places.find(self.client)
        continent, country, subdivision = found[1] if found else (None, None, None)
        step["Row"] = "geo %s %s" % (found[0], " ".join(found[1])) if found else "no row of places"
        ranked = []
        for thing in sets:
            place = thing["GeoLocation"]
            if place.get("CountryCode") == "*":
                ranked.append((4, thing))
            elif "SubdivisionCode" in place:
                if (place["CountryCode"], place["SubdivisionCode"]) == (country, subdivision):
                    ranked.append((1, thing))
            elif place.get("CountryCode", "") == country:
                ranked.append((2, thing))
            elif place.get("ContinentCode", "") == continent:
                ranked.append((3, thing))
        return [thing for _, thing in sorted(ranked, key=lambda pair: pair[0])]

    def nearest(self, considered, step):
        """The set of the region with the least latency."""
        found = self.world.latencies.find(self.client)
        told = found[1] if found else {}
        pairs = ",".join("%s=%d" % pair for pair in sorted(told.items()))
        step["Row"] = "lat %s %s" % (found[0], pairs) if found else "no row of latencies"
        return [min(considered, key=lambda thing: (told.get(thing["Region"], 1 << 32), thing["Region"]))]

    def located(self, sets, step):
        """The set of the client's location, then that of `*`."""
        collection = sets[0]["CidrRoutingConfig"]["CollectionId"]
        found = self.world.collections[collection].find(self.client)
        step["Row"] = "%s of %s, location %s" % (found[0], collection, found[1]) if found else "no block of %s" % collection
        by_location = {thing["CidrRoutingConfig"]["LocationName"]: thing for thing in sets}
        wanted = ([found[1]] if found else []) + ["*"]
        return [by_location[location] for location in wanted if location in by_location]


def weights(considered):
    """The weights of the considered sets, each 1 where none is above 0."""
    given = [thing["Weight"] for thing in considered]
    return given if any(given) else [1] * len(given)


def weighted(considered, word):
    """The set whose stretch holds the word."""
    given = weights(considered)
    point = word % sum(given)
    for thing, weight in zip(considered, given):
        if point < weight:
            return [thing]
        point -= weight
    return []


# ---- how many words make all answers

class Periods:
    """For each of the eight words, after how many of its values the choices made by it repeat."""

    def __init__(self, world, client):
        self.walk = Walk(world, client, [0] * 8)
        self.of = [1] * 8

    def name(self, zone, name, kind, made=0, left=MOST_CNAMES + 1):
        """Takes the choices for a name."""
        w = self.walk
        owner = w.owner_of(zone, name) if w.cut_above(zone, name) is None else None
        if owner is None or not left:
            return
        is_cname = not zone.group(owner, kind)
        for thing, behind in self.group(zone, owner, "CNAME" if is_cname else kind, made, MOST_CHOICES):
            target = thing["ResourceRecords"][0]["Value"] if is_cname else None
            if target and w.world.zone_of(target) is zone:
                self.name(zone, target, kind, behind, left - 1)

    def group(self, zone, owner, kind, made, left):
        """The sets without an alias that a group leads to, each with the number of choices before the next group."""
        sets = zone.group(owner, kind)
        if not sets or not left:
            return []
        out = []
        for thing in self.choices(zone, sets, made):
            if "AliasTarget" in thing:
                out += self.group(zone, thing["AliasTarget"]["DNSName"], kind, made + 1, left - 1)
            else:
                out.append((thing, made + 1))
        return out

    def choices(self, zone, sets, made):
        """The sets that some word chooses from a group."""
        member = policy_of(sets[0])
        considered = [thing for thing in sets if self.walk.world.is_healthy(zone, thing)] or sets
        if member == "Weight":
            given = weights(considered)
            self.of[made % 8] = lcm(self.of[made % 8], sum(given))
            return [thing for thing, weight in zip(considered, given) if weight]
        if member == "MultiValueAnswer":
            self.of[made % 8] = lcm(self.of[made % 8], len(considered) if len(considered) > 8 else 1)
            return considered
        return self.walk.by_policy(zone, sets, member, 0, {})


def periods(world, client, name, kind):
    """The eight periods of a query's words."""
    found = Periods(world, client)
    zone = world.zone_of(name)
    if zone is not None:
        found.name(zone, name, kind)
    return found.of
