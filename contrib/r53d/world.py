"""A store as a dump tells it, with the tables: zones and their groups, checks, collections, and who is healthy.

Whether a check is healthy the program says; whether a set is follows from that by docs/RULES.md, Health of record sets.
"""
import ipaddress
import os

from . import names


class Prefixes:
    """Values by prefix of addresses; the longest one that contains an address counts."""

    def __init__(self):
        self.by_length = {}

    def add(self, text, value):
        network = ipaddress.ip_network(text)
        shift = network.max_prefixlen - network.prefixlen
        self.by_length.setdefault((network.version, network.prefixlen), {})[int(network.network_address) >> shift] = (text, value)

    def find(self, address):
        """(text of the prefix, value) for an ipaddress address, or None."""
        for version, length in sorted(self.by_length, reverse=True):
            if version == address.version:
                found = self.by_length[version, length].get(int(address) >> (address.max_prefixlen - length))
                if found:
                    return found
        return None


def read_tables(path):
    """The tables of places, {prefix: (continent, country, subdivision)}, and of latencies, {prefix: {region: n}}."""
    places, latencies = Prefixes(), Prefixes()
    if os.path.exists(path):
        with open(path, encoding="ascii", errors="replace") as file:
            for line in file:
                fields = line.rstrip("\n").split(" ")
                if fields[0] == "geo" and len(fields) == 5:
                    places.add(fields[1], tuple(fields[2:]))
                elif fields[0] == "lat" and len(fields) == 3:
                    pairs = (pair.split("=") for pair in fields[2].split(","))
                    latencies.add(fields[1], {region: int(n) for region, n in pairs})
    return places, latencies


class Zone:
    """A zone: its sets by owner and type, and the names that exist in it."""

    def __init__(self, ident, name):
        self.ident, self.name = ident, name
        self.owners, self.exists = {}, {name}

    def add(self, thing):
        owner = thing["Name"]
        self.owners.setdefault(owner, {}).setdefault(thing["Type"], []).append(thing)
        for above in names.parents(owner):
            if not names.is_below(above, self.name) or above in self.exists:
                break
            self.exists.add(above)

    def group(self, owner, kind):
        return self.owners.get(owner, {}).get(kind, [])

    def groups(self):
        """(owner, type, sets) of each group in zone order."""
        for owner, kinds in self.owners.items():
            for kind, sets in kinds.items():
                yield owner, kind, sets


POLICIES = ("Weight", "Failover", "GeoLocation", "Region", "MultiValueAnswer", "CidrRoutingConfig")
NAMES = {None: "simple", "Weight": "weighted", "Failover": "failover", "GeoLocation": "geolocation", "Region": "latency",
         "MultiValueAnswer": "multivalue", "CidrRoutingConfig": "IP-based"}


def policy_of(thing):
    """The member of a set's policy, None for a simple set."""
    return next((member for member in POLICIES if member in thing), None)


class World:
    """The objects of a dump, in its order. `statuses` has whether each check is healthy, by id, once the program was asked."""

    def __init__(self, objects):
        self.checks, self.collections, self.zones, self.statuses, self.known = {}, {}, {}, {}, {}
        self.places, self.latencies = Prefixes(), Prefixes()
        zone = None
        for thing in objects:
            (kind, value), = thing.items()
            if kind == "HealthCheck":
                self.checks[value["Id"]] = value
            elif kind == "CidrCollection":
                self.collections[value["Id"]] = self.collection(value)
            elif kind == "HostedZone":
                zone = self.zones[value["Id"]] = Zone(value["Id"], value["Name"])
            else:
                zone.add(value)
        self.by_name = {zone.name: zone for zone in self.zones.values()}

    @staticmethod
    def collection(value):
        blocks = Prefixes()
        for location in value["Locations"]:
            for block in location["CidrList"]:
                blocks.add(block, location["LocationName"])
        return blocks

    def zone_of(self, name):
        """The zone of the longest name that holds a name, or None."""
        return next((self.by_name[above] for above in names.parents(name) if above in self.by_name), None)

    def is_healthy(self, zone, thing):
        """Whether a set of a zone is healthy."""
        key = zone.ident, thing["Name"], thing["Type"], thing.get("SetIdentifier")
        if key not in self.known:
            self.known[key] = self.why_sick(zone, thing) is None
        return self.known[key]

    def why_sick(self, zone, thing):
        """Why a set isn't healthy, or None."""
        check = thing.get("HealthCheckId")
        if check is not None and not self.statuses.get(check, True):
            return "%s is sick" % check
        alias = thing.get("AliasTarget")
        if alias and alias["EvaluateTargetHealth"]:
            group = zone.group(alias["DNSName"], thing["Type"])
            if not any(self.is_healthy(zone, target) for target in group):
                return "no set of %s %s is healthy" % (alias["DNSName"], thing["Type"])
        return None
