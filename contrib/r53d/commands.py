"""Commands and snapshots: from their octets in the journal to control lines (docs/FORMATS.md, Octets of commands).

A control line here is an object of one member, as it would be given to `r53 run`. What the journal doesn't keep isn't there:
comments, references of callers, and the kind of an endpoint's check, for which TCP stands.
"""
from . import names, values

CONTINENTS = {1: "AF", 2: "AN", 3: "AS", 4: "EU", 5: "NA", 6: "OC", 7: "SA"}
ACTIONS = {1: "CREATE", 2: "DELETE", 3: "UPSERT"}


class OctetFault(ValueError):
    """Octets that are no command or no snapshot; its text tells the place."""


class Reader:
    """Octets that are taken from the left."""

    def __init__(self, data):
        self.data = data
        self.at = 0

    def take(self, size):
        if self.at + size > len(self.data):
            raise OctetFault("octets are missing at %d" % self.at)
        self.at += size
        return self.data[self.at - size:self.at]

    def number(self, size):
        return int.from_bytes(self.take(size), "big")

    def one_of(self, table):
        """The entry of a table whose key is the next octet."""
        got = self.number(1)
        if got not in table:
            raise OctetFault("octet %d is %d" % (self.at - 1, got))
        return table[got]

    def flag(self):
        return self.one_of({0: False, 1: True})

    def text(self):
        return self.take(self.number(1)).decode("latin-1")

    def name(self):
        try:
            text, self.at = names.read(self.data, self.at)
        except names.NameFault as fault:
            raise OctetFault("%s at %d" % (fault, self.at)) from None
        return text

    def list(self, item):
        return [item() for _ in range(self.number(2))]

    def maybe(self, item):
        return item() if self.flag() else None


# ---- sets

def read_place(r):
    kind = r.one_of({kind: kind for kind in (1, 2, 3, 4)})
    if kind == 1:
        return {"ContinentCode": r.one_of(CONTINENTS)}
    if kind == 2:
        return {"CountryCode": r.take(2).decode("latin-1")}
    if kind == 3:
        return {"CountryCode": r.take(2).decode("latin-1"), "SubdivisionCode": r.text()}
    return {"CountryCode": "*"}


def read_policy(r):
    """The members that a policy adds to a set."""
    kind = r.number(1)
    if kind == 0:
        return {}
    out = {"SetIdentifier": r.text()}
    if kind == 1:
        out["Weight"] = r.number(1)
    elif kind == 2:
        out["Failover"] = r.one_of({1: "PRIMARY", 2: "SECONDARY"})
    elif kind == 3:
        out["GeoLocation"] = read_place(r)
    elif kind == 4:
        out["Region"] = r.text()
    elif kind == 5:
        out["MultiValueAnswer"] = True
    elif kind == 6:
        out["CidrRoutingConfig"] = {"CollectionId": "c%d" % r.number(4), "LocationName": r.text()}
    else:
        raise OctetFault("octet %d is no policy" % r.at)
    return out


def read_value(r, number):
    try:
        return {"Value": values.text_of(number, r.take(r.number(2)))}
    except values.ValueFault as fault:
        raise OctetFault("%s at %d" % (fault, r.at)) from None


def read_set(r, zone):
    """A ResourceRecordSet of the zone with this id."""
    out = {"Name": r.name()}
    number = r.number(2)
    out["Type"] = values.TYPES.get(number, str(number))
    out.update(read_policy(r))
    if r.flag():
        target = r.name()
        out["AliasTarget"] = {"HostedZoneId": zone, "DNSName": target, "EvaluateTargetHealth": r.flag()}
    else:
        out["TTL"] = r.number(4)
        out["ResourceRecords"] = r.list(lambda: read_value(r, number))
    check = r.maybe(lambda: r.number(4))
    if check is not None:
        out["HealthCheckId"] = "h%d" % check
    return out


# ---- checks and collections

def check_ids(r):
    return r.list(lambda: "h%d" % r.number(4))


def read_check(r, version):
    """The HealthCheckConfig of a check."""
    kind = r.one_of({1: 1, 2: 2})
    threshold = r.number(kind)
    more = {"Inverted": r.flag()}
    if version >= 2:
        more["Disabled"] = r.flag()
    more = {member: True for member, is_set in more.items() if is_set}
    if kind == 1:
        return {"Type": "TCP", "FailureThreshold": threshold, **more}
    return {"Type": "CALCULATED", **more, "HealthThreshold": threshold, "ChildHealthChecks": check_ids(r)}


def read_block(r):
    octets = r.take(r.one_of({4: 4, 6: 16}))
    return "%s/%d" % (values.address_text(octets), r.number(1))


def read_collection_change(r):
    action = r.one_of({1: "PUT", 2: "DELETE_IF_EXISTS"})
    return {"Action": action, "LocationName": r.text(), "CidrList": r.list(lambda: read_block(r))}


# ---- commands

def read_change(r, zone):
    action = r.one_of(ACTIONS)
    r.number(4)
    return {"Action": action, "ResourceRecordSet": read_set(r, zone)}


def create_zone(r, _):
    return {"CreateHostedZone": {"Name": r.name(), "NameServers": [r.name() for _ in range(4)]}}


def change_sets(r, _):
    zone = "Z%d" % r.number(4)
    return {"ChangeResourceRecordSets": {
        "HostedZoneId": zone, "ChangeBatch": {"Changes": r.list(lambda: read_change(r, zone))}}}


def update_check(r, version):
    out = {"HealthCheckId": "h%d" % r.number(4), "Inverted": r.maybe(r.flag)}
    if version >= 2:
        out["Disabled"] = r.maybe(r.flag)
    out["HealthThreshold"] = r.maybe(lambda: r.number(2))
    out["ChildHealthChecks"] = r.maybe(lambda: check_ids(r))
    return {"UpdateHealthCheck": {member: value for member, value in out.items() if value is not None}}


def change_collection(r, _):
    return {"ChangeCidrCollection": {"Id": "c%d" % r.number(4), "Changes": r.list(lambda: read_collection_change(r))}}


KINDS = {
    1: create_zone,
    2: lambda r, _: {"DeleteHostedZone": {"Id": "Z%d" % r.number(4)}},
    3: change_sets,
    4: lambda r, version: {"CreateHealthCheck": {"HealthCheckConfig": read_check(r, version)}},
    5: update_check,
    6: lambda r, _: {"DeleteHealthCheck": {"HealthCheckId": "h%d" % r.number(4)}},
    7: lambda r, _: {"CreateCidrCollection": {"Name": r.text()}},
    8: change_collection,
    9: lambda r, _: {"DeleteCidrCollection": {"Id": "c%d" % r.number(4)}},
}


KINDS_OF_1 = {kind: KINDS[kind] for kind in range(1, 7)}


def read_command(octets):
    """The control line of a command's octets. Raises OctetFault."""
    r = Reader(octets)
    version = r.one_of({1: 1, 2: 2})
    line = r.one_of(KINDS if version == 2 else KINDS_OF_1)(r, version)
    if r.at != len(octets):
        raise OctetFault("octets stand behind the command at %d" % r.at)
    return line


# ---- snapshots

def read_zone(r):
    """A zone's id, and its name with its sets."""
    zone = "Z%d" % r.number(4)
    return zone, {"Name": r.name(), "Sets": [read_set(r, zone) for _ in range(r.number(4))]}


def read_collection(r):
    ident, name = "c%d" % r.number(4), r.text()
    locations = r.list(lambda: (r.text(), r.list(lambda: read_block(r))))
    return ident, {"Name": name, "Locations": dict(locations)}


def read_counts(octets):
    """How many zones, checks and collections were made before a snapshot, by the letters of their ids."""
    return read_made(Reader(octets))[1]


def read_made(r):
    """The version of a snapshot, and its counts."""
    version = r.one_of({1: 1, 2: 2, 3: 3})
    made = {"Z": r.number(4) - 1, "h": r.number(4) - 1, "c": 0}
    if version == 3:
        made["c"] = r.number(4) - 1
    return version, made


def read_snapshot(octets):
    """(made, checks, collections, zones) of a snapshot, the last three by id. Raises OctetFault."""
    r = Reader(octets)
    version, made = read_made(r)
    checks = dict(r.list(lambda: ("h%d" % r.number(4), read_check(r, version))))
    collections = dict(r.list(lambda: read_collection(r))) if version == 3 else {}
    zones = dict(r.list(lambda: read_zone(r)))
    return made, checks, collections, zones
