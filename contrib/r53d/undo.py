"""What a store held before an entry of its journal, as far as the opposite of the entry needs it.

The commands of a journal were all accepted, so here they are made without a test.
"""
from . import commands


def set_key(thing):
    return thing["Name"], thing["Type"], thing.get("SetIdentifier")


class State:
    """The checks, collections and zones of a snapshot, to which commands are made one by one."""

    def __init__(self, snapshot):
        self.made, self.checks, self.collections, zones = commands.read_snapshot(snapshot)
        self.zones = {ident: (zone["Name"], {set_key(s): s for s in zone["Sets"]}) for ident, zone in zones.items()}

    def touched(self, line):
        """The things that a command changes, as keys."""
        (kind, value), = line.items()
        if kind == "ChangeResourceRecordSets":
            zone = value["HostedZoneId"]
            return {(zone,) + set_key(change["ResourceRecordSet"]) for change in value["ChangeBatch"]["Changes"]}
        ident = value.get("HealthCheckId") or value.get("Id")
        return {ident} if ident else set()

    # ---- making a command

    def make(self, line):
        (kind, value), = line.items()
        getattr(self, "make_" + kind)(value)

    def new(self, letter):
        self.made[letter] += 1
        return "%s%d" % (letter, self.made[letter])

    def make_CreateHostedZone(self, value):
        ident = self.new("Z")
        records = [{"Value": server} for server in value["NameServers"]]
        servers = {"Name": value["Name"], "Type": "NS", "TTL": 172800, "ResourceRecords": records}
        soa = value["NameServers"][0] + " awsdns-hostmaster.amazon.com. 1 7200 900 1209600 86400"
        start = {"Name": value["Name"], "Type": "SOA", "TTL": 900, "ResourceRecords": [{"Value": soa}]}
        self.zones[ident] = value["Name"], {set_key(s): s for s in (servers, start)}

    def make_DeleteHostedZone(self, value):
        del self.zones[value["Id"]]

    def make_ChangeResourceRecordSets(self, value):
        for change in value["ChangeBatch"]["Changes"]:
            self.change(value["HostedZoneId"], change)

    def change(self, zone, change):
        """Makes one change of a zone; answers the set that stood there."""
        sets, thing = self.zones[zone][1], change["ResourceRecordSet"]
        old = sets.pop(set_key(thing), None)
        if change["Action"] != "DELETE":
            sets[set_key(thing)] = thing
        return old

    def make_CreateHealthCheck(self, value):
        self.checks[self.new("h")] = value["HealthCheckConfig"]

    def make_UpdateHealthCheck(self, value):
        old = self.checks[value["HealthCheckId"]]
        self.checks[value["HealthCheckId"]] = {**old, **{m: v for m, v in value.items() if m != "HealthCheckId"}}

    def make_DeleteHealthCheck(self, value):
        del self.checks[value["HealthCheckId"]]

    def make_CreateCidrCollection(self, value):
        self.collections[self.new("c")] = {"Name": value["Name"], "Locations": {}}

    def make_DeleteCidrCollection(self, value):
        del self.collections[value["Id"]]

    def make_ChangeCidrCollection(self, value):
        for change in value["Changes"]:
            self.change_collection(value["Id"], change)

    def change_collection(self, ident, change):
        """Makes one change of a collection; answers the blocks that came or went."""
        locations = self.collections[ident]["Locations"]
        blocks = locations.setdefault(change["LocationName"], [])
        if change["Action"] == "PUT":
            moved = [block for block in dict.fromkeys(change["CidrList"]) if block not in blocks]
            blocks.extend(moved)
        else:
            moved = [block for block in dict.fromkeys(change["CidrList"]) if block in blocks]
            locations[change["LocationName"]] = [block for block in blocks if block not in moved]
        return moved

    # ---- the opposite of a command that comes next

    def opposite(self, line):
        """(the control line that undoes a command, or None; a note on what it can't bring back)."""
        (kind, value), = line.items()
        return getattr(self, "opposite_" + kind)(value)

    def opposite_CreateHostedZone(self, _):
        return {"DeleteHostedZone": {"Id": "Z%d" % (self.made["Z"] + 1)}}, ""

    def opposite_DeleteHostedZone(self, value):
        name, sets = self.zones[value["Id"]]
        servers = [record["Value"] for record in sets[name, "NS", None]["ResourceRecords"]]
        line = {"Name": name, **({"NameServers": servers} if len(servers) == 4 else {})}
        return {"CreateHostedZone": line}, "the zone gets another id, and the SOA set of a new zone"

    def opposite_ChangeResourceRecordSets(self, value):
        """The batch that undoes a batch. Each change sees those before it, so a copy of the zone's sets takes them."""
        zone = value["HostedZoneId"]
        name, sets = self.zones[zone]
        self.zones[zone] = name, dict(sets)
        changes = []
        for change in value["ChangeBatch"]["Changes"]:
            old, new = self.change(zone, change), change["ResourceRecordSet"]
            if change["Action"] == "DELETE":
                changes.append({"Action": "CREATE", "ResourceRecordSet": old})
            elif old is None:
                changes.append({"Action": "DELETE", "ResourceRecordSet": new})
            elif old != new:
                changes.append({"Action": "UPSERT", "ResourceRecordSet": old})
        self.zones[zone] = name, sets
        if not changes:
            return None, "it changed nothing"
        return {"ChangeResourceRecordSets": {"HostedZoneId": zone, "ChangeBatch": {"Changes": changes[::-1]}}}, ""

    def opposite_CreateHealthCheck(self, _):
        return {"DeleteHealthCheck": {"HealthCheckId": "h%d" % (self.made["h"] + 1)}}, ""

    def opposite_DeleteHealthCheck(self, value):
        return {"CreateHealthCheck": {"HealthCheckConfig": self.checks[value["HealthCheckId"]]}}, "the check gets another id"

    def opposite_UpdateHealthCheck(self, value):
        old = self.checks[value["HealthCheckId"]]
        members = [m for m in value if m != "HealthCheckId"]
        return {"UpdateHealthCheck": {"HealthCheckId": value["HealthCheckId"], **{m: old.get(m, False) for m in members}}}, ""

    def opposite_CreateCidrCollection(self, _):
        return {"DeleteCidrCollection": {"Id": "c%d" % (self.made["c"] + 1)}}, ""

    def opposite_DeleteCidrCollection(self, value):
        return {"CreateCidrCollection": {"Name": self.collections[value["Id"]]["Name"]}}, "the collection gets another id"

    def opposite_ChangeCidrCollection(self, value):
        ident = value["Id"]
        old = self.collections[ident]
        self.collections[ident] = {"Name": old["Name"], "Locations": {k: list(v) for k, v in old["Locations"].items()}}
        changes = []
        for change in value["Changes"]:
            moved = self.change_collection(ident, change)
            action = "DELETE_IF_EXISTS" if change["Action"] == "PUT" else "PUT"
            if moved:
                changes.append({"Action": action, "LocationName": change["LocationName"], "CidrList": moved})
        self.collections[ident] = old
        return ({"ChangeCidrCollection": {"Id": ident, "Changes": changes[::-1]}}, "") if changes else (None, "it changed nothing")
