"""Sets, checks and collections of a dump as lines for people."""


def policy_text(thing):
    """A set's identifier and policy."""
    out = []
    if "SetIdentifier" in thing:
        out.append("[%s]" % thing["SetIdentifier"])
    if "Weight" in thing:
        out.append("weight %d" % thing["Weight"])
    if "Failover" in thing:
        out.append(thing["Failover"].lower())
    if "GeoLocation" in thing:
        out.append(" ".join(thing["GeoLocation"].values()))
    if "Region" in thing:
        out.append(thing["Region"])
    if "MultiValueAnswer" in thing:
        out.append("multivalue")
    if "CidrRoutingConfig" in thing:
        out.append(" ".join(thing["CidrRoutingConfig"].values()))
    if "HealthCheckId" in thing:
        out.append("if " + thing["HealthCheckId"])
    return " ".join(out)


def set_text(thing):
    """A set as lines, one for each value; an alias is one."""
    more = policy_text(thing)
    more = " " + more if more else ""
    if "AliasTarget" in thing:
        alias = thing["AliasTarget"]
        health = " with its health" if alias["EvaluateTargetHealth"] else ""
        return ["%s alias %s to %s%s%s" % (thing["Name"], thing["Type"], alias["DNSName"], health, more)]
    return ["%s %d %s %s%s" % (thing["Name"], thing["TTL"], thing["Type"], record["Value"], more)
            for record in thing["ResourceRecords"]]


def check_text(check):
    """A check as a line."""
    if check["Type"] == "CALCULATED":
        text = "%s: %d of %s" % (check["Id"], check["HealthThreshold"], " ".join(check["ChildHealthChecks"]) or "none")
    else:
        text = "%s: endpoint, threshold %d" % (check["Id"], check["FailureThreshold"])
    return text + (", inverted" if check["Inverted"] else "") + (", disabled" if check["Disabled"] else "")


def collection_text(collection):
    """A collection as a line."""
    located = ("%s %s" % (one["LocationName"], " ".join(one["CidrList"])) for one in collection["Locations"])
    return "%s: %s: %s" % (collection["Id"], collection["Name"], "; ".join(located) or "empty")
