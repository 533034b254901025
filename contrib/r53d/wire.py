"""Packets: a query to ask the program, and what its reply says (RFC 1035, RFC 6891, RFC 7871)."""
import ipaddress
from typing import NamedTuple

from . import names, values

RCODES = {0: "NOERROR", 1: "FORMERR", 2: "SERVFAIL", 3: "NXDOMAIN", 4: "NOTIMP", 5: "REFUSED", 16: "BADVERS"}
OPT = 41
SUBNET = 8


class Record(NamedTuple):
    """A record of a reply. `value` is its text, `ttl` in seconds."""
    name: str
    ttl: int
    type: str
    value: str

    def text(self):
        return "%s %d %s %s" % self[:4]


class Reply(NamedTuple):
    """What a reply says. `scope` is the bits of the client subnet's scope, None where none is told."""
    rcode: str
    flags: list
    answer: list
    authority: list
    additional: list
    scope: object

    def head(self):
        return " ".join([self.rcode] + self.flags)


def subnet_option(network):
    """The client subnet option (RFC 7871, 6) of an ipaddress network."""
    family = 1 if network.version == 4 else 2
    octets = network.network_address.packed[:(network.prefixlen + 7) // 8]
    data = family.to_bytes(2, "big") + bytes([network.prefixlen, 0]) + octets
    return SUBNET.to_bytes(2, "big") + len(data).to_bytes(2, "big") + data


def query(name, number, subnet=None, ident=0, size=4096):
    """A query for a name (a text) and a type's number, with an OPT record of this payload size in octets."""
    head = ident.to_bytes(2, "big") + b"\1\0" + b"\0\1\0\0\0\0\0\1"
    question = names.to_wire(name) + number.to_bytes(2, "big") + b"\0\1"
    options = b"" if subnet is None else subnet_option(ipaddress.ip_network(subnet))
    opt = b"\0" + OPT.to_bytes(2, "big") + size.to_bytes(2, "big") + bytes(4) + len(options).to_bytes(2, "big") + options
    return head + question + opt


def read_record(data, at):
    """A record, its type's number and its octets, and the place behind it."""
    owner, at = names.read(data, at)
    number = int.from_bytes(data[at:at + 2], "big")
    ttl = int.from_bytes(data[at + 4:at + 8], "big")
    length = int.from_bytes(data[at + 8:at + 10], "big")
    at += 10
    kind = values.TYPES.get(number, "TYPE%d" % number)
    text = "" if number == OPT else values.text_at(number, data, at, length)
    return Record(owner, ttl, kind, text), number, data[at:at + length], at + length


def scope_of(options):
    """The scope of the client subnet among an OPT record's options, or None."""
    at = 0
    while at + 4 <= len(options):
        code, length = int.from_bytes(options[at:at + 2], "big"), int.from_bytes(options[at + 2:at + 4], "big")
        if code == SUBNET and length >= 4:
            return options[at + 7]
        at += 4 + length
    return None


def read_reply(data):
    """What the octets of a reply say. Raises ValueError where they are none."""
    if len(data) < 12:
        raise ValueError("a reply has less than 12 octets")
    counts = [int.from_bytes(data[i:i + 2], "big") for i in (4, 6, 8, 10)]
    rcode, scope, at = data[3] & 15, None, 12
    for _ in range(counts[0]):
        at = names.read(data, at)[1] + 4
    sections = []
    for count in counts[1:]:
        records = []
        for _ in range(count):
            record, number, octets, at = read_record(data, at)
            if number == OPT:
                rcode += (record.ttl >> 24) << 4
                scope = scope_of(octets)
            else:
                records.append(record)
        sections.append(records)
    flags = [word for word, is_set in (("aa", data[2] & 4), ("tc", data[2] & 2)) if is_set]
    return Reply(RCODES.get(rcode, "RCODE%d" % rcode), flags, *sections, scope)


# ---- the OPT record's size

def skip_record(packet, at):
    """The type of the record at a place, and the place behind it. Raises NameFault."""
    at = names.read(packet, at)[1]
    return int.from_bytes(packet[at:at + 2], "big"), at + 10 + int.from_bytes(packet[at + 8:at + 10], "big")


def find_opt(packet):
    """(place of the OPT record or None, place behind the last record). Raises ValueError where the packet isn't whole."""
    counts = [int.from_bytes(packet[i:i + 2], "big") for i in (4, 6, 8, 10)]
    at, found = 12, None
    for _ in range(counts[0]):
        at = names.read(packet, at)[1] + 4
    for _ in range(sum(counts[1:])):
        start = at
        kind, at = skip_record(packet, at)
        found = start if kind == OPT else found
    if at > len(packet):
        raise ValueError("a record is cut off")
    return found, at


def widen(packet, size=4096):
    """The packet with this size in its OPT record, and whether it had one; as it is where it isn't whole."""
    try:
        place, end = find_opt(packet)
    except ValueError:
        return packet, True
    if place is not None:
        at = names.read(packet, place)[1] + 2
        return packet[:at] + size.to_bytes(2, "big") + packet[at + 2:], True
    if end < 12 or packet[10:12] == b"\xff\xff":
        return packet, True
    more = (int.from_bytes(packet[10:12], "big") + 1).to_bytes(2, "big")
    return packet[:10] + more + packet[12:end] + b"\0" + OPT.to_bytes(2, "big") + size.to_bytes(2, "big") + bytes(6), False


def without_opt(reply):
    """A reply without the OPT record at its end, where it has one without options."""
    count = int.from_bytes(reply[10:12], "big")
    if not count or reply[-11:-8] != b"\0\0\x29":
        return reply
    return reply[:10] + (count - 1).to_bytes(2, "big") + reply[12:-11]
