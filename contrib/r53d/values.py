"""Values of record sets: from their octets to the texts that the program writes (docs/FORMATS.md, Texts of values).

Names in the octets may be pointers into the packet in which they stand.
"""
from . import names

TYPES = {1: "A", 2: "NS", 5: "CNAME", 6: "SOA", 12: "PTR", 15: "MX", 16: "TXT", 28: "AAAA", 33: "SRV", 99: "SPF", 257: "CAA"}
NUMBERS = {text: number for number, text in TYPES.items()}


class ValueFault(ValueError):
    """Octets that are no value of their type."""


def string_text(octets):
    """A string between quotes."""
    def one(o):
        if o in b'"\\':
            return "\\" + chr(o)
        return chr(o) if 0x20 <= o <= 0x7E else "\\%03o" % o
    return '"' + "".join(one(o) for o in octets) + '"'


def ipv6_text(octets):
    """An IPv6 address with `::` for the longest run of two groups of zeros or more, the first of equal ones."""
    groups = [int.from_bytes(octets[i:i + 2], "big") for i in range(0, 16, 2)]
    best, best_len, at = 0, 1, 0
    while at < 8:
        end = at
        while end < 8 and groups[end] == 0:
            end += 1
        if end - at > best_len:
            best, best_len = at, end - at
        at = max(end, at + 1)
    texts = ["%x" % g for g in groups]
    if best_len < 2:
        return ":".join(texts)
    return ":".join(texts[:best]) + "::" + ":".join(texts[best + best_len:])


def address_text(octets):
    """The text of an address of 4 or 16 octets."""
    return ".".join(str(o) for o in octets) if len(octets) == 4 else ipv6_text(octets)


def numbers(data, at, sizes):
    """Texts of numbers of these sizes in octets, and the place behind them."""
    out = []
    for size in sizes:
        out.append(str(int.from_bytes(data[at:at + size], "big")))
        at += size
    return out, at


def strings(data, at, end):
    """The strings of a TXT value up to a place."""
    out = []
    while at < end:
        size = data[at]
        out.append(string_text(data[at + 1:at + 1 + size]))
        at += 1 + size
    return out


def names_at(data, at, count):
    """The texts of names one behind another, and the place behind them."""
    out = []
    for _ in range(count):
        text, at = names.read(data, at)
        out.append(text)
    return out, at


def fields(number, data, at, length):
    """The fields of the value of a type in `length` octets at a place."""
    kind = TYPES.get(number)
    if kind in ("A", "AAAA"):
        return [address_text(data[at:at + length])]
    if kind in ("NS", "CNAME", "PTR"):
        return names_at(data, at, 1)[0]
    if kind == "SOA":
        texts, at = names_at(data, at, 2)
        return texts + numbers(data, at, [4] * 5)[0]
    if kind == "MX":
        texts, at = numbers(data, at, [2])
        return texts + names_at(data, at, 1)[0]
    if kind in ("TXT", "SPF"):
        return strings(data, at, at + length)
    if kind == "SRV":
        texts, at = numbers(data, at, [2, 2, 2])
        return texts + names_at(data, at, 1)[0]
    if kind == "CAA":
        tag = data[at + 1]
        return [str(data[at]), data[at + 2:at + 2 + tag].decode("ascii", "replace"),
                string_text(data[at + 2 + tag:at + length])]
    return ["\\#", str(length), data[at:at + length].hex()]


def text_at(number, data, at, length):
    """The text of the value of a type in `length` octets at a place. Raises ValueFault."""
    if at + length > len(data):
        raise ValueFault("a value is cut off")
    try:
        return " ".join(fields(number, data, at, length))
    except (names.NameFault, IndexError) as fault:
        raise ValueFault(str(fault)) from None


def text_of(number, octets):
    """The text of a value's octets. Raises ValueFault."""
    return text_at(number, octets, 0, len(octets))
