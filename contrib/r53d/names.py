"""Names of domains: their texts, and their octets on the wire.

A text is written as the program writes it: in lower case, with a dot at its end, and each octet other than a to z, 0 to 9,
`-` and `_` as a backslash with three octal digits (docs/FORMATS.md, Texts of names).
"""

PLAIN = frozenset(b"abcdefghijklmnopqrstuvwxyz0123456789-_")


class NameFault(ValueError):
    """A text that is no name; its text says why."""


def label_text(label):
    """The text of one label's octets."""
    return "".join(chr(o) if o in PLAIN else "\\%03o" % o for o in label)


def read(data, at):
    """The text of the name at a place in octets, and the place behind it. Pointers are followed, at most 127 of them.

    Raises NameFault where no name stands there.
    """
    labels, behind, jumps = [], None, 0
    while True:
        if at >= len(data):
            raise NameFault("a name is cut off")
        size = data[at]
        if size >= 0xC0:
            if at + 2 > len(data) or jumps == 127:
                raise NameFault("a pointer leads nowhere")
            behind = at + 2 if behind is None else behind
            at = int.from_bytes(data[at:at + 2], "big") & 0x3FFF
            jumps += 1
            continue
        if size >= 0x40 or at + 1 + size > len(data):
            raise NameFault("a label is cut off")
        at += 1
        if size == 0:
            text = "".join(label + "." for label in labels) or "."
            return text, at if behind is None else behind
        labels.append(label_text(data[at:at + size].lower()))
        at += size


def octet_at(text, at):
    """The octet that a character of a text spells, and the place behind it."""
    if text[at] != "\\":
        if not 0x21 <= ord(text[at]) <= 0x7E:
            raise NameFault("bad byte at %d" % at)
        return ord(text[at]), at + 1
    digits = text[at + 1:at + 4]
    if len(digits) < 3 or any(d not in "01234567" for d in digits) or int(digits, 8) > 255:
        raise NameFault("bad escape at %d" % at)
    return int(digits, 8), at + 4


def to_wire(text):
    """The octets of the name that a text spells, in lower case. Raises NameFault."""
    if text == ".":
        return b"\0"
    out, label, at = bytearray(), bytearray(), 0
    if not text:
        raise NameFault("empty label at 0")
    while at < len(text):
        if text[at] == ".":
            if not label:
                raise NameFault("empty label at %d" % at)
            out += bytes([len(label)]) + label
            label, at = bytearray(), at + 1
        else:
            octet, at = octet_at(text, at)
            label.append(octet)
            if len(label) > 63:
                raise NameFault("a label has more than 63 octets")
    if label:
        out += bytes([len(label)]) + label
    out += b"\0"
    if len(out) > 255:
        raise NameFault("a name has more than 255 octets")
    return bytes(out).lower()


def canonical(text):
    """The text as the program writes it. Raises NameFault."""
    return read(to_wire(text), 0)[0]


def labels(text):
    """The labels of a written text, from the left; the root has none."""
    return text[:-1].split(".") if text != "." else []


def parents(text):
    """A written name, then each one above it, and the root at the end."""
    parts = labels(text)
    return [".".join(parts[i:]) + "." for i in range(len(parts))] + ["."]


def is_below(text, top):
    """Whether a written name is `top` or below it."""
    return top == "." or text == top or text.endswith("." + top)


def order_key(text):
    """A key that puts written names in zone order: a name before all below it."""
    return [label.encode() for label in reversed(labels(text))]
