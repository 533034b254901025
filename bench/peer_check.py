#!/usr/bin/env python3
"""Compares replies with those of NSD, answer by answer, over one zone of simple sets.

    python3 bench/peer_check.py PROGRAM [--queries 1000] [--seed 1] [--zones 0] [--file ORIGIN=FILE ..] [--nsd /usr/sbin/nsd] [--minimal no] [--show 2]

PROGRAM is the built program of bench/answers (bench/run answers PROGRAM < /dev/null): it reads the zone and the packets on its input. NSD (Debian: apt-get install nsd)
gets the same zone as a master file, and the same packets by UDP on 127.0.0.1; its process is ended by its id.

The zone is the one below; with --zones N there are N zones more, made at random of few labels, so that names, wildcards, cuts
and CNAME records meet in many ways, and each is asked for 200 names. Each --file is a master file (RFC 1035, section 5) that somebody
else wrote, as those of Debian's packages bind9 (/etc/bind/db.*) and yadifa, read as a zone of that origin and asked for 200 names, too;
records of other types than those below, and outside the zone, are left out of it, and said. `$INCLUDE` and other classes than IN aren't read.

Compared are RCODE, AA, TC, RD, the question, whether there is an OPT record, and the three sections as sets of records (owner,
type, class, TTL, data; names without case, compression undone). Differences that have a reason are counted by it, each shown a few
times; the reasons are in `reason`, and each tests all of the difference that it explains. Any other difference ends the script
with status 1.
"""
import argparse
import random
import re
import socket
import subprocess
import sys
import tempfile
import time

APEX = "example.com"

# Each set of the zone: owner, type, TTL, values.
ZONE = [
    ("@", "SOA", 900, ["ns1.example.com. hostmaster.example.com. 7 7200 900 1209600 300"]),
    ("@", "NS", 172800, ["ns1.example.com.", "ns2.example.com.", "ns.example.net."]),
    ("@", "A", 300, ["192.0.2.10"]),
    ("@", "MX", 300, ["10 mail.example.com.", "20 mail.example.net."]),
    ("@", "TXT", 300, ['"v=spf1 -all"']),
    ("@", "CAA", 300, ['0 issue "ca.example.net"']),
    ("ns1", "A", 3600, ["192.0.2.1"]),
    ("ns1", "AAAA", 3600, ["2001:db8::1"]),
    ("ns2", "A", 3600, ["192.0.2.2"]),
    ("www", "A", 300, ["192.0.2.11", "192.0.2.12", "192.0.2.13"]),
    ("www", "AAAA", 600, ["2001:db8::11"]),
    ("mail", "A", 300, ["192.0.2.20"]),
    ("text", "TXT", 60, ['"one" "two"', '"' + "x" * 200 + '" "' + "y" * 255 + '"', '"' + "z" * 250 + '"']),
    ("spf", "SPF", 60, ['"v=spf1 -all"']),
    ("many", "A", 60, ["198.51.100.%d" % n for n in range(1, 61)]),
    ("alias", "CNAME", 300, ["www.example.com."]),
    ("chain", "CNAME", 300, ["alias.example.com."]),
    ("away", "CNAME", 300, ["www.example.net."]),
    ("lost", "CNAME", 300, ["nothing.example.com."]),
    ("down", "CNAME", 300, ["host.sub.example.com."]),
    ("star", "CNAME", 300, ["any.wild.example.com."]),
    ("empty", "CNAME", 300, ["b.c.example.com."]),
    ("*.wild", "A", 120, ["192.0.2.30"]),
    ("*.wild", "TXT", 120, ['"from the wildcard"']),
    ("here.wild", "MX", 120, ["5 mail.example.com."]),
    ("deep.below.wild", "A", 120, ["192.0.2.31"]),
    ("*.to", "CNAME", 120, ["www.example.com."]),
    ("a.b.c", "A", 300, ["192.0.2.40"]),
    ("_sip._tcp", "SRV", 300, ["10 5 5060 www.example.com.", "20 0 5060 sip.example.net."]),
    ("4.3.2.1.rev", "PTR", 300, ["www.example.com."]),
    ("sub", "NS", 3600, ["ns1.sub.example.com.", "ns2.example.com.", "ns.example.org."]),
    ("ns1.sub", "A", 3600, ["203.0.113.1"]),
    ("ns1.sub", "AAAA", 3600, ["2001:db8:1::1"]),
    ("bare", "NS", 3600, ["ns.example.org."]),
    ("x.y.cut", "NS", 3600, ["ns.x.y.cut.example.com."]),
    ("ns.x.y.cut", "A", 3600, ["203.0.113.2"]),
]

TYPES = {1: "A", 2: "NS", 5: "CNAME", 6: "SOA", 12: "PTR", 15: "MX", 16: "TXT", 28: "AAAA", 33: "SRV", 99: "SPF", 257: "CAA"}
# types that no set has, and those that ask for more than one type
OTHERS = [13, 43, 64, 65, 48, 65280, 255, 252, 251]


def full(owner):
    return APEX if owner == "@" else owner + "." + APEX


def address(r):
    return "192.0.2.%d" % r.randrange(1, 255)


def random_name(r, most=3):
    labels = [r.choice(["a", "b", "c", "d", "*"]) for _ in range(r.randrange(1, most + 1))]
    return ".".join(labels)


def random_target(r):
    return r.choice([full(random_name(r)), full(random_name(r)), full(random_name(r, 4)), "ns.example.net"]) + "."


def random_zone(r):
    """A zone at random: at each name a CNAME record, a cut, or some sets."""
    zone = [it for it in ZONE if it[0] == "@" and it[1] in ("SOA", "NS")]
    for owner in sorted({random_name(r) for _ in range(r.randrange(4, 24))}):
        kind, ttl = r.random(), r.choice([60, 300, 3600])
        if kind < 0.2:
            zone.append((owner, "CNAME", ttl, [random_target(r)]))
        elif kind < 0.4 and not owner.startswith("*"):
            servers = sorted({r.choice([random_target(r), "n1." + full(owner) + "."]) for _ in range(r.randrange(1, 4))})
            zone.append((owner, "NS", ttl, servers))
            if r.random() < 0.7:
                zone.append(("n1." + owner, "A", ttl, [address(r)]))
            if r.random() < 0.4:
                zone.append(("n1." + owner, "AAAA", ttl, ["2001:db8::%d" % r.randrange(9)]))
        else:
            for rtype in r.sample(["A", "AAAA", "MX", "TXT", "PTR"], r.randrange(1, 3)):
                values = {"A": sorted({address(r) for _ in range(r.randrange(1, 4))}), "AAAA": ["2001:db8::1"],
                          "MX": ["%d %s" % (r.randrange(9), random_target(r))], "TXT": ['"%s"' % owner], "PTR": [random_target(r)]}
                zone.append((owner, rtype, ttl, values[rtype]))
    return zone


# ---- master files (RFC 1035, section 5)

SECONDS = {"": 1, "s": 1, "m": 60, "h": 3600, "d": 86400, "w": 604800}

# which fields of values are names
NAMES_OF = {"NS": [0], "CNAME": [0], "PTR": [0], "SOA": [0, 1], "MX": [1], "SRV": [3]}


def seconds(text):
    """A time: seconds, or numbers with units, as BIND reads them."""
    return sum(int(n) * SECONDS[unit.lower()] for n, unit in re.findall(r"(\d+)([smhdwSMHDW]?)", text))


def is_time(text):
    return re.fullmatch(r"(\d+[smhdwSMHDW]?)+", text) is not None


def entries(text):
    """The entries of a master file: their fields, the first one empty where the line begins with a blank."""
    fields, depth = [], 0
    for line in text.split("\n"):
        found = re.findall(r'"(?:\\.|[^"\\])*"|;.*|[()]|[^\s()";]+', line)
        if depth == 0:
            fields = [""] if line[:1] in (" ", "\t") else []
        for word in found:
            if word.startswith(";"):
                break
            depth += {"(": 1, ")": -1}.get(word, 0)
            if word not in "()":
                fields.append(word)
        if depth == 0 and [it for it in fields if it]:
            yield fields
            fields = []


def read_file(origin, path):
    """The sets of a master file, each with its owner below the origin, and how many records were left out."""
    top, base, ttl, last, sets, passed = origin.lower().rstrip("."), origin.lower().rstrip("."), None, "@", {}, 0

    def absolute(name):
        return name.lower() if name.endswith(".") else base + "." if name == "@" else name.lower() + "." + base + "."

    for fields in entries(open(path, encoding="utf-8").read()):
        if fields[0] == "$TTL":
            ttl = seconds(fields[1])
            continue
        if fields[0] == "$ORIGIN":
            base = absolute(fields[1])[:-1]
            continue
        if fields[0]:
            last = absolute(fields[0])[:-1]
        rest, own = fields[1:], ttl
        while is_time(rest[0]) or rest[0].upper() == "IN":
            own = own if rest[0].upper() == "IN" else seconds(rest[0])
            rest = rest[1:]
        rtype, data = rest[0].upper(), rest[1:]
        if rtype not in TYPES.values() or not (last == top or last.endswith("." + top)):
            passed += 1
            continue
        data = [absolute(it) if n in NAMES_OF.get(rtype, []) else it for n, it in enumerate(data)]
        if rtype == "SOA":
            data = data[:3] + [str(seconds(it)) for it in data[3:]]
        owner = "@" if last == top else last[:-len(top) - 1]
        sets.setdefault((owner, rtype), (own, []))[1].append(" ".join(data))
    return [(owner, rtype, own, values) for (owner, rtype), (own, values) in sets.items()], passed


def random_queries(r, zone, count):
    owners = sorted({it[0] for it in zone} - {"@"}) or ["@"]
    below = [it for it in owners if it != "@"] or ["a"]
    for n in range(count):
        owner = r.choice([random_name(r, 4), r.choice(owners + ["@"]), r.choice(owners), r.choice("abx") + "." + r.choice(below)])
        rtype = r.choice([1, 1, 1, 28, 2, 5, 6, 12, 15, 16, 65280])
        opt = b"\0\0\x29\x10\0\0\0\0\0\0\0"
        yield full(owner), rtype, query(n, b"\0\0", wire_name(mixed(r, full(owner))), rtype, 1, opt)


# ---- packets

def wire_name(text):
    return b"".join(bytes([len(it)]) + it.encode() for it in text.split(".") if it) + b"\0"


def query(ident, flags, name, rtype, rclass, opt):
    return (ident.to_bytes(2, "big") + flags + b"\0\1\0\0\0\0" + (1 if opt else 0).to_bytes(2, "big")
            + name + rtype.to_bytes(2, "big") + rclass.to_bytes(2, "big") + opt)


def read_name(data, at):
    """The labels of a name, without case, and where it ends."""
    labels, end, hops = [], None, 0
    while data[at]:
        if data[at] >= 0xC0:
            end = end or at + 2
            at = (data[at] & 0x3F) << 8 | data[at + 1]
            hops += 1
            if hops > 128:
                raise ValueError("a circle of pointers")
        else:
            labels.append(bytes(data[at + 1:at + 1 + data[at]]).lower())
            at += 1 + data[at]
    return tuple(labels), end or at + 1


# how many octets stand before the names in data, and how many names there are
NAMED = {2: (0, 1), 5: (0, 1), 6: (0, 2), 12: (0, 1), 15: (2, 1), 33: (6, 1)}


def read_data(data, at, size, rtype):
    """Data with their names as labels."""
    if rtype not in NAMED:
        return (bytes(data[at:at + size]),)
    before, names = NAMED[rtype]
    parts, place = [bytes(data[at:at + before])], at + before
    for _ in range(names):
        name, place = read_name(data, place)
        parts.append(name)
    return tuple(parts + [bytes(data[place:at + size])])


class Reply:
    """A reply, read."""

    def __init__(self, data):
        self.ident, flags = data[:2], int.from_bytes(data[2:4], "big")
        self.rcode, self.aa, self.tc, self.rd = flags & 15, bool(flags & 0x400), bool(flags & 0x200), bool(flags & 0x100)
        self.rest = flags & 0xF8F0 & ~0x0080
        counts = [int.from_bytes(data[n:n + 2], "big") for n in (4, 6, 8, 10)]
        at, self.question, self.opt = 12, None, None
        for _ in range(counts[0]):
            name, at = read_name(data, at)
            self.question = (name, bytes(data[at:at + 4]))
            at += 4
        self.sections = []
        for count in counts[1:]:
            records = []
            for _ in range(count):
                owner, at = read_name(data, at)
                rtype, rclass = int.from_bytes(data[at:at + 2], "big"), int.from_bytes(data[at + 2:at + 4], "big")
                ttl, size = int.from_bytes(data[at + 4:at + 8], "big"), int.from_bytes(data[at + 8:at + 10], "big")
                at += 10
                if rtype == 41:
                    self.opt = (rclass, ttl)
                    self.rcode |= (ttl >> 24) << 4
                else:
                    records.append((owner, rtype, rclass, ttl, read_data(data, at, size, rtype)))
                at += size
            self.sections.append(records)
        if at != len(data):
            raise ValueError("octets behind the last record")
        self.size = len(data)


# ---- what is asked

def names_of(r):
    """Random names in and around the zone, of each kind."""
    owners = sorted({full(it[0]) for it in ZONE})
    word = "".join(r.choice("abcdefgh") for _ in range(r.randrange(1, 6)))
    cuts = ["sub", "bare", "x.y.cut"]
    kinds = [
        lambda: r.choice(owners),
        lambda: r.choice(owners),
        lambda: word + "." + APEX,
        lambda: word + "." + r.choice(owners),
        lambda: word + ".wild." + APEX,
        lambda: word + "." + word + ".wild." + APEX,
        lambda: word + r.choice([".here", ".below", ".deep.below", ".*"]) + ".wild." + APEX,
        lambda: r.choice(["below", "*"]) + ".wild." + APEX,
        lambda: word + r.choice([".to.", ".*.to."]) + APEX,
        lambda: word + "." + full(r.choice(cuts)),
        lambda: word + "." + word + "." + full(r.choice(cuts)),
        lambda: r.choice(["c", "b.c", "y.cut", "cut", "wild", "to", "_tcp", "rev", "2.1.rev"]) + "." + APEX,
        lambda: r.choice(["www", "ns1.sub", "alias", "sub"]) + "." + APEX,
        lambda: r.choice(["many", "text"]) + "." + APEX,
        lambda: r.choice(["com", "example.net", "www.example.org", "", "xexample.com"]),
        lambda: ".".join([word[:1]] * r.choice([20, 60, 119])) + "." + APEX,
    ]
    return r.choice(kinds)()


def mixed(r, text):
    return "".join(it.upper() if r.random() < 0.3 else it for it in text)


def queries(r, count):
    for n in range(count):
        name = names_of(r)
        rtype = r.choice([1, 1, 1, 28] + list(TYPES) + ([r.choice(OTHERS)] if r.random() < 0.5 else []))
        rclass = 1 if r.random() < 0.98 else r.choice([3, 254])
        flags = bytes([r.choice([0, 1]), r.choice([0, 0, 0, 0x10, 0x20])])
        opt = b""
        if r.random() < 0.6:
            size, version = r.choice([0, 512, 1232, 4096, 4096, 65535]), 1 if r.random() < 0.05 else 0
            opt = b"\0\0\x29" + size.to_bytes(2, "big") + bytes([0, version, r.choice([0, 0x80]), 0]) + b"\0\0"
        yield name, rtype, query(n, flags, wire_name(mixed(r, name)), rtype, rclass, opt)


# ---- the two servers

def ours(program, zone, packets):
    lines = ["zone " + APEX]
    for owner, rtype, ttl, values in zone:
        lines.append("set %s %s simple %d %s" % (full(owner), rtype, ttl, "|".join(values)))
    lines += ["query " + it.hex() for it in packets]
    ran = subprocess.run([program], input="\n".join(lines) + "\n", stdout=subprocess.PIPE, text=True, timeout=300)
    replies = ran.stdout.split("\n")[:-1]
    if ran.returncode or len(replies) != len(packets):
        sys.exit("the program ended with status %d after %d of %d replies" % (ran.returncode, len(replies), len(packets)))
    return [bytes.fromhex(it) for it in replies]


def free_port():
    with socket.socket(socket.AF_INET, socket.SOCK_DGRAM) as it:
        it.bind(("127.0.0.1", 0))
        return it.getsockname()[1]


def theirs(nsd, minimal, zone, packets):
    port = free_port()
    with tempfile.TemporaryDirectory(prefix="peer-") as folder:
        with open(folder + "/zone", "w") as it:
            for owner, rtype, ttl, values in zone:
                for value in values:
                    it.write("%s. %d IN %s %s\n" % (full(owner), ttl, rtype, value))
        with open(folder + "/conf", "w") as it:
            it.write("\n".join([
                "server:", "  ip-address: 127.0.0.1", "  port: %d" % port, '  username: ""', '  zonesdir: "%s"' % folder,
                '  database: ""', '  pidfile: "%s/pid"' % folder, '  logfile: "%s/log"' % folder, '  xfrdfile: ""',
                '  zonelistfile: "%s/list"' % folder, '  xfrdir: "%s"' % folder, "  server-count: 1", "  rrl-ratelimit: 0",
                "  rrl-whitelist-ratelimit: 0", "  refuse-any: no", "  minimal-responses: " + minimal, "  do-ip6: no",
                "  ipv4-edns-size: 4096", "remote-control:", "  control-enable: no",
                "zone:", '  name: "%s"' % APEX, "  zonefile: zone"]) + "\n")
        server = subprocess.Popen([nsd, "-d", "-c", folder + "/conf"], stdout=subprocess.DEVNULL, stderr=subprocess.DEVNULL)
        try:
            with socket.socket(socket.AF_INET, socket.SOCK_DGRAM) as sock:
                sock.connect(("127.0.0.1", port))
                sock.settimeout(0.3)
                for _ in range(50):
                    try:
                        sock.send(query(65535, b"\0\0", wire_name(APEX), 6, 1, b""))
                        if Reply(sock.recv(65535)).rcode == 0:
                            break
                    except OSError:
                        time.sleep(0.1)
                else:
                    with open(folder + "/log") as it:
                        sys.exit("NSD didn't answer: " + it.read()[-800:])
                return [ask(sock, it) for it in packets]
        finally:
            server.terminate()
            server.wait()


def ask(sock, packet):
    for _ in range(5):
        sock.send(packet)
        try:
            while True:
                data = sock.recv(65535)
                if data[:2] == packet[:2]:
                    return data
        except OSError:
            pass
    return b""


# ---- what differs, and why

def addresses_of(records):
    """Names in the data of NS, MX and SRV records, whose addresses a server may add."""
    return {part for it in records if it[1] in (2, 15, 33) for part in it[4][1:2]}


def reason(zone, rtype, us, them):
    """Why two replies differ, or None: each reason tests the whole difference."""
    if us is None or them is None:
        return "one of them is silent" if us is not them else "same"
    heads = [(it.rcode, it.aa, it.tc, it.rd, it.question, it.opt is None) for it in (us, them)]
    sets = [[set(section) for section in it.sections] for it in (us, them)]
    if heads[0] == heads[1] and sets[0] == sets[1]:
        return "same"
    if us.question and us.question[1][2:] != b"\0\1" and us.rcode == 5:
        return "another class than IN: REFUSED here"
    if rtype in (251, 252, 255) and us.rcode == 5:
        return "ANY, AXFR, IXFR: REFUSED here"
    if us.rcode == 16 and them.rcode == 16 and us.opt and them.opt and not any(us.sections[0] + them.sections[0]):
        return "BADVERS: the rest of the header differs"
    if us.tc and not any(us.sections) and heads[0][0] == heads[1][0]:
        return "cut: no record here, some there" if them.tc else "cut here alone"
    cut_here = any(it[0] == us.question[0] and it[1] == 2 for it in sets[0][1])
    if rtype == 43 and not us.aa and them.aa and not sets[0][0] and cut_here:
        return "DS at a zone cut: a referral here, no data of the parent zone there (RFC 4035, 3.1.4.1)"
    if heads[0] != heads[1]:
        return None
    (answer, authority, additional), (answer2, authority2, additional2) = sets
    if answer != answer2 or not authority <= authority2 or not additional <= additional2:
        return None
    more, extra = authority2 - authority, additional2 - additional
    apex = tuple(it.encode() for it in APEX.split("."))
    if any(it[0] != apex or it[1] != 2 for it in more) or (more and not answer):
        return None
    asked = addresses_of(answer2 | authority2)
    if any(it[1] not in (1, 28) or it[0] not in asked for it in extra):
        return None
    if not authority and more:
        return "not minimal: the apex NS, and addresses of names in data" if extra else "not minimal: the apex NS"
    if not us.aa:
        owners = {full(it[0]).lower() for it in zone}
        named = any(b".".join(it[0]).decode() in owners for it in extra)
        return None if named else "a referral: addresses of name servers from a wildcard there"
    return "addresses of names in data"


def text_of(record):
    owner, rtype, _, ttl, data = record
    parts = [".".join(p.decode("latin-1") for p in it) + "." if isinstance(it, tuple) else it.hex() for it in data]
    return "%s. %d %s %s" % (".".join(it.decode("latin-1") for it in owner), ttl, TYPES.get(rtype, rtype), " ".join(p for p in parts if p))


def show(reply):
    if reply is None:
        return "silence"
    lines = ["rcode %d aa %d tc %d opt %s, %d octets" % (reply.rcode, reply.aa, reply.tc, reply.opt, reply.size)]
    for title, records in zip(("answer", "authority", "additional"), reply.sections):
        lines += ["    %s %s" % (title, text_of(it)) for it in records[:6]]
        lines += ["    %s .. %d in all" % (title, len(records))] if len(records) > 6 else []
    return "\n".join(lines)


def main():
    words = argparse.ArgumentParser()
    words.add_argument("program")
    words.add_argument("--queries", type=int, default=1000)
    words.add_argument("--seed", type=int, default=1)
    words.add_argument("--zones", type=int, default=0)
    words.add_argument("--file", action="append", default=[])
    words.add_argument("--nsd", default="/usr/sbin/nsd")
    words.add_argument("--minimal", choices=["yes", "no"], default="no")
    words.add_argument("--show", type=int, default=2)
    words = words.parse_args()
    told = Told(words.show)
    r = random.Random(words.seed)
    compare(words, ZONE, list(queries(r, words.queries)), told)
    for n in range(words.zones):
        zone = random_zone(r)
        compare(words, zone, list(random_queries(r, zone, 200)), told)
    for origin, path in (it.split("=", 1) for it in words.file):
        global APEX
        APEX = origin.lower().rstrip(".")
        zone, passed = read_file(origin, path)
        print("%s: %d sets, %d records left out" % (path, len(zone), passed))
        compare(words, zone, list(random_queries(r, zone, 200)), told)
    told.end()


class Told:
    """What differed, counted by its reason."""

    def __init__(self, most):
        self.most, self.counts, self.sizes = most, {}, [0, 0, 0]

    def note(self, why, name, rtype, packet, us, them, zone):
        count = self.counts[why] = self.counts.get(why, 0) + 1
        if why == "same" and us:
            self.sizes = [self.sizes[0] + 1, self.sizes[1] + us.size, self.sizes[2] + them.size]
        if why == "same" or count > (20 if why is None else self.most):
            return
        print("%s: %s %s, %s\n  here  %s\n  there %s" % (why or "NO REASON", name, TYPES.get(rtype, rtype), packet.hex(), show(us), show(them)))
        if why is None and zone is not ZONE:
            print("\n".join("  zone  %s %s %d %s" % (it[0], it[1], it[2], " | ".join(it[3])) for it in zone))

    def end(self):
        for why, count in sorted(self.counts.items(), key=lambda it: -it[1]):
            print("%5d  %s" % (count, why or "NO REASON"))
        if self.sizes[0]:
            each = [it / self.sizes[0] for it in self.sizes[1:]]
            print("octets of a reply where they are the same, in the mean: %.1f here, %.1f there" % tuple(each))
        sys.exit(1 if None in self.counts else 0)


def compare(words, zone, asked, told):
    packets = [it[2] for it in asked]
    here, there = ours(words.program, zone, packets), theirs(words.nsd, words.minimal, zone, packets)
    for (name, rtype, packet), mine, other in zip(asked, here, there):
        us, them = Reply(mine) if mine else None, Reply(other) if other else None
        told.note(reason(zone, rtype, us, them), name, rtype, packet, us, them, zone)


if __name__ == "__main__":
    main()
