#!/usr/bin/env python3
"""How long replies take, from a packet to the octets of its reply: zones as people have them, and the dearest packets found.

    python3 bench/answers.py PROGRAM [TITLE..]            least and median of seven runs, in nanoseconds, beside the goal
    python3 bench/answers.py PROGRAM --profile TITLE..     instructions of a reply, by function (valgrind)
    python3 bench/answers.py PROGRAM --write FOLDER        the input of each case, as a file

PROGRAM is the built program of bench/answers (bench/run answers PROGRAM < /dev/null); a title is the beginning of one. Packets are chosen at random among those of
a case, so that a zone of 10,000 sets is looked up at 10,000 names. All but the table of places is in one zone, and all sets are
healthy. The goal of a case of the second kind is five times that of a plain reply.
"""
import argparse
import os
import re
import subprocess
import sys
import tempfile

APEX = "example.com"
HEAD = ["zone " + APEX, "set %s NS simple 172800 ns1.r53.invalid." % APEX,
        "set %s SOA simple 900 ns1.r53.invalid. hostmaster.r53.invalid. 1 7200 900 1209600 86400" % APEX]
LARGE = b"\0\0\x29\x10\0\0\0\0\0\0\0"
PLAIN, DEAR = 260, 1300


def query(owner, rtype=1, opt=b""):
    name = b"".join(bytes([len(it)]) + it.encode() for it in owner.split(".")) + b"\0"
    header = b"\x12\x34\1\0\0\1\0\0\0\0\0" + bytes([bool(opt)])
    return "query " + (header + name + rtype.to_bytes(2, "big") + b"\0\1" + opt).hex()


def subnet(a, b, c):
    return b"\0\0\x29\x10\0\0\0\0\0\0\x0b\0\x08\0\x07\0\1\x18\0" + bytes([a, b, c])


def one(owner, rtype, values, policy="simple", ttl=300):
    return "set %s.%s %s %s %d %s" % (owner, APEX, rtype, policy, ttl, "|".join(values))


def alias(owner, target, policy="simple", rtype="A"):
    return "alias %s.%s %s %s %s.%s" % (owner, APEX, rtype, policy, target, APEX)


def www(n):
    return "www-%06d" % n


def asked(count, name=www, first=0, opt=lambda n: b"", rtype=1):
    return [query(name(n + first) + "." + APEX, rtype, opt(n)) for n in range(count)]


# ---- zones as people have them

def simple(count, name=www):
    return [one(name(n), "A", ["192.0.2.1"]) for n in range(count)]


def weighted(groups, each):
    return [one(www(n), "A", ["192.0.2.1"], "weighted:set-%d:%d" % (k, 10 + k)) for n in range(groups) for k in range(each)]


def country(n):
    return chr(65 + n // 20 % 20) + chr(65 + n % 20)


def places(groups, each):
    sets = [one(www(n), "A", ["192.0.2.1"], "place:set-%d:%s" % (k, "*" if k == each - 1 else country(k)))
            for n in range(groups) for k in range(each)]
    return sets + ["row geo 10.%d.%d.0/24 EU %s -" % (n // 256, n % 256, country(n % 40)) for n in range(10000)]


def latencies(groups, each):
    sets = [one(www(n), "A", ["192.0.2.1"], "latency:set-%d:eu-west-%d" % (k, k)) for n in range(groups) for k in range(each)]
    row = "row lat 10.%d.%d.0/24 eu-west-%d=10,eu-west-%d=20"
    return sets + [row % (n // 256, n % 256, n % 20, n % 7 + 20) for n in range(10000)]


def failover(pairs):
    return [one(www(n), "A", ["192.0.2.1"], "failover:set-%s:%s" % (it, it)) for n in range(pairs) for it in "PS"]


def multivalue(groups, each):
    return [one(www(n), "A", ["192.0.2.%d" % k], "multivalue:set-%d" % k) for n in range(groups) for k in range(each)]


def chains(count):
    sets = []
    for n in range(count):
        names = [www(n)] + ["c%d-%06d" % (k, n) for k in range(1, 9)]
        sets += [one(names[k], "CNAME", ["%s.%s." % (names[k + 1], APEX)]) for k in range(8)]
        sets += [one(names[8], "A", ["192.0.2.1"]), alias("top-%06d" % n, names[8])]
    return sets


def wildcards(count):
    return [one("*." + www(n), "A", ["192.0.2.1"]) for n in range(count)]


def cuts(count):
    sets = []
    for n in range(count):
        server = "ns.%s.%s." % (www(n), APEX)
        sets += [one(www(n), "NS", [server]), one("ns." + www(n), "A", ["192.0.2.1"])]
    return sets


def below(n):
    return "a." + www(n)


def scattered(n):
    """Names of which later ones stand anywhere among earlier ones, each another."""
    return www(n * 7919 % 999983)


def near(n):
    return subnet(10, n * 7919 % 10000 // 256, n * 7919 % 10000 % 256)


CASES = [
    ("simple, a zone of 10 sets", PLAIN, 500000, lambda: simple(10) + asked(10)),
    ("simple, a zone of 1,000 sets", PLAIN, 500000, lambda: simple(998) + asked(998)),
    ("simple, a zone of 10,000 sets", PLAIN, 500000, lambda: simple(9998) + asked(9998)),
    ("simple, a client subnet", PLAIN, 500000, lambda: simple(9998) + asked(9998, opt=near)),
    ("no data", 900, 500000, lambda: simple(9998) + asked(9998, rtype=16)),
    ("absent, a zone of 10 sets", 900, 500000, lambda: simple(10) + asked(10, first=500000)),
    ("absent, a zone of 1,000 sets", 900, 500000, lambda: simple(998) + asked(998, first=500000)),
    ("absent, a zone of 10,000 sets", 900, 500000, lambda: simple(9998) + asked(9998, first=500000)),
    ("absent among the sets of a zone of 10,000", 900, 500000,
     lambda: sorted(simple(9998, scattered)) + asked(9998, scattered, first=9998)),
    ("refused", PLAIN, 500000, lambda: simple(9998) + [query("www.example.net")]),
    ("wildcard", 900, 500000, lambda: wildcards(9998) + asked(9998, below)),
    ("referral, one name server", 900, 500000, lambda: cuts(4999) + asked(4999, below)),
    ("weighted, groups of 4", 350, 500000, lambda: weighted(2499, 4) + asked(2499)),
    ("place, groups of 20, a client subnet", 500, 500000, lambda: places(499, 20) + asked(499, opt=near)),
    ("latency, groups of 20, a client subnet", 500, 500000, lambda: latencies(499, 20) + asked(499, opt=near)),
    ("failover, pairs", 350, 500000, lambda: failover(4999) + asked(4999)),
    ("multivalue, groups of 8", 900, 200000, lambda: multivalue(1249, 8) + asked(1249)),
    ("chain of eight CNAME records", 3000, 100000, lambda: chains(999) + asked(999)),
    ("alias", 350, 500000, lambda: chains(999) + asked(999, lambda n: "top-%06d" % n)),
]


# ---- the dearest packets

def addresses(group, count):
    return ["10.%d.%d.%d" % (group, n // 256, n % 256) for n in range(count)]


def texts(number, count=16):
    """Values of TXT with 15 strings of 255 octets: 3,840 octets each."""
    return [" ".join(['"' + ("%03d" % (number * 16 + n)) * 85 + '"'] * 15) for n in range(count)]


def long_name(beginning, labels):
    return beginning + "a." * (labels - 1) + "a"


def policy(kind, n):
    return {"one": "simple", "weighted": "weighted:set-%d:1" % n,
            "place": "place:set-%d:%s" % (n, "*" if n == 99 else country(n)),
            "latency": "latency:set-%d:eu-west-%d" % (n, n), "multivalue": "multivalue:set-%d" % n}[kind]


def links(kind, rtype="A"):
    """16 groups of aliases, of one or 100 each, from `top` to `end`."""
    names = ["top"] + ["link-%d" % k for k in range(1, 16)] + ["end"]
    count = 1 if kind == "one" else 100
    return [alias(names[k], names[k + 1], policy(kind, n), rtype) for k in range(16) for n in range(count)]


def circle(kind):
    return links(kind, "CNAME") + [one("end", "CNAME", ["top.%s." % APEX]), query("top." + APEX)]


def referral(servers, count):
    sets = [one("sub", "NS", ["ns-%03d.sub.%s." % (n, APEX) for n in range(servers)])]
    for n in range(servers if count else 0):
        sets.append(one("ns-%03d.sub" % n, "A", addresses(n % 256, count)))
        sets.append(one("ns-%03d.sub" % n, "AAAA", ["2001:db8:%x::%x" % (n, k) for k in range(count)]))
    return sets + [query("www.sub." + APEX)]


def heavy(owner, count):
    return [one(owner, "TXT", texts(0), "weighted:set-%d:0" % n) for n in range(count)]


def heavy_links():
    sets = []
    for k in range(16):
        sets += heavy("link-%d" % k, 99) + [alias("link-%d" % k, "link-%d" % (k + 1), "weighted:last:255", "TXT")]
    return sets


def joint(rtype):
    values = addresses if rtype == "A" else lambda k, _: texts(k)
    return [one("end", rtype, values(k, 400), "multivalue:set-%d" % k) for k in range(8)]


END = query("end." + APEX)
TOP = [one("end", "A", ["192.0.2.1"]), query("top." + APEX)]
LARGER = query("end." + APEX, 1, LARGE)
TEXT = query("end." + APEX, 16)
DEEP = long_name("", 121)
LONG = query(DEEP + "." + APEX)
BESIDE = one(long_name("b.", 120), "A", ["192.0.2.1"])

CASES += [
    ("dear: 61,440 octets of TXT, cut", DEAR, 50000, lambda: [one("end", "TXT", texts(0)), TEXT]),
    ("dear: 400 addresses, cut at 512 octets", DEAR, 50000, lambda: [one("end", "A", addresses(0, 400)), END]),
    ("dear: 400 addresses, cut at 4,096 octets", DEAR, 50000, lambda: [one("end", "A", addresses(0, 400)), LARGER]),
    ("dear: 250 addresses, all told", DEAR, 50000, lambda: [one("end", "A", addresses(0, 250)), LARGER]),
    ("dear: an absent name of 123 labels", DEAR, 5000, lambda: [LONG]),
    ("dear: an absent name of 123 labels beside one", DEAR, 5000, lambda: [BESIDE, LONG]),
    ("dear: an absent name of 123 labels in a zone of 10,000 sets", DEAR, 5000,
     lambda: simple(9997) + [BESIDE, LONG]),
    ("dear: a wildcard's CNAME to a name of 123 labels", DEAR, 1000,
     lambda: [one("*", "CNAME", [DEEP + "." + APEX + "."]), LONG]),
    ("dear: 16 aliases, one after another", DEAR, 50000, lambda: links("one") + TOP),
    ("dear: 16 weighted groups of 100 aliases", DEAR, 1000, lambda: links("weighted") + TOP),
    ("dear: 16 place groups of 100 aliases", DEAR, 1000, lambda: links("place") + TOP),
    ("dear: 16 latency groups of 100 aliases", DEAR, 1000, lambda: links("latency") + TOP),
    ("dear: a circle of CNAME behind 16 aliases", DEAR, 5000, lambda: circle("one")),
    ("dear: a circle of CNAME behind 16 weighted groups", DEAR, 200, lambda: circle("weighted")),
    ("dear: a circle of CNAME behind 16 place groups", DEAR, 200, lambda: circle("place")),
    ("dear: a circle of CNAME behind 16 latency groups", DEAR, 200, lambda: circle("latency")),
    ("dear: a referral to 4 name servers, 2 addresses each", DEAR, 50000, lambda: referral(4, 1)),
    ("dear: a referral to 13 name servers, 2 addresses each", DEAR, 50000, lambda: referral(13, 1)),
    ("dear: a referral to 400 name servers without addresses", DEAR, 1000, lambda: referral(400, 0)),
    ("dear: a referral to 400 name servers, 2 addresses each", DEAR, 1000, lambda: referral(400, 1)),
    ("dear: a referral to 400 name servers, 800 addresses each", DEAR, 20, lambda: referral(400, 400)),
    ("dear: 8 multivalue sets of 400 addresses", DEAR, 20, lambda: joint("A") + [END]),
    ("dear: 8 multivalue sets of 61,440 octets of TXT", DEAR, 20, lambda: joint("TXT") + [TEXT]),
    ("dear: 100 weighted sets of 61,440 octets of TXT", DEAR, 20, lambda: heavy("end", 100) + [TEXT]),
    ("dear: 16 groups of 99 such sets and an alias", DEAR, 5, lambda: heavy_links() + [query("link-0." + APEX, 16)]),
]


def lines(case):
    return "\n".join(HEAD + case[3]()) + "\n"


def timed(program, case):
    ran = subprocess.run([program, str(case[2])], input=lines(case), stdout=subprocess.PIPE, text=True)
    if ran.returncode:
        sys.exit("%s: status %d" % (case[0], ran.returncode))
    least, median, octets = map(int, ran.stdout.split())
    print("%9d %9d  goal %5d  %5d octets  %s" % (least, median, case[1], octets, case[0]), flush=True)


def profile(program, case, most):
    """Instructions of a reply by function: what more replies take, of which all but the replies is the same."""
    totals = []
    turns = max(min(case[2] // 250, 2000), 2)
    with tempfile.TemporaryDirectory(prefix="answers-") as folder:
        for count in (turns, 2 * turns):
            subprocess.run(["valgrind", "--tool=callgrind", "--callgrind-out-file=%s/out" % folder, program, str(count)],
                           input=lines(case), stdout=subprocess.DEVNULL, stderr=subprocess.DEVNULL, text=True, check=True)
            for kind in ("no", "yes"):
                words = ["callgrind_annotate", "--auto=no", "--threshold=100", "--inclusive=" + kind, folder + "/out"]
                said = subprocess.run(words, stdout=subprocess.PIPE, text=True).stdout
                found = {}
                for count_of, name in re.findall(r"^\s*([0-9,]+) (?:\([ 0-9.]+%\))?\s+\S*?:(.*)$", said, re.M):
                    name = re.sub(r" \[.*\]$", "", name)
                    found[name] = found.get(name, 0) + int(count_of.replace(",", ""))
                totals.append(found)
    for at, title in ((0, "alone"), (1, "with what it calls")):
        more = {name: (it - totals[at].get(name, 0)) / (7 * turns) for name, it in totals[at + 2].items()}
        whole = max(more.values()) if at else sum(more.values())
        print("%s: instructions of a reply, by function, %s (in all %.0f)" % (case[0], title, whole))
        for name, it in sorted(more.items(), key=lambda it: -it[1])[:most]:
            if it >= 0.5:
                print("%10.1f  %s" % (it, name))


def main():
    words = argparse.ArgumentParser()
    words.add_argument("program")
    words.add_argument("titles", nargs="*")
    words.add_argument("--profile", action="store_true")
    words.add_argument("--most", type=int, default=45)
    words.add_argument("--write")
    words = words.parse_args()
    for case in CASES:
        if words.titles and not any(case[0].startswith(it) for it in words.titles):
            continue
        if words.write:
            with open(os.path.join(words.write, re.sub(r"\W+", "_", case[0])), "w") as it:
                it.write(lines(case))
        elif words.profile:
            profile(words.program, case, words.most)
        else:
            timed(words.program, case)


if __name__ == "__main__":
    main()
