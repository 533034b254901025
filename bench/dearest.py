#!/usr/bin/env python3
"""Searches the shapes of a zone for the packet whose reply takes longest.

    python3 bench/dearest.py PROGRAM [--rounds 300] [--seed 1]

PROGRAM is that of bench/answers. A shape is a way of names from the one that is asked for: at each some links of aliases, each a
group of so many sets of a policy, and then a CNAME record to the next name, or to the first one again; at the last one a group of
sets with so many values of a type. Besides: how many labels names have, whether the name is a wildcard's, how many other sets the
zone has, and whether the query has an OPT record. What a shape doesn't use is made plain, so that no two are one. The first shapes are
chosen at random, and each later one changes one thing or two of one of the dearest ten. Printed are the dearest ones, in nanoseconds,
least of seven runs, and as how many plain replies; and how many shapes weren't timed, since no zone has as many sets, or the program
refused them.
"""
import argparse
import random
import subprocess

import answers
from answers import APEX, HEAD, LARGE, alias, country, one, query, simple, subnet

KINDS = ["one", "weighted", "place", "latency", "multivalue"]
CHOICES = {
    "stages": [1, 1, 2, 4, 9], "circle": [False, True], "links": [0, 1, 4, 16], "kind": KINDS, "members": [1, 4, 20, 100],
    "end": KINDS, "sets": [1, 4, 8, 100], "values": [1, 16, 100, 250, 400], "rtype": ["A", "AAAA", "TXT"], "labels": [1, 10, 60, 110],
    "wildcard": [False, True], "others": [0, 2000], "asked": ["plain", "large", "subnet"], "row": [False, True],
}


def policy(kind, n, most):
    if kind == "place" and n == most - 1:
        return "place:set-%d:*" % n
    return answers.policy(kind, n)


def values(shape, n):
    count = min(shape["values"], 16 if shape["rtype"] == "TXT" else 400)
    if shape["rtype"] == "TXT":
        return answers.texts(n % 8, count)
    return answers.addresses(n % 8, count) if shape["rtype"] == "A" else ["2001:db8:%x::%x" % (n, k) for k in range(count)]


def plain_of(shape):
    """The same shape, with what it doesn't use made plain."""
    shape = dict(shape)
    if shape["circle"]:
        shape.update(stages=1, end="one", sets=1, values=1)
    if not shape["links"]:
        shape.update(kind="one")
    if shape["kind"] == "one":
        shape.update(members=1)
    if shape["end"] == "one":
        shape.update(sets=1)
    return shape


def group_of(kind, count):
    return 1 if kind == "one" else count


def sets_of(shape):
    """The sets of a shape, and the name that is asked for; None where a zone can't have as many."""
    tail = "".join(".a" * (shape["labels"] - 1))
    stages = 1 if shape["circle"] else shape["stages"]
    lines, names = [], []
    for stage in range(stages):
        names.append(["s%d-%d%s" % (stage, k, tail) for k in range(shape["links"] + 1)])
    for stage, steps in enumerate(names):
        last = stage == stages - 1 and not shape["circle"]
        rtype = shape["rtype"] if last else "CNAME"
        members = group_of(shape["kind"], shape["members"])
        for k in range(shape["links"]):
            lines += [alias(steps[k], steps[k + 1], policy(shape["kind"], n, members), rtype) for n in range(members)]
        if last:
            ends = group_of(shape["end"], shape["sets"])
            lines += [one(steps[-1], rtype, values(shape, n), policy(shape["end"], n, ends)) for n in range(ends)]
        else:
            following = names[0][0] if shape["circle"] else names[stage + 1][0]
            lines.append(one(steps[-1], "CNAME", ["%s.%s." % (following, APEX)]))
    if shape["wildcard"]:
        lines.append(one("*" + tail, "CNAME", ["%s.%s." % (names[0][0], APEX)]))
    top = "any" + tail if shape["wildcard"] else names[0][0]
    lines += simple(shape["others"])
    if shape["row"]:
        lines += ["row geo 10.0.%d.0/24 EU %s -" % (n, country(n % 40)) for n in range(256)]
    return (lines, top) if len(lines) < 9990 + 256 * shape["row"] else None


def text_of(shape):
    made = sets_of(shape)
    if made is None:
        return None
    lines, top = made
    opt = {"plain": b"", "large": LARGE, "subnet": subnet(10, 0, 7)}[shape["asked"]]
    number = {"A": 1, "AAAA": 28, "TXT": 16}[shape["rtype"]]
    return "\n".join(HEAD + lines + [query(top + "." + APEX, number, opt)]) + "\n"


def time_of(program, text, turns):
    ran = subprocess.run([program, str(turns)], input=text, stdout=subprocess.PIPE, stderr=subprocess.PIPE, text=True)
    return int(ran.stdout.split()[0]) if ran.returncode == 0 else None


def main():
    words = argparse.ArgumentParser()
    words.add_argument("program")
    words.add_argument("--rounds", type=int, default=300)
    words.add_argument("--seed", type=int, default=1)
    words = words.parse_args()
    r = random.Random(words.seed)
    plain = time_of(words.program, answers.lines(answers.CASES[2]), 100000)
    found, passed = [], 0
    for n in range(words.rounds):
        shape = {key: r.choice(all) for key, all in CHOICES.items()}
        if n > words.rounds // 3 and found:
            shape = dict(r.choice(found[:10])[1])
            for _ in range(r.choice([1, 1, 2])):
                key = r.choice(sorted(CHOICES))
                shape[key] = r.choice(CHOICES[key])
        shape = plain_of(shape)
        if shape in [it[1] for it in found]:
            continue
        text = text_of(shape)
        taken = time_of(words.program, text, 5) if text else None
        if taken is None:
            passed += 1
            continue
        found.append((taken, shape))
        found.sort(key=lambda it: -it[0])
    print("plain: %d; %d shapes timed, %d not" % (plain, len(found), passed))
    for taken, shape in found[:8]:
        again = time_of(words.program, text_of(shape), 20)
        print("%9d %6.0f  %s" % (again, again / plain, " ".join("%s=%s" % it for it in shape.items())), flush=True)


if __name__ == "__main__":
    main()
