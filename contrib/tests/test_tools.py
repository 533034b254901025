"""What r53ctl says: of a store in use, of one at rest, and where it can't."""
import contextlib
import io
import json
import os
import random
import shutil
import socket
import subprocess
import tempfile
import threading
import time
import unittest

import helpers
from helpers import Case, R53, batch, check, down, failover, one_set, until, zone
from r53d import control, journal, program, undo


class Store(Case):
    """A store at rest, made by lines."""

    def make(self, *lines, tables=""):
        if tables:
            with open(os.path.join(self.folder, "r53.tables"), "w") as file:
                file.write(tables)
        if not os.path.exists(os.path.join(self.folder, "r53-a.journal")):
            program.words(R53, self.folder, "init")
        with program.Session(R53, self.folder) as session:
            replies = list(session.many(program.compact(line) for line in lines))
            session.end()
        return self.all_ok(replies)

    def file(self, *lines):
        path = os.path.join(self.folder, "lines")
        with open(path, "wb") as file:
            file.write(b"".join((line if isinstance(line, bytes) else program.compact(line)) + b"\n" for line in lines))
        return path


def alias(name, target, **more):
    return {"Name": name, "Type": "A", **more,
            "AliasTarget": {"HostedZoneId": "Z1", "DNSName": target, "EvaluateTargetHealth": True}}


WORLD = [
    zone(), zone("sub.example.com"), check(), check(),
    {"CreateHealthCheck": {"HealthCheckConfig": {"Type": "CALCULATED", "HealthThreshold": 1, "ChildHealthChecks": ["h1"], "Inverted": True}}},
    {"CreateCidrCollection": {"Name": "offices"}},
    {"ChangeCidrCollection": {"Id": "c1", "Changes": [{"Action": "PUT", "LocationName": "here", "CidrList": ["198.51.100.0/24", "2001:db8::/32"]}]}},
    failover(),
    batch(*(one_set("w.example.com", "192.0.2.%d" % (10 + n), SetIdentifier=str(n), Weight=n, HealthCheckId="h%d" % (1 + n % 3))
            for n in range(4)), alias("w.example.com", "www.example.com", SetIdentifier="to", Weight=3)),
    batch(*(one_set("m.example.com", "192.0.2.%d" % (30 + n), SetIdentifier="%02d" % n, MultiValueAnswer=True,
                    **({"HealthCheckId": "h1"} if n == 3 else {})) for n in range(12))),
    batch(one_set("g.example.com", "192.0.2.60", SetIdentifier="any", GeoLocation={"CountryCode": "*"}),
          one_set("g.example.com", "192.0.2.61", SetIdentifier="us", GeoLocation={"CountryCode": "US"}),
          one_set("g.example.com", "192.0.2.62", SetIdentifier="tx", GeoLocation={"CountryCode": "US", "SubdivisionCode": "TX"}, HealthCheckId="h1"),
          one_set("g.example.com", "192.0.2.63", SetIdentifier="eu", GeoLocation={"ContinentCode": "EU"})),
    batch(*(one_set("l.example.com", "192.0.2.%d" % (70 + n), SetIdentifier=region, Region=region, HealthCheckId="h%d" % (1 + n))
            for n, region in enumerate(("eu-west-1", "us-east-1", "ap-south-1")))),
    batch(one_set("i.example.com", "192.0.2.80", SetIdentifier="here", CidrRoutingConfig={"CollectionId": "c1", "LocationName": "here"}),
          one_set("i.example.com", "192.0.2.81", SetIdentifier="else", CidrRoutingConfig={"CollectionId": "c1", "LocationName": "*"})),
    batch(alias("a.example.com", "w.example.com"), one_set("x.y.z.example.com", "192.0.2.90")),
    batch({"Name": "c.example.com", "Type": "CNAME", "TTL": 60, "ResourceRecords": [{"Value": "a.example.com"}]},
          {"Name": "out.example.com", "Type": "CNAME", "TTL": 60, "ResourceRecords": [{"Value": "www.example.net"}]},
          {"Name": "*.wild.example.com", "Type": "CNAME", "TTL": 60, "ResourceRecords": [{"Value": "c.example.com"}]},
          {"Name": "cut.example.com", "Type": "NS", "TTL": 60, "ResourceRecords": [{"Value": "ns.cut.example.com"}]},
          one_set("ns.cut.example.com", "192.0.2.99")),
]
TABLES = ("geo 198.51.100.0/24 NA US TX\ngeo 198.51.0.0/16 NA US CA\ngeo 203.0.113.0/24 EU DE -\n"
          "lat 198.51.100.0/24 us-east-1=5,eu-west-1=90\nlat 203.0.113.0/24 eu-west-1=5,us-east-1=5\n")
QUESTIONS = [(name, kind) for name in ("www", "w", "m", "g", "l", "i", "a", "c", "out", "q.wild", "wild", "y.z", "no", "cut", "x.cut", "sub")
             for kind in ("A",)] + [("www", "AAAA"), ("www", "255"), ("w", "TXT")]


CLIENTS = ("192.0.2.1", "198.51.100.7", "198.51.7.7", "203.0.113.7", "2001:db8::1")


def random_name(draw):
    return "%sn%d%s.example.com" % (draw.choice(["", "", "", "*.", "a."]), draw.randrange(9), draw.choice(["", "", ".sub"]))


def random_set(draw, name, policy, number):
    """A set of a policy; its place among the group's makes it differ."""
    more = {} if policy == "simple" else {"SetIdentifier": str(number)}
    if policy == "weighted":
        more["Weight"] = draw.choice([0, 0, 1, 2, 3])
    elif policy == "failover":
        more["Failover"] = ("PRIMARY", "SECONDARY")[number % 2]
    elif policy == "geo":
        more["GeoLocation"] = [{"CountryCode": "*"}, {"CountryCode": "US"}, {"CountryCode": "US", "SubdivisionCode": "TX"}, {"ContinentCode": "EU"}][number % 4]
    elif policy == "latency":
        more["Region"] = ("eu-west-1", "us-east-1", "ap-south-1")[number % 3]
    elif policy == "multi":
        more["MultiValueAnswer"] = True
    elif policy == "cidr":
        more["CidrRoutingConfig"] = {"CollectionId": "c1", "LocationName": ("here", "*")[number % 2]}
    if draw.random() < 0.4:
        more["HealthCheckId"] = "h%d" % draw.randrange(1, 4)
    if policy != "multi" and draw.random() < 0.4:
        target = {"HostedZoneId": "Z1", "DNSName": random_name(draw), "EvaluateTargetHealth": draw.random() < 0.7}
        return {"Name": name, "Type": "A", **more, "AliasTarget": target}
    return {**one_set(name, "192.0.2.%d" % draw.randrange(1, 250), **more), "TTL": draw.randrange(1, 99)}


def random_batch(draw):
    name = random_name(draw)
    kind = draw.choice(["simple", "weighted", "failover", "geo", "latency", "multi", "cidr", "cname", "cut"])
    if kind == "cname":
        return batch({"Name": name, "Type": "CNAME", "TTL": 5, "ResourceRecords": [{"Value": random_name(draw).replace("*.", "q.")}]}, action="UPSERT")
    if kind == "cut":
        return batch({"Name": "n8.example.com", "Type": "NS", "TTL": 5, "ResourceRecords": [{"Value": "ns.n8.example.com"}]}, action="UPSERT")
    most = {"simple": 1, "failover": 2, "geo": 4, "latency": 3, "cidr": 2, "multi": 12, "weighted": 5}[kind]
    return batch(*(random_set(draw, name, kind, n) for n in range(draw.randrange(1, most + 1))), action="UPSERT")


def all_words_repeat(question, client, name, words):
    """Whether words that differ by their periods give one explanation."""
    from r53d import explain
    periods = explain.periods(question.world, client, name, "A")
    walks = []
    for some in (words, [word + 3 * period for word, period in zip(words, periods)]):
        walk = explain.Walk(question.world, client, some)
        walk.ask(name, "A")
        walks.append((walk.answer, walk.path))
    return walks[0] == walks[1]


class Ask(Store):
    def sick(self, *idents):
        with open(os.path.join(self.folder, "r53d.reports"), "w") as file:
            file.write("".join(line + "\n" for ident in idents for line in down(ident)))

    def test_the_explanation_agrees_with_the_program(self):
        """In the process of the test, since there are many questions."""
        from r53d import ask, explain, names, values, wire
        self.make(*WORLD, tables=TABLES)

        class Place:
            folder, program = self.folder, R53
        draw = random.Random(2)
        for sick in ((), ("h1",), ("h1", "h2")):
            self.sick(*sick)
            with program.Copy(self.folder) as folder, ask.Question(Place, folder) as question:
                for name, kind in QUESTIONS:
                    name, number = names.canonical(name + ".example.com"), values.NUMBERS.get(kind) or int(kind)
                    for client in ("192.0.2.1", "198.51.100.7", "198.51.7.7", "203.0.113.7", "2001:db8::1"):
                        words = [draw.randrange(40) for _ in range(8)]
                        reply = next(question.replies(wire.query(name, number), client, [words]))
                        walk = explain.Walk(question.world, client, words)
                        walk.ask(name, kind)
                        self.assertEqual(sorted(walk.answer), sorted(reply.answer), (sick, name, kind, client, words, walk.steps))

    @unittest.skipUnless(helpers.IS_LONG, "R53_LONG isn't set")
    def test_explanations_of_random_worlds(self):
        for seed in range(int(os.environ.get("R53_WORLDS", "40"))):
            self.random_world(random.Random(seed))

    def random_world(self, draw):
        """A store of random groups, aliases and CNAME records; what the program refuses of it isn't there."""
        from r53d import ask, explain, names, wire
        with tempfile.TemporaryDirectory() as folder:
            program.words(R53, folder, "init")
            with open(os.path.join(folder, "r53.tables"), "w") as file:
                file.write(TABLES)
            with program.Session(R53, folder) as session:
                for line in WORLD[:7] + [random_batch(draw) for _ in range(40)]:
                    session.line(line)
                session.end()
            with open(os.path.join(folder, "r53d.reports"), "w") as file:
                file.write("".join(line + "\n" for ident in ("h1", "h2") if draw.random() < 0.5 for line in down(ident)))

            class Place:
                program = R53
            Place.folder = folder
            with ask.Question(Place, folder) as question:
                for _ in range(80):
                    name = names.canonical(draw.choice(["", "x."]) + random_name(draw))
                    client, words = draw.choice(CLIENTS), [draw.randrange(60) for _ in range(8)]
                    reply = next(question.replies(wire.query(name, 1), client, [words]))
                    walk = explain.Walk(question.world, client, words)
                    walk.ask(name, "A")
                    self.assertEqual(sorted(walk.answer), sorted(reply.answer), (name, client, words, walk.steps))
                    self.assertEqual(all_words_repeat(question, client, name, words), True)

    def test_why(self):
        self.make(*WORLD, tables=TABLES)
        self.sick("h1")
        self.assertEqual(self.tool("ask", "wWw.example.com", "a"), """\
www.example.com. A from 127.0.0.1: NOERROR aa
  www.example.com. 60 A 192.0.2.2
why:
  www.example.com. A in Z1: failover
     p PRIMARY (sick: h1 is sick)
  -> s SECONDARY (healthy)
""")
        text = self.tool("ask", "g.example.com", "A", "--subnet", "198.51.100.0/24")
        self.assertIn("NOERROR aa, scope 24\n  g.example.com. 60 A 192.0.2.61\n", text)
        self.assertIn("geolocation, geo 198.51.100.0/24 NA US TX\n", text)
        self.assertIn("     tx US TX (sick: h1 is sick)\n  -> us US (healthy)\n", text)
        got = json.loads(self.tool("ask", "no.example.com", "A", "--json"))
        self.assertEqual((got["Answer"]["rcode"], got["Agrees"]), ("NXDOMAIN", True))

    def test_shares(self):
        self.make(*WORLD, tables=TABLES)
        text = self.tool("ask", "w.example.com", "A", "--sweep")
        self.assertEqual(text.split("\n")[0], "w.example.com. A from 127.0.0.1: all of 7 words")
        self.assertEqual(text.split("\n")[1:-1], ["   42.86%  192.0.2.1  by to > p", "   42.86%  192.0.2.13  by 3", "   14.29%  192.0.2.11  by 1"])
        self.sick("h1")
        got = json.loads(self.tool("ask", "a.example.com", "A", "--sweep", "--json"))
        self.assertTrue(got["Exact"])
        self.assertEqual(sum(one["Count"] for one in got["Shares"]), got["Words"])

    def test_words_that_are_none(self):
        self.make(zone())
        for words in (("a b", "A"), ("a", "BOGUS"), ("a", "A", "--from", "1.2.3"), ("a", "A", "--words", "x"), ("a", "A", "--words", "\u00b2"), ("a", "\u00b2"), ("a", "A", "--words", "1,2,3,4,5,6,7,8,9"),
                      ("a", "A", "--subnet", "198.51.100.1/24"), ("a",)):
            self.assertEqual(self.tool("ask", *words, status=2).count("\n"), 1, words)


class Diff(Store):
    def test_what_changes(self):
        self.make(zone(), check(), failover())
        path = self.file(batch(one_set("www.example.com", "192.0.2.7", SetIdentifier="s", Failover="SECONDARY"), action="UPSERT"), check(3))
        before = self.dump()
        text = self.tool("diff", path)
        self.assertEqual(text, """\
health checks
+ h2: endpoint, threshold 3
example.com. (Z1)
- www.example.com. 60 A 192.0.2.2 [s] secondary
+ www.example.com. 60 A 192.0.2.7 [s] secondary
1 removed, 2 added
""")
        self.assertIn("```diff\n+ h2: endpoint, threshold 3\n```\n", self.tool("diff", path, "--format", "markdown"))
        self.assertIn("\033[32m+ h2", self.tool("diff", path, "--colour", "always"))
        self.tool("diff", path, "--exit-code", status=3)
        self.assertEqual(self.tool("diff", "/dev/null", "--exit-code"), "0 removed, 0 added\n")
        self.assertEqual(self.dump(), before)

    def test_refusals(self):
        self.make(zone())
        text = self.tool("diff", self.file(check(), batch(one_set("a.example.net", "192.0.2.1"))), status=1)
        self.assertTrue(text.startswith("line 2 is refused: NotInZone, Change 0: CREATE {"), text)
        path = os.path.join(self.folder, "batch.json")
        with open(path, "w") as file:
            json.dump(batch(one_set("a.example.com", "192.0.2.1"))["ChangeResourceRecordSets"]["ChangeBatch"], file, indent=2)
        self.assertIn("+ a.example.com. 60 A 192.0.2.1\n", self.tool("diff", path, "--zone", "Z1"))
        self.assertIn("NoSuchHostedZone", self.tool("diff", path, "--zone", "Z7", status=1))
        self.assertIn("isn't served", self.tool("diff", self.file({"Serve": {"Turns": 1}}), status=2))


class Log(Store):
    def undo_all(self, lines):
        """Makes lines, then undoes their entries from the last to the first; the store is then as it was before."""
        self.make()
        middle = len(lines) // 2
        self.make(*lines[:middle])
        before = self.dump()
        self.make(*lines[middle:])
        kept = [json.loads(text) for text in self.tool("log", "--lines").splitlines()]
        self.assertEqual([next(iter(line)) for line in kept], [next(iter(line)) for line in lines])
        with journal.Opened(self.folder) as opened:
            state, undone = undo.State(opened.snapshot()), []
            for line in kept:
                undone.append(state.opposite(line)[0])
                state.make(line)
        self.assertEqual(json.loads(self.tool("log", "--undo", str(middle))), undone[middle - 1])
        self.make(*undone[middle:][::-1])
        self.assertEqual(self.dump(), before)
        self.make(*undone[:middle][::-1])
        self.assertEqual(self.dump(), b"")

    def test_each_command_is_undone(self):
        self.undo_all(WORLD + [
            {"UpdateHealthCheck": {"HealthCheckId": "h3", "Inverted": False, "HealthThreshold": 0, "ChildHealthChecks": ["h2"]}},
            {"UpdateHealthCheck": {"HealthCheckId": "h1", "Disabled": True}},
            {"ChangeCidrCollection": {"Id": "c1", "Changes": [
                {"Action": "PUT", "LocationName": "here", "CidrList": ["198.51.100.0/24", "192.0.2.0/24"]},
                {"Action": "DELETE_IF_EXISTS", "LocationName": "here", "CidrList": ["2001:db8::/32", "203.0.113.0/24"]}]}},
            {"ChangeResourceRecordSets": {"HostedZoneId": "Z1", "ChangeBatch": {"Changes": [
                {"Action": "UPSERT", "ResourceRecordSet": one_set("t.example.com", "192.0.2.1")},
                {"Action": "UPSERT", "ResourceRecordSet": one_set("t.example.com", "192.0.2.2", "192.0.2.3")},
                {"Action": "DELETE", "ResourceRecordSet": one_set("x.y.z.example.com", "192.0.2.90")},
                {"Action": "CREATE", "ResourceRecordSet": {"Name": "x.y.z.example.com", "Type": "TXT", "TTL": 1,
                                                           "ResourceRecords": [{"Value": "\"a\\\"\\000\" \"\""}]}}]}}},
            {"CreateCidrCollection": {"Name": "empty"}}])

    def test_what_was_deleted_comes_back_under_another_id(self):
        self.make(zone(), check(7), {"CreateCidrCollection": {"Name": "empty"}})
        before = self.dump().decode()
        self.make({"DeleteHostedZone": {"Id": "Z1"}}, {"DeleteHealthCheck": {"HealthCheckId": "h1"}}, {"DeleteCidrCollection": {"Id": "c1"}})
        self.assertEqual(self.dump(), b"")
        self.make(*(json.loads(self.tool("log", "--undo", str(n))) for n in (4, 5, 6)))
        self.assertEqual(self.dump().decode(), before.replace("Z1", "Z2").replace("h1", "h2").replace("c1", "c2"))

    def test_the_log(self):
        self.make(zone(), check(), failover())
        text = self.tool("log").splitlines()
        self.assertEqual(text[0], "# file a, generation 1, snapshot of 13 bytes")
        self.assertTrue(text[1].startswith('1 a 1 33 88 {"CreateHostedZone":{"Name":"example.com.","NameServers":['), text[1])
        self.assertTrue(text[1].endswith(" # Z1"))
        self.assertTrue(text[2].startswith("2 a 1 121 11 "), text[2])
        for last, kept in ((1, text[3:]), (2, text[2:]), (9, text[1:]), (0, [])):
            self.assertEqual(self.tool("log", "--last", str(last)).splitlines(), text[:1] + kept)
        with program.Session(R53, self.folder) as session:
            self.all_ok([session.line({"Compact": {"Pieces": 100}}), session.line(check())])
            session.end()
        text = self.tool("log").splitlines()
        self.assertRegex(text[0], "# file b, generation 2, snapshot of [0-9]+ bytes")
        self.assertTrue(text[1].startswith("1 b 2 "), text[1])
        self.assertTrue(text[1].endswith(" # h2"), text[1])
        self.assertEqual(self.tool("log", "--undo", "7", status=2), "r53ctl: no entry 7 is in the journal\n")

    def test_undo_sees_into_the_snapshot(self):
        self.make(*WORLD)
        with program.Session(R53, self.folder) as session:
            self.all_ok([session.line({"Compact": {"Pieces": 100}})])
            session.end()
        before = self.dump()
        self.make(batch(one_set("www.example.com", "192.0.2.200", SetIdentifier="s", Failover="SECONDARY"), action="UPSERT"))
        self.make(json.loads(self.tool("log", "--undo", "1")))
        self.assertEqual(self.dump(), before)


class Others(Store):
    def test_check_tables(self):
        path = os.path.join(self.folder, "t")
        for text, status, told in ((TABLES, 0, "t: 3 rows of places, 2 of latencies\n"), ("# x\n\ngeo 198.51.100.1/24 NA US -\n", 1, ""), ("", 0, "t: 0 rows")):
            with open(path, "w") as file:
                file.write(text)
            self.assertIn(told, self.tool("check-tables", path, status=status))

    def test_one_line_where_it_can_not(self):
        bad = os.path.join(self.folder, "bad")
        with open(bad, "w") as file:
            file.write('{"CreateHostedZone":{"Name":"example.com"}}\n{\n')
        empty = os.path.join(self.folder, "empty")
        os.mkdir(empty)
        rows = [(("ask", "a", "A"), "no store is there"), (("diff", "/dev/null"), "no store is there"), (("log",), "no store is there"),
                (("status",), "no store is there"), (("send", "/dev/null"), "no such file"), (("send", bad), "bad: line 2: bad JSON"),
                (("diff", bad), "bad: line 2: bad JSON"), (("diff", "/none"), "/none: no such file"), (("check-tables", "/none"), "no file is there"),
                (("bogus",), "invalid choice"), (("backup", "/none"), "no folder is there"), (("diff", bad, "--zone", "Z1"), "bad JSON"), (("log", "--undo", "x"), "invalid int")]
        for words, told in rows:
            text = self.tool(*words, status=2, folder=empty)
            self.assertIn(told, text, words)
            self.assertEqual(text.count("\n"), 1, words)
        self.make(zone(), {"DeleteHostedZone": {"Id": "Z1"}})
        path = os.path.join(self.folder, "r53-a.journal")
        with open(path, "rb+") as file:
            whole = file.read()
            file.seek(0)
            file.write(whole[:-2] + b"\7" + whole[-1:])
        self.assertIn("entry 2 at byte 121 changes what isn't there", self.tool("log", "--undo", "1", status=2))
        with open(path, "wb") as file:
            file.write(whole)
        with open(os.path.join(self.folder, "r53.tables"), "w") as file:
            file.write("geo 192.0.2.0/99 NA US -\n")
        for words in (("ask", "a", "A"), ("status",)):
            text = self.tool(*words, status=2)
            self.assertEqual((text.count("\n"), "bad tables" in text), (1, True), text)
        os.truncate(path, 25)
        for words in (("ask", "a", "A"), ("diff", "/dev/null"), ("log",), ("status",)):
            self.assertEqual(self.tool(*words, status=2).count("\n"), 1, words)

    def test_a_backup_that_fails_leaves_nothing(self):
        self.make(zone())
        copy = os.path.join(self.folder, "copy")
        os.mkdir(copy)
        fails = helpers.script(self.folder, "exit 5")
        self.assertIn("status 5", self.tool("backup", copy, "--program", fails, status=2))
        self.assertEqual(os.listdir(copy), [])
        self.assertIn("file a", self.tool("backup", copy))

    def test_send_tells_the_line_that_has_no_reply(self):
        service = self.service().ready()
        self.all_ok(service.lines(zone()))
        service.process.send_signal(19)
        done = threading.Timer(0.5, lambda: (service.process.kill(), service.process.wait()))
        done.start()
        out = self.tool("send", text="\n" + "\n".join(json.dumps(check()) for _ in range(3)), status=3)
        done.join()
        self.assertIn("line 2 has no reply", out)

    def test_send(self):
        service = self.service().ready()
        text = self.tool("send", text=json.dumps(zone()) + "\n\n" + json.dumps(check()))
        self.assertEqual([json.loads(line)["Ok"] for line in text.splitlines()], ["CreateHostedZone", "CreateHealthCheck"])
        text = self.tool("send", "--quiet", text=json.dumps(zone()) + "\n" + json.dumps(check()), status=1)
        self.assertEqual([json.loads(line)["Error"] for line in text.splitlines()], ["InvalidInput"])
        text = json.dumps(check()) + "\n{\n" + json.dumps(check())
        self.assertIn("standard input: line 2: bad JSON", self.tool("send", text=text, status=2))
        with subprocess.Popen([helpers.R53CTL, "send", "--folder", self.folder], stdin=subprocess.PIPE, stdout=subprocess.PIPE) as stream:
            for _ in range(2):
                stream.stdin.write(program.compact(check()) + b"\n")
                stream.stdin.flush()
                self.assertIn(b'"Ok":"CreateHealthCheck"', stream.stdout.readline(), "each line as it comes")
            stream.stdin.close()
            self.assertEqual(stream.wait(helpers.PATIENCE), 0)
        os.kill(service.child, 19)
        done = threading.Timer(0.5, lambda: (service.process.kill(), service.process.wait()))
        done.start()
        self.tool("send", text=json.dumps(check()), status=3)
        done.join()


class Place(unittest.TestCase):
    def test_another_folder_has_another_socket(self):
        from r53d import control, parsers
        with tempfile.NamedTemporaryFile("w", suffix=".toml") as file:
            file.write('folder = "/zones"\nsocket = "/run/control"\n')
            file.flush()
            for words, folder, socket_path in (((), "/zones", "/run/control"), (("--folder", "/copy"), "/copy", "/copy/r53d.socket"),
                                               (("--folder", "/copy", "--socket", "/s"), "/copy", "/s")):
                place = control.Place(parsers.r53ctl().parse_args(["log", "--config", file.name, *words]))
                self.assertEqual((place.folder, place.socket), (folder, socket_path))


class Watch(Store):
    def test_it_shows_the_state_again(self):
        self.make(zone())
        with subprocess.Popen([helpers.R53CTL, "status", "--folder", self.folder, "--watch", "0.1"], stdout=subprocess.PIPE,
                              env={**os.environ, "R53": R53}) as watch:
            for _ in range(6):
                self.assertTrue(watch.stdout.readline())
            path = os.path.join(self.folder, "r53-a.journal")
            os.rename(path, path + ".kept")
            until(lambda: b"no store is there" in watch.stdout.readline(), "the fault")
            os.rename(path + ".kept", path)
            until(lambda: b"1 zones" in watch.stdout.readline(), "the state again")
            watch.terminate()
            self.assertEqual(watch.wait(helpers.PATIENCE), 143)

    def test_a_tool_that_is_ended_removes_its_copy(self):
        self.make(zone())
        slow = helpers.script(self.folder, '[ "$1" != run ] || exec sleep 30\nexec $R53 "$@"')
        temporary = os.path.join(self.folder, "temporary")
        os.mkdir(temporary)
        with subprocess.Popen([helpers.R53CTL, "ask", "--folder", self.folder, "--program", slow, "a", "A"],
                              env={**os.environ, "TMPDIR": temporary}) as ask:
            until(lambda: os.listdir(temporary), "the copy")
            time.sleep(0.5)
            ask.terminate()
            self.assertEqual(ask.wait(helpers.PATIENCE), 143)
        self.assertEqual(os.listdir(temporary), [])


class Example(Case):
    def test_it_runs_as_its_readme_says(self):
        done = subprocess.run([os.path.join(helpers.CONTRIB, "example", "try")], capture_output=True, text=True, timeout=60,
                              env={**os.environ, "R53": R53, **free_ports()})
        self.assertEqual((done.returncode, done.stderr), (0, ""))
        self.assertIn("  -> main PRIMARY (healthy)\n", done.stdout)
        self.assertIn("     main PRIMARY (sick: h1 is sick)\n  -> spare SECONDARY (healthy)\n", done.stdout)
        self.assertTrue(done.stdout.endswith("1 removed, 1 added\n"), done.stdout)


    def test_the_first_page_runs_as_it_says(self):
        """The commands of the block in README.md, on free ports, with dig where it is there."""
        with open(os.path.join(helpers.CONTRIB, "..", "README.md"), encoding="utf-8") as file:
            block = next(part for part in file.read().split("```text\n") if "$ r53d" in part).split("```")[0]
        commands = [line[2:].split("   ")[0] for line in block.splitlines() if line.startswith("$ ")]
        told = [line for line in block.splitlines() if not line.startswith(("$ ", ".."))]
        ports = free_ports()
        with tempfile.TemporaryDirectory() as folder:
            os.symlink(helpers.CONTRIB, os.path.join(folder, "contrib"))
            text = "\n".join(commands).replace("5300", ports["PORT"]).replace("5301", ports["REPORTS"])
            text = text.replace("/log &", "/log --query-port %s --report-port %s &\nuntil [ -S zones/r53d.socket ]; do sleep 0.1; done" % (
                ports["PORT"], ports["REPORTS"]))
            text = text.replace("dig @", "sleep 1; dig +tries=5 @") + "\nkill %1\nwait"
            if shutil.which("dig") is None:
                text, told = text.replace("dig +tries=5 @", "echo dig @"), []
            done = subprocess.run(["bash", "-c", text], cwd=folder, capture_output=True, text=True, timeout=60, env={
                **os.environ, "R53": R53, "PATH": os.path.dirname(helpers.R53D) + ":" + os.environ["PATH"]})
        self.assertEqual(done.stderr, "")
        replies = [line for line in done.stdout.splitlines() if line.startswith("{")]
        self.assertEqual(len(replies), 3)
        self.all_ok([json.loads(line) for line in replies])
        if told:
            self.assertEqual(done.stdout.splitlines()[3:], told)


def free_ports():
    """Two ports that nobody has, for words that don't tell which the system chose."""
    socks = [socket.socket(socket.AF_INET, socket.SOCK_DGRAM) for _ in range(2)]
    for sock in socks:
        sock.bind(("127.0.0.1", 0))
    ports = {word: str(sock.getsockname()[1]) for word, sock in zip(("PORT", "REPORTS"), socks)}
    for sock in socks:
        sock.close()
    return ports


class Trees(Store):
    def test_aliases_are_followed_to_their_end(self):
        chain = [alias("n%d.example.com" % n, "n%d.example.com" % (n + 1)) for n in range(15)]
        self.make(zone(), batch(one_set("n15.example.com", "192.0.2.1")), *(batch(one) for one in reversed(chain)))
        self.assertIn("- 192.0.2.1: healthy", self.tool("status"))


class Away(Store):
    def test_status_of_a_service_that_does_not_serve(self):
        away = os.path.join(self.folder, "away")
        fails = helpers.script(self.folder, '[ ! -e %s ] || exit 5\nexec $R53 "$@"' % away)
        service = self.service(program=fails).ready()
        self.all_ok(service.lines(zone(), check(), failover()))
        service.report(*down("h1"))
        until(lambda: service.status()["counts"]["Reports"] == 50, "all reports")
        with open(away, "w"):
            os.kill(service.child, 9)
        until(lambda: len(service.events("ended")) > 4, "the program to fail again and again")
        told = self.tool("status")
        self.assertIn("h1: endpoint, threshold 1, 0 of 50 pass: SICK", told)
        self.assertRegex(told, "service: (down|starting), ")
        os.unlink(away)
        service.ready(2)

    def test_status_of_a_service_that_hangs(self):
        from r53d import state
        service = self.service().ready()
        service.process.send_signal(19)
        kept, state.PATIENCE = state.PATIENCE, 1
        try:
            self.assertIn("didn't reply for 1 seconds", self.tool("status", status=2))
        finally:
            state.PATIENCE = kept
            service.process.send_signal(18)


class InUse(Store):
    def test_questions_leave_a_served_store_as_it_is(self):
        service = self.service().ready()
        self.all_ok(service.lines(*WORLD))
        service.report(*down("h1"))
        until(lambda: service.status()["counts"]["Reports"] == 50, "all reports")

        def files():
            found = {}
            for name in ("r53-a.journal", "r53-b.journal"):
                path = os.path.join(self.folder, name)
                if os.path.exists(path):
                    with open(path, "rb") as file:
                        found[name] = file.read()
            return found
        before, held = self.dump(), files()
        copy = os.path.join(self.folder, "copy")
        os.mkdir(copy)
        self.assertIn("copy: file a, generation 1, %d bytes\n" % len(held["r53-a.journal"]), self.tool("backup", copy))
        self.assertEqual(program.words(R53, copy, "dump"), before)
        self.assertIn("192.0.2.2", self.tool("ask", "www.example.com", "A", folder=copy), "the reports too")
        self.assertIn("r53-a.journal is there already", self.tool("backup", copy, status=2))
        self.assertEqual({os.stat(os.path.join(copy, name)).st_mode & 0o777 for name in os.listdir(copy)}, {0o600})
        path = self.file(batch(one_set("new.example.com", "192.0.2.1")), check())
        self.assertIn("192.0.2.2", self.tool("ask", "www.example.com", "A"))
        self.assertIn("new.example.com.", self.tool("diff", path))
        self.tool("log")
        told = self.tool("status")
        self.assertIn("h1: endpoint, threshold 1, 0 of 50 pass: SICK", told)
        self.assertIn("service: serving, port %d" % service.query_port, told)
        self.assertIn("a.example.com. A, simple, 1 of 1 healthy\n  - alias to w.example.com.: healthy\n    w.example.com. A, weighted,", told)
        got = json.loads(self.tool("status", "--json"))
        self.assertEqual([one["Healthy"] for one in got["Checks"]], [False, True, True])
        self.assertNotIn("w.example.com. A", self.tool("status", "--name", "m.example.com"))
        self.assertEqual(self.dump(), before)
        self.assertEqual(files(), held, "to the last byte")
        service.stop()
        self.assertEqual(program.words(R53, self.folder, "dump"), before)
        self.assertIn("h1: endpoint, threshold 1, 0 of 50 pass: SICK", self.tool("status"))

    def test_the_log_is_read_of_one_content(self):
        """Two compactions while it is written, of which the second one takes the file that is read."""
        service = self.service().ready()
        self.all_ok(service.lines(zone(), *(batch(one_set("n%d.example.com" % n, "192.0.2.1")) for n in range(400))))
        before = self.tool("log", "--lines")
        compacted = []

        class Out(io.StringIO):
            def write(out, text):
                if not compacted:
                    for _ in range(2):
                        compacted.append(service.status()["compactions"])
                        service.lines(b"!compact")
                        until(lambda: service.status()["compactions"] > compacted[-1], "a compaction")
                        self.all_ok(service.lines(*(batch(one_set("m%d.example.com" % n, "192.0.2.1"), action="UPSERT") for n in range(50))))
                return super().write(text)
        out = Out()
        with contextlib.redirect_stdout(out):
            self.assertEqual(control.main(["log", "--folder", self.folder, "--lines"]), 0)
        self.assertEqual(len(compacted), 2)
        self.assertEqual(out.getvalue(), before)

    def test_copies_while_lines_and_compactions_go_on(self):
        service = self.service(compact_least=1500).ready()
        self.all_ok(service.lines(zone()))
        done, stop = [0], threading.Event()

        def client():
            while not stop.is_set():
                self.all_ok(service.lines(*(batch(one_set("n%d.example.com" % (n % 7), "192.0.2.%d" % (n % 250)), action="UPSERT")
                                            for n in range(20)), batch(one_set("d%d.example.com" % done[0], "192.0.2.1"))))
                done[0] += 1
        thread = threading.Thread(target=client)
        thread.start()
        end, copies = time.monotonic() + 4, 0
        while time.monotonic() < end:
            least = done[0]
            names = {thing["ResourceRecordSet"]["Name"] for thing in map(json.loads, self.dump().splitlines()) if "ResourceRecordSet" in thing}
            self.assertLessEqual({"d%d.example.com." % n for n in range(least)}, names, "what was acknowledged before the copy")
            copies += 1
        stop.set()
        thread.join()
        self.assertGreater(copies, 3)
        self.assertGreater(service.status()["compactions"], 0)


if __name__ == "__main__":
    unittest.main()
