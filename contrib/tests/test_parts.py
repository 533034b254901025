"""What can be tried without the program: names, values, views of checkers, turns, files, settings, and pages."""
import contextlib
import os
import random
import subprocess
import sys
import tempfile
import time
import unittest

import helpers
from r53d import commands, explain, journal, logs, loop, mail, names, pages, reports, settings, turns, values, wire, world


class Names(unittest.TestCase):
    def test_texts(self):
        rows = [(".", b"\0", "."), ("wWw.example.com", b"\3www\7example\3com\0", "www.example.com."),
                ("*.a.", b"\1*\1a\0", "\\052.a."), ("\\101\\056.a", b"\2a.\1a\0", "a\\056.a.")]
        for text, octets, written in rows:
            self.assertEqual(names.to_wire(text), octets, text)
            self.assertEqual(names.read(octets, 0), (written, len(octets)), text)

    def test_faults(self):
        for text in ("", ".a", "a..b", "a b", "\\400", "\\x", "a" * 64, ".".join(["a" * 63] * 4) + ".a", "é"):
            with self.assertRaises(names.NameFault, msg=text):
                names.to_wire(text)

    def test_pointers(self):
        self.assertEqual(names.read(b"\3com\0\1a\xc0\0", 5), ("a.com.", 9), "a pointer to octet 0")
        with self.assertRaises(names.NameFault):
            names.read(b"\xc0\0", 0)


class Values(unittest.TestCase):
    def test_texts(self):
        rows = [("A", bytes([192, 0, 2, 1]), "192.0.2.1"),
                ("AAAA", bytes(16), "::"), ("AAAA", bytes([0, 1] + [0] * 4 + [0, 1] + [0] * 8), "1:0:0:1::"),
                ("AAAA", bytes([0x20, 1, 0xd, 0xb8] + [0] * 4 + [0, 1, 0, 0, 0, 1, 0, 2]), "2001:db8::1:0:1:2"),
                ("AAAA", bytes([0] * 10 + [255, 255, 1, 2, 3, 4]), "::ffff:102:304"),
                ("AAAA", bytes([0, 1, 0, 0] * 4), "1:0:1:0:1:0:1:0"),
                ("MX", b"\0\x0a\1a\0", "10 a."), ("SRV", b"\0\1\0\2\0\3\1a\0", "1 2 3 a."),
                ("SOA", b"\1a\0\1b\0" + bytes([0, 0, 0, 1] * 5), "a. b. 1 1 1 1 1"),
                ("TXT", b"\3a\"\\\1\0", '"a\\"\\\\" "\\000"'), ("CAA", b"\0\5issueab", '0 issue "ab"')]
        for kind, octets, text in rows:
            self.assertEqual(values.text_of(values.NUMBERS[kind], octets), text, kind)

    def test_octets_that_are_none(self):
        for kind, octets in (("NS", b"\3a"), ("MX", b"\0"), ("SOA", b"\1a\0")):
            with self.assertRaises(values.ValueFault, msg=kind):
                values.text_of(values.NUMBERS[kind], octets)


class Packets(unittest.TestCase):
    def test_query(self):
        self.assertEqual(wire.query("a.", 1, "198.51.100.0/22").hex(),
                         "000001000001000000000001" "016100" "00010001" "00" "0029" "1000" "00000000" "000b" "0008" "0007" "0001" "1600" "c63364")

    def test_reply(self):
        data = bytes.fromhex("000085000001000100000001" "016100" "00010001" "c00c" "00010001" "0000003c" "0004c0000201"
                             "00" "0029" "1000" "00000000" "000b" "0008" "0007" "0001" "1618" "c63364")
        self.assertEqual(wire.read_reply(data), ("NOERROR", ["aa"], [("a.", 60, "A", "192.0.2.1")], [], [], 24))


    def test_the_size_of_the_opt_record(self):
        query = wire.query("a.", 1, "198.51.100.0/22", size=512)
        self.assertEqual(wire.widen(query), (wire.query("a.", 1, "198.51.100.0/22", size=4096), True))
        bare = query[:10] + b"\0\0" + query[12:19]
        self.assertEqual(wire.widen(bare + b"rest"), (wire.query("a.", 1), False), "octets behind the last record go")
        self.assertEqual(wire.without_opt(wire.query("a.", 1)), bare)
        for packet in (b"", b"x" * 11, bare[:-1], query[:-1], bare[:4] + b"\xff\xff" + bare[6:]):
            self.assertEqual(wire.widen(packet), (packet, True), packet)


class Checker:
    """The rule itself: the view turns to a result that came so often in a row."""

    def __init__(self, threshold):
        self.threshold, self.view, self.last, self.row = threshold, True, None, 0

    def take(self, passed):
        self.row = self.row + 1 if passed == self.last else 1
        self.last = passed
        if self.row >= self.threshold:
            self.view = passed


@contextlib.contextmanager
def patched(module, **values):
    """The module with other values of its names."""
    before = {name: getattr(module, name) for name in values}
    vars(module).update(values)
    try:
        yield
    finally:
        vars(module).update(before)


class Views(unittest.TestCase):
    def test_replay_shows_the_same_now_and_later(self):
        draw = random.Random(1)
        for _ in range(300):
            results = [draw.random() < 0.5 for _ in range(draw.randrange(30))]
            later = [draw.random() < 0.5 for _ in range(12)]
            kept = reports.Views()
            for passed in results:
                kept.take(1, 0, passed)
            again = reports.Views()
            again.read(kept.text().splitlines())
            for threshold in range(1, 11):
                there, replayed = Checker(threshold), Checker(threshold)
                for passed in results:
                    there.take(passed)
                for line in again.replay({1: threshold}):
                    replayed.take(line["Observe"]["Pass"])
                for passed in [None] + later:
                    for one in (there, replayed) if passed is not None else ():
                        one.take(passed)
                    self.assertEqual(there.view, replayed.view, (results, later, threshold))

    def test_file(self):
        with tempfile.TemporaryDirectory() as folder:
            kept = reports.ReportFile(folder)
            kept.take(1, 7, False)
            kept.flush()
            with open(kept.path, "ab") as file:
                file.write(b"nonsense\nOBS h1 07 0\nOBS h1 50 0\nOBS h2 0 0\nOBS h3 0 ")
            kept.close()
            views, taken = reports.load(folder)
            self.assertEqual((sorted(views.of), taken), ([(1, 7), (2, 0)], 2))
            self.assertEqual(os.stat(kept.path).st_mode & 0o777, 0o600)

    def test_file_is_written_anew_where_it_is_long(self):
        """Piece by piece while reports come, of checks that come and go too; the file tells all of them at each moment."""
        def told(views):
            return {key: view.text(*key) for key, view in views.of.items()}
        draw, sizes, first = random.Random(3), [], 1
        with tempfile.TemporaryDirectory() as folder, patched(reports, SLACK=50, PIECE=7):
            kept = reports.ReportFile(folder)
            for n in range(3000):
                for _ in range(draw.randrange(1, 3)):
                    kept.take(draw.randrange(first, first + 4), draw.randrange(50), draw.random() < 0.5)
                if draw.random() < 0.01:
                    kept.views.forget(first)
                    first += 1
                kept.flush()
                sizes.append(os.path.getsize(kept.path))
                if n % 7 == 0:
                    self.assertTrue(told(kept.views).items() <= told(reports.load(folder)[0]).items(), n)
            self.assertGreater(sum(after < before for before, after in zip(sizes, sizes[1:])), 3, "written anew again and again")
            self.assertEqual(kept.lost, 0)
            kept.views.keep_only({first, first + 1})
            kept.tidy()
            self.assertEqual(told(reports.load(folder)[0]), told(kept.views))
            kept.close()
            self.assertEqual(os.listdir(folder), [reports.FILE])


class TurnsAndMail(unittest.TestCase):
    def test_doubles_under_load_within_its_time(self):
        t = turns.Turns(0.002)
        seen = []
        for _ in range(12):
            seen.append(t.count)
            t.took(t.count, t.count, t.count * 10e-6)
        self.assertEqual(seen[:8], [1, 2, 4, 8, 16, 32, 64, 128])
        self.assertEqual(seen[-1], 200, "0.002 seconds at 10 microseconds a turn")
        t.took(200, 200, 200 * 40e-6)
        self.assertEqual(t.count, 50, "slower turns count at once")
        for _ in range(20):
            t.took(t.count, t.count, t.count * 1e-6)
        self.assertEqual(t.count, 2 * mail.MOST_THERE, "no more than two goes of wakes end")

    def test_one_turn_where_it_is_quiet_or_slow(self):
        t = turns.Turns(0.002)
        t.count = 64
        t.took(64, 0, 0.1)
        self.assertEqual(t.count, 1)
        t.took(1, 1, 0.09)
        self.assertEqual(t.count, 1, "a datagram in 90 ms")

    def test_as_many_turns_as_brought_something_where_wakes_ended_the_others(self):
        t, seen = turns.Turns(0.002), []
        for _ in range(9):
            t.took(t.count, min(t.count, 30), t.count * 10e-6)
            seen.append(t.count)
        self.assertEqual(seen, [2, 4, 8, 16, 32, 64, 30, 60, 30], "thirty that come between two Serves")

    def test_wakes_are_told_from_unknown_ones(self):
        import socket
        sock = socket.socket(socket.AF_INET, socket.SOCK_DGRAM)
        sock.bind(("127.0.0.1", 0))
        m = mail.Mail(sock.getsockname()[1])
        m.wake(2)
        m.send(b"x")
        m.wake(5)
        self.assertEqual((m.there, m.took(3, 3, 0), m.there, m.took(2, 2, 0), m.there), (5, 2, 2, 2, 0))
        m.wake(3)
        m.handed()
        m.wake(4)
        self.assertEqual((m.took(0, 1, 1), m.there), (0, 1), "what was lost before a quiet turn is forgotten")
        m.wake(3)
        m.handed()
        self.assertEqual((m.took(0, 40, 0), m.there), (0, 3))
        m.wake(5)
        m.handed()
        self.assertEqual((m.took(0, 40, 0), m.there), (0, 2), "and what was lost before 65 turns without a datagram of the port")
        m.close()
        sock.close()


class Loops(unittest.TestCase):
    def test_what_is_urgent_goes_first_and_the_rest_in_turns(self):
        import socket
        todo, called, pairs = loop.Loop(), [], [socket.socketpair() for _ in range(5)]

        def handler(number):
            def handle(_):
                called.append(number)
                time.sleep(0.003)
            return handle
        for number, (here, there) in enumerate(pairs):
            todo.set(here, loop.READ, handler(number))
            there.send(b"x")
        todo.urgent.add(pairs[3][0].fileno())
        todo.rest_at = time.monotonic() + 60
        todo.once(1)
        self.assertEqual(called, [3], "it alone")
        todo.rest_at = 0.0
        todo.once(1)
        self.assertNotIn(3, called[1:], "the rest, where it has waited")
        self.assertGreater(todo.rest_at, time.monotonic() - 1)
        pairs[3][0].recv(1)
        for _ in range(7):
            todo.once(1)
        self.assertEqual(sorted(called[1:]), [0, 0, 1, 1, 2, 2, 4, 4], "each that stays ready comes twice in eight goes")
        for here, there in pairs:
            todo.drop(here)
            there.close()
        todo.close()


class Files(unittest.TestCase):
    def store(self, folder, side="a", generation=1, entries=(), tail=b"\0"):
        snapshot = bytes.fromhex("02000000010000000100000000")
        with open(journal.path_of(folder, side), "wb") as file:
            file.write(b"\1R53ZJ01" + generation.to_bytes(8, "big") + len(snapshot).to_bytes(4, "big") + snapshot)
            for entry in entries:
                file.write(b"\1" + len(entry).to_bytes(4, "big") + entry)
            file.write(tail)

    def test_which_file_decides(self):
        with tempfile.TemporaryDirectory() as folder:
            with self.assertRaises(journal.StoreFault):
                journal.deciding(folder)
            self.store(folder, "b", 7)
            self.assertEqual(journal.deciding(folder)[:2], ("b", 7))
            self.store(folder, "a", 7)
            self.assertEqual(journal.deciding(folder)[:2], ("a", 7))
            self.store(folder, "b", 8)
            self.assertEqual(journal.deciding(folder)[:2], ("b", 8))

    def test_entries_and_length(self):
        with tempfile.TemporaryDirectory() as folder:
            long = b"y" * (3 << 20)
            self.store(folder, entries=[b"x", long, b""], tail=b"\0\0\0\0\1z")
            with journal.Opened(folder) as opened:
                self.assertEqual(list(opened.entries()), [(33, b"x"), (39, long), (44 + len(long), b"")])
            watch = journal.Watch(folder).look()
            self.assertEqual(watch.length, 33 + 6 + 5 + len(long) + 5 + 1)
            self.assertTrue(watch.is_due(2.0, 1000))
            self.assertFalse(watch.is_due(2.0, 4 << 20), "below the least")
            self.assertFalse(watch.is_due(1e6, 1000), "not so many times its snapshot")

    def test_the_length_is_followed_a_while_at_a_time(self):
        with tempfile.TemporaryDirectory() as folder:
            self.store(folder, entries=[b"x"] * 9)
            watch = journal.Watch(folder)
            self.assertEqual([(watch.look(0).length, watch.is_whole) for _ in range(10)],
                             [(33 + 6 * n + 1, n == 9) for n in (1, 2, 3, 4, 5, 6, 7, 8, 9, 9)])
            self.store(folder, "b", 2, entries=[b"x"] * 100000)
            for _ in range(20):
                began = time.process_time()
                watch.look(0.001)
                self.assertLess(time.process_time() - began, 0.02, "since nothing is served meanwhile")
            self.assertEqual(watch.look().length, 33 + 600000 + 1)

    def test_a_tail_that_is_torn(self):
        """Octets behind the closed gate count for nothing; a file that ends before one is no store."""
        for tail, told in ((b"\0", None), (b"\0\1\0\0\0\1x", None), (b"\0\0\0", None), (b"", 39), (b"\1", 39), (b"\1\0\0", 39), (b"\1\0\0\0\2x", 39),
                           (b"\1\0\0\0\1x", 45)):
            with tempfile.TemporaryDirectory() as folder:
                self.store(folder, entries=[b"x"], tail=tail)
                with journal.Opened(folder) as opened:
                    if told is None:
                        self.assertEqual(list(opened.entries()), [(33, b"x")], tail)
                    else:
                        with self.assertRaisesRegex(journal.StoreFault, "byte %d$" % told, msg=tail):
                            list(opened.entries())

    def test_commands_of_both_versions(self):
        name = b"\1a\0"
        rows = [("01 01", name * 5, {"CreateHostedZone": {"Name": "a.", "NameServers": ["a."] * 4}}),
                ("01 04 01 03 01", b"", {"CreateHealthCheck": {"HealthCheckConfig": {"Type": "TCP", "FailureThreshold": 3, "Inverted": True}}}),
                ("02 04 01 03 00 01", b"", {"CreateHealthCheck": {"HealthCheckConfig": {"Type": "TCP", "FailureThreshold": 3, "Disabled": True}}}),
                ("01 04 02 0100 00 0001 00000007", b"", {"CreateHealthCheck": {"HealthCheckConfig": {
                    "Type": "CALCULATED", "HealthThreshold": 256, "ChildHealthChecks": ["h7"]}}}),
                ("01 05 00000007 01 00 01 0002 00", b"", {"UpdateHealthCheck": {"HealthCheckId": "h7", "Inverted": False, "HealthThreshold": 2}}),
                ("02 05 00000007 00 01 01 00 01 0001 00000002", b"", {"UpdateHealthCheck": {
                    "HealthCheckId": "h7", "Disabled": True, "ChildHealthChecks": ["h2"]}}),
                ("01 06 00000007", b"", {"DeleteHealthCheck": {"HealthCheckId": "h7"}}),
                ("02 07 02", b"ab", {"CreateCidrCollection": {"Name": "ab"}})]
        for octets, more, line in rows:
            self.assertEqual(commands.read_command(bytes.fromhex(octets) + more), line, octets)

    def test_snapshots_of_each_version(self):
        for octets, made, checks in (("01 00000002 00000003 0001 00000002 01 03 01 0000", {"Z": 1, "h": 2, "c": 0}, 1),
                                     ("02 00000002 00000003 0001 00000002 01 03 01 01 0000", {"Z": 1, "h": 2, "c": 0}, 1),
                                     ("03 00000001 00000001 00000003 0000 0001 00000002 0161 0000 0000", {"Z": 0, "h": 0, "c": 2}, 0)):
            octets = bytes.fromhex(octets)
            got = commands.read_snapshot(octets)
            self.assertEqual((got[0], len(got[1])), (made, checks))
            self.assertEqual(commands.read_counts(octets), made)
        self.assertEqual(got[2], {"c2": {"Name": "a", "Locations": {}}})
        for octets in (b"\0" + bytes(12), b"\4" + bytes(20)):
            with self.assertRaises(commands.OctetFault):
                commands.read_snapshot(octets)

    def test_commands_that_are_none(self):
        for octets in (b"", b"\2\x0a", b"\2\2\0\0\0", b"\2\2\0\0\0\1x", b"\1\7\1a", b"\0\2\0\0\0\1", b"\3\2\0\0\0\1", b"\2\4\3\0\0"):
            with self.assertRaises(commands.OctetFault, msg=octets):
                commands.read_command(octets)


class Settings(unittest.TestCase):
    def file(self, text):
        file = tempfile.NamedTemporaryFile("w", suffix=".toml")
        self.addCleanup(file.close)
        file.write(text)
        file.flush()
        return file.name

    def test_words_count_more_than_the_file(self):
        path = self.file('folder = "zones"\nquery_port = 53\ncompact_factor = 3\n')
        got = settings.load(path, {"query_port": 54, "report_port": None})
        self.assertEqual((got.query_port, got.report_port, got.compact_factor), (54, 5301, 3.0))
        self.assertEqual(got.folder, os.path.join(os.path.dirname(path), "zones"))
        self.assertEqual(got.socket, os.path.join(got.folder, "r53d.socket"))

    def test_another_folder_has_another_socket(self):
        path = self.file('folder = "/zones"\nsocket = "/run/control"\n')
        for given, found in (({}, "/run/control"), ({"folder": "/copy"}, "/copy/r53d.socket"), ({"folder": "/copy", "socket": "/s"}, "/s")):
            self.assertEqual(settings.load(path, given).socket, found)

    def test_faults(self):
        for text in ("folder = 3", "query_port = 65536", "query_port = -1", "query_port = true", "other = 1", "folder = ", "patience = nan", "compact_factor = 1"):
            with self.assertRaises(settings.BadSettings, msg=text):
                settings.load(self.file(text))

    def test_the_example_is_the_defaults(self):
        import tomllib
        with open(os.path.join(helpers.CONTRIB, "r53d.toml"), "rb") as file:
            told = tomllib.load(file)
        self.assertLessEqual(set(told), set(settings.KEYS))


class Pages(unittest.TestCase):
    def test_pages_are_fresh(self):
        for place, text in pages.pages().items():
            with open(os.path.join(helpers.CONTRIB, place), encoding="utf-8") as file:
                self.assertEqual(file.read(), text, "%s: run contrib/r53d/make-pages" % place)

    def test_bash_takes_its_completion(self):
        path = os.path.join(helpers.CONTRIB, "completion", "r53.bash")
        done = subprocess.run(["bash", "-c", '. "$1"; COMP_WORDS=(r53ctl a); COMP_CWORD=1; _r53ctl; echo "${COMPREPLY[@]}"', "-", path],
                              capture_output=True, text=True)
        self.assertEqual((done.stdout, done.stderr), ("ask\n", ""))

    def test_help(self):
        for tool, words in ((helpers.R53D, []), (helpers.R53CTL, []), (helpers.R53CTL, ["ask"])):
            done = subprocess.run([sys.executable, "-B", tool, *words, "--help"], capture_output=True, text=True)
            self.assertEqual(done.returncode, 0, words)
            self.assertIn("usage:", done.stdout)


class Logs(unittest.TestCase):
    def test_what_is_json(self):
        for line, is_json in ((b'{"a":1}', True), (b'{"a":NaN}', False), (b"\xff", False), (b"[" * 100000, False),
                              (b'{"a":%s}' % (b"9" * 6000), True)):
            self.assertEqual(logs.parse(line) is not None, is_json, line[:20])


class Explanations(unittest.TestCase):
    def test_weights(self):
        sets = [{"Weight": 0, "n": 0}, {"Weight": 2, "n": 1}, {"Weight": 1, "n": 2}]
        self.assertEqual([explain.weighted(sets, word)[0]["n"] for word in range(4)], [1, 1, 2, 1])
        zeros = [{"Weight": 0, "n": 0}, {"Weight": 0, "n": 1}]
        self.assertEqual([explain.weighted(zeros, word)[0]["n"] for word in range(3)], [0, 1, 0])

    def test_longest_prefix(self):
        import ipaddress
        prefixes = world.Prefixes()
        for text in ("0.0.0.0/0", "198.51.100.0/24", "198.51.0.0/16", "2001:db8::/32"):
            prefixes.add(text, text)
        for address, prefix in (("198.51.100.1", "198.51.100.0/24"), ("198.51.1.1", "198.51.0.0/16"), ("1.1.1.1", "0.0.0.0/0"),
                                ("2001:db8::1", "2001:db8::/32"), ("::1", None)):
            found = prefixes.find(ipaddress.ip_address(address))
            self.assertEqual(found and found[0], prefix, address)


if __name__ == "__main__":
    unittest.main()
