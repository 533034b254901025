"""The service: replies in order, health over restarts, turns, compaction, metrics, and its ends."""
import json
import os
import re
import signal
import socket
import subprocess
import sys
import threading
import time
import unittest
import urllib.error
import urllib.request

import helpers
from helpers import Case, R53, R53D, Service, batch, check, down, failover, one_set, until, zone
from r53d import program, send, wire


class Lines(Case):
    def test_each_client_gets_its_replies_in_order(self):
        service = self.service().ready()
        wrong = []

        def client(number):
            numbers = [1000 * number + n for n in range(100)]
            lines = [b'{"GetHealthCheckStatus":{"HealthCheckId":"h%d"}}' % n for n in numbers]
            replies = [json.loads(r).get("HealthCheckId") for r in send.exchange(service.socket, lines)]
            if replies != ["h%d" % n for n in numbers]:
                wrong.append(number)
        clients = [threading.Thread(target=client, args=(n,)) for n in range(1, 13)]
        for one in clients:
            one.start()
        for one in clients:
            one.join()
        self.assertEqual(wrong, [])
        self.assertEqual(sum("client" in e for e in service.events()), 1200, "each line is in the log")

    def test_forms_of_lines(self):
        service = self.service().ready()
        with send.connect(service.socket) as sock:
            replies = sock.makefile("rb")
            sock.sendall(b" \t\r\n\n!what\nno json\n" + b'{"Serve":{"Turns":9}}\n{"S\\u0065rve":{"Turns":9}}\n{"Bind":{"QueryPort":1,"ReportPort":1}}\n')
            got = [json.loads(replies.readline()) for _ in range(5)]
            self.assertEqual([one["Error"] for one in got], ["UnknownWord", "BadLine", "NotForClients", "NotForClients", "AlreadyBound"])
            sock.sendall(b'{"CreateHostedZone":{"Name":"exa')
            service.lines(b"x")
            sock.sendall(b'mple.com"}}')
            sock.shutdown(socket.SHUT_WR)
            self.assertEqual(json.loads(replies.readline())["Ok"], "CreateHostedZone", "the end of the input ends a line")
            self.assertEqual(replies.readline(), b"")
            replies.close()
        self.assertEqual(os.stat(service.socket).st_mode & 0o777, 0o600)

    def test_lines_to_the_driver_wait_for_nothing(self):
        service = self.service(metrics_port=free_port()).ready()
        self.all_ok(service.lines(zone(), check()))
        port = service.status()["metrics_port"]
        os.kill(service.child, signal.SIGSTOP)
        try:
            with send.connect(service.socket) as waits:
                waits.sendall(program.compact(check()) + b"\n!status\n")
                time.sleep(0.2)
                self.assertEqual(send.ask(service.socket, [b"!status", b"!what", b"!status"], 5)[0]["r53d"]["state"], "serving")
                with urllib.request.urlopen("http://127.0.0.1:%d/metrics?x=y" % port, timeout=5) as page:
                    text = page.read().decode()
                self.assertIn("\nr53d_checks 1\n", text)
                self.assertNotIn("r53d_checks_healthy", text, "which isn't known")
                waits.setblocking(False)
                with self.assertRaises(BlockingIOError):
                    waits.recv(1)
                os.kill(service.child, signal.SIGCONT)
                waits.settimeout(helpers.PATIENCE)
                with waits.makefile("rb") as replies:
                    self.assertEqual([json.loads(replies.readline())["Ok"] for _ in range(2)], ["CreateHealthCheck", "!status"])
        finally:
            os.kill(service.child, signal.SIGCONT)

    def test_lines_of_a_megabyte(self):
        service = self.service().ready()
        most = b'{"CreateHostedZone":{"Name":"example.com","CallerReference":"%s"}}'
        exact = most % (b"x" * (1048576 - len(most) + 2))
        self.assertEqual(len(exact), 1048576)
        more = b"y" + exact
        blanks = b" " * 3000000 + b"\n"
        got = list(send.exchange(service.socket, [exact, more, blanks + b"x" * 2500000, b" " * 1500000 + b"x", blanks, b"z"]))
        got = [json.loads(one) for one in got]
        self.assertEqual([one.get("Ok", one.get("Error")) for one in got],
                         ["CreateHostedZone", "LineTooLong", "LineTooLong", "LineTooLong", "BadLine"])

    def test_a_client_that_stalls_holds_up_nobody(self):
        service = self.service().ready()
        self.all_ok(service.lines(zone()))
        self.all_ok(service.lines(*(batch(*(one_set("n%d.example.com" % (100 * k + n), "192.0.2.1") for n in range(100))) for k in range(3))))
        stalled = send.connect(service.socket)
        self.addCleanup(stalled.close)
        line = b'{"ListResourceRecordSets":{"HostedZoneId":"Z1"}}\n'
        stalled.setblocking(False)
        sent = 0
        try:
            while sent < 1 << 20:
                sent += stalled.send(line * 100)
        except BlockingIOError:
            pass
        half = send.connect(service.socket)
        self.addCleanup(half.close)
        half.sendall(b'{"Half":')
        began = time.monotonic()
        for _ in range(20):
            self.all_ok(service.lines({"ListResourceRecordSets": {"HostedZoneId": "Z1", "MaxItems": 1}}))
        self.assertLess(time.monotonic() - began, 10)
        with open("/proc/%d/status" % service.process.pid, encoding="ascii") as file:
            memory = next(int(line.split()[1]) for line in file if line.startswith("VmRSS"))
        self.assertLess(memory, 60000, "kilobytes, with replies of a hundred times that asked for")
        self.assertEqual(service.values("n7.example.com"), ["192.0.2.1"])

    def test_a_connection_for_each_of_many(self):
        service = self.service().ready()
        socks = [send.connect(service.socket) for _ in range(230)]
        for sock in socks[:190]:
            sock.close()
        socks[-1].sendall(b"x\n")
        socks[-1].settimeout(helpers.PATIENCE)
        self.assertIn(b"BadLine", socks[-1].recv(1000))
        for sock in socks:
            sock.close()


class Health(Case):
    def start(self, **settings):
        service = self.service(**settings).ready()
        self.all_ok(service.lines(zone(), check(2), failover()))
        self.assertEqual(service.values("www.example.com"), ["192.0.2.1"])
        return service

    def test_reports_steer_and_are_replayed(self):
        service = self.start()
        service.report(*down(times=2), "nonsense", "OBS h9 0 0")
        until(lambda: service.values("www.example.com") == ["192.0.2.2"], "the secondary")
        until(lambda: service.status()["counts"]["Reports"] == 100, "all reports")
        until(lambda: service.status()["counts"]["Unknown"] >= 2, "what is none")
        service.lines(*[b"x"] * 20)
        self.assertEqual(service.status()["counts"]["Unknown"], 2, "wakes aren't counted")
        service.stop()
        service = self.service().ready()
        self.assertEqual(service.events("serving")[0]["replayed"], 100)
        self.assertEqual(service.values("www.example.com"), ["192.0.2.2"])
        self.assertEqual(self.all_ok(service.lines({"GetHealthCheckStatus": {"HealthCheckId": "h1"}}))[0]["Passing"], 0)

    def test_observed_lines_and_checks_that_go(self):
        service = self.start()
        seen = [{"Observe": {"HealthCheckId": "h1", "Checker": c, "Pass": False}} for c in range(50) for _ in range(2)]
        self.all_ok(service.lines(*seen))
        self.assertEqual(service.values("www.example.com"), ["192.0.2.2"])
        self.all_ok(service.lines(batch(one_set("www.example.com", "192.0.2.1", SetIdentifier="p", Failover="PRIMARY"), action="UPSERT"),
                                  {"DeleteHealthCheck": {"HealthCheckId": "h1"}}))
        service.stop()
        service = self.service().ready()
        self.assertEqual(service.events("serving")[0]["replayed"], 0)

    def test_all_of_many_reports_reach_the_program(self):
        """More than its port has room for."""
        service = self.service().ready()
        self.all_ok(service.lines(*(check() for _ in range(20))))
        os.kill(service.child, signal.SIGSTOP)
        for n in range(1, 21):
            service.report(*down("h%d" % n), "x" * 60000)
            time.sleep(0.05)
        os.kill(service.child, signal.SIGCONT)
        until(lambda: service.status()["counts"]["Reports"] == 1000, "all reports")
        # Wakes fill the port of a program that stands still; some may be counted here.
        until(lambda: service.status()["counts"]["Unknown"] >= 20, "what is none")
        self.assertEqual([one["Passing"] for one in service.lines(
            *({"GetHealthCheckStatus": {"HealthCheckId": "h%d" % n}} for n in range(1, 21)))], [0] * 20)

    def test_reports_that_come_while_the_program_starts_count_once(self):
        slow = helpers.script(self.folder, '[ "$1" != run ] || sleep 1\nexec $R53 "$@"')
        service = self.start(program=slow)
        os.kill(service.child, 9)
        until(lambda: len(service.events("ended")) == 1, "the end")
        time.sleep(0.6)
        service.report(*down())
        service.ready(2)
        until(lambda: service.status()["counts"]["Reports"] == 50, "all reports")
        self.assertEqual(service.lines({"GetHealthCheckStatus": {"HealthCheckId": "h1"}})[0]["Passing"], 50, "one failure of two")
        service.report(*down())
        until(lambda: service.values("www.example.com") == ["192.0.2.2"], "the secondary")

    def test_reports_that_come_while_the_program_is_away(self):
        service = self.start()
        os.kill(service.child, 9)
        service.report(*down(times=2))
        service.ready(2)
        until(lambda: service.values("www.example.com") == ["192.0.2.2"], "the secondary")


class Turns(Case):
    def test_they_grow_under_load_and_lines_come_through(self):
        service = self.service().ready()
        self.all_ok(service.lines(zone(), batch(one_set("a.example.com", "192.0.2.1"))))
        before = service.status()["counts"]
        packet, stop, got = wire.query("a.example.com", 1), threading.Event(), [0]

        def load():
            with socket.socket(socket.AF_INET, socket.SOCK_DGRAM) as sock:
                sock.settimeout(0.2)
                while not stop.is_set():
                    for _ in range(32):
                        sock.sendto(packet, ("127.0.0.1", service.query_port))
                    try:
                        for _ in range(32):
                            sock.recv(4096)
                            got[0] += 1
                    except TimeoutError:
                        pass
        clients = [threading.Thread(target=load) for _ in range(2)]
        for one in clients:
            one.start()
        waits = []
        for _ in range(30):
            began = time.monotonic()
            self.all_ok(service.lines({"ListResourceRecordSets": {"HostedZoneId": "Z1", "MaxItems": 1}}))
            waits.append(time.monotonic() - began)
            time.sleep(0.03)
        counts = service.status()["counts"]
        stop.set()
        for one in clients:
            one.join()
        self.assertGreater(got[0], 300)
        turns, serves = counts["Turns"] - before["Turns"], counts["Serves"] - before["Serves"]
        self.assertGreater(turns, 2 * serves, "several turns a Serve line")
        self.assertLess(sorted(waits)[15], 0.1, "half of the lines")
        time.sleep(1)
        self.assertEqual(service.status()["turns"], 1, "one turn where it is quiet")

    def test_a_line_ends_a_quiet_wait(self):
        service = self.service().ready()
        waits = []
        for _ in range(20):
            time.sleep(0.02)
            began = time.monotonic()
            service.lines(b"x")
            waits.append(time.monotonic() - began)
        self.assertLess(sorted(waits)[10], 0.06)


class Journal(Case):
    def test_it_is_compacted_by_its_rule(self):
        service = self.service(compact_least=4000).ready()
        self.all_ok(service.lines(zone()))
        line = batch(*(one_set("n%d.example.com" % n, "192.0.2.1") for n in range(20)), action="UPSERT")
        for _ in range(20):
            self.all_ok(service.lines(line))
        until(lambda: service.status()["compactions"] >= 1 and service.status()["journal"]["generation"] >= 2, "a compaction")
        told = service.status()["journal"]
        self.assertGreater(told["snapshot"], 500)
        for _ in range(10):
            self.all_ok(service.lines(line))
        before = service.status()["journal"]["generation"]
        self.all_ok(service.lines(b"!compact"))
        until(lambda: service.status()["journal"]["generation"] > before, "the compaction that was asked for")
        self.assertEqual(service.values("n7.example.com"), ["192.0.2.1"])
        dump = self.dump()
        service.stop()
        self.assertEqual(program.words(R53, self.folder, "dump"), dump)


def free_port():
    with socket.socket() as sock:
        sock.bind(("127.0.0.1", 0))
        return sock.getsockname()[1]


class Tcp(Case):
    def test_queries(self):
        service = self.service(tcp_port=free_port()).ready()
        port = service.process.args[service.process.args.index("--tcp-port") + 1]
        texts = {"Name": "t.example.com", "Type": "TXT", "TTL": 60,
                 "ResourceRecords": [{"Value": '"%s%d"' % ("x" * 200, n)} for n in range(9)]}
        self.all_ok(service.lines(zone(), check(), failover(), batch(texts)))
        wide = wire.query("t.example.com", 16, size=600)
        bare = wide[:10] + b"\0\0" + wide[12:-11]
        silent = b"\0\0\x80\0" + bytes(8)
        with socket.create_connection(("127.0.0.1", port), helpers.PATIENCE) as sock:
            reader = sock.makefile("rb")

            def reply():
                return reader.read(int.from_bytes(reader.read(2), "big"))
            queries = [wide, bare, wire.query("www.example.com", 1), b"short", b"x" * 30]
            data = b"".join(len(q).to_bytes(2, "big") + q for q in queries[:3])
            for at in range(0, len(data), 7):
                sock.sendall(data[at:at + 7])
            first, second = reply(), reply()
            self.assertEqual(len(wire.read_reply(first).answer), 9, "more than 512 octets, and than it said")
            self.assertEqual((first[11], second[11]), (1, 0), "who sends no OPT record gets none")
            self.assertEqual(wire.read_reply(second).answer, wire.read_reply(first).answer)
            self.assertEqual(wire.read_reply(reply()).answer[0].value, "192.0.2.1")
            self.assertEqual(service.query("t.example.com", 16).answer, wire.read_reply(first).answer, "over UDP too")
            for query in (b"x" * 30, silent):
                sock.sendall(len(query).to_bytes(2, "big") + query)
            self.assertEqual(reply()[3] & 15, 4, "no query")
            self.assertEqual(reader.read(2), b"", "what has no reply ends the connection")
            reader.close()
        socks = [socket.create_connection(("127.0.0.1", port), helpers.PATIENCE) for _ in range(70)]
        socks[-1].sendall(len(wide).to_bytes(2, "big") + wide)
        self.assertEqual(int.from_bytes(socks[-1].recv(2), "big"), len(first))
        for sock in socks:
            sock.close()


class Metrics(Case):
    SAMPLE = re.compile(r'r53d_[a-z_]+(\{[a-z]+="[^"]*"(,[a-z]+="[^"]*")*\})? [0-9.e+-]+')

    def page(self, port):
        with urllib.request.urlopen("http://127.0.0.1:%d/metrics" % port, timeout=10) as page:
            self.assertIn("text/plain", page.headers["Content-Type"])
            return page.read().decode()

    def test_the_page(self):
        port = free_port()
        service = self.service(metrics_port=port).ready()
        self.all_ok(service.lines(zone(), check(), check(), failover()))
        service.lines(b"x")
        service.report(*down())
        until(lambda: service.values("www.example.com") == ["192.0.2.2"], "the secondary")
        until(lambda: service.status()["counts"]["Reports"] == 50, "all reports")
        text = self.page(port)
        for line in text.splitlines():
            self.assertTrue(line.startswith("# ") or self.SAMPLE.fullmatch(line), line)
        got = dict(line.rsplit(" ", 1) for line in text.splitlines() if line[0] != "#")
        self.assertGreaterEqual(int(got["r53d_queries_answered_total"]), 1)
        for name, value in (("r53d_reports_total", 50), ("r53d_unknown_total", 0), ("r53d_checks", 2), ("r53d_checks_healthy", 1),
                            ("r53d_up", 1), ("r53d_journal_generation", 1), ('r53d_lines_total{line="CreateHealthCheck",outcome="Ok"}', 2),
                            ('r53d_lines_total{line="other",outcome="BadLine"}', 1), ("r53d_restarts_total", 0)):
            self.assertEqual(int(got[name]), value, name)
        self.assertEqual(int(got["r53d_journal_bytes"]), os.path.getsize(os.path.join(self.folder, "r53-a.journal")))
        with self.assertRaises(urllib.error.HTTPError) as fault:
            urllib.request.urlopen("http://127.0.0.1:%d/" % port, timeout=10)
        fault.exception.close()
        with socket.create_connection(("127.0.0.1", port)) as slow:
            slow.sendall(b"GET")
            self.page(port)


class Ends(Case):
    def ended(self, *words, **env):
        done = subprocess.run([sys.executable, "-B", R53D, "--config", os.devnull, *words], env={**os.environ, "R53": R53, **env}, capture_output=True, text=True,
                              timeout=60)
        return done.returncode, done.stderr

    def test_statuses(self):
        empty, folder = os.path.join(self.folder, "empty"), os.path.join(self.folder, "store")
        os.mkdir(empty)
        os.mkdir(folder)
        program.words(R53, folder, "init")
        toml = os.path.join(self.folder, "bad.toml")
        with open(toml, "w") as file:
            file.write("query_port = x")
        ports = ("--query-port", "0", "--report-port", "0")
        self.assertEqual(self.ended("--folder", empty, *ports), (2, "r53: not a store: disk a, byte 0\n"))
        self.assertEqual(self.ended("--folder", empty + "x")[0], 2)
        self.assertEqual(self.ended("--folder", folder, "--program", "/nothing"), (2, "r53d: no program r53 is there\n"))
        self.assertEqual(self.ended("--bogus")[0], 1)
        self.assertEqual(self.ended("--config", toml)[0], 1)
        self.assertEqual(self.ended("--config", "/nothing.toml"), (1, "r53d: /nothing.toml: no such file or directory\n"))
        with open(os.path.join(folder, "r53.tables"), "w") as file:
            file.write("geo nonsense\n")
        self.assertEqual(self.ended("--folder", folder, *ports), (2, "r53: bad tables: line 1\n"))
        os.unlink(os.path.join(folder, "r53.tables"))
        with socket.socket(socket.AF_INET, socket.SOCK_DGRAM) as taken:
            taken.bind(("127.0.0.1", 0))
            port = str(taken.getsockname()[1])
            self.assertEqual(self.ended("--folder", folder, "--query-port", port, "--report-port", "0"), (6, "r53: link fault\n"))
            self.assertEqual(self.ended("--folder", folder, "--query-port", "0", "--report-port", port),
                             (6, "r53d: report_port %s of 127.0.0.1: address already in use\n" % port))
        for path, told in (("/none/socket", "no such file or directory"), ("/" + "x" * 200, "af_unix path too long")):
            self.assertEqual(self.ended("--folder", folder, *ports, "--socket", path), (6, "r53d: %s: %s\n" % (path, told)))

    def test_clean_stop_and_the_manager(self):
        manager = socket.socket(socket.AF_UNIX, socket.SOCK_DGRAM)
        self.addCleanup(manager.close)
        path = os.path.join(self.folder, "manager")
        manager.bind(path)
        manager.settimeout(helpers.PATIENCE)
        os.environ.update(NOTIFY_SOCKET=path, WATCHDOG_USEC="30000000")
        try:
            service = self.service()
        finally:
            del os.environ["NOTIFY_SOCKET"], os.environ["WATCHDOG_USEC"]

        def told(word):
            while word not in manager.recv(1000):
                pass
        told(b"READY=1")
        told(b"WATCHDOG=1")
        service.ready()
        service.lines(zone())
        self.assertEqual(service.stop(), (0, ""))
        told(b"STOPPING=1")
        self.assertFalse(os.path.exists(service.socket))
        self.assertFalse(helpers.is_alive(service.child))

    def test_a_socket_of_another_process_is_left_alone(self):
        first = self.service().ready()
        store, text = os.path.join(self.folder, "store"), os.path.join(self.folder, "text")
        os.mkdir(store)
        with open(text, "w") as file:
            file.write("kept")
        for path, told in ((first.socket, "another process listens there"), (text, "no socket is there")):
            self.assertEqual(self.ended("--init", "--folder", store, "--query-port", "0", "--report-port", "0", "--socket", path),
                             (6, "r53d: %s: %s\n" % (path, told)))
        with open(text) as file:
            self.assertEqual(file.read(), "kept")
        self.all_ok(first.lines(zone()))

    def test_a_making_that_was_stopped_is_made_again(self):
        path = os.path.join(self.folder, "r53-a.journal")
        for octets, is_made in ((bytes(20), True), (bytes(40), False)):
            with open(path, "wb") as file:
                file.write(octets)
            service = self.service()
            if is_made:
                self.all_ok(service.ready().lines(zone()))
                self.assertEqual(service.stop(), (0, ""))
            else:
                self.assertEqual((service.process.wait(helpers.PATIENCE), service.process.stderr.read()),
                                 (2, b"r53: not a store: disk a, byte 0\n"))

    def test_who_reads_the_log_holds_up_nobody(self):
        path = os.path.join(self.folder, "s")
        words = [sys.executable, "-B", R53D, "--config", os.devnull, "--init", "--folder", self.folder, "--query-port", "0", "--report-port", "0",
                 "--socket", path]
        with subprocess.Popen(words, env={**os.environ, "R53": R53}, stdout=subprocess.PIPE) as process:
            try:
                until(lambda: os.path.exists(path), "the socket")
                lines = [b'{"GetHealthCheckStatus":{"HealthCheckId":"h%d"}}' % n for n in range(1, 2001)]
                self.assertEqual(len(send.ask(path, lines, helpers.PATIENCE)), 2000)
                process.send_signal(signal.SIGTERM)
                told = [json.loads(line) for line in process.stdout]
                self.assertEqual(process.wait(helpers.PATIENCE), 0)
            finally:
                process.kill()
        self.assertEqual([one["reply"]["HealthCheckId"] for one in told if "reply" in one], ["h%d" % n for n in range(1, 2001)])

    def test_a_stop_while_the_store_is_opened(self):
        slow = helpers.script(self.folder, '[ "$1" != run ] || exec sleep 30\nexec $R53 "$@"')
        service = self.service(program=slow)
        until(lambda: service.events("begun"), "the beginning")
        time.sleep(0.3)
        self.assertEqual(service.stop(), (0, ""))

    def test_the_log_is_opened_anew(self):
        service = self.service().ready()
        service.lines(b"x")
        os.rename(service.log, service.log + ".1")
        service.process.send_signal(1)
        until(lambda: os.path.exists(service.log), "a new log")
        service.skip = 0
        service.lines(b"y")
        self.assertEqual([e["line"] for e in service.events() if "line" in e], ["y"])
        self.assertEqual(os.stat(service.log).st_mode & 0o777, 0o600)

    def test_a_second_driver_is_told_of_the_first(self):
        first = self.service().ready()
        second = Service(self.folder, lock_wait=0, socket=first.socket + "2")
        self.assertEqual((second.process.wait(helpers.PATIENCE), second.process.stderr.read().decode()),
                         (2, "r53d: %s: locked by process %d\n" % (self.folder, first.process.pid)))
        second.process.stderr.close()
        self.all_ok(first.lines(zone()))


if __name__ == "__main__":
    unittest.main()
