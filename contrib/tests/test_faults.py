"""What goes wrong: processes that are killed, a lock that is left, a disk that is full, a program that hangs."""
import json
import os
import random
import shutil
import signal
import socket
import subprocess
import threading
import time
import unittest

import helpers
from helpers import Case, batch, check, down, failover, is_alive, one_set, until, zone
from r53d import control, journal, logs, program, reports, send


class Killed(Case):
    def test_the_program_with_a_line_in_its_hand(self):
        service = self.service().ready()
        self.all_ok(service.lines(zone()))
        os.kill(service.child, signal.SIGSTOP)
        replies = []
        clients = [threading.Thread(target=lambda n=n: replies.append(
            list(send.exchange(service.socket, [program.compact(check()), program.compact(check())])))) for n in range(3)]
        for one in clients:
            one.start()
        time.sleep(0.3)
        os.kill(service.child, signal.SIGKILL)
        for one in clients:
            one.join(helpers.PATIENCE)
        got = [json.loads(reply) for some in replies for reply in some]
        self.assertEqual(len(got), 6, "each line has a reply")
        lost = [one for one in got if one.get("Error") == "NoReply"]
        self.assertLessEqual(len(lost), 1, "at most one line was in its hand")
        service.ready(2)
        self.assertEqual(service.status()["restarts"], 1)
        done = sum(line.startswith(b'{"HealthCheck"') for line in self.dump().splitlines())
        self.assertIn(done, (6, 6 - len(lost)), "all that was acknowledged is there")

    def test_the_program_again_and_again_under_lines(self):
        service = self.service().ready()
        self.all_ok(service.lines(zone()))
        acknowledged, stop = [], threading.Event()

        def client():
            n = 0
            while not stop.is_set():
                n += 1
                got = service.lines(batch(one_set("n%d.example.com" % n, "192.0.2.1")))[0]
                if "Ok" in got:
                    acknowledged.append("n%d.example.com." % n)
                else:
                    self.assertEqual(got["Error"], "NoReply")
        thread = threading.Thread(target=client)
        thread.start()
        for times in range(1, 4):
            service.ready(times)
            time.sleep(0.1)
            os.kill(service.child, signal.SIGKILL)
        service.ready(4)
        time.sleep(0.1)
        stop.set()
        thread.join(helpers.PATIENCE)
        there = {thing["ResourceRecordSet"]["Name"] for thing in map(json.loads, self.dump().splitlines()) if "ResourceRecordSet" in thing}
        self.assertTrue(acknowledged)
        self.assertLessEqual(set(acknowledged), there)

    def test_the_driver(self):
        service = self.service().ready()
        self.all_ok(service.lines(zone(), check(), failover()))
        service.report(*down())
        until(lambda: service.values("www.example.com") == ["192.0.2.2"], "the secondary")
        until(lambda: service.status()["counts"]["Reports"] == 50, "all reports")
        service.process.kill()
        service.process.wait()
        until(lambda: not is_alive(service.child), "the program to end with its driver")
        self.assertTrue(os.path.exists(service.socket), "a socket is left")
        self.assertTrue(os.path.exists(os.path.join(self.folder, "r53d.lock")), "and a lock")
        again = self.service().ready()
        self.assertEqual(again.values("www.example.com"), ["192.0.2.2"], "the reports are there")
        self.assertEqual(again.stop()[0], 0)

    def test_both(self):
        service = self.service().ready()
        self.all_ok(service.lines(zone(), batch(one_set("a.example.com", "192.0.2.1"))))
        os.kill(service.child, signal.SIGKILL)
        service.process.kill()
        service.process.wait()
        again = self.service().ready()
        self.assertEqual(again.values("a.example.com"), ["192.0.2.1"])

    def test_the_lock_outlives_the_driver(self):
        """A program whose driver is gone, and that doesn't end, keeps its store."""
        holder = subprocess.Popen(["sleep", "30"], pass_fds=(self.take_lock(),))
        self.addCleanup(holder.wait)
        self.addCleanup(holder.kill)
        os.close(self.lock)
        second = self.service(lock_wait=0.2)
        self.assertEqual(second.process.wait(helpers.PATIENCE), 2)
        self.assertIn("locked by process", second.process.stderr.read().decode())
        holder.kill()
        holder.wait()
        self.service().ready()

    def take_lock(self):
        from r53d import lock
        self.lock = lock.take(self.folder, 0)
        return self.lock

    def test_a_lock_that_was_left(self):
        with open(os.path.join(self.folder, "r53d.lock"), "w") as file:
            file.write("1\n")
        with socket.socket(socket.AF_UNIX) as left:
            left.bind(os.path.join(self.folder, "r53d.socket"))
        service = self.service().ready()
        self.all_ok(service.lines(zone()))


class Hangs(Case):
    def test_a_program_that_does_not_reply_is_killed(self):
        service = self.service(patience=1.5).ready()
        self.all_ok(service.lines(zone()))
        os.kill(service.child, signal.SIGSTOP)
        service.ready(2)
        self.assertEqual([e["text"] for e in service.events("killed")], ["the program didn't reply"])
        self.all_ok(service.lines(check()))

    def test_a_store_may_take_long_to_open(self):
        slow = helpers.script(self.folder, '[ "$1" != run ] || sleep 4\nexec $R53 "$@"')
        service = self.service(patience=1.5, program=slow).ready()
        self.assertEqual(service.events("killed"), [])

    def test_a_dump_that_is_cut(self):
        cut = helpers.script(self.folder, 'if [ "$1" = dump ] && [ ! -e %s/cut ]; then touch %s/cut; printf "{\\"Heal"; kill -9 $$; fi\nexec $R53 "$@"'
                             % (self.folder, self.folder))
        service = self.service(program=cut).ready()
        self.assertEqual([event["status"] for event in service.events("ended")], [-9])

    def stub(self, what):
        """A program that serves, and does this at any other line."""
        return helpers.script(self.folder, """\
[ "$1" = run ] || exit 0
while read -r line; do
    case "$line" in
        *Bind*) echo '{"Ok":"Bind","QueryPort":1,"ReportPort":1}' ;;
        *Serve*) sleep 0.05; echo '{"Answered":0,"Ok":"Serve","Quiet":1,"Reports":0,"Silent":0,"Turns":1,"Unknown":0}' ;;
        *) %s ;;
    esac
done""" % what)

    def test_the_line_in_the_hand_of_a_program_that_does_not_end(self):
        service = self.service(stop_within=1, program=self.stub("exec sleep 60")).ready()
        with send.connect(service.socket) as sock:
            sock.sendall(program.compact(zone()) + b"\n" + program.compact(check()) + b"\n")
            until(lambda: service.status()["counts"]["Serves"] > 0, "the first turns")
            time.sleep(0.5)
            service.process.send_signal(signal.SIGTERM)
            sock.settimeout(helpers.PATIENCE)
            with sock.makefile("rb") as replies:
                self.assertEqual(replies.read(), b'{"Error":"NoReply"}\n', "of the line that it had alone")
        self.assertEqual(service.process.wait(helpers.PATIENCE), 128 + signal.SIGKILL)

    def test_a_line_at_which_the_program_ends(self):
        service = self.service(program=self.stub("echo '{\"Ok\":\"x\"}'; printf '{'; exit 5")).ready()
        self.assertEqual(list(send.exchange(service.socket, [b"x"])), [b'{"Ok":"x"}\n'])
        service.ready(2)
        service.kill()
        service = self.service(program=self.stub("printf '{'; exit 5")).ready()
        self.assertEqual(list(send.exchange(service.socket, [b"x", b"y"])), [b'{"Error":"NoReply"}\n'] * 2)
        service.ready(3)
        self.assertEqual([event["status"] for event in service.events("ended")], [5, 5])

    def test_a_store_that_is_refused_later(self):
        service = self.service(program=self.stub("echo 'r53: not a store: disk b, byte 7' >&2; exit 2")).ready()
        self.assertEqual(list(send.exchange(service.socket, [b"x", b"y"])), [b'{"Error":"NoReply"}\n'])
        self.assertEqual((service.process.wait(helpers.PATIENCE), service.process.stderr.read()), (2, b"r53: not a store: disk b, byte 7\n"))
        self.assertEqual(len(service.events("serving")), 1, "never again")

    def test_a_program_that_does_not_end(self):
        service = self.service(stop_within=1).ready()
        os.kill(service.child, signal.SIGSTOP)
        self.assertEqual(service.process.send_signal(signal.SIGTERM), None)
        self.assertEqual(service.process.wait(15), 128 + signal.SIGKILL)
        self.assertFalse(is_alive(service.child))


class FullDisk(Case):
    """What happens on a small disk without room."""

    def fill(self):
        with open(os.path.join(self.disk, "ballast"), "ab", buffering=0) as file:
            try:
                while file.write(b"x" * 4096):
                    pass
            except OSError:
                pass

    def test_it_starts_on_a_full_disk(self):
        words = {"socket": os.path.join(self.folder, "s"), "log": os.path.join(self.folder, "log")}
        service = self.service(self.disk, **words).ready()
        self.all_ok(service.lines(zone(), check(), failover()))
        self.assertEqual(service.stop()[0], 0)
        os.truncate(os.path.join(self.disk, "r53d.lock"), 0)
        self.fill()
        again = self.service(self.disk, **words).ready()
        self.assertEqual(again.values("www.example.com"), ["192.0.2.1"])
        again.report(*down())
        until(lambda: again.values("www.example.com") == ["192.0.2.2"], "the secondary")
        until(lambda: again.status()["counts"]["Reports"] == 50, "all reports")
        self.assertEqual(sorted(os.listdir(self.disk)), ["ballast", "r53-a.journal", "r53d.lock"], "and nothing half written")
        os.unlink(os.path.join(self.disk, "ballast"))
        time.sleep(1.1)
        again.report("OBS h1 0 0")
        until(lambda: reports.load(self.disk)[1] == 50, "what was kept in memory")

    def test_a_log_on_a_full_disk(self):
        log = logs.Log(os.path.join(self.disk, "log"), 100)
        log.event("before")
        self.fill()
        while not log.lost:
            log.event("before", text="x" * 1000)
        log.event("lost", text="x" * 1000)
        os.unlink(os.path.join(self.disk, "ballast"))
        log.event("after")
        with open(log.path, "rb") as file:
            told = [(logs.parse(line) or {}).get("event") for line in file.read().split(b"\n")]
        self.assertEqual(set(told[:-4]), {"before"})
        self.assertEqual(told[-3:], [None, "after", None], "one torn line, which ends before the next")

    def test_reports_of_which_a_part_is_written(self):
        kept = reports.ReportFile(self.disk)
        kept.take(1, 0, False)
        kept.flush()
        self.fill()
        for n in range(3000):
            kept.take(1 + n // 50, n % 50, False)
            kept.flush()
            with open(kept.path, "rb") as file:
                if not file.read().endswith(b"\n"):
                    break
        self.assertLess(n, 2999, "a line that is cut")
        os.unlink(os.path.join(self.disk, "ballast"))
        kept.again_at = 0.0
        kept.take(1, 0, False)
        kept.flush()
        self.assertEqual(reports.load(self.disk)[0].text(), kept.views.text())

    def setUp(self):
        super().setUp()
        self.disk = os.path.join(self.folder, "disk")
        os.mkdir(self.disk)
        done = subprocess.run(["mount", "-t", "tmpfs", "-o", "size=128k", "tmpfs", self.disk], capture_output=True)
        if done.returncode:
            self.skipTest("mounting isn't allowed here")
        self.addCleanup(lambda: subprocess.run(["umount", "-l", self.disk], check=True))

    def test_it_goes_on_when_there_is_room_again(self):
        service = self.service(self.disk, socket=os.path.join(self.folder, "s"), log=os.path.join(self.folder, "log")).ready()
        self.all_ok(service.lines(zone()))
        with open(os.path.join(self.disk, "ballast"), "wb") as file:
            file.write(b"x" * 60000)
        line = batch(*(one_set("n%d.example.com" % n, *("192.0.2.%d" % i for i in range(9))) for n in range(50)), action="UPSERT")
        acknowledged = 1
        while True:
            got = service.lines(line)[0]
            if "Ok" not in got:
                break
            acknowledged += 1
        self.assertEqual(got["Error"], "NoReply")
        until(lambda: any(e["status"] == 5 and e["text"] == "r53: disk fault" for e in service.events("ended")), "a disk fault")
        os.unlink(os.path.join(self.disk, "ballast"))
        service.ready(2)
        entries = self.entries()
        self.assertIn(entries, (acknowledged, acknowledged + 1), "what was acknowledged, and at most the line in hand")
        self.all_ok(service.lines(check()))
        self.assertEqual(self.entries(), entries + 1)
        self.assertEqual(service.values("n7.example.com")[0], "192.0.2.0")

    def entries(self):
        with journal.Opened(self.disk) as opened:
            return sum(1 for _ in opened.entries())


@unittest.skipUnless(helpers.IS_LONG, "R53_LONG isn't set")
class Long(Case):
    """What takes minutes: many clients, a load of queries, and kills at any moment."""

    def load(self, service):
        """A dnsperf that queries while the test goes on, where it is there."""
        if shutil.which("dnsperf") is None:
            print("dnsperf isn't there")
            return None
        path = os.path.join(self.folder, "queries")
        with open(path, "w") as file:
            file.write("".join("c%d.example.com A\n" % n for n in range(50)))
        return subprocess.Popen(["dnsperf", "-s", "127.0.0.1", "-p", str(service.query_port), "-d", path, "-l", "600", "-Q", "20000"],
                                stdout=subprocess.PIPE, stderr=subprocess.DEVNULL, text=True)

    def test_fifty_clients_with_a_thousand_batches_each(self):
        folder = self.folder if not os.path.isdir("/dev/shm") else os.path.join("/dev/shm", "r53d-test-%d" % os.getpid())
        os.makedirs(folder, exist_ok=True)
        self.addCleanup(shutil.rmtree, folder, True)
        service = self.service(folder).ready()
        self.all_ok(service.lines(zone()))
        load, wrong = self.load(service), []

        def client(number):
            lines = [program.compact(batch(one_set("c%d.example.com" % number, "192.0.2.%d" % (n % 200)), action="UPSERT")) for n in range(1000)]
            lines = [line for pair in zip(lines, (b'{"GetHealthCheckStatus":{"HealthCheckId":"h%d"}}' % (1000 * number + n + 1)
                                                  for n in range(1000))) for line in pair]
            got = [json.loads(reply) for reply in send.exchange(service.socket, lines)]
            told = [one.get("Ok") or one.get("HealthCheckId") for one in got]
            wanted = [word for n in range(1000) for word in ("ChangeResourceRecordSets", "h%d" % (1000 * number + n + 1))]
            if told != wanted:
                wrong.append(number)
        began = time.monotonic()
        clients = [threading.Thread(target=client, args=(n,)) for n in range(50)]
        for one in clients:
            one.start()
        for one in clients:
            one.join()
        print("100,000 lines in %.1f seconds: %s" % (time.monotonic() - began, json.dumps(service.status())))
        if load is not None:
            load.send_signal(signal.SIGINT)
            print(load.communicate()[0][-900:])
        self.assertEqual(wrong, [])
        for number in range(50):
            self.assertEqual(service.values("c%d.example.com" % number), ["192.0.2.%d" % (999 % 200)])

    def random_client(self, path, draw):
        """Lines of all kinds in random pieces; sees that each has its reply, in order, or NoReply."""
        wanted, octets = [], b""
        for n in range(draw.randrange(1, 60)):
            kind = draw.randrange(8)
            if kind < 4:
                number = draw.randrange(1, 1 << 30)
                line, reply = b'{"GetHealthCheckStatus":{"HealthCheckId":"h%d"}}' % number, {"HealthCheckId": "h%d" % number}
            elif kind == 4:
                line, reply = draw.choice([b"", b" ", b"\r", b" " * 2000000]), None
            elif kind == 5:
                line, reply = b"!" + draw.choice([b"what", b"\xff", b""]), {"Error": "UnknownWord"}
            elif kind == 6:
                line, reply = bytes(draw.choice(b"{}[]\"xyz\0\xff,:1") for _ in range(draw.randrange(1, 40))) + b"x", {"Error": "BadLine"}
            else:
                line, reply = draw.choice([(b"y" * (1048576 + draw.randrange(1, 9)), {"Error": "LineTooLong"}),
                                           (b"y" * (1048576 - draw.randrange(0, 9)), {"Error": "BadLine"})])
            octets += line + b"\n"
            wanted += [reply] if reply else []
        if draw.random() < 0.5 and wanted:
            octets += b'{"Half":'
            wanted.append({"Error": "BadLine"})
        with send.connect(path) as sock:
            sock.settimeout(60)
            if draw.random() < 0.2:
                sock.sendall(octets[:draw.randrange(len(octets))])
                return
            writer = threading.Thread(target=self.write_in_pieces, args=(sock, octets, draw))
            writer.start()
            with sock.makefile("rb") as stream:
                got = [json.loads(reply) for reply in stream]
            writer.join()
        self.assertEqual(len(got), len(wanted))
        for one, reply in zip(got, wanted):
            if one.get("Error") != "NoReply":
                self.assertLessEqual(reply.items(), one.items())

    @staticmethod
    def write_in_pieces(sock, octets, draw):
        at = 0
        while at < len(octets):
            size = draw.choice([1, 7, 100, 8192, 8193, 70000, 1 << 20])
            sock.sendall(octets[at:at + size])
            at += size
        sock.shutdown(socket.SHUT_WR)

    def test_random_lines_in_random_pieces_while_the_program_is_killed(self):
        service = self.service(restart_most=0.2).ready()
        end, wrong = time.monotonic() + 20, []

        def client(seed):
            draw = random.Random(seed)
            while time.monotonic() < end:
                try:
                    self.random_client(service.socket, draw)
                except Exception as fault:
                    wrong.append((seed, repr(fault)[:500]))
                    return
        clients = [threading.Thread(target=client, args=(seed,)) for seed in range(12)]
        for one in clients:
            one.start()
        times = 1
        while time.monotonic() < end:
            service.ready(times)
            time.sleep(1)
            os.kill(service.child, signal.SIGKILL)
            times += 1
        for one in clients:
            one.join(120)
        self.assertEqual(wrong, [])
        self.assertEqual(service.ready(times).stop(), (0, ""))

    def write_all_the_time(self, count):
        """So many clients that create sets one after another; answers a call that ends them, and gives the names that were acknowledged."""
        done, stop, path = [], threading.Event(), os.path.join(self.folder, "r53d.socket")

        def client(number):
            n = 0
            while not stop.is_set():
                n += 1
                name = "k%d-%d.example.com" % (number, n)
                try:
                    got = send.ask(path, [program.compact(batch(one_set(name, "192.0.2.1")))])[0]
                except (control.Fault, OSError):
                    time.sleep(0.05)
                    continue
                if "Ok" in got:
                    done.append(name + ".")
                elif got["Error"] != "NoReply":
                    done.append("refused: %s" % got)
        clients = [threading.Thread(target=client, args=(n,)) for n in range(count)]
        for one in clients:
            one.start()

        def end():
            stop.set()
            for one in clients:
                one.join(60)
            return done
        return end

    def see(self, done):
        """Sees that all that was acknowledged is there."""
        there = {thing["ResourceRecordSet"]["Name"] for thing in map(json.loads, self.dump().splitlines()) if "ResourceRecordSet" in thing}
        print("%d batches acknowledged, %d there" % (len(done), len(there) - 1))
        self.assertGreater(len(done), 100)
        self.assertLessEqual(set(done), there)

    def test_kills_of_the_program_at_any_moment(self):
        service = self.service(restart_most=0.2).ready()
        self.all_ok(service.lines(zone()))
        end = self.write_all_the_time(4)
        for times in range(1, 41):
            service.ready(times)
            time.sleep(0.01 * (times % 17))
            os.kill(service.child, signal.SIGKILL)
        service.ready(41)
        time.sleep(0.5)
        self.see(end())

    def test_kills_of_the_driver_and_of_both_at_any_moment(self):
        service = self.service().ready()
        self.all_ok(service.lines(zone(), check(), failover()))
        service.report(*down())
        until(lambda: service.status()["counts"]["Reports"] == 50, "all reports")
        end = self.write_all_the_time(4)
        for times in range(20):
            time.sleep(0.03 * (times % 13))
            if times % 3 == 1:
                os.kill(service.child, signal.SIGKILL)
            service.kill()
            if times % 3 == 2:
                os.kill(service.child, signal.SIGKILL) if is_alive(service.child) else None
            service = self.service().ready()
            self.assertEqual(service.values("www.example.com"), ["192.0.2.2"], "the reports are there")
        time.sleep(0.5)
        self.see(end())


if __name__ == "__main__":
    unittest.main()
