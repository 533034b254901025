#!/usr/bin/env python3
"""How long r53 takes for lines, from outside: bench/session.py PROGRAM [FOLDER].

PROGRAM is a built r53, as crates/r53/out/r53. A store of 100,000 sets in ten zones is filled by batches of 500, then lines of each
kind are sent one at a time, each behind the reply to the one before. It runs in FOLDER, and where none is named in a new folder of
/dev/shm, whose syncs cost nothing; then a line's time is the program's own and that of a pipe. Beside it stands the time of a line
that only asks (GetHealthCheckStatus), which is nearly all pipe, and the disk's own time for two writes with a sync each."""
import json
import os
import statistics
import subprocess
import sys
import tempfile
import time

ZONES, SETS, BATCH = 10, 9_998, 500


class Server:
    def __init__(self, program, folder):
        self.process = subprocess.Popen(
            [program, "run"], cwd=folder, stdin=subprocess.PIPE, stdout=subprocess.PIPE)

    def line(self, value):
        self.process.stdin.write(json.dumps(value, separators=(",", ":")).encode() + b"\n")
        self.process.stdin.flush()
        reply = json.loads(self.process.stdout.readline())
        if "Ok" not in reply:
            raise SystemExit(f"{value}: {reply}")
        return reply

    def timed(self, value):
        start = time.perf_counter_ns()
        self.line(value)
        return (time.perf_counter_ns() - start) / 1000

    def memory(self):
        with open(f"/proc/{self.process.pid}/status") as status:
            return next(int(line.split()[1]) for line in status if line.startswith("VmRSS"))

    def end(self):
        self.process.stdin.close()
        if self.process.wait() != 0:
            raise SystemExit(f"status {self.process.returncode}")


def change(action, zone, n, last=1, check=None):
    record = {"Name": f"www-{n}.z{zone}.example.com", "Type": "A", "TTL": 60,
              "ResourceRecords": [{"Value": f"192.0.2.{last}"}]}
    if check:
        record["HealthCheckId"] = check
    return {"Action": action, "ResourceRecordSet": record}


def batch(zone, changes):
    return {"ChangeResourceRecordSets": {"HostedZoneId": f"Z{zone}", "ChangeBatch": {"Changes": changes}}}


def check():
    return {"CreateHealthCheck": {"HealthCheckConfig": {
        "Type": "TCP", "IPAddress": "192.0.2.1", "Port": 80, "FailureThreshold": 1}}}


def fill(server):
    start = time.perf_counter()
    for zone in range(1, ZONES + 1):
        server.line({"CreateHostedZone": {"Name": f"z{zone}.example.com"}})
        for first in range(0, SETS, BATCH):
            last = min(first + BATCH, SETS)
            server.line(batch(zone, [change("CREATE", zone, n) for n in range(first, last)]))
    return time.perf_counter() - start


def told(name, times):
    times = sorted(times)
    print(f"| {name} | {times[0]:,.0f} | {statistics.median(times):,.0f} | {times[-1]:,.0f} | {len(times)} |", flush=True)


def start_time(program, folder):
    start = time.perf_counter()
    server = Server(program, folder)
    server.line({"GetHealthCheckStatus": {"HealthCheckId": "h1"}})
    took = time.perf_counter() - start
    server.end()
    return took


def bare_pairs(folder):
    file = os.open(os.path.join(folder, "bare"), os.O_RDWR | os.O_CREAT)
    times = []
    for n in range(200):
        start = time.perf_counter_ns()
        os.pwrite(file, b"x" * 60, n * 60)
        os.fdatasync(file)
        os.pwrite(file, b"y", n * 60)
        os.fdatasync(file)
        times.append((time.perf_counter_ns() - start) / 1000)
    os.close(file)
    os.remove(os.path.join(folder, "bare"))
    return times


def main():
    program = os.path.abspath(sys.argv[1])
    if len(sys.argv) > 2:
        measure(program, sys.argv[2])
    else:
        with tempfile.TemporaryDirectory(dir="/dev/shm") as folder:
            measure(program, folder)


def measure(program, folder):
    subprocess.run([program, "init"], cwd=folder, check=True)
    server = Server(program, folder)
    empty = server.memory()
    took = fill(server)
    print(f"filled: {ZONES * (SETS + 2):,} sets in batches of {BATCH}: {took:.2f} s, "
          f"{(server.memory() - empty) * 1024 / (ZONES * (SETS + 2)):.0f} octets a set")
    for _ in range(199):
        server.line(check())
    print("| Line | Least (µs) | Median | Most | Lines |\n|---|---|---|---|---|")
    told("GetHealthCheckStatus, which asks alone",
         [server.timed({"GetHealthCheckStatus": {"HealthCheckId": "h1"}}) for _ in range(500)])
    told("UPSERT of a set", [server.timed(batch(1 + n % ZONES, [change("UPSERT", 1 + n % ZONES, n * 17 % SETS, 2)]))
                             for n in range(500)])
    names = ["DELETE", "CREATE"]
    both = [[server.timed(batch(4, [change(action, 4, 5_000 + n)])) for action in names] for n in range(100)]
    for action, times in zip(names, zip(*both)):
        told(f"{action} of a set", times)
    told("UPSERT of a set that gets a check", [server.timed(batch(2, [change("UPSERT", 2, n, 1, f"h{1 + n % 199}")]))
                                               for n in range(100)])
    told("UPSERT of a set with the same check", [server.timed(batch(2, [change("UPSERT", 2, n, 3, f"h{1 + n % 199}")]))
                                                 for n in range(100)])
    made = []
    ended = []
    for n in range(100):
        made.append(server.timed(check()))
        ended.append(server.timed({"DeleteHealthCheck": {"HealthCheckId": f"h{200 + n}"}}))
    told("CreateHealthCheck, beside 199", made)
    told("DeleteHealthCheck", ended)
    told("Observe, the status stays",
         [server.timed({"Observe": {"HealthCheckId": "h1", "Checker": n % 9, "Pass": False}}) for n in range(500)])
    told("a list of 300 sets",
         [server.timed({"ListResourceRecordSets": {"HostedZoneId": "Z1"}}) for _ in range(50)])
    server.end()
    print(f"started from a journal of {os.path.getsize(os.path.join(folder, 'r53-a.journal')):,} octets: "
          f"{min(start_time(program, folder) for _ in range(3)):.3f} s")
    server = Server(program, folder)
    server.line({"GetHealthCheckStatus": {"HealthCheckId": "h1"}})
    pieces = []
    while True:
        start = time.perf_counter_ns()
        reply = server.line({"Compact": {"Pieces": 1}})
        pieces.append((time.perf_counter_ns() - start) / 1000)
        if "Generation" in reply:
            break
    print(f"compacted in {len(pieces)} pieces, the longest {max(pieces):,.0f} µs, the first {pieces[0]:,.0f}, "
          f"in all {sum(pieces) / 1e6:.3f} s")
    server.end()
    print(f"started from a snapshot of {os.path.getsize(os.path.join(folder, 'r53-b.journal')):,} octets: "
          f"{min(start_time(program, folder) for _ in range(3)):.3f} s")
    print("| Disk | Least (µs) | Median | Most | Pairs |\n|---|---|---|---|---|")
    told("two writes of this folder, a sync behind each", bare_pairs(folder))


main()
