#!/usr/bin/env python3
"""Serves at full rate for a while, with commands between: bench/soak.py PROGRAM [SECONDS [FOLDER]] (600 seconds where no number is given).

A store of a thousand simple sets and a failover pair with a check for its primary. Clients, each a process with a socket of its own, ask for these
sets without a pause, each query behind the reply to the one before or behind a tenth of a second, and count what they sent, what came back and
what of it was wrong. The store serves 20,000 turns a line; between the lines a batch upserts a set, the check is observed up or down and the pair asked for, the
store is compacted at times, and zones, checks and sets come and go. Looked at: each Serve line's counts add up to its turns; the replies that the
clients got are not more than the answers that were told, nor fewer, but for datagrams that the system dropped; no reply is wrong; and the
resident memory of the process behind the first tenth of the time is that at the end, but for a sixteenth."""
import json
import multiprocessing
import os
import random
import socket
import struct
import subprocess
import sys
import tempfile
import time

SETS, CLIENTS, TURNS = 1000, 3, 20_000


def packet(number, name):
    labels = b"".join(bytes([len(label)]) + label for label in name.encode().split(b"."))
    return struct.pack(">HHHHHH", number, 0x100, 1, 0, 0, 0) + labels + b"\0\0\1\0\1"


def ask(port, stop, counts, seed):
    """A client: it asks for sets at random, and looks at each reply."""
    chance = random.Random(seed)
    with socket.socket(socket.AF_INET, socket.SOCK_DGRAM) as link:
        link.settimeout(0.1)
        link.connect(("127.0.0.1", port))
        number = sent = got = wrong = 0
        while not stop.is_set():
            number = (number + 1) & 0xFFFF
            which = chance.randrange(SETS)
            query = packet(number, f"www-{which}.example.com")
            link.send(query)
            sent += 1
            try:
                reply = link.recv(4096)
                # A reply that came too late for its query is passed over.
                while reply[:2] != query[:2]:
                    reply = link.recv(4096)
            except TimeoutError:
                continue
            got += 1
            value = bytes([192, 0, 2 + which // 250, which % 250])
            wrong += reply[3] & 15 != 0 or reply[7] != 1 or reply[-4:] != value
        counts.put((sent, got, wrong))


class Server:
    def __init__(self, program, folder):
        self.process = subprocess.Popen([program, "run"], cwd=folder, stdin=subprocess.PIPE, stdout=subprocess.PIPE)

    def line(self, value):
        self.process.stdin.write(json.dumps(value).encode() + b"\n")
        self.process.stdin.flush()
        reply = json.loads(self.process.stdout.readline())
        if "Ok" not in reply:
            raise SystemExit(f"{value}: {reply}")
        return reply

    def memory(self):
        with open(f"/proc/{self.process.pid}/status", encoding="ascii") as status:
            return next(int(line.split()[1]) for line in status if line.startswith("VmRSS"))


def upsert(name, value, action="UPSERT", **more):
    return {"Action": action, "ResourceRecordSet": {
        "Name": f"{name}.example.com", "Type": "A", "TTL": 60, "ResourceRecords": [{"Value": value}], **more}}


def batch(*changes):
    return {"ChangeResourceRecordSets": {"HostedZoneId": "Z1", "ChangeBatch": {"Changes": list(changes)}}}


def address(which):
    return f"192.0.{2 + which // 250}.{which % 250}"


def check(number):
    return {"CreateHealthCheck": {"HealthCheckConfig": {"Type": "TCP", "IPAddress": f"192.0.2.{number}", "Port": 80}}}


def fill(server):
    server.line({"CreateHostedZone": {"Name": "example.com"}})
    for first in range(0, SETS, 250):
        server.line(batch(*(upsert(f"www-{which}", address(which)) for which in range(first, first + 250))))
    server.line(check(1))
    server.line(batch(
        upsert("pair", "192.0.2.1", SetIdentifier="a", Failover="PRIMARY", HealthCheckId="h1"),
        upsert("pair", "192.0.2.2", SetIdentifier="b", Failover="SECONDARY")))


def between(server, round_number, chance):
    """Commands and reports between two Serve lines, which leave as many sets, checks and zones as they found; how the pair answers then."""
    which = chance.randrange(SETS)
    server.line(batch(upsert(f"www-{which}", address(which))))
    server.line(batch(upsert("passing", "192.0.2.9", "CREATE"), upsert("www-0", address(0))))
    server.line(batch(upsert("passing", "192.0.2.9", "DELETE")))
    up = chance.random() < 0.5
    for _ in range(3):
        for checker in range(50):
            server.line({"Observe": {"HealthCheckId": "h1", "Checker": checker, "Pass": up}})
    reply = server.line({"Query": {"Packet": packet(7, "pair.example.com").hex(), "Address": "127.0.0.1"}})["Reply"]
    if not reply.endswith("c0000201" if up else "c0000202"):
        raise SystemExit(f"the pair answers {reply} where its primary is {'up' if up else 'down'}")
    if round_number % 20 == 0:
        made = server.line(check(2))["HealthCheck"]["Id"]
        server.line({"DeleteHealthCheck": {"HealthCheckId": made}})
        zone = server.line({"CreateHostedZone": {"Name": "passing.example"}})["HostedZone"]["Id"]
        server.line({"DeleteHostedZone": {"Id": zone}})
    if round_number % 50 == 0:
        server.line({"Compact": {"Pieces": 1000}})


def serve(server, seconds, chance):
    """Serve lines with commands between, until the time is over: the sums of their counts, the rounds, and the memory early and at the end."""
    sums, rounds, early = {}, 0, None
    begin = time.monotonic()
    while (passed := time.monotonic() - begin) < seconds:
        rounds += 1
        counts = server.line({"Serve": {"Turns": TURNS}})
        told = ("Answered", "Quiet", "Reports", "Silent", "Unknown")
        if counts["Turns"] != TURNS or sum(counts[name] for name in told) != TURNS:
            raise SystemExit(f"counts that don't add up: {counts}")
        for name in told:
            sums[name] = sums.get(name, 0) + counts[name]
        between(server, rounds, chance)
        if early is None and passed >= seconds / 10:
            early = server.memory()
    return sums, rounds, early, server.memory()


def free_port():
    with socket.socket(socket.AF_INET, socket.SOCK_DGRAM) as link:
        link.bind(("127.0.0.1", 0))
        return link.getsockname()[1]


def main():
    program = os.path.abspath(sys.argv[1])
    seconds = int(sys.argv[2]) if len(sys.argv) > 2 else 600
    folder = tempfile.mkdtemp(dir=sys.argv[3] if len(sys.argv) > 3 else None)
    subprocess.run([program, "init"], cwd=folder, check=True)
    server = Server(program, folder)
    fill(server)
    port = free_port()
    server.line({"Bind": {"QueryPort": port, "ReportPort": free_port()}})
    stop, results = multiprocessing.Event(), multiprocessing.Queue()
    clients = [multiprocessing.Process(target=ask, args=(port, stop, results, seed), daemon=True) for seed in range(CLIENTS)]
    for client in clients:
        client.start()
    sums, rounds, early, late = serve(server, seconds, random.Random(1))
    stop.set()
    # Clients may wait for a last reply: a few turns are served until nothing comes any more.
    while (counts := server.line({"Serve": {"Turns": 1}}))["Quiet"] == 0:
        sums["Answered"] += counts["Answered"]
    sent, got, wrong = (sum(column) for column in zip(*(results.get() for _ in clients)))
    for client in clients:
        client.join()
    server.process.stdin.close()
    if server.process.wait() != 0:
        raise SystemExit(f"status {server.process.returncode}")
    print(f"{seconds} s, {rounds} rounds: {sent} queries sent, {sums['Answered']} answered, {got} replies read in time, {wrong} wrong; "
          f"memory {early} KiB early, {late} KiB at the end")
    if wrong or sums["Silent"] or sums["Reports"] or sums["Unknown"] or not got <= sums["Answered"] <= sent or late > early * 17 // 16:
        raise SystemExit("not as it should be")
    subprocess.run(["rm", "-rf", folder], check=True)


main()
