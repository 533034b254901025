#!/usr/bin/env python3
"""How much memory a record set takes in the built program: bench/memory.py PROGRAM [FOLDER].

By how much the resident memory of the process grows from a store of 10,000 simple sets in one zone to one of 100,000 in ten, a set: while
the store that was filled by batches of 500 still runs, behind a start from its journal, and behind a start from a snapshot. What the program
takes by itself, and what the allocator keeps of one batch, is in both and isn't counted."""
import json
import os
import subprocess
import sys
import tempfile

ZONE, BATCH = 9_998, 500


def start(program, folder):
    return subprocess.Popen([program, "run"], cwd=folder, stdin=subprocess.PIPE, stdout=subprocess.PIPE)


def line(process, value):
    process.stdin.write(json.dumps(value, separators=(",", ":")).encode() + b"\n")
    process.stdin.flush()
    reply = json.loads(process.stdout.readline())
    if "Ok" not in reply:
        raise SystemExit(f"{value}: {reply}")


def resident(process):
    with open(f"/proc/{process.pid}/status", encoding="ascii") as status:
        return next(int(line.split()[1]) * 1024 for line in status if line.startswith("VmRSS"))


def end(process):
    process.stdin.close()
    if process.wait() != 0:
        raise SystemExit(f"status {process.returncode}")


def change(zone, n):
    return {"Action": "CREATE", "ResourceRecordSet": {
        "Name": f"www-{n}.z{zone}.example.com", "Type": "A", "TTL": 60, "ResourceRecords": [{"Value": f"192.0.2.{n % 250}"}]}}


def fill(process, zones):
    for zone in range(zones):
        line(process, {"CreateHostedZone": {"Name": f"z{zone}.example.com"}})
        for first in range(0, ZONE, BATCH):
            changes = [change(zone, n) for n in range(first, min(first + BATCH, ZONE))]
            line(process, {"ChangeResourceRecordSets": {"HostedZoneId": f"Z{zone + 1}", "ChangeBatch": {"Changes": changes}}})


def started(program, folder, before_end=()):
    """The resident memory behind a start, once a line is answered; lines may come before the end."""
    process = start(program, folder)
    line(process, {"ListResourceRecordSets": {"HostedZoneId": "Z1", "MaxItems": 1}})
    memory = resident(process)
    for value in before_end:
        line(process, value)
    end(process)
    return memory


def measured(program, folder, zones):
    with tempfile.TemporaryDirectory(dir=folder) as place:
        subprocess.run([program, "init"], cwd=place, check=True)
        process = start(program, place)
        fill(process, zones)
        filled = resident(process)
        end(process)
        from_journal = started(program, place, [{"Compact": {"Pieces": 1_000_000}}])
        return filled, from_journal, started(program, place)


def main():
    program, folder = os.path.abspath(sys.argv[1]), sys.argv[2] if len(sys.argv) > 2 else "/dev/shm"
    small, large = measured(program, folder, 1), measured(program, folder, 10)
    for what, few, many in zip(("filled by batches", "started from a journal", "started from a snapshot"), small, large):
        print(f"{what}: {few // 1024} KiB, {many // 1024} KiB: {(many - few) / (9 * ZONE):.0f} octets a set")


main()
