#!/usr/bin/env python3
"""Kills the built program at random moments and looks at what its files open to: bench/kills.py PROGRAM [TIMES [SEED [FOLDER]]].

One store, opened again and again (1,000 times where no number is given). Command number N is a batch that upserts three sets together:
`left` and `right` with N as their value, and one of fifty others, whose number is N mod 50. Every 40th command is followed by a compaction in
pieces. After each reply that was read the command counts as acknowledged; at a random moment the process gets SIGKILL. Then `dump` has to show
the store behind some command M, whole: not before the last one that was acknowledged, and not behind the last one that was sent; and the
next run goes on from M. SIGKILL leaves what the system holds of the files, so that a loss of power isn't tried here: the theorem's crashes
are, by the scenarios and by calls over disks in memory."""
import json
import os
import random
import signal
import subprocess
import sys
import tempfile
import time

OTHERS = 50
LONGEST_RUN = 0.04
WHOLE_COMPACTION = '{"Compact":{"Pieces":3}}'


def value(number):
    """An address that tells a number."""
    return f"10.{number >> 16 & 255}.{number >> 8 & 255}.{number & 255}"


def change(name, number):
    return {"Action": "UPSERT", "ResourceRecordSet": {
        "Name": f"{name}.example.com", "Type": "A", "TTL": 60, "ResourceRecords": [{"Value": value(number)}]}}


def command(number):
    changes = [change(name, number) for name in ("left", f"other-{number % OTHERS}", "right")]
    return json.dumps({"ChangeResourceRecordSets": {"HostedZoneId": "Z1", "ChangeBatch": {"Changes": changes}}})


def expected(number):
    """What the names have as values behind a command."""
    sets = {f"other-{n % OTHERS}": value(n) for n in range(max(1, number - OTHERS + 1), number + 1)}
    if number > 0:
        sets["left"] = sets["right"] = value(number)
    return sets


def dumped(program, folder):
    """The values of the names in a store, told by the program itself."""
    done = subprocess.run([program, "dump"], cwd=folder, capture_output=True, check=False)
    if done.returncode != 0:
        raise SystemExit(f"dump: status {done.returncode}, {done.stderr.decode().strip()}; files in {folder}")
    sets = {}
    for line in done.stdout.splitlines():
        told = json.loads(line).get("ResourceRecordSet")
        if told and told["Type"] == "A":
            sets[told["Name"].removesuffix(".example.com.")] = told["ResourceRecords"][0]["Value"]
    return sets


def run_and_kill(program, folder, first, moment):
    """Sends commands from `first` on until the moment has come, and kills: the last one acknowledged, and the last one sent."""
    process = subprocess.Popen([program, "run"], cwd=folder, stdin=subprocess.PIPE, stdout=subprocess.PIPE)
    os.set_blocking(process.stdout.fileno(), False)
    end = time.monotonic() + moment
    acknowledged, sent, waiting, read = first - 1, first - 1, [], b""
    while time.monotonic() < end:
        if len(waiting) < 4:
            sent += 1
            waiting.append(sent)
            lines = command(sent) + "\n"
            if sent % 40 == 0:
                lines += WHOLE_COMPACTION + "\n"
                waiting.append(None)
            process.stdin.write(lines.encode())
            process.stdin.flush()
        read += process.stdout.read() or b""
        *replies, read = read.split(b"\n")
        for reply in replies:
            if b'"Ok"' not in reply:
                raise SystemExit(f"reply {reply.decode()}; files in {folder}")
            acknowledged = waiting.pop(0) or acknowledged
    process.send_signal(signal.SIGKILL)
    process.wait()
    # Replies that were written before the kill count as well.
    for reply in (read + (process.stdout.read() or b"")).split(b"\n")[:-1]:
        acknowledged = waiting.pop(0) or acknowledged
    process.stdout.close()
    try:
        process.stdin.close()
    except BrokenPipeError:
        pass
    return acknowledged, sent


def main():
    program = os.path.abspath(sys.argv[1])
    times = int(sys.argv[2]) if len(sys.argv) > 2 else 1000
    seed = int(sys.argv[3]) if len(sys.argv) > 3 else 1
    folder = tempfile.mkdtemp(dir=sys.argv[4] if len(sys.argv) > 4 else None)
    chance = random.Random(seed)
    subprocess.run([program, "init"], cwd=folder, check=True)
    subprocess.run([program, "run"], cwd=folder, check=True, stdout=subprocess.DEVNULL,
                   input=b'{"CreateHostedZone":{"Name":"example.com"}}\n')
    number = unacknowledged = open_commands = 0
    for kill in range(times):
        acknowledged, sent = run_and_kill(program, folder, number + 1, chance.random() * LONGEST_RUN)
        sets = dumped(program, folder)
        fitting = [n for n in range(acknowledged, sent + 1) if expected(n) == sets]
        if not fitting:
            raise SystemExit(f"kill {kill}: acknowledged {acknowledged}, sent {sent}, and the store is that of none of them; files in {folder}")
        number = fitting[0]
        unacknowledged += number > acknowledged
        open_commands += sent > acknowledged
    print(f"{times} kills, {number} commands: each acknowledged one is there, each one whole; at {open_commands} kills a command was in hand, "
          f"of which {unacknowledged} left it made")
    subprocess.run(["rm", "-rf", folder], check=True)


main()
