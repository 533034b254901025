#!/usr/bin/env python3
"""Fills a journal by control lines until one is refused with JournalFull (19), and goes on behind a compaction.

    python3 bench/full_journal.py PROGRAM [FOLDER]      FOLDER has room for some 300 MB; one of memory is quickest

Each line replaces 500 aliases with long names, some 260,000 octets in the journal. The length that the refusal tells is compared with that of the
file: a change of n octets is refused exactly where length + 5 + n is above 268,435,456.
"""
import json
import os
import subprocess
import sys
import tempfile

MOST = 268_435_456


def name(first):
    """A name of 255 octets below example.com, whose wire form begins with this label."""
    labels = [first] + ["x" * 63] * 3
    left = 255 - 13 - sum(len(it) + 1 for it in labels)
    return ".".join([first + "y" * left, *labels[1:], "example.com"])


def octets(text):
    return sum(len(it) + 1 for it in text.split(".")) + 1


def change(action, owner, **more):
    return {"Action": action, "ResourceRecordSet": {"Name": owner, "Type": "A", **more}}


def batch(changes):
    return json.dumps({"ChangeResourceRecordSets": {"HostedZoneId": "Z1", "ChangeBatch": {"Changes": changes}}})


def main():
    program = os.path.abspath(sys.argv[1])
    with tempfile.TemporaryDirectory(dir=sys.argv[2] if len(sys.argv) > 2 else None) as folder:
        subprocess.run([program, "init"], cwd=folder, check=True)
        run = subprocess.Popen([program, "run"], cwd=folder, stdin=subprocess.PIPE, stdout=subprocess.PIPE, text=True)

        def send(line):
            run.stdin.write(line + "\n")
            run.stdin.flush()
            return json.loads(run.stdout.readline())

        assert "Ok" in send('{"CreateHostedZone":{"Name":"example.com"}}')
        target = name("t")
        assert "Ok" in send(batch([change("CREATE", target, TTL=60, ResourceRecords=[{"Value": "192.0.2.1"}])]))
        to = {"AliasTarget": {"HostedZoneId": "Z1", "DNSName": target, "EvaluateTargetHealth": False}}
        aliases = [name("a%03d" % i) for i in range(500)]
        large = batch([change("UPSERT", it, **to) for it in aliases])
        # a command: version, kind, zone, count; a change: action, characters, name, type, policy, 1, target, flag, no check
        size = 1 + 1 + 4 + 2 + sum(1 + 4 + octets(it) + 2 + 1 + 1 + octets(target) + 1 + 1 for it in aliases)
        length = os.path.getsize(os.path.join(folder, "r53-a.journal"))
        made = 0
        while True:
            reply = send(large)
            if "Ok" not in reply:
                break
            made += 1
            length += 5 + size
        assert os.path.getsize(os.path.join(folder, "r53-a.journal")) == length, "the file has another length"
        assert reply == {"Error": "JournalFull", "Length": length, "Number": 19}, reply
        assert length + 5 + size > MOST >= length, (length, size)
        print(f"{made} changes of {size} octets; refused at {length}, {MOST - length} octets below the most")
        while "Generation" not in reply:
            reply = send('{"Compact":{"Pieces":100}}')
            assert "Ok" in reply, reply
        print(f"compacted: generation {reply['Generation']}")
        assert "Ok" in send(large)
        run.stdin.close()
        assert run.wait() == 0
        print(f"{folder}: " + ", ".join(f"{it} {os.path.getsize(os.path.join(folder, it))}" for it in sorted(os.listdir(folder))))


main()
