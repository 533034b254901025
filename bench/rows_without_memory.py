#!/usr/bin/env python3
"""Refuses each allocation in turn in the tests of bench/rows_without_memory, as `rt try --test --fail-alloc N` does for one N.

    python3 bench/rows_without_memory.py [TEST..]

`rt try` takes one N, and builds the tests anew for each. So they are built once, for an N of its own, and the number in the program
that was built is replaced for each other one: the greatest N that is tried is the last at which the program allocates at all, which
is found by halving, with a trap in place of the refusal. It wants objdump. What fails is printed, with its N.
"""
import os
import re
import shutil
import subprocess
import sys
import tempfile
import threading
import time

TOP = os.path.dirname(os.path.dirname(os.path.abspath(__file__)))
NAME = "rows_without_memory"
TESTS = ["a_first_zone", "a_region_that_is_down", "a_store_is_made", "a_compaction_in_pieces"]
MARK = 1_000_003


def built(work):
    """The program of the tests, as `rt try` builds it, in which allocation number MARK fails."""
    for name in ("crates", "crates.txt", "HANDLES"):
        source = f"{TOP}/{name}"
        if os.path.isdir(source):
            shutil.copytree(source, f"{work}/{name}", ignore=shutil.ignore_patterns("out"))
        else:
            shutil.copy(source, f"{work}/{name}")
    crate = f"{work}/crates/bench_{NAME}"
    os.makedirs(f"{crate}/src")
    for name in os.listdir(f"{TOP}/bench/{NAME}/src"):
        shutil.copy(f"{TOP}/bench/{NAME}/src/{name}", f"{crate}/src/{name.removesuffix('.main')}")
    with open(f"{crate}/src/lib.rt") as file:
        uses = re.search(r"^// crates: (.*)$", file.read(), re.M)[1]
    with open(f"{work}/crates.txt", "a") as file:
        file.write(f"bench_{NAME}: {uses}\n")
    room = f"{work}/tmp"
    os.makedirs(room)
    words = ["rt", "try", "--test", "--fail-alloc", str(MARK)]
    ran = subprocess.Popen(words, cwd=crate, env={**os.environ, "TMPDIR": room}, stdout=subprocess.PIPE, stderr=subprocess.STDOUT)
    kept = []

    def keep():
        # The program lies in a folder of its own for each test, as long as that runs.
        while ran.poll() is None:
            for folder, _, names in os.walk(room):
                if "program" in names and not kept:
                    try:
                        shutil.copy2(f"{folder}/program", f"{work}/program.part")
                    except OSError:
                        continue
                    if os.access(f"{work}/program.part", os.X_OK):
                        kept.append(os.path.getsize(f"{work}/program.part"))
            time.sleep(0.05)

    watch = threading.Thread(target=keep)
    watch.start()
    told = ran.communicate()[0].decode()
    watch.join()
    print(told.strip())
    assert "4 passed; 0 failed" in told and kept
    with open(f"{work}/program.part", "rb") as file:
        return bytearray(file.read())


def places(work, octets):
    """Where the number stands that is compared with the count of allocations, and where the refusal behind it begins."""
    whole = f"{work}/whole"
    with open(whole, "wb") as file:
        file.write(octets)
    text = subprocess.run(["objdump", "-d", "--no-show-raw-insn", whole], capture_output=True, text=True, check=True).stdout
    starts = re.findall(rf"^\s+([0-9a-f]+):\s+cmp\s+\$0x{MARK:x},%rax\n\s+([0-9a-f]+):.*\n\s+([0-9a-f]+):", text, re.M)
    sections = subprocess.run(["objdump", "-h", whole], capture_output=True, text=True, check=True).stdout
    found = re.search(r"\.text\s+[0-9a-f]+\s+([0-9a-f]+)\s+[0-9a-f]+\s+([0-9a-f]+)", sections)
    shift = int(found[2], 16) - int(found[1], 16)
    assert starts, "no count of allocations in the program"
    numbers = [octets.index(MARK.to_bytes(4, "little"), int(at, 16) + shift) for at, _, _ in starts]
    return numbers, [int(behind, 16) + shift for _, _, behind in starts]


class Rows:
    def __init__(self, work):
        self.work = work
        self.octets = built(work)
        self.numbers, self.refusals = places(work, self.octets)
        self.lock = threading.Lock()
        self.made = 0

    def run(self, test, n, trap=False):
        """How a test ends where allocation number n fails, or ends the program."""
        octets = bytearray(self.octets)
        for at in self.numbers:
            octets[at : at + 4] = n.to_bytes(4, "little")
        if trap:
            for at in self.refusals:
                octets[at : at + 2] = b"\x0f\x0b"
        with self.lock:
            self.made += 1
            path = f"{self.work}/run{self.made}"
        with open(path, "wb") as file:
            file.write(octets)
        os.chmod(path, 0o755)
        ran = subprocess.run([path, f"rows::{test}"], capture_output=True, stdin=subprocess.DEVNULL)
        os.remove(path)
        return ran.returncode, ran.stdout + ran.stderr

    def count(self, test):
        """How often a test allocates."""
        low, high = 0, 1
        while self.run(test, high, True)[0] != 0:
            low, high = high, high * 2
        while low + 1 < high:
            middle = (low + high) // 2
            if self.run(test, middle, True)[0] != 0:
                low = middle
            else:
                high = middle
        return low


def main():
    tests = sys.argv[1:] or TESTS
    with tempfile.TemporaryDirectory(dir="/dev/shm" if os.path.isdir("/dev/shm") else None) as work:
        rows, failed = Rows(work), 0
        for test in tests:
            most = rows.count(test)
            for n in range(1, most + 1):
                status, told = rows.run(test, n)
                if status != 0:
                    failed += 1
                    print(f"{test}: allocation {n}: status {status}\n{told.decode(errors='replace')[:2000]}")
            print(f"{test}: each of {most} allocations refused in turn", flush=True)
    sys.exit(1 if failed else 0)


main()
