#!/usr/bin/env python3
"""Refuses each growth of memory of the built program in turn, over its whole run: a line that finds none is answered so, and leaves the
answers to the lines behind it as they are without it.

    python3 bench/refused_memory.py PROGRAM [FOLDER..]      FOLDERs of examples/; all of them, and the lines of LINES, where none is named

It wants gcc, for a library that is loaded before the C library's and refuses call number N of malloc, calloc, realloc and posix_memalign. A
run that ends early has to end with status 7 and without a reply; `init` and `dump` with status 0 or 7; `init` over a store, and `run` over
two empty files, with status 2 or 7.
"""
import json
import os
import subprocess
import sys
import tempfile

LIBRARY = r"""
#define _GNU_SOURCE
#include <dlfcn.h>
#include <errno.h>
#include <stddef.h>
#include <stdlib.h>
#include <unistd.h>
static long refused = -1, count = 0;
__attribute__((constructor)) static void begin(void) { const char *it = getenv("REFUSED"); refused = it ? atol(it) : -1; count = 0; }
__attribute__((destructor)) static void end(void) {
    const char *it = getenv("COUNTED"); if (!it) return;
    char text[24]; int at = 24; long n = count; text[--at] = '\n'; do { text[--at] = '0' + n % 10; n /= 10; } while (n);
    int to = atoi(it); if (write(to, text + at, 24 - at) < 0) return; }
static int is_refused(void) { return ++count == refused; }
void *malloc(size_t n) { static void *(*f)(size_t); if (!f) f = dlsym(RTLD_NEXT, "malloc"); if (is_refused()) { errno = ENOMEM; return 0; } return f(n); }
void *realloc(void *p, size_t n) { static void *(*f)(void *, size_t); if (!f) f = dlsym(RTLD_NEXT, "realloc"); if (is_refused()) { errno = ENOMEM; return 0; } return f(p, n); }
int posix_memalign(void **p, size_t a, size_t n) { static int (*f)(void **, size_t, size_t); if (!f) f = dlsym(RTLD_NEXT, "posix_memalign"); if (is_refused()) return ENOMEM; return f(p, a, n); }
void *aligned_alloc(size_t a, size_t n) { static void *(*f)(size_t, size_t); if (!f) f = dlsym(RTLD_NEXT, "aligned_alloc"); if (is_refused()) { errno = ENOMEM; return 0; } return f(a, n); }
"""
TOP = os.path.dirname(os.path.dirname(os.path.abspath(__file__)))
ZONE = '{"CreateHostedZone":{"Name":"example.com","CallerReference":"a"}}'
CHECK = '{"CreateHealthCheck":{"CallerReference":"c","HealthCheckConfig":{"Type":"TCP","IPAddress":"192.0.2.1","Port":80}}}'
PIECE = '{"Compact":{"Pieces":1}}'
ASKED = '{"Query":{"Packet":"12340100000100000000000003%s076578616d706c6503636f6d0000010001","Address":"%s"}}'


def batch(action, *sets):
    """A batch that does the same with each set, of type A."""
    changes = [{"Action": action, "ResourceRecordSet": {"Name": f"{name}.example.com.", "Type": "A", **more}} for name, more in sets]
    return json.dumps({"ChangeResourceRecordSets": {"HostedZoneId": "/hostedzone/Z1", "ChangeBatch": {"Comment": "web", "Changes": changes}}})


def weighted(ident, address, **more):
    return {"SetIdentifier": ident, "Weight": 1, "TTL": 60, "ResourceRecords": [{"Value": address}], **more}


def near(region, target, looks):
    """A latency alias to a group."""
    to = {"HostedZoneId": "Z1", "DNSName": f"{target}.example.com", "EvaluateTargetHealth": looks}
    return {"SetIdentifier": region, "Region": region, "AliasTarget": to}


LATENCY = b"lat 198.51.100.0/24 us-east-1=20,eu-west-1=90\n"
WANTED_FROM = ASKED % (b"top".hex(), "198.51.100.7")
# By title: the lines, and the rows of the tables.
LINES = {
    "a compaction": (
        [
            '{"CreateHostedZone":{"Name":"example.com"}}',
            PIECE,
            '{"CreateHealthCheck":{"HealthCheckConfig":{"Type":"TCP","IPAddress":"192.0.2.1","Port":80}}}',
            PIECE,
            '{"ListResourceRecordSets":{"HostedZoneId":"Z1"}}',
            '{"Compact":{"Pieces":9}}',
            '{"GetHealthCheckStatus":{"HealthCheckId":"h1"}}',
            '{"DeleteHealthCheck":{"HealthCheckId":"h1"}}',
            '{"DeleteHostedZone":{"Id":"Z1"}}',
        ],
        b"",
    ),
    "a first zone": (
        [
            ZONE,
            batch("CREATE", ("www", {"TTL": 300, "ResourceRecords": [{"Value": "192.0.2.1"}]})),
            ASKED % (b"www".hex(), "127.0.0.1"),
            '{"ListResourceRecordSets":{"HostedZoneId":"Z1"}}',
        ],
        b"",
    ),
    "a region that is down": (
        [
            ZONE,
            CHECK,
            batch(
                "CREATE",
                ("e", weighted("1", "192.0.2.1", HealthCheckId="h1")),
                ("e", weighted("2", "192.0.2.2", HealthCheckId="h1")),
                ("w", weighted("1", "192.0.2.3")),
                ("top", near("us-east-1", "e", True)),
                ("top", near("eu-west-1", "w", True)),
            ),
            WANTED_FROM,
            *('{"Observe":{"HealthCheckId":"h1","Checker":%d,"Pass":false}}' % (it // 3) for it in range(3 * 41)),
            WANTED_FROM,
            batch("UPSERT", ("top", near("us-east-1", "e", False))),
            WANTED_FROM,
        ],
        LATENCY,
    ),
    "a compaction in pieces": ([PIECE, CHECK, PIECE, PIECE], b""),
}
REFUSED = b'{"Error":"OutOfMemory","Number":20}'


class Program:
    def __init__(self, program, library, tables):
        self.program, self.library, self.tables = program, library, tables

    def run(self, words, lines=b"", store=None, refused=-1):
        """Runs in a new folder; answers the status, the replies, the files, and how many growths there were."""
        with tempfile.TemporaryDirectory(dir="/dev/shm" if os.path.isdir("/dev/shm") else None) as folder:
            for name, octets in {**(store or {}), **self.tables}.items():
                with open(f"{folder}/{name}", "wb") as file:
                    file.write(octets)
            read, write = os.pipe()
            told = {**os.environ, "LD_PRELOAD": self.library, "REFUSED": str(refused), "COUNTED": str(write)}
            ran = subprocess.run([self.program, *words], cwd=folder, input=lines, capture_output=True, env=told, pass_fds=[write])
            os.close(write)
            count = int(os.read(read, 99).split()[0])
            os.close(read)
            files = {}
            for name in ("r53-a.journal", "r53-b.journal"):
                if os.path.exists(f"{folder}/{name}"):
                    with open(f"{folder}/{name}", "rb") as file:
                        files[name] = file.read()
            return ran.returncode, ran.stdout.split(b"\n")[:-1], files, count


def never(title, program, words, store):
    """Words that these files refuse, which stay as they are."""
    status, _, files, count = program.run(words, store=store)
    assert status == 2 and files == store, (title, words, status)
    for n in range(1, count + 1):
        ended, told, files, _ = program.run(words, store=store, refused=n)
        assert ended in (2, 7) and told == [] and files == store, (title, words, n, ended)


def tried(title, program, lines):
    status, _, empty, count = program.run(["init"])
    assert status == 0
    for n in range(1, count + 1):
        ended, _, files, _ = program.run(["init"], refused=n)
        assert ended in (0, 7) and (files == (empty if ended == 0 else {})), (title, "init", n, ended)
    never(title, program, ["init"], empty)
    never(title, program, ["run"], {name: b"" for name in empty})
    feed = lambda some: b"".join(it.encode() + b"\n" for it in some)
    status, replies, files, count = program.run(["run"], feed(lines), empty)
    assert status == 0 and len(replies) == len(lines) and REFUSED not in replies, (title, status)
    without, early, refused = {}, 0, 0
    for n in range(1, count + 1):
        ended, told, kept, _ = program.run(["run"], feed(lines), empty, n)
        if ended == 7:
            assert told == [] and kept == empty, (title, n, told)
            early += 1
            continue
        assert ended == 0 and len(told) == len(lines), (title, n, ended, len(told))
        lacking = [it for it, reply in enumerate(told) if reply == REFUSED]
        assert len(lacking) <= 1, (title, n, lacking)
        if not lacking:
            # what is taken ahead may be done without
            assert (told, kept) == (replies, files), (title, n)
            continue
        refused += 1
        at = lacking[0]
        if at not in without:
            without[at] = program.run(["run"], feed(lines[:at] + lines[at + 1 :]), empty)
        assert told[:at] + told[at + 1 :] == without[at][1], (title, n, at)
        assert kept == without[at][2], (title, n, at)
    status, wrote, _, most = program.run(["dump"], store=files)
    for n in range(1, most + 1):
        ended, told, kept, _ = program.run(["dump"], store=files, refused=n)
        assert (ended, told) == (0, wrote) or (ended, told) == (7, []), (title, "dump", n, ended)
        assert kept == files
    print(f"{title}: {len(lines)} lines, {count} growths: {early} refused at the beginning, {refused} refused one of {len(without)} lines; dump {most}")


def main():
    program = os.path.abspath(sys.argv[1])
    folders = sys.argv[2:] or sorted(it for it in os.listdir(f"{TOP}/examples") if os.path.isdir(f"{TOP}/examples/{it}"))
    sets = dict(LINES if len(sys.argv) < 3 else {})
    for name in folders:
        folder, rows = f"{TOP}/examples/{name}", b""
        with open(f"{folder}/lines.jsonl") as file:
            lines = file.read().split("\n")[:-1]
        if os.path.exists(f"{folder}/r53.tables"):
            with open(f"{folder}/r53.tables", "rb") as file:
                rows = file.read()
        sets[name] = lines, rows
    with tempfile.TemporaryDirectory() as room:
        with open(f"{room}/refusing.c", "w") as file:
            file.write(LIBRARY)
        subprocess.run(["gcc", "-O1", "-shared", "-fPIC", "-o", f"{room}/refusing.so", f"{room}/refusing.c", "-ldl"], check=True)
        for title, (lines, rows) in sets.items():
            tried(title, Program(program, f"{room}/refusing.so", {"r53.tables": rows} if rows else {}), lines)


main()
