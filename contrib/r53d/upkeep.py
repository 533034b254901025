"""What is looked at now and then: the length of the journal, a program that hangs, and the state that the metrics page and `!status` tell."""
import json
import os
import time

from . import journal, metrics, notify

PIECES = 16
LOOK, LOOK_AGAIN = 0.001, 0.01
TRY_AGAIN = 600.0
PAGE_WAITS = 2.0


def milliseconds(seconds):
    return round(1000 * seconds, 3)


class Upkeep:
    """`compacting` says that a compaction goes on, piece by piece after each Serve; `healthy` what the checks were when they were last asked."""

    def __init__(self, driver):
        self.driver, self.counts = driver, driver.counts
        self.watching = journal.Watch(driver.settings.folder)
        self.healthy, self.waiters = {}, []
        self.compacting, self.compact_at, self.asked_at = False, 0.0, 0.0
        self.look_at = self.journal_at = 0.0

    def watch(self, now):
        """Looks at all once a second, and at a journal that isn't followed to its end more often."""
        if now >= self.journal_at:
            self.look_at_journal(now)
        if now < self.look_at:
            return
        self.look_at = now + 1.0
        if notify.has_watchdog():
            notify.send("WATCHDOG=1")
        for server in (self.driver.page, self.driver.tcp):
            if server is not None:
                server.sweep(now)
        if self.waiters and now - self.asked_at > PAGE_WAITS:
            self.healthy = {}
            self.give_page()
        self.look_at_child(now)

    def look_at_child(self, now):
        """Kills a program that hasn't replied for too long. Until it has opened the store it is let be, and so by the manager."""
        child, patience = self.driver.child, self.driver.settings.patience
        if child is None:
            return
        if not child.has_replied:
            notify.send("EXTEND_TIMEOUT_USEC=30000000")
        elif child.pending and patience and now - child.oldest > patience:
            self.driver.log.event("killed", text="the program didn't reply")
            child.kill()

    def end(self):
        """The program has ended, and with it a compaction that wasn't done."""
        self.compacting = False
        self.give_page()

    # ---- compaction

    def look_at_journal(self, now):
        """Follows the journal, a millisecond at a time since nothing is served meanwhile, and begins a compaction where one is due."""
        self.journal_at, s = now + 1.0, self.driver.settings
        if self.driver.state != "serving":
            return
        try:
            seen = self.watching.look(LOOK)
        except (journal.StoreFault, OSError):
            return
        if not seen.is_whole:
            self.journal_at = now + LOOK_AGAIN
        if s.compact_factor and not self.compacting and now >= self.compact_at:
            self.compacting = seen.is_due(s.compact_factor, s.compact_least)

    def served(self):
        """A Serve is done: the next pieces of a compaction come next."""
        if self.compacting and not self.driver.hand.own:
            self.driver.hand.own.append((b'{"Compact":{"Pieces":%d}}' % PIECES, self.compacted))

    def compacted(self, reply):
        """A compaction went on, ended, or is refused; then it isn't tried again for ten minutes."""
        got = json.loads(reply)
        if "Left" in got:
            return
        self.compacting = False
        if "Generation" in got:
            self.counts.compactions += 1
        else:
            self.compact_at = time.monotonic() + TRY_AGAIN
        self.driver.log.event("compacted", reply=got)

    # ---- the page

    def asked_for_page(self, then):
        """Asks for the status of each check, and gives the page once all are there; without them where that takes too long."""
        self.waiters.append(then)
        checks, hand = self.driver.checks, self.driver.hand
        if self.driver.state != "serving" or not checks:
            self.give_page()
        elif len(self.waiters) == 1:
            self.healthy, last, self.asked_at = {}, max(checks), time.monotonic()
            for number in sorted(checks):
                line = b'{"GetHealthCheckStatus":{"HealthCheckId":"h%d"}}' % number
                hand.own.append((line, lambda reply, number=number: self.took_health(number, reply, number == last)))
            hand.line_came()

    def took_health(self, number, reply, is_last):
        got = json.loads(reply)
        if "Healthy" in got:
            self.healthy[number] = got["Healthy"]
        if is_last:
            self.give_page()

    def give_page(self):
        """Gives the page to all who asked for it."""
        waiters, self.waiters = self.waiters, []
        text = metrics.page(self.counts, self.state()) if waiters else b""
        for then in waiters:
            then(text)

    def state(self):
        """What the page tells beside the counts."""
        driver = self.driver
        is_up = driver.state == "serving"
        header = length = None
        try:
            seen = self.watching.look(LOOK)
            header, length = seen.header, seen.length if seen.is_whole else None
        except (journal.StoreFault, OSError):
            pass
        return {"up": int(is_up), "journal_bytes": length, "snapshot_bytes": header and header.snapshot,
                "generation": header and header.generation, "checks": len(driver.checks),
                "healthy": sum(self.healthy.values()) if is_up and len(self.healthy) == len(driver.checks) else None,
                "clients": len(driver.clients.all), "lost": driver.reports.lost, "unlogged": driver.log.lost}

    def status(self):
        """The state of the service, as an object."""
        driver, state, c = self.driver, self.state(), self.counts
        header = self.watching.header
        return {
            "pid": os.getpid(), "child": driver.child and driver.child.process.pid, "state": driver.state, "begun": int(driver.begun),
            "query_port": driver.query_port, "tcp_port": driver.tcp and driver.tcp.port, "report_port": driver.report_port,
            "metrics_port": driver.page and driver.page.port, "restarts": c.restarts, "compactions": c.compactions,
            "clients": state["clients"], "turns": driver.hand.turns.count,
            "journal": {"side": header and header.side, "generation": state["generation"], "length": state["journal_bytes"],
                        "snapshot": state["snapshot_bytes"]},
            "counts": {**c.served, "Turns": c.turns, "Serves": c.serves, "Tcp": c.tcp},
            "line_wait_ms": {"mean": milliseconds(c.wait_sum / max(c.wait_count, 1)), "most": milliseconds(c.wait_most)},
        }
