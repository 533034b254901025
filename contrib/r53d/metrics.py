"""Counts, and the page on which Prometheus reads them."""
import socket
import time

from .loop import READ, WRITE

BUCKETS = (0.001, 0.005, 0.025, 0.1, 1.0)
MOST_REQUEST = 8192
MOST_READERS = 16
PATIENCE = 5.0

SERVED = {
    "Answered": ("queries_answered", "Queries that were answered."),
    "Silent": ("queries_silent", "Packets on the query port that get no answer."),
    "Reports": ("reports", "Reports that the program took."),
    "Unknown": ("unknown", "Datagrams on the report port that are no report of an endpoint's check."),
}


class Counts:
    """What was counted since the driver began, over all runs of the program."""

    def __init__(self):
        self.served = dict.fromkeys(SERVED, 0)
        self.turns = self.serves = self.tcp = self.restarts = self.compactions = 0
        self.lines = {}
        self.waits = [0] * len(BUCKETS)
        self.wait_count, self.wait_sum, self.wait_most = 0, 0.0, 0.0

    def serve(self, reply, wakes):
        """A Serve line's reply, of whose unknown datagrams so many were wakes of the driver."""
        for member in SERVED:
            self.served[member] += reply[member]
        self.served["Unknown"] -= min(wakes, reply["Unknown"])
        self.turns += reply["Turns"]
        self.serves += 1

    def line(self, kind, outcome):
        self.lines[kind, outcome] = self.lines.get((kind, outcome), 0) + 1

    def waited(self, seconds):
        """A line waited so long for the program to come back from serving."""
        self.wait_count += 1
        self.wait_sum += seconds
        self.wait_most = max(self.wait_most, seconds)
        for i, bound in enumerate(BUCKETS):
            self.waits[i] += seconds <= bound


def family(name, kind, text, *samples):
    """The lines of a metric; a sample is (suffix and labels, value)."""
    head = ["# HELP r53d_%s %s" % (name, text), "# TYPE r53d_%s %s" % (name, kind)]
    return head + ["r53d_%s%s %s" % (name, labels, value) for labels, value in samples]


def counter(name, text, value):
    return family(name + "_total", "counter", text, ("", value))


def gauge(name, text, value):
    return family(name, "gauge", text, ("", value)) if value is not None else []


def line_samples(lines):
    return [('{line="%s",outcome="%s"}' % key, count) for key, count in sorted(lines.items())]


def wait_samples(counts):
    buckets = [('_bucket{le="%s"}' % bound, n) for bound, n in zip(BUCKETS, counts.waits)]
    return buckets + [('_bucket{le="+Inf"}', counts.wait_count), ("_sum", "%.6f" % counts.wait_sum),
                      ("_count", counts.wait_count)]


def page(counts, state):
    """The text of the page. `state` has up, journal_bytes, snapshot_bytes, generation, checks, healthy, clients, lost (reports), unlogged."""
    out = []
    for member, (name, text) in SERVED.items():
        out += counter(name, text, counts.served[member])
    out += counter("tcp_queries_answered", "Queries over TCP that were answered.", counts.tcp)
    out += counter("turns", "Turns that the program took on its ports.", counts.turns)
    out += counter("serves", "Serve lines that the driver gave.", counts.serves)
    out += family("lines_total", "counter", "Control lines of clients, by kind and outcome.", *line_samples(counts.lines))
    out += family("line_wait_seconds", "histogram", "How long a line waited for the program to come back from serving.",
                  *wait_samples(counts))
    out += gauge("line_wait_seconds_max", "The longest such wait.", "%.6f" % counts.wait_most)
    out += counter("restarts", "Times that the program was started anew after a fault.", counts.restarts)
    out += counter("compactions", "Compactions that were done.", counts.compactions)
    out += counter("reports_unsaved", "Reports that the disk didn't take; they are kept in memory.", state["lost"])
    out += counter("log_lost", "Lines of the log that couldn't be written.", state["unlogged"])
    out += gauge("up", "1 while the program serves.", state["up"])
    out += gauge("journal_bytes", "Length of the file that decides, up to its closed gate, once that is found.", state["journal_bytes"])
    out += gauge("journal_snapshot_bytes", "Length of the snapshot in that file.", state["snapshot_bytes"])
    out += gauge("journal_generation", "Its generation.", state["generation"])
    out += gauge("checks", "Health checks.", state["checks"])
    out += gauge("checks_healthy", "Health checks that are healthy.", state["healthy"])
    out += gauge("clients", "Connections to the control socket.", state["clients"])
    return ("\n".join(out) + "\n").encode()


class Reader:
    """A connection that asks for the page."""

    def __init__(self, server, sock):
        self.server, self.sock = server, sock
        self.request, self.out, self.came = b"", b"", time.monotonic()

    def on_event(self, events):
        try:
            if events & READ:
                data = self.sock.recv(MOST_REQUEST)
                self.request += data
                if not data or len(self.request) > MOST_REQUEST:
                    self.server.drop(self)
                elif b"\r\n\r\n" in self.request or b"\n\n" in self.request:
                    self.server.loop.set(self.sock, 0)
                    self.asked()
            else:
                self.out = self.out[self.sock.send(self.out):]
                if not self.out:
                    self.server.drop(self)
        except BlockingIOError:
            pass
        except OSError:
            self.server.drop(self)

    def asked(self):
        words = self.request.split(b"\r\n", 1)[0].split(b" ")
        if words[0] != b"GET":
            self.answer("405 Method Not Allowed", b"")
        elif len(words) < 2 or words[1].split(b"?")[0].strip() != b"/metrics":
            self.answer("404 Not Found", b"the page is /metrics\n")
        else:
            self.server.ask(lambda text: self.answer("200 OK", text))

    def answer(self, status, body):
        if self not in self.server.readers:
            return
        head = "HTTP/1.0 %s\r\nContent-Type: text/plain; version=0.0.4\r\nContent-Length: %d\r\n\r\n" % (status, len(body))
        self.out = head.encode() + body
        self.server.loop.set(self.sock, WRITE, self.on_event)


class Server:
    """The page on a port of the loopback address. `ask` is called with what takes the page's text."""

    def __init__(self, loop, port, ask):
        self.loop, self.ask, self.readers = loop, ask, set()
        self.sock = socket.socket(socket.AF_INET, socket.SOCK_STREAM | socket.SOCK_CLOEXEC | socket.SOCK_NONBLOCK)
        self.sock.setsockopt(socket.SOL_SOCKET, socket.SO_REUSEADDR, 1)
        self.sock.bind(("127.0.0.1", port))
        self.sock.listen(16)
        self.port = self.sock.getsockname()[1]
        loop.set(self.sock, READ, self.on_accept)

    def on_accept(self, _):
        try:
            sock, _ = self.sock.accept()
        except OSError:
            return
        if len(self.readers) >= MOST_READERS:
            sock.close()
            return
        sock.setblocking(False)
        reader = Reader(self, sock)
        self.readers.add(reader)
        self.loop.set(sock, READ, reader.on_event)

    def drop(self, reader):
        if reader in self.readers:
            self.readers.remove(reader)
            self.loop.drop(reader.sock)

    def sweep(self, now):
        """Drops connections that took longer than five seconds."""
        for reader in [r for r in self.readers if now - r.came > PATIENCE]:
            self.drop(reader)

    def close(self):
        for reader in list(self.readers):
            self.drop(reader)
        self.loop.drop(self.sock)
