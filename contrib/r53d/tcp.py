"""Queries over TCP, each handed to the program as a `Query` line with the client's address and random words.

The program serves UDP alone, and gives a `Query` the limit of a packet over UDP: 512 octets, or what its OPT record says, and at most
4,096. So the size in the OPT record is raised to that here, and a query without one gets one, which is taken off the reply again.
"""
import secrets
import socket
import time

from . import program, wire
from .loop import READ, WRITE

MOST = 64
IDLE = 10.0
MOST_PACKET = 65535


def line_of(packet, address):
    """The Query line of a packet from an address."""
    words = [secrets.randbits(64) for _ in range(8)]
    return program.compact({"Query": {"Packet": packet.hex(), "Address": address, "Words": words}})


class Connection:
    """A client's connection: one query after the other, each behind its length in two octets (RFC 1035, 4.2.2)."""

    def __init__(self, server, sock, address):
        self.server, self.sock, self.address = server, sock, address
        self.into, self.out, self.busy, self.ended = bytearray(), b"", False, False
        self.last = time.monotonic()

    def on_event(self, events):
        try:
            if events & WRITE:
                self.out = self.out[self.sock.send(self.out):]
            if events & READ:
                data = self.sock.recv(65536)
                self.into += data
                self.ended = not data
                self.last = time.monotonic()
        except BlockingIOError:
            pass
        except OSError:
            self.server.drop(self)
            return
        self.next()

    def next(self):
        """Asks for the next query that is whole, or waits for what is missing."""
        size = int.from_bytes(self.into[:2], "big")
        if not (self.busy or self.out) and len(self.into) >= 2 + size > 2:
            packet = bytes(self.into[2:2 + size])
            del self.into[:2 + size]
            self.ask(packet)
        elif not (self.busy or self.out) and (self.ended or (len(self.into) >= 2 and size == 0)):
            self.server.drop(self)
            return
        if self in self.server.all:
            reads = not (self.busy or self.ended) and len(self.into) < 2 + MOST_PACKET
            self.server.loop.set(self.sock, (READ if reads else 0) | (WRITE if self.out else 0), self.on_event)

    def ask(self, packet):
        self.busy = True
        wide, had_opt = wire.widen(packet)
        self.server.ask(line_of(wide, self.address), lambda got: self.answered(got, had_opt))

    def answered(self, got, had_opt):
        """The program's reply to the Query line as an object, or None where it ended."""
        if self not in self.server.all:
            return
        self.busy, self.last = False, time.monotonic()
        reply = bytes.fromhex((got or {}).get("Reply") or "")
        if not reply:
            self.server.drop(self)
            return
        reply = reply if had_opt else wire.without_opt(reply)
        self.out = len(reply).to_bytes(2, "big") + reply
        self.on_event(WRITE)


class Server:
    """The listening socket. `ask` takes a Query line, and a call for its reply."""

    def __init__(self, loop, address, port, ask):
        self.loop, self.ask, self.all = loop, ask, set()
        family = socket.AF_INET6 if ":" in address else socket.AF_INET
        self.sock = socket.socket(family, socket.SOCK_STREAM | socket.SOCK_CLOEXEC | socket.SOCK_NONBLOCK)
        self.sock.setsockopt(socket.SOL_SOCKET, socket.SO_REUSEADDR, 1)
        self.sock.bind((address, port))
        self.sock.listen(64)
        self.port = self.sock.getsockname()[1]
        loop.set(self.sock, READ, self.on_accept)

    def on_accept(self, _):
        try:
            sock, peer = self.sock.accept()
        except OSError:
            return
        if len(self.all) >= MOST:
            self.drop(min(self.all, key=lambda c: c.last))
        sock.setblocking(False)
        address = peer[0].removeprefix("::ffff:") if "." in peer[0] else peer[0].split("%")[0]
        connection = Connection(self, sock, address)
        self.all.add(connection)
        self.loop.set(sock, READ, connection.on_event)

    def drop(self, connection):
        if connection in self.all:
            self.all.remove(connection)
            self.loop.drop(connection.sock)

    def sweep(self, now):
        """Drops connections on which nothing came for ten seconds."""
        for connection in [c for c in self.all if now - c.last > IDLE]:
            self.drop(connection)

    def close(self):
        for connection in list(self.all):
            self.drop(connection)
        self.loop.drop(self.sock)
