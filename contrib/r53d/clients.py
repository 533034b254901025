"""The control socket: lines from many clients, and their replies in order.

Of each client a few lines are read ahead. One that reads no replies is read from no further, and its lines aren't handed over, once a
mebibyte of them waits for it; nobody else waits for it. A line that begins with an exclamation mark is for the driver itself, which answers
it once those before it on the connection are answered, whatever the program does.
"""
import errno
import os
import socket
import stat
import struct
import time
from collections import deque

from .loop import READ, WRITE

MOST_LINE = 1048576
MOST_WAITING = 1 << 20
MOST_AHEAD = 1 << 14
PIECE, LARGE = 1 << 13, 1 << 16
MOST_CLIENTS = 200
OVERHEAD = 128
BLANKS = b" \t\r"


class Client:
    """A connection: its lines that wait, and the replies that it hasn't taken yet."""

    def __init__(self, clients, sock, number):
        self.clients, self.sock, self.number = clients, sock, number
        pid, uid, _ = struct.unpack("3i", sock.getsockopt(socket.SOL_SOCKET, socket.SO_PEERCRED, 12))
        self.peer = (pid, uid)
        self.lines, self.waiting = deque(), 0
        self.part, self.rest_is_blank = bytearray(), True
        self.out = bytearray()
        self.ended = self.closed = self.busy = self.in_turn = False

    # ---- in

    def on_event(self, events):
        if events & WRITE:
            self.write()
        if events & READ and not self.closed:
            self.read()
        self.settle()

    def read(self):
        try:
            data = self.sock.recv(LARGE if len(self.part) > PIECE else PIECE)
        except BlockingIOError:
            return
        except OSError:
            self.close()
            return
        if data:
            self.feed(data)
        else:
            self.ended = True
            self.end_line()

    def feed(self, data):
        """Takes octets of input.

        Of a line that is too long, one byte more than the most is kept, and the program tells that. Where only blanks would be
        kept of it, the last one gives way to another byte, since a line of blanks alone has no reply.
        """
        *whole, rest = data.split(b"\n")
        for part in whole:
            self.add(part)
            self.end_line()
        self.add(rest)

    def add(self, part):
        room = MOST_LINE + 1 - len(self.part)
        self.part += part[:room]
        if len(part) > room and part[room:].strip(BLANKS):
            self.rest_is_blank = False

    def end_line(self):
        line, self.part = bytes(self.part), bytearray()
        if not self.rest_is_blank and not line.strip(BLANKS):
            line = line[:-1] + b"x"
        if line.strip(BLANKS):
            self.lines.append((line, time.monotonic()))
            self.waiting += len(line) + OVERHEAD
            self.clients.may_go(self)
        self.rest_is_blank = True

    def take(self):
        """The next line that waits, and when it came."""
        line, came = self.lines.popleft()
        self.waiting -= len(line) + OVERHEAD
        return line, came

    # ---- out

    def reply(self, octets):
        """Sends a reply, with its line feed, as soon as the client takes it."""
        if not self.closed:
            self.out += octets
            self.write()
            self.settle()

    def write(self):
        while self.out and not self.closed:
            try:
                del self.out[:self.sock.send(self.out)]
            except BlockingIOError:
                break
            except OSError:
                self.close()
        self.clients.may_go(self)

    def settle(self):
        """Waits for what may come next; closes a connection whose lines have all been answered after its end."""
        if self.closed:
            return
        if self.ended and not (self.lines or self.busy or self.out):
            self.close()
            return
        reads = not self.ended and self.waiting <= MOST_AHEAD and len(self.out) <= MOST_WAITING
        self.clients.loop.set(self.sock, (READ if reads else 0) | (WRITE if self.out else 0), self.on_event)

    def close(self):
        if not self.closed:
            self.closed = True
            self.lines.clear()
            self.clients.gone(self)


class Clients:
    """The listening socket and its connections. `wake` is called when a line has come."""

    def __init__(self, loop, path, wake):
        self.loop, self.path, self.wake = loop, path, wake
        self.all, self.turn, self.asking, self.count = set(), deque(), deque(), 0
        self.sock = listen(path)
        self.loop.set(self.sock, READ, self.on_accept)

    def on_accept(self, _):
        try:
            sock, _ = self.sock.accept()
        except OSError:
            return
        sock.setblocking(False)
        self.count += 1
        client = Client(self, sock, self.count)
        self.all.add(client)
        self.loop.set(sock, READ, client.on_event)
        self.breathe()

    def breathe(self):
        """Takes new connections while there are fewer than 200."""
        if self.sock is not None:
            self.loop.set(self.sock, READ if len(self.all) < MOST_CLIENTS else 0, self.on_accept)

    def may_go(self, client):
        """Puts a client among those whose turn comes, where it has a line and isn't there, and takes its replies."""
        if client.lines and not (client.in_turn or client.busy) and len(client.out) <= MOST_WAITING:
            client.in_turn = True
            if client.lines[0][0][:1] == b"!":
                self.asking.append(client)
            else:
                self.turn.append(client)
                self.wake()

    def next(self):
        """The client whose turn it is and that has a line for the program, or None. It is busy until `done`."""
        return self.first(self.turn)

    def next_asking(self):
        """The same of the clients whose line is for the driver."""
        return self.first(self.asking)

    @staticmethod
    def first(queue):
        while queue:
            client = queue.popleft()
            client.in_turn = False
            if client.lines:
                client.busy = True
                return client
        return None

    def done(self, client):
        """The client's line is answered; its next one waits behind those of others."""
        client.busy = False
        self.may_go(client)
        client.settle()

    def has_lines(self):
        while self.turn and not self.turn[0].lines:
            self.turn.popleft().in_turn = False
        return bool(self.turn)

    def gone(self, client):
        self.all.discard(client)
        self.loop.drop(client.sock)
        self.breathe()

    def stop_listening(self):
        if self.sock is not None:
            self.loop.drop(self.sock)
            self.sock = None
            try:
                os.unlink(self.path)
            except OSError:
                pass

    def flush(self, seconds):
        """Writes what the clients still take within so many seconds, and closes all."""
        until = time.monotonic() + seconds
        for client in list(self.all):
            client.write()
        while any(c.out for c in self.all) and time.monotonic() < until:
            time.sleep(0.01)
            for client in list(self.all):
                client.write()
        for client in list(self.all):
            client.close()


def make_room(path):
    """Removes a socket that was left at a path. Raises OSError where a process listens there, or where it is no socket."""
    try:
        if not stat.S_ISSOCK(os.lstat(path).st_mode):
            raise FileExistsError(errno.EEXIST, "no socket is there", path)
    except FileNotFoundError:
        return
    with socket.socket(socket.AF_UNIX, socket.SOCK_STREAM | socket.SOCK_NONBLOCK) as other:
        try:
            other.connect(path)
        except ConnectionRefusedError:
            os.unlink(path)
            return
        except BlockingIOError:
            pass
    raise OSError(errno.EADDRINUSE, "another process listens there", path)


def listen(path):
    """A listening socket at a path, for its owner alone, in the place of one that was left there. Raises OSError."""
    make_room(path)
    sock = socket.socket(socket.AF_UNIX, socket.SOCK_STREAM | socket.SOCK_CLOEXEC | socket.SOCK_NONBLOCK)
    mask = os.umask(0o177)
    try:
        sock.bind(path)
    finally:
        os.umask(mask)
    sock.listen(128)
    return sock
