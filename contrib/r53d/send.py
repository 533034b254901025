"""`r53ctl send`: lines to the control socket, and their replies."""
import json
import os
import socket
import sys
import threading

from .control import Fault, check_json, is_blank, read_lines


def connect(path):
    """A connection to the control socket. Raises Fault."""
    sock = socket.socket(socket.AF_UNIX, socket.SOCK_STREAM)
    try:
        sock.connect(path)
    except OSError as fault:
        sock.close()
        raise Fault("%s: %s" % (path, (fault.strerror or str(fault)).lower())) from None
    return sock


class Writer(threading.Thread):
    """Writes lines, of any iterable of (number, octets), and then ends the input.

    `sent` has the numbers of those that went out, `fault` is what ended the lines early, `is_done` whether all were written.
    """

    def __init__(self, sock, lines):
        super().__init__(daemon=True)
        self.sock, self.lines, self.sent, self.fault, self.is_done = sock, lines, [], None, False

    def run(self):
        try:
            for number, line in self.lines:
                self.sent.append(number)
                self.sock.sendall(line + b"\n")
        except Fault as fault:
            self.fault = fault
        except OSError:
            return
        self.is_done = True
        try:
            self.sock.shutdown(socket.SHUT_WR)
        except OSError:
            pass


def replies(sock):
    """The replies on a connection, as octets, until it ends, in whatever way."""
    with sock.makefile("rb") as stream:
        try:
            for reply in stream:
                if reply.endswith(b"\n"):
                    yield reply
        except ConnectionError:
            return


def exchange(path, lines, seconds=None):
    """The replies to lines of octets, in order and as octets. They end early where the service ends the connection.

    Raises Fault, or TimeoutError where none comes for so many seconds.
    """
    with connect(path) as sock:
        sock.settimeout(seconds)
        Writer(sock, enumerate(lines)).start()
        yield from replies(sock)


def ask(path, lines, seconds=None):
    """The replies to lines as objects. Raises Fault where one is missing, or where none comes for so many seconds."""
    try:
        got = [json.loads(reply) for reply in exchange(path, lines, seconds)]
    except TimeoutError:
        raise Fault("%s: the service didn't reply for %d seconds" % (path, seconds)) from None
    if len(got) < len(lines):
        raise Fault("%s: the service ended the connection" % path)
    return got


def from_input():
    """The lines of standard input as they come, each seen to be JSON before it goes out. Raises Fault."""
    for number, line in enumerate(sys.stdin.buffer, 1):
        line = line.rstrip(b"\n")
        if not is_blank(line):
            check_json("standard input", number, line)
            yield number, line


def from_file(path):
    """The lines of a file, all of which are seen to be JSON first. Raises Fault."""
    lines = read_lines(path)
    for number, line in lines:
        check_json(path, number, line)
    return lines


def run(given, place):
    lines = from_input() if given.file == "-" else from_file(given.file)
    status = count = 0
    with connect(place.socket) as sock:
        writer = Writer(sock, lines)
        writer.start()
        for reply in replies(sock):
            count += 1
            is_ok = "Ok" in json.loads(reply)
            status = status if is_ok else 1
            if not (is_ok and given.quiet):
                sys.stdout.buffer.write(reply)
                sys.stdout.buffer.flush()
        if count < len(writer.sent):
            name = "standard input" if given.file == "-" else given.file
            print("r53ctl: %s: line %d has no reply" % (name, writer.sent[count]), file=sys.stderr)
            return 3
        if not writer.is_done:
            print("r53ctl: the service ended the connection", file=sys.stderr)
            sys.stdout.flush()
            os._exit(3)
        writer.join()
    if writer.fault is not None:
        raise writer.fault
    return status
