"""What the service manager is told (sd_notify), where there is one."""
import os
import socket


def send(text):
    """Sends lines such as `READY=1` to the socket that NOTIFY_SOCKET names; does nothing without one."""
    address = os.environ.get("NOTIFY_SOCKET")
    if not address:
        return
    if address[0] == "@":
        address = "\0" + address[1:]
    try:
        with socket.socket(socket.AF_UNIX, socket.SOCK_DGRAM | socket.SOCK_CLOEXEC | socket.SOCK_NONBLOCK) as s:
            s.sendto(text.encode(), address)
    except OSError:
        pass


def has_watchdog():
    """Whether the manager wants signs of life."""
    return bool(os.environ.get("WATCHDOG_USEC"))
