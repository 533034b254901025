"""One writer for a store: a lock on a file in its folder.

The system frees the lock when the last process that holds the file open has ended. The program is started with the file open
too, so the lock outlives a driver that was killed for as long as its program still runs. That the file exists means nothing. The number of
the process that it holds is for people, and a full disk may lack it.
"""
import fcntl
import os
import time

FILE = "r53d.lock"


class Locked(Exception):
    """Another process holds the lock; its text names the process, as far as it is known."""


def take(folder, patience):
    """The descriptor of the locked file. Waits so many seconds for it; raises Locked, or OSError."""
    path = os.path.join(folder, FILE)
    file = os.open(path, os.O_RDWR | os.O_CREAT | os.O_CLOEXEC, 0o600)
    until = time.monotonic() + patience
    while True:
        try:
            fcntl.flock(file, fcntl.LOCK_EX | fcntl.LOCK_NB)
            break
        except BlockingIOError:
            if time.monotonic() >= until:
                owner = os.pread(file, 32, 0).decode("ascii", "replace").strip() or "unknown"
                os.close(file)
                raise Locked("%s: locked by process %s" % (folder, owner)) from None
            time.sleep(0.05)
    try:
        os.ftruncate(file, 0)
        os.pwrite(file, b"%d\n" % os.getpid(), 0)
    except OSError:
        pass
    return file
