"""A loop over sockets and pipes: who waits for what, and who is called when it comes.

What comes of files that are `urgent` is handled alone, so that what follows from it doesn't wait for the rest. The rest is handled for 2 ms at
most in one go, in turns. Where something urgent comes each time, the rest goes before it every 4 ms.
"""
import selectors
import time

READ, WRITE = selectors.EVENT_READ, selectors.EVENT_WRITE
SLICE = 0.002


class Loop:
    """Handlers by file object. A handler is called with the events (READ, WRITE) that came."""

    def __init__(self):
        self.selector = selectors.DefaultSelector()
        self.urgent, self.turn, self.rest_at = set(), 0, 0.0

    def set(self, file, events, handler=None):
        """Waits for these events of a file from now on; for none, where `events` is 0."""
        known = self.selector.get_map().get(file.fileno() if hasattr(file, "fileno") else file)
        if known is None:
            if events:
                self.selector.register(file, events, handler)
        elif not events:
            self.selector.unregister(file)
        elif known.events != events or known.data != handler:
            self.selector.modify(file, events, handler)

    def drop(self, file):
        """Waits for nothing of a file, which is then closed."""
        self.urgent.discard(file.fileno())
        try:
            self.selector.unregister(file)
        except (KeyError, ValueError):
            pass
        file.close()

    def once(self, seconds):
        """Waits for events, so many seconds at most, and calls the handlers. What it doesn't come to is found again by the next call."""
        ready, now = self.selector.select(seconds), time.monotonic()
        chosen = [one for one in ready if one[0].fd in self.urgent]
        if not chosen or (len(chosen) < len(ready) and now >= self.rest_at):
            rest = [one for one in ready if one[0].fd not in self.urgent]
            at = self.turn % max(1, len(rest))
            chosen, self.rest_at = rest[at:] + rest[:at], now + 2 * SLICE
        for key, events in chosen:
            if self.selector.get_map().get(key.fd) is key:
                key.data(events)
            self.turn += 1
            if time.monotonic() > now + SLICE:
                break

    def close(self):
        self.selector.close()
