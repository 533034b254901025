"""How many turns the next Serve line takes.

A turn without a datagram may last 100 ms, so a quiet Serve is followed by one of a single turn. While each turn brings a
datagram the number doubles, as long as a Serve lasts no longer than a line may wait: by the seconds that a turn took lately. Where more than
a quarter of the turns brought wakes alone, the next Serve has as many turns as brought something from outside.

Where a load ends within a Serve, its other turns are ended by wakes, of which the report port has room for some hundred at a time
(`mail.py`). So a Serve has few enough turns for two times.
"""

BUDGET = 0.0015
MOST = 256


class Turns:
    """The number of turns (1 to 256), from how the last Serve lines went."""

    def __init__(self, budget=BUDGET):
        self.budget = budget
        self.count = 1
        self.each = 0.0

    def took(self, turns, brought, seconds):
        """A Serve of so many turns is done, of which so many brought something from outside; none where one of them was quiet."""
        if 4 * brought < 3 * turns or not turns:
            self.count = max(1, brought)
            return
        each = seconds / turns
        self.each = each if each > self.each else (self.each + each) / 2
        bound = int(self.budget / self.each) if self.each > 0 else MOST
        self.count = max(1, min(2 * self.count, bound, MOST))
