"""What one can know of a node's store from what the node prints: its floor, the batches that it
keeps in logs, and its tables.

The floor is the least number at which the node can be read. It rises in a tend that begins a merge,
to the least of the committed number and the open snapshots, and never falls. Which tend begins one
is not printed, so the floor is known within bounds: reads and refusals narrow them, tends widen
them, and a look at the node closes them.
"""

from lab_texts import expect

# No file of a table is shorter: it has a deletion of the empty key.
LEAST_TABLE = 131
# A version has at most so many tables, and so many logs.
MOST_FILES = 4_096
DEEPEST = 6


class KnownStore:
    """What is known of one node's store, whether the node runs or not."""

    def __init__(self, limits):
        """A new store, under these limits."""
        self.limits = limits
        # The floor is at least and at most this, and at least so many batches are in no log.
        self.least, self.most, self.kept = 0, 0, 0
        # The tables as last seen, and at most so many tends that have worked since: None is any.
        self.tables, self.worked = [0] * (DEEPEST + 1), 0
        # Whether the last tend found nothing due, and at most so many flushes that were ever done.
        self.is_idle, self.flushes = False, 0

    def read(self, at):
        """A read at a number is answered: the floor is no higher."""
        expect(at >= self.least, "a read below the floor")
        self.most = min(self.most, at)

    def refuse_old(self, at):
        """A read at a number is refused as too old: the floor is higher."""
        expect(at < self.most, "refused as too old at the floor or above it")
        self.least = max(self.least, at + 1)

    def send(self, number):
        """A batch is sent again: it is in a log."""
        expect(number > self.kept, "a batch sent again that is in no log")

    def tend(self, is_one, outcome, reach, batches):
        """One tend or several of a node with at most so many batches end so, if they end. A floor
        that rises is at most this high then. The first merge is of level 0: before it are more
        flushes, each of a batch at least, than that level's limit."""
        self.is_idle = outcome == "idle"
        if is_one and outcome in ("idle", "full"):
            return
        flushes = self.flushes if is_one else self.flushes + 1
        if min(flushes, batches) > self.limits["l0"]:
            self.most = max(self.most, reach)
        self.flushes += 1
        self.worked = self.worked + 1 if is_one and self.worked is not None else None

    def start(self, floor):
        """A node starts that is no tail: what it knows as committed is its floor."""
        expect(floor >= self.least, "a floor falls")
        expect(floor <= self.most, "a floor above what a merge can have begun with")
        self.least = self.most = floor

    def show(self, floor, kept, tables, most):
        """The store is shown. All tables and those of a level below have at most so many entries
        and keys."""
        expect(kept <= floor, "kept above the floor")
        expect(floor >= self.least, "a floor falls")
        expect(floor <= self.most, "a floor above what a merge can have begun with")
        expect(kept >= self.kept, "kept falls")
        if self.worked == 0:
            expect(kept == self.kept, "kept rises without a tend")
            expect(tables == self.tables, "tables change without a tend")
        elif self.worked is not None:
            flushed = tables[0] - self.tables[0]
            expect(flushed <= self.worked, "more tables flushed than tends worked")
        expect(sum(tables) <= most.entries, "more tables than entries")
        expect(max(tables[1:]) <= most.keys, "more tables of a level than keys")
        expect(not self.is_idle or not self.over(tables), "idle with a level over its limit")
        self.least, self.most, self.kept = floor, floor, kept
        self.tables, self.worked = tables, 0

    def most_reads(self):
        """A look-up of a key reads at most so many blocks: one of each table of level 0, and one of
        each deeper level."""
        if self.worked == 0:
            return self.tables[0] + sum(count > 0 for count in self.tables[1:])
        return self.flushes + DEEPEST

    def over(self, tables):
        """The levels that are over their limits with so many tables, whatever these hold."""
        levels = [0] if tables[0] > self.limits["l0"] else []
        for level in range(1, DEEPEST):
            if tables[level] > self.most_tables(level):
                levels.append(level)
        return levels

    def most_tables(self, level):
        """So many tables at most a level has, where it is not over its limit."""
        if level == 0:
            return self.limits["l0"]
        return self.limits["level"] * 10 ** (level - 1) // LEAST_TABLE
