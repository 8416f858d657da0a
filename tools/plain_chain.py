"""A chain in plain Python that runs a script, and chains with wrong rules: `random_runs` tries its
checker on them.

What the rules of a step leave open is chosen here: whether a fault strikes in a step that reads the
disk, and how a store flushes and merges. So what is printed is one of the outputs that a script can
have, and not the one that the program prints.
"""

import random

from chain_rules import Answer, Node
from known_store import DEEPEST, KnownStore
from lab_texts import Mark, limits_of
from ruled_run import RuledRun
from run_tends import LOG, length_of


class PlainStore:
    """The files of one node as numbers: a floor, logs, tables and a merge."""

    def __init__(self, limits):
        """A store of no batch, under these limits."""
        self.limits, self.floor = limits, 0
        # The first numbers of the logs, the tables by level, and the level of the merge under way.
        self.logs, self.tables, self.merged = [1], [0] * (DEEPEST + 1), None
        self.levels = KnownStore(limits)

    @property
    def kept(self):
        """So many batches are in no log."""
        return self.logs[0] - 1

    def tend(self, node, batches):
        """One tend of a node with these batches: a flush, a merge that begins or ends, or none."""
        newest = batches[self.logs[-1] - 1 :]
        if newest and LOG + sum(map(length_of, newest)) > self.limits["log"]:
            self.tables[0] += 1
            self.logs.append(len(batches) + 1)
        elif self.merged is not None:
            self.tables[self.merged] -= 1 if self.merged else self.tables[0]
            self.tables[self.merged + 1] = 1
            self.merged = None
        elif over := self.levels.over(self.tables):
            self.merged = over[0]
            self.floor = max(self.floor, node.least())
            while len(self.logs) > 1 and self.logs[1] <= self.floor + 1:
                self.logs.pop(0)
        else:
            return "idle"
        return "tended"


class PlainChain(RuledRun):
    """A run of a script at plain nodes with plain stores."""

    def __init__(self, script, seed, rules=Node, lost=()):
        """Runs a whole script. The same seed chooses the same where rules leave it open."""
        super().__init__(script, rules, lost)
        self.choice, self.lines = random.Random(seed), []
        limits = limits_of(script)
        self.stores = {name: PlainStore(limits) for name in self.nodes}
        self.run()
        self.output = "".join(f"{line}\n" for line in self.lines)

    def say(self, line, text):
        """A line is printed."""
        self.lines.append(f"{line}: {text}")

    def fall(self, it, node):
        """A stop loses the merge under way."""
        self.stores[node.name].merged = None
        super().fall(it, node)

    def stop(self, it):
        """A stop loses the merge under way."""
        if self.nodes[it.words[1]].is_up:
            self.stores[it.words[1]].merged = None
        super().stop(it)

    def is_struck(self, it, node):
        """Whether a fault strikes in a step that reads the disk. A read of keys reads tables."""
        is_read = it.words[0] in ("start", "tick", "tend") or any(self.stores[node.name].tables)
        return is_read and self.choice.random() < 0.3

    def calls_for_mark(self, it, node):
        """So many calls of the disk a node makes to ask for a client's last mark: none where memory
        has it, else at most one for each table."""
        store, client = self.stores[node.name], self.edits[it.line].mark.client
        if node.held(client)[0] >= store.logs[-1]:
            return 0
        return self.choice.randint(0, min(3, sum(store.tables)))

    def is_hidden(self, it, node, at):
        """Whether a number is below the floor."""
        return at < self.stores[node.name].floor

    def floor_of(self, it, node):
        """The floor of a node."""
        return self.stores[node.name].floor

    def numbers_of(self, it, node):
        """What a node shows of its store."""
        store = self.stores[node.name]
        return store.floor, store.kept, store.tables

    def tend_of(self, it, node):
        """One tend, which a fault may strike before its work is recorded or behind that, or all
        that work."""
        store, batches = self.stores[node.name], self.map_of(node, node.count)
        if it.words[0] == "tend":
            is_struck = it.fault and self.is_struck(it, node)
            if is_struck and self.choice.random() < 0.5:
                return "stopped"
            outcome = store.tend(node, batches)
            return "stopped" if is_struck else outcome
        while store.tend(node, batches) != "idle":
            pass
        return "idle"

    def sent(self, *of_it):
        """Nothing is asked of what was sent or answered."""

    acknowledged = told = started = unsaid = sent


class TakesOldFrames(Node):
    """A node that takes frames of any epoch, from any node."""

    def receive(self, frame):
        """Neither epoch nor sender is looked at."""
        if self.is_removed():
            return Answer("Removed")
        if frame.kind == "forward":
            return self.receive_forward(*frame.numbers, frame.batch)
        return self.receive_ack(*frame.numbers)


class ForgetsItsEpoch(Node):
    """A node that keeps its configuration in memory alone."""

    def start(self, floor):
        """It starts with the first one."""
        self.epoch = 0
        super().start(floor)


class CommitsItsCount(Node):
    """A node that commits all that it has, though it is no tail."""

    def commit_tail(self):
        """Whether it is the tail is not looked at."""
        self.committed = self.count


class TakesAgain(Node):
    """A node that appends a batch again that comes again."""

    def receive_forward(self, number, batch):
        """The number is not looked at."""
        return super().receive_forward(self.count + 1, batch)


class TakesSubmits(Node):
    """A node that takes batches of clients, though it is no head."""

    def refusal_of_submit(self, line):
        """Whether it is the head is not looked at."""
        return self.refusal()


class AdoptsAlone(Node):
    """A node that becomes the tail, and does not commit what it has."""

    def notice(self, epoch):
        """The new configuration changes no number."""
        committed = self.committed
        answer = super().notice(epoch)
        if not answer.dropped:
            self.committed = committed
        return answer


class LosesItsLast(Node):
    """A node that has a batch less when it starts again."""

    def start(self, floor):
        """The last one is gone, if the floor leaves it."""
        del self.batches[max(self.count - 1, floor) :]
        super().start(floor)


class AppendsRepeats(Node):
    """A head that appends a batch again that is submitted again."""

    def number_of(self, line):
        """Whether the batch is there is not looked at."""
        return 0


class AnswersEarly(Node):
    """A head that acknowledges a batch that is submitted again before it is committed."""

    def submit(self, line):
        """What is committed is not looked at."""
        number = self.number_of(line)
        return Answer(None, [], [(number, line)]) if number else super().submit(line)


class AnswersAnew(Node):
    """A head that acknowledges a batch that is submitted again with the next number."""

    def number_of(self, line):
        """The number that the next batch gets."""
        return self.count + 1 if super().number_of(line) else 0


class ForgetsMarks(Node):
    """A node that keeps marks in memory alone."""

    forgotten = 0

    def held(self, client):
        """The marks of batches from before its start are gone."""
        held = super().held(client)
        return held if held[0] > self.forgotten else (0, 0)

    def start(self, floor):
        """It knows no mark."""
        self.forgotten = self.count
        super().start(floor)


class RefusesNewer(Node):
    """A head that refuses a request as old where the client's last one is less, not greater."""

    def is_old(self, line):
        """The last one is less."""
        mark = self.marks.get(line)
        return mark is not None and 0 < self.held(mark.client)[1] < mark.request


class HoldsFirst(Node):
    """A head that holds the first mark of a client, and no later one."""

    def held(self, client):
        """The first batch that bears a mark of this client."""
        marks = [self.marks.get(line) for line in self.batches]
        own = [(at, it.request) for at, it in enumerate(marks, 1) if it and it.client == client]
        return own[0] if own else (0, 0)


class HoldsAll(Node):
    """A head that holds one mark for all clients."""

    def held(self, client):
        """The last batch that bears a mark, of whatever client."""
        held = super().held
        return max(held(it.client) for it in [Mark(client, 0), *self.marks.values()])


# The rules that break the headline, each in some run.
WRONG = (TakesOldFrames, ForgetsItsEpoch, CommitsItsCount, TakesAgain, TakesSubmits, AdoptsAlone)
WRONG += (LosesItsLast, AppendsRepeats, AnswersEarly, AnswersAnew, ForgetsMarks, RefusesNewer)
WRONG += (HoldsFirst, HoldsAll)
