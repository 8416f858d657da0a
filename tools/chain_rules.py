"""The rules of a step of a node in plain Python, written from docs/MODEL.md ("The machine of a
node, rule by rule") and not from the code.

A batch is named by the line of its submit, so two equal batches are two; by this line its mark is
known. The floor of a node and what its tends do are no part of these rules: `known_store.py` has
them.
"""

import collections

# A frame: its ends, kind and epoch, its numbers as they are printed, and the batch of a Forward.
Frame = collections.namedtuple("Frame", "sender addressee kind epoch numbers batch")
# What a step answers: why its input was dropped, the frames, and the numbers and lines of the
# submits that are committed now.
Answer = collections.namedtuple("Answer", "dropped frames replies", defaults=(None, [], []))
# So many batches a tick sends at most, and so many snapshots of a node are open at most.
MOST_SENT, MOST_OPEN = 16, 64


class Node:
    """One node: what it has on its disk, and what it knows while it runs."""

    def __init__(self, name, configurations, marks):
        """A node that runs, without batches, with the first of these configurations. Some lines
        submit batches with these marks."""
        self.name, self.configurations, self.marks = name, configurations, marks
        self.batches, self.epoch = [], 0
        self.committed, self.successor_has = 0, 0
        self.snapshots, self.pending, self.is_up = collections.Counter(), [], True

    @property
    def count(self):
        """So many batches it has."""
        return len(self.batches)

    @property
    def ids(self):
        """The nodes of its configuration, from head to tail."""
        return self.configurations[self.epoch]

    def is_removed(self):
        """Whether its own configuration lacks it."""
        return self.name not in self.ids

    def is_head(self):
        """Whether it is the first of its configuration."""
        return self.ids[0] == self.name

    def is_tail(self):
        """Whether it is the last of its configuration."""
        return self.ids[-1] == self.name

    def neighbour(self, by):
        """The node so many places behind it in its configuration, if there is one."""
        if self.is_removed():
            return None
        at = self.ids.index(self.name) + by
        return self.ids[at] if 0 <= at < len(self.ids) else None

    def least(self):
        """The least number that may still be asked for: to it the floor rises."""
        return min([self.committed, *(at for at, open_ in self.snapshots.items() if open_)])

    def forward(self, number):
        """The batch of this number goes to the successor, if both exist."""
        to = self.neighbour(1)
        if to is None or number > self.count:
            return []
        batch = self.batches[number - 1]
        return [Frame(self.name, to, "forward", self.epoch, (number,), batch)]

    def ack(self):
        """What the node knows as committed, and what it has, go to the predecessor, if any."""
        to, numbers = self.neighbour(-1), (self.committed, self.count)
        return [] if to is None else [Frame(self.name, to, "ack", self.epoch, numbers, None)]

    def commit_tail(self):
        """A tail commits all that it has."""
        if self.is_tail():
            self.committed = self.count

    def acknowledge(self, frames):
        """These frames are sent, and the submits that are committed now are answered, in order of
        number, then of request."""
        due = sorted(it for it in self.pending if it[0] <= self.committed)
        self.pending = [it for it in self.pending if it[0] > self.committed]
        return Answer(None, frames, due)

    def held(self, client):
        """The number and the request of the last batch that bears a mark of this client; else 0."""
        for number in range(self.count, 0, -1):
            mark = self.marks.get(self.batches[number - 1])
            if mark and mark.client == client:
                return number, mark.request
        return 0, 0

    def is_old(self, line):
        """Whether a batch bears a mark, and its client's last mark has a greater request."""
        mark = self.marks.get(line)
        return mark is not None and self.held(mark.client)[1] > mark.request

    def number_of(self, line):
        """The number of the batch that bears the mark of this one, if that is its client's last
        mark; else 0."""
        mark = self.marks.get(line)
        number, request = self.held(mark.client) if mark else (0, 0)
        return number if mark and request == mark.request else 0

    def submit(self, line):
        """A head takes a batch: it is the next one, and goes on. Of one that is submitted again
        nothing is appended or sent: it waits for the number of the batch that bears its mark."""
        if number := self.number_of(line):
            self.pending.append((number, line))
            return self.acknowledge([])
        self.batches.append(line)
        self.pending.append((self.count, line))
        self.commit_tail()
        return self.acknowledge(self.forward(self.count))

    def receive(self, frame):
        """A frame of another epoch, or of no neighbour, is dropped; so is any at a removed node."""
        if self.is_removed():
            return Answer("Removed")
        if frame.epoch != self.epoch:
            return Answer("OtherEpoch")
        if frame.kind == "forward":
            if frame.sender != self.neighbour(-1):
                return Answer("NotPredecessor")
            return self.receive_forward(*frame.numbers, frame.batch)
        if frame.sender != self.neighbour(1):
            return Answer("NotSuccessor")
        return self.receive_ack(*frame.numbers)

    def receive_forward(self, number, batch):
        """The next batch is appended and goes on. Another one is dropped, with an answer."""
        if number != self.count + 1:
            return Answer("OtherNumber", self.ack())
        self.batches.append(batch)
        self.commit_tail()
        return Answer(None, self.forward(number) + (self.ack() if self.is_tail() else []))

    def receive_ack(self, committed, have):
        """What the successor reports is known, and goes on if more is committed than was known."""
        if not committed <= have <= self.count:
            return Answer("BadAck")
        has_grown = committed > self.committed
        self.committed = max(self.committed, committed)
        self.successor_has = max(self.successor_has, have)
        return self.acknowledge(self.ack() if has_grown else [])

    def notice(self, epoch):
        """A later configuration is adopted. A removed node forgets the submits that it owes."""
        if epoch <= self.epoch:
            return Answer("OldNotice")
        self.epoch = epoch
        self.pending = [] if self.is_removed() else self.pending
        self.commit_tail()
        self.successor_has = self.committed
        return self.acknowledge(self.ack())

    def tick(self):
        """What the successor is not known to have is sent again, and the predecessor is told."""
        if self.is_removed():
            return Answer("Removed")
        numbers = range(self.successor_has + 1, self.successor_has + MOST_SENT + 1)
        frames = [frame for number in numbers for frame in self.forward(number)]
        return Answer(None, frames + self.ack())

    def refusal_of_submit(self, line):
        """Why a batch is refused, or None."""
        why = self.refusal() or (None if self.is_head() else "2 NotHead")
        return why or ("9 OldRequest" if self.is_old(line) else None)

    def refusal(self):
        """Why any request is refused, or None."""
        if not self.is_up:
            return "1 NotRunning"
        return "7 Removed" if self.is_removed() else None

    def refusal_of_close(self, at):
        """Why a snapshot is not closed, or None."""
        return self.refusal() or (None if self.snapshots[at] else "5 NoSuchSnapshot")

    def is_full(self):
        """Whether no more snapshots may be open."""
        return sum(self.snapshots.values()) == MOST_OPEN

    def stop(self):
        """The machine stops: all but the disk is lost."""
        self.is_up = False
        self.snapshots.clear()
        self.pending = []

    def start(self, floor):
        """It runs again: what it knows as committed is its floor, or at a tail all that it has."""
        self.is_up = True
        self.committed = self.count if self.is_tail() else floor
        self.successor_has = self.committed
