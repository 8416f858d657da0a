"""The headline of a run, as `one_history.py` checks it: there is one list of batches, and each mark
stands in it once.
"""

import collections

from lab_texts import expect


def reused(batches):
    """The marks that different batches bear."""
    marked = [(it.mark, it) for it in batches if it.mark]
    first = dict(reversed(marked))
    return {mark for mark, batch in marked if batch != first[mark]}


class OneHistory:
    """The headline: the list of batches that reads and acknowledgements have spoken of so far."""

    def __init__(self, configurations, nodes, submitted):
        """No batch, of these nodes. Lines of the script submit these batches."""
        self.first, self.last, self.nodes = configurations[0], configurations[-1], nodes
        self.submitted = submitted
        # The marks that were given to different batches.
        self.reused = reused(submitted.values())
        # The batches by the lines of their submits, the lines that were acknowledged, and of each
        # node the last number that it acknowledged to the line that brought the batch.
        self.batches, self.acknowledged, self.numbers = [], set(), collections.Counter()
        # The greatest number that was acknowledged, read or opened.
        self.known = 0

    def tell(self, node, at):
        """A node speaks of its first so many batches: they are the history's."""
        told = node.batches[:at]
        expect(len(told) == at, "more batches than the node has")
        expect(told[: len(self.batches)] == self.batches[:at], "a batch of another history")
        if at > len(self.batches):
            in_order = all(one < other for one, other in zip(told, told[1:]))
            expect(in_order, "batches out of the order of their submits, or one twice")
            self.look_at_marks(told)
            self.batches = told
            for name in self.last:
                self.look(self.nodes[name])
        self.known = max(self.known, at)

    def look_at_marks(self, batches):
        """No two of these batches bear one mark, and the requests of each client rise."""
        last = collections.Counter()
        for client, request in filter(None, (self.submitted[line].mark for line in batches)):
            expect(request != last[client], f"request {request} of client {client} twice")
            expect(request > last[client], f"old request {request} of client {client}")
            last[client] = request

    def look(self, node):
        """A node of the last configuration has the history, also while it is down."""
        if node.name in self.last:
            has_it = node.batches[: len(self.batches)] == self.batches
            expect(has_it, f"node {node.name} of the last configuration lacks the history")

    def acknowledge(self, node, line, number):
        """A submit is acknowledged: its batch stands in this place, or an earlier one with its
        mark. Each is once, and those of each node that brought the batches are in order."""
        self.tell(node, number)
        first = self.batches[number - 1]
        expect(first == line or self.is_repeat(first, line), "an acknowledgement of another batch")
        expect(line not in self.acknowledged, "a second acknowledgement")
        self.acknowledged.add(line)
        if first == line:
            expect(number > self.numbers[node.name], "acknowledgements out of order")
            self.numbers[node.name] = number

    def is_repeat(self, first, line):
        """Whether the batch of a line bears the mark of the one of an earlier line. Of a mark that
        was given to one batch they are equal."""
        batch, other = self.submitted[first], self.submitted[line]
        if first > line or batch.mark is None or batch.mark != other.mark:
            return False
        expect(batch.mark in self.reused or batch == other, "another batch than the submitted one")
        return True

    def is_last_tail(self, node):
        """Whether a node is the tail of the last configuration, and knows that."""
        return node.name == self.last[-1] and node.ids == self.last

    def look_fresh(self, node, at):
        """What the last tail answers without being asked for a number is not old."""
        is_fresh = not self.is_last_tail(node) or at >= self.known
        expect(is_fresh, "an old read at the last configuration's tail")

    def give_up(self, node, kept):
        """What a node has given up, each later node that its configuration keeps has."""
        later = self.first[self.first.index(node.name) + 1 :]
        for other in (self.nodes[name] for name in later if name in node.ids):
            expect(kept <= other.count, f"a batch given up that node {other.name} lacks")

    def finish(self):
        """Along the chain each node's list is a beginning of that of each node before it, and has
        no mark twice."""
        for at, later in enumerate(self.first):
            node = self.nodes[later]
            for name in self.first[:at]:
                batches = self.nodes[name].batches[: node.count]
                in_order = name not in node.ids or batches == node.batches
                expect(in_order, f"node {later} has a batch that node {name} before it lacks")
        for node in self.nodes.values():
            self.look_at_marks(node.batches)
