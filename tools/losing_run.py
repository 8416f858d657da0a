"""What a checker knows of a run in which requests, frames and replies may be lost.

A client that gets no reply does not know what its request did: it may have opened a snapshot, or
closed one. So some snapshots may be open or not, until a later reply tells. `one_history.py` checks
by it, and records of each loss what `lost_corruptions.py` needs to know.
"""

import collections
import copy

from chain_rules import MOST_OPEN
from ruled_run import RuledRun

# A request or frame that was lost: its place in the output, the statement, the frame, if it is one,
# the node that it was for as it was, and how many frames there were.
Loss = collections.namedtuple("Loss", "place statement frame node sent")
# A reply that was lost: its place in the output, the line of its request, and its text.
Unsaid = collections.namedtuple("Unsaid", "place line texts")


def copy_of(node):
    """The node as it is now."""
    now = copy.copy(node)
    now.batches, now.pending = list(node.batches), list(node.pending)
    now.snapshots = node.snapshots.copy()
    return now


class LosingRun(RuledRun):
    """A run that is checked against its lines. A subclass has `place`, `peek` and `seen`."""

    def __init__(self, script, rules, lost):
        """Of each node so many snapshots at a number may be open besides those that are."""
        super().__init__(script, rules, lost)
        self.unsure = {name: collections.Counter() for name in self.nodes}
        self.losses, self.unsaid_replies = [], []

    def lose(self, it, frame):
        """The request of a statement is lost, or a frame that it delivers."""
        node = self.nodes[frame.addressee if frame else it.words[1]]
        self.losses.append(Loss(self.place, it, frame, copy_of(node), len(self.frames)))
        super().lose(it, frame)

    def unsaid(self, line, texts):
        """A reply is lost."""
        self.unsaid_replies.append(Unsaid(self.place, line, texts))
        self.seen[f"{self.words[line][0]}: reply lost"] += 1

    def fall(self, it, node):
        """A node that stops in a step has no open snapshots."""
        self.unsure[node.name].clear()
        super().fall(it, node)

    def stop(self, it):
        """A node that stops has no open snapshots."""
        self.unsure[it.words[1]].clear()
        super().stop(it)

    def is_unseen(self, it, node):
        """Whether no line says what became of a read: its reply is lost, and no fault strikes."""
        return self.is_next_lost() and not self.peek(it).startswith(f"node {node.name} stopped")

    def open_unseen(self, it, node, at):
        """A snapshot may be open now, if this is an open."""
        if it.words[0] == "open":
            self.unsure[node.name][at] += 1

    def is_full(self, it, node, at):
        """Whether no more snapshots of a node may be open. A refusal tells, if it is not known."""
        most = sum(node.snapshots.values()) + sum(self.unsure[node.name].values())
        if node.is_full() or most < MOST_OPEN:
            return node.is_full()
        if not self.is_next_lost():
            return self.peek(it) == "refused 6 TooManySnapshots"
        self.open_unseen(it, node, at)
        return True

    def close(self, it):
        """A snapshot is one no more. If it may have been open, the reply tells. If that is lost too,
        one less may be open."""
        node, at = self.nodes[it.words[1]], int(it.words[2])
        unsure = self.unsure[node.name]
        if unsure[at] and not node.refusal() and not node.snapshots[at]:
            if self.is_next_lost() or self.peek(it).startswith("closed"):
                unsure[at] -= 1
                node.snapshots[at] += 1
            else:
                unsure[at] = 0
        super().close(it)
