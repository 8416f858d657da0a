"""What a checker knows of a run in which batches bear marks.

A node that gets one reads first which mark of the client is the last. Memory has it if the batch
is in no table; else some calls of the disk are made, at most one for each table. Where a fault of
the statement strikes then, it is not printed whether that was in one of these calls, or in which
call of those that record the batch: so the node may have the batch or not, until it starts again
and says how many it has.
"""

import collections

from lab_texts import STARTED, expect
from losing_run import LosingRun, copy_of
from ruled_run import CALLS, GATE_CALL, is_kept

# A batch that was submitted again: its place in the output, the line, the node as it was, the
# number of the batch that bears its mark, whether the request waits for that, and how many frames
# there were.
Repeat = collections.namedtuple("Repeat", "place line node number waits sent")


class MarkedRun(LosingRun):
    """A run that is checked against its lines. A subclass has `place`, `peek`, `seen`, `stores` and
    `tends`."""

    def __init__(self, script, rules, lost):
        """Of some nodes that are down it is not known whether they have the batch of a line."""
        super().__init__(script, rules, lost)
        self.doubtful, self.repeats = {}, []
        # The lines of starts of which it was not known how many batches the node has.
        self.undoubted = set()

    def once(self, it):
        """A batch with a mark. One that was submitted again is recorded."""
        node, place = self.nodes[it.words[1]], self.place
        number = 0 if node.refusal_of_submit(it.line) else node.number_of(it.line)
        super().once(it)
        if 0 < number <= node.count and node.is_up:
            waits = (number, it.line) in node.pending
            repeat = Repeat(place, it.line, copy_of(node), number, waits, len(self.frames))
            self.repeats.append(repeat)
            self.seen[f"once again, {'which waits' if waits else 'committed'}"] += 1
            first = node.batches[number - 1]
            self.seen["once again, at another node than first"] += self.words[first][1] != node.name
            self.seen["once again, with other edits"] += self.edits[first] != self.edits[it.line]

    def calls_for_mark(self, it, node):
        """So many calls of the disk, as they fit what is printed: the most that there can be. With
        fewer of them the fault strikes later as the batch is recorded."""
        is_struck = self.peek(it).startswith(f"node {node.name} stopped")
        if not is_struck or self.is_in_memory(it, node):
            return 0
        call, is_new = int(it.fault[1]), self.is_new(it, node)
        reads = self.stores[node.name].most_reads()
        expect(call <= reads + is_new * CALLS, "a stop in a call that is not made")
        reads = min(call, reads)
        can_be_kept = is_kept([it.fault[0], CALLS, *it.fault[2:]])
        if is_new and can_be_kept and call - reads < GATE_CALL <= call:
            self.doubtful[node.name] = it.line
        return reads

    def is_in_memory(self, it, node):
        """Whether the client's last mark is in memory, or there are no tables."""
        number = node.held(self.edits[it.line].mark.client)[0]
        is_there = all(number > course.start for course in self.tends[node.name].courses)
        return is_there or not self.stores[node.name].flushes

    def is_new(self, it, node):
        """Whether a node appends the batch of a statement, if no fault strikes."""
        return not node.refusal_of_submit(it.line) and not node.number_of(it.line)

    def start(self, it):
        """A node that starts says whether it has the batch."""
        node, started = self.nodes[it.words[1]], STARTED.search(self.peek(it))
        line = self.doubtful.pop(node.name, None) if started else None
        if line:
            is_there = int(started[2]) == node.count + 1
            node.batches += [line] * is_there
            self.undoubted.add(it.line)
            self.seen[f"start that says a batch is {'kept' if is_there else 'lost'}"] += 1
        super().start(it)
