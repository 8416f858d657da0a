#!/usr/bin/env python3
"""one_history.py SCRIPT OUTPUT [TURN..]: checks a run from its texts, by what is promised of it.

Two things are checked. The first is the headline (`headline.py`): there is one list of batches, in
the order of their submits, none twice and no two with one mark, of which every acknowledgement and
every read speaks, whatever node of whatever configuration answers; each node of the last
configuration has it; a read at the last tail is not behind anything acknowledged or read before;
and what a node has given up, each later node of its configuration has. The second is each line: it
must be the one that the rules of a step give (`chain_rules.py`). Open is only where a floor is,
what a tend does, and whether a fault strikes in a step that reads the disk: there a line must be
one that can be so (`known_store.py`, `marked_run.py`).

A run may have lost what was carried in some turns, counted from 0: each request, each frame that is
delivered and each reply has one. A request or frame that is lost has the line `lost`, and does
nothing; a reply that is lost has no line, and says nothing (`losing_run.py`). So a batch that is
acknowledged is in the history, and one whose acknowledgement is lost may be.

Prints the lines of the batches' submits in their order, or what is broken, with status 1.
"""

import collections
import copy
import re
import sys

sys.dont_write_bytecode = True
from chain_rules import Node
from headline import OneHistory
from known_store import MOST_FILES, KnownStore
from lab_texts import SHOWN, STARTED, SUBMITS, Broken, entries_of, expect, kind_of, limits_of
from marked_run import MarkedRun
from plain_maps import value_at
from run_tends import NodeTends

# So many entries and keys tables have at most.
Most = collections.namedtuple("Most", "entries keys")
# A node that was shown: the line, the node, its epoch, its numbers and tables, its least open
# snapshot, if one is open, so many entries and keys at most, and what was known of its store.
Shown = collections.namedtuple("Shown", "line node epoch numbers tables snapshot most before")
# A read that was answered: the line, the node, the key, the number, the value, and the greatest
# number that was acknowledged or read before, if it is one that has to be fresh.
Read = collections.namedtuple("Read", "line node key at value fresh")
# An adoption: its place in the output, the node, the committed number and count before it, whether
# the node is the tail now, and the requests that it forgot, with their numbers.
Adoption = collections.namedtuple("Adoption", "place node committed count is_tail forgotten")
# A frame that was dropped: its place in the output, the node as it was, the frame, why, and how
# many frames there were.
Drop = collections.namedtuple("Drop", "place node frame why sent")


def outcome_of(text):
    """A line of the output without what differs from run to run."""
    kind = kind_of(text)
    if kind == "node":
        words = re.sub("^epoch", "shown epoch", text.split(" ", 2)[2])
        return re.sub(r"(adopted) \d+$", r"\1", words).split(" epoch")[0]
    if kind == "sent":
        return "sent " + text.split(" ")[2]
    if kind == "rows":
        return kind + " more" * text.endswith(" more")
    return text if kind in ("dropped", "refused", "invalid") else kind


class History(MarkedRun):
    """A run and what was printed of it, checked line by line."""

    def __init__(self, script, output, seen, rules=Node, lost=()):
        """Checks a whole output, and counts its outcomes in what was seen. The run had nodes of
        these rules, and lost these turns."""
        super().__init__(script, rules, lost)
        self.words = {it.line: it.words for it in self.statements}
        self.seen = seen
        self.lines, self.place = collections.deque(output.split("\n")[:-1]), 0
        self.history = OneHistory(self.configurations, self.nodes, self.edits)
        limits = limits_of(script)
        self.stores = {name: KnownStore(limits) for name in self.nodes}
        self.tends = {name: NodeTends(limits["log"]) for name in self.nodes}
        self.stopped = set()
        # What `corruptions.py` needs to know of the run.
        self.reads, self.starts, self.floors, self.shows = [], [], [], []
        # The lines of answered reads that could not be refused as too old; the refused gets at
        # numbers that were known to be below the floor; the frames of batches sent again by places,
        # with the number of those that their senders are known to keep in no log.
        self.firm, self.too_old, self.again = [], [], []
        # The lines of tends of which it is known that a flush was due, whatever went before.
        self.adoptions, self.drops, self.flushes = [], [], []
        self.run()
        expect(not self.lines, f"{self.lines[0] if self.lines else ''}: a line too many")
        self.history.finish()
        self.count_run()

    def run(self):
        """Each statement in its turn. What is broken names the line that is due."""
        try:
            super().run()
        except Broken as what:
            line = self.lines[0] if self.lines else "the end"
            raise Broken(f"before {line}: {what}") from None

    def count_run(self):
        """Counts what a run was."""
        for it in self.statements:
            self.seen[f"{it.words[0]} statements"] += 1
        self.seen[f"run of {len(self.configurations)} configurations"] += 1
        self.seen["run with a batch beside the history"] += len(self.others()) > 0
        self.seen["request or frame lost"] += len(self.losses)
        self.seen["reply lost"] += len(self.unsaid_replies)

    def others(self):
        """The lists of nodes that have another batch than the history in some place."""
        lists, history = [node.batches for node in self.nodes.values()], self.history.batches
        return [it for it in lists if it[: len(history)] != history[: len(it)]]

    def say(self, line, text):
        """The line that the rules give is the next one."""
        expect(self.lines, f"no line '{line}: {text}'")
        found = self.lines.popleft()
        self.place += 1
        expect(found == f"{line}: {text}", f"'{found}' in place of '{line}: {text}'")
        self.seen[f"{self.words[line][0]}: {outcome_of(text)}"] += 1

    def peek(self, it):
        """The next line of the output, if it is one of this statement."""
        number, _, text = (self.lines[0] if self.lines else "").partition(": ")
        return text if number == f"{it.line}" else ""

    def is_struck(self, it, node):
        """Whether a fault strikes in a step that reads the disk: then its node stops. A read of
        keys needs a table for that."""
        is_struck = self.peek(it).startswith(f"node {node.name} stopped")
        has_tables = it.words[0] in ("start", "tick") or self.stores[node.name].flushes
        expect(has_tables or not is_struck, "a stop in a read without tables")
        return is_struck

    def fall(self, it, node):
        """A node stopped in a step."""
        self.stopped.add(node.name)
        self.follow(node, NodeTends.stop, self.map_of(node, node.count), it.words[0] == "tend")
        super().fall(it, node)

    def follow(self, node, event, *given):
        """What a node's tends can have been goes on with an event: there is a course that fits."""
        tends = self.tends[node.name]
        tends.count = node.count
        event(tends, *given)
        expect(tends.courses, "no course of flushes and merges that fits")

    def step(self, it, node, rule, *given):
        """A step of a node, with what is known of it before."""
        count, epoch, committed, pending = node.count, node.epoch, node.committed, node.pending
        answer = super().step(it, node, rule, *given)
        if answer is None:
            is_there = (node.count, node.epoch) != (count, epoch)
            self.seen[f"{it.words[0]} that a fault struck, {'kept' if is_there else 'lost'}"] += 1
        elif node.epoch > epoch:
            forgotten = pending if node.is_removed() else []
            numbers = (committed, count, node.is_tail(), forgotten)
            self.adoptions.append(Adoption(self.place, node, *numbers))
            self.seen["adoption that skips an epoch"] += node.epoch > epoch + 1
            self.seen["adoption by a removed node"] += node.is_removed()
            self.seen["adoption by a new tail that commits"] += node.is_tail() and committed < count
            self.seen["adoption by a removed head with requests"] += len(forgotten) > 0
        elif answer.dropped and it.words[0] in ("deliver", "flow"):
            known = (copy.copy(node), *given, answer.dropped, len(self.frames))
            self.drops.append(Drop(self.place, *known))
        return answer

    def sent(self, it, frame):
        """A batch that is sent again is in a log."""
        if frame.kind == "forward" and it.words[0] not in SUBMITS:
            store = self.stores[frame.sender]
            self.again.append((it.line, len(self.frames), store.kept))
            store.send(*frame.numbers)

    def acknowledged(self, node, line, number):
        """A batch is acknowledged."""
        self.history.acknowledge(node, line, number)

    def told(self, it, node, at):
        """A node answered a read, or opened a snapshot."""
        asked = it.words[{"get": 3, "open": 2}.get(it.words[0], 5) :]
        history, fresh = self.history, None
        if not asked and it.words[0] != "open":
            history.look_fresh(node, at)
            fresh = history.known if history.is_last_tail(node) else None
            self.seen["read that has to be fresh"] += fresh is not None
        history.tell(node, at)
        if it.words[0] == "get":
            value = value_at(self.map_of(node, at), it.words[2])
            self.reads.append(Read(it.line, node, it.words[2], at, value, fresh))
            if at < history.known:
                kind = "none" if value is None else "value"
                self.seen[f"read of a {kind} at an old number"] += 1
                is_after = node.name in self.stopped
                self.seen[f"read of a {kind} at an old number after a stop"] += is_after

    def is_hidden(self, it, node, at):
        """Whether a read up to the committed number is below the floor."""
        store = self.stores[node.name]
        asked = it.words[{"get": 3, "open": 2}.get(it.words[0], 5) :]
        if self.is_unseen(it, node):
            if not asked or at >= store.most:
                return False
            if at >= store.least:
                self.open_unseen(it, node, at)
            return True
        if self.peek(it) == "refused 3 TooOld":
            expect(asked, "the committed number is too old")
            if it.words[0] == "get" and at < store.least:
                self.too_old.append((it.line, it.words[2], at, node))
            store.refuse_old(at)
            return True
        if not asked or at >= store.most:
            self.firm.append(it.line)
        store.read(at)
        return False

    def tend_of(self, it, node):
        """What a tend did, or several. It is full only with many entries."""
        text, batches = self.peek(it), self.map_of(node, node.count)
        ends = ("idle", "full") if it.words[0] == "settle" else ("tended", "idle", "full")
        if it.fault and text.startswith(f"node {node.name} stopped"):
            text = "stopped"
        else:
            expect(text in ends, f"'{text}' of a tend")
        entries = self.most_of(node).entries
        expect(text != "full" or 2 * entries >= MOST_FILES, "full without cause")
        is_one, tends = it.words[0] == "tend", self.tends[node.name]
        self.stores[node.name].tend(is_one, text, node.least(), node.count)
        if text != "stopped" and is_one:
            courses, tends.count = tends.courses, node.count
            self.follow(node, NodeTends.tend, text, batches, None)
            if all(tends.after_tend(one, batches)[0][0] == "flush" for one in courses):
                self.flushes.append(it.line)
        elif text != "stopped":
            self.follow(node, NodeTends.settle, text, batches)
        return text

    def most_of(self, node):
        """So many entries and keys the tables of a node's batches have at most."""
        keys = [entries_of(batch) for batch in self.map_of(node, node.count)]
        return Most(sum(map(len, keys)), len(set().union(*keys)))

    def floor_of(self, it, node):
        """The floor of a node that starts and is no tail is what it knows as committed."""
        form = STARTED.search(self.peek(it))
        expect(form, "no start")
        store, floor = self.stores[node.name], int(form[3])
        self.floors.append((it.line, floor, copy.copy(store)))
        store.start(floor)
        return floor

    def started(self, it, node):
        """A node starts with the history, if it is of the last configuration."""
        self.stopped.add(node.name)
        self.history.look(node)
        if it.line not in self.undoubted:
            self.starts.append((it.line, node.name, node.epoch, node.count))
        self.seen["start at a later epoch"] += node.epoch > 0
        self.seen["start of a removed node"] += node.is_removed()

    def stop(self, it):
        """A machine stops."""
        node = self.nodes[it.words[1]]
        if node.is_up:
            self.stopped.add(node.name)
            self.follow(node, NodeTends.stop, self.map_of(node, node.count), False)
        super().stop(it)

    def numbers_of(self, it, node):
        """A node shows its floor, which no open snapshot is below, what it keeps and its tables."""
        form = SHOWN.search(self.peek(it))
        expect(form, f"'{self.peek(it)}' of a node that runs")
        store, most = self.stores[node.name], self.most_of(node)
        floor, kept = int(form[4]), int(form[5])
        tables = [int(count) for count in form[6].split(" ")]
        snapshot = min((at for at, open_ in node.snapshots.items() if open_), default=None)
        numbers = [node.count, node.committed, floor, kept]
        known = (numbers, tables, snapshot, most, copy.copy(store))
        self.shows.append(Shown(it.line, node.name, node.epoch, *known))
        expect(floor <= node.committed, "a floor above what is committed")
        expect(snapshot is None or floor <= snapshot, "a floor above an open snapshot")
        store.show(floor, kept, tables, most)
        self.follow(node, NodeTends.show, tables, floor)
        self.history.give_up(node, kept)
        deepest = max((level for level, count in enumerate(tables) if count), default=0)
        self.seen[f"show: tables down to level {deepest}"] += 1
        self.seen["show: a floor above 0"] += floor > 0
        self.seen["show: a floor held by a snapshot"] += floor == snapshot < node.committed
        self.seen["show: a removed node"] += node.is_removed()
        return floor, kept, tables


def main():
    """Checks the output of one script."""
    if len(sys.argv) < 3:
        sys.exit(__doc__)
    texts, lost = [], map(int, sys.argv[3:])
    for path in sys.argv[1:3]:
        with open(path, encoding="utf-8") as it:
            texts.append(it.read())
    try:
        run = History(*texts, collections.Counter(), Node, lost)
    except (Broken, ValueError) as what:
        sys.exit(f"broken: {what}")
    print("one history, of the submits in lines", *run.history.batches)


if __name__ == "__main__":
    main()
