"""Random lawful scripts, for `random_runs`."""

import collections
import random

KEYS = ["a", "b", "c", "@", "%2dk", "x%20y"]
EDITS = [1] * 12 + [2] * 12 + [3] * 6 + [4] * 3 + [0]
JUNK = ["old", "new", "00", "01", "ff", "0100", "a1b2c3"]
VERBS = {"submit": 18, "once": 20, "get": 27, "deliver": 22, "tick": 8, "tend": 36, "flow": 9}
VERBS |= {"stop": 4, "start": 6, "settle": 8, "show": 14, "rows": 10, "back": 10, "open": 8}
VERBS |= {"close": 8}
# How often a chain has so many nodes.
LENGTHS = {1: 2, 2: 3, 3: 5, 4: 5, 5: 5}
# How often a node is told of a configuration, for each one behind the first.
NOTICES = 8
# So many clients give marks, and how often the request of one is so much behind its greatest one,
# or that again, or skips some. How often a batch is another than the one that had its mark.
CLIENTS, REQUESTS, OTHER = 2, {1: 8, 0: 12, -1: 3, -2: 1, 2: 2, 4: 1}, 0.1
# What a limit is at least and at most, if a script has it, and how often one has it.
LIMITS = {"log": (16, 256, 0.9), "l0": (0, 4, 0.8), "table": (64, 400, 0.7)}
LIMITS |= {"level": (64, 600, 0.7), "cache": (1, 8, 0.5)}
# A script of so many has wide batches, whose merges take several tends; it has so many keys, and
# so much greater tables.
WIDE, WIDE_KEYS, WIDER = 12, 400, 10
# A script of so many begins with so many batches of other keys, one table each, which can't be
# merged: there would be a table of each key, and more of them than a version may have.
CROWDED, CROWD = 500, 17
CROWDED_LIMITS = ["limit log 16", f"limit l0 {CROWD - 1}", "limit table 64"]


class Script:
    """A random script. It guesses how many frames there are, and which nodes may be down."""

    def __init__(self, seed, statements):
        """Writes so many statements. The same seed gives the same script."""
        self.choice = random.Random(seed)
        length = self.choice.choices(list(LENGTHS), list(LENGTHS.values()))[0]
        self.nodes = self.choice.sample(range(1, 65_536), length)
        self.configurations = [self.nodes, *self.later()]
        self.verbs = VERBS | {"notice": max(1, NOTICES * (len(self.configurations) - 1))}
        # The newest epoch of which a node was told, and of each node the one that it may be at.
        self.newest, self.epochs = 0, dict.fromkeys(self.nodes, 0)
        self.frames, self.batches, self.down = 0, 0, []
        # The nodes and numbers of snapshots that may have been opened.
        self.opened = []
        # The edits that were given with a mark, and of each client its greatest request, and the
        # node that got it first.
        self.given, self.greatest, self.first = {}, collections.Counter(), {}
        self.is_wide = self.choice.randrange(WIDE) == 0
        is_crowded = self.choice.randrange(CROWDED) == 0
        limits = CROWDED_LIMITS if is_crowded else list(self.limits())
        self.lines = ["config " + " ".join(map(str, ids)) for ids in self.configurations]
        self.lines += self.crowd() if is_crowded else []
        while len(self.lines) < statements + len(self.configurations):
            verb = self.choice.choices(list(self.verbs), list(self.verbs.values()))[0]
            if self.down and self.choice.random() < 0.3:
                verb = "start"
            if verb == "deliver" and not self.frames:
                verb = "submit"
            self.lines.append(getattr(self, verb)())
        self.lines += self.ending()
        self.text = "\n".join([*limits, *self.lines]) + "\n"

    def ending(self):
        """All nodes start, send again what others may lack, and show what they have."""
        yield from (f"start {node}" for node in self.nodes)
        for _ in range(2):
            yield from (f"tick {node}" for node in self.nodes)
            yield "flow"
        for node in self.nodes:
            yield from (f"show {node}", f"rows {node} @ * 10")

    def later(self):
        """Later configurations: each has some nodes of the one before, or there are no more."""
        ids = self.nodes
        while len(ids) > 1 and self.choice.random() < 0.8:
            most = len(ids) - 1
            count = most if self.choice.random() < 0.7 else self.choice.randint(1, most)
            ids = [ids[at] for at in sorted(self.choice.sample(range(len(ids)), count))]
            yield ids

    def limits(self):
        """Small limits, so that flushes and merges are due; some may be absent."""
        for name, (least, most, often) in LIMITS.items():
            if self.choice.random() < often:
                number = self.choice.choice([least, self.choice.randint(least, most)])
                if self.is_wide and name == "table":
                    number *= WIDER
                yield f"limit {name} {number}"

    def crowd(self):
        """Batches of the head with a tend behind each, which flushes it, and tends of a merge."""
        head = self.nodes[0]
        for batch in range(CROWD):
            edits = [f"k{256 * batch + at}={'v' * 60}" for at in range(256)]
            yield f"submit {head} {' '.join(edits)}"
            yield f"tend {head}"
        self.batches, self.frames = CROWD, CROWD * (len(self.nodes) > 1)
        yield f"settle {head}"

    def node(self):
        """Any node."""
        return self.choice.choice(self.nodes)

    def with_fault(self, node, line, often=0.12):
        """A step of this node, sometimes with a fault of its disk, if it calls it then."""
        if self.choice.random() > often:
            return line
        if line.startswith(("submit", "once", "start", "tend", "notice")):
            self.down.append(node)
        call = self.choice.randint(1, 5)
        if line.startswith(("tend", "start")):
            later = self.choice.randint(6, 14), self.choice.randint(15, 40)
            call = self.choice.choice([call, *later])
        if self.choice.random() < 0.3:
            return f"{line} !fail {call}"
        return f"{line} !stop {call} {self.choice.choice(JUNK)}"

    def submit(self):
        """A batch, most often for a node that may be a head."""
        node, edits = self.head(0.95), self.edits()
        self.take()
        return self.with_fault(node, " ".join(["submit", str(node), *edits]))

    def once(self):
        """A batch with a mark: a client's next one, or one that is submitted again, at any node
        that may be a head, most often as it was. At another node it is more often its last one."""
        client, node = self.choice.randint(1, CLIENTS), self.head(0.9)
        more = self.choice.choices(list(REQUESTS), list(REQUESTS.values()))[0]
        if self.first.get(client, node) != node and self.choice.random() < 0.6:
            more = 0
        request = max(1, self.greatest[client] + more)
        edits = self.given.get((client, request))
        if edits is None or self.choice.random() < OTHER:
            edits = self.edits()
        self.given.setdefault((client, request), edits)
        if request > self.greatest[client]:
            self.take()
            self.greatest[client], self.first[client] = request, node
        line = " ".join(["once", str(node), str(client), str(request), *edits])
        return self.with_fault(node, line, 0.2)

    def head(self, often):
        """A node that may be a head, so often, and half of these times the newest; else any."""
        heads = [it for it in self.nodes if self.configurations[self.epochs[it]][0] == it]
        if not heads or self.choice.random() > often:
            return self.node()
        newest = max(heads, key=self.epochs.get)
        return self.choice.choice([newest, self.choice.choice(heads)])

    def take(self):
        """A node may take a batch, and send it."""
        if not self.down:
            self.send(1)
            self.batches += 1

    def edits(self):
        """The edits of a batch, now and then none."""
        edits = [self.edit() for _ in range(self.choice.choice(EDITS))]
        return self.wide_edits() if self.is_wide and self.choice.random() < 0.5 else edits

    def send(self, most):
        """Perhaps so many frames are sent. A chain of one node sends none."""
        if len(self.nodes) > 1:
            self.frames += self.choice.randint(0, most)

    def edit(self):
        """A put or a deletion. Few keys, so that batches change what others put."""
        key = self.choice.choice(KEYS)
        if self.choice.random() < 0.25:
            return f"-{key}"
        value = self.choice.choice(["1", "@", f"v{len(self.lines) + 1}"])
        return f"{key}={value}"

    def wide_edits(self):
        """Edits of many keys."""
        keys = self.choice.sample(range(WIDE_KEYS), self.choice.randint(100, 256))
        value = self.choice.choice(["1", "v" * 40])
        return [f"-k{key}" if self.choice.random() < 0.2 else f"k{key}={value}" for key in keys]

    def get(self):
        """A read at the committed number, at one that may be old, or at one too high."""
        node, key = self.node(), self.choice.choice(KEYS)
        return self.with_fault(node, f"get {node} {key}{self.number(0.6)}")

    def walk(self, verb):
        """A page of a range, which may be empty, with a limit that may be none."""
        node, low = self.node(), self.choice.choice(["@", *KEYS])
        bound = self.choice.choice(["*", "*", "*", *KEYS])
        limit = self.choice.choice([1, 1, 2, 3, 5, 10, 1024, 0, 1025])
        line = f"{verb} {node} {low} {bound} {limit}"
        return self.with_fault(node, line + self.number(0.6))

    def rows(self):
        """A page, forward."""
        return self.walk("rows")

    def back(self):
        """A page, backward."""
        return self.walk("back")

    def number(self, often):
        """Often a number of batches, with a space before it: it may be old, or too high."""
        if self.choice.random() > often:
            return ""
        return f" {self.choice.choice([self.batches + 1, *range(self.batches + 1)])}"

    def open(self):
        """A snapshot, at a number or at the committed one."""
        node, number = self.node(), self.number(0.5)
        self.opened.append((node, number or f" {self.batches}"))
        return self.with_fault(node, f"open {node}{number}")

    def close(self):
        """A snapshot that may be there is closed: most often one that was opened."""
        node, number = self.node(), self.number(1)
        if self.opened and self.choice.random() < 0.6:
            node, number = self.choice.choice(self.opened)
        return self.with_fault(node, f"close {node}{number}")

    def deliver(self):
        """Any place, most often one of the latest: so some are early, twice, or not there yet."""
        first = max(1, self.frames - 4) if self.choice.random() < 0.6 else 1
        self.send(1)
        place = self.choice.randint(first, self.frames + 1)
        return self.with_fault(self.node(), f"deliver {place}")

    def tick(self):
        """A turn to send again."""
        node = self.node()
        self.send(2)
        return self.with_fault(node, f"tick {node}")

    def notice(self):
        """A configuration for any node: most often the newest so far, at times the next."""
        node, last = self.node(), len(self.configurations) - 1
        if self.choice.random() < 0.3:
            self.newest = min(self.newest + 1, last)
        epoch = self.newest if self.choice.random() < 0.75 else self.choice.randint(0, last)
        self.epochs[node] = max(self.epochs[node], epoch)
        self.send(1)
        return self.with_fault(node, f"notice {node} {epoch}", 0.2)

    def tend(self):
        """A turn of a node to work on its files."""
        node = self.node()
        return self.with_fault(node, f"tend {node}")

    def settle(self):
        """Turns of a node until nothing is due."""
        return f"settle {self.node()}"

    def show(self):
        """A look at a node."""
        return f"show {self.node()}"

    def flow(self):
        """All frames that are left."""
        self.send(2 * len(self.nodes) - 2)
        return "flow"

    def stop(self):
        """A stop with any junk, or none."""
        node = self.node()
        self.down.append(node)
        return f"stop {node}{self.choice.choice(['', *(f' {junk}' for junk in JUNK)])}"

    def start(self):
        """A start, of a node that may be down if there is one."""
        node = self.down.pop(0) if self.down else self.node()
        return self.with_fault(node, f"start {node}")
