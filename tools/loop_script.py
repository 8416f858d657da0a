"""Random scripts for runs by `loop`, one after another over the same folders."""

import random

KEYS = [f"k{it}" for it in range(40)] + ["@", "%2dk", "x%20y"]
VERBS = {"submit": 26, "once": 22, "flow": 14, "tend": 30, "deliver": 6, "tick": 4, "settle": 2}
VERBS |= {"get": 8, "rows": 3, "back": 3, "open": 2, "close": 2, "restart": 1, "show": 2}
# What a limit is at least and at most.
LIMITS = {"log": (16, 6_000), "l0": (0, 3), "table": (64, 6_000), "level": (64, 20_000)}
LONGEST = 400
# A wide script has so many keys more, tables and logs that are so much longer, and in so many of its
# batches so many edits: its merges take several tends.
WIDE_KEYS, WIDER, WIDE_EDITS, OFTEN = 700, 8, 200, 0.3
# So many clients give marks, and how often the request of one is so much behind its greatest one,
# or that again, or skips one; how often a batch is another than the one that had its mark.
CLIENTS, REQUESTS, OTHER = 3, {1: 10, 0: 6, 2: 2, -1: 1}, 0.1

# So many batches a tick sends at most.
MOST_SENT = 16


def catching_up(ids, batches):
    """A script behind which each node has all of so many batches, whatever it lacks."""
    ticks = [f"tick {it}" for it in ids]
    rounds = batches // MOST_SENT + 2
    return "\n".join(["config " + " ".join(ids), *[*ticks, "flow"] * rounds, ""])


class LoopScript:
    """A script of a chain. The same seed gives the same."""

    def __init__(self, seed, ids, statements, is_wide=False, given=None):
        """Of so many statements, behind which all nodes get what they may lack. Scripts before it
        over the same folders gave these edits with marks, and this one adds to them."""
        self.choice, self.ids, self.is_wide = random.Random(seed), ids, is_wide
        self.given = {} if given is None else given
        self.submits, self.seed = 0, seed
        self.lines = [*self.limits(), "config " + " ".join(ids), *self.whole()]
        verbs, weights = list(VERBS), list(VERBS.values())
        for _ in range(statements):
            verb = self.choice.choices(verbs, weights)[0]
            self.lines += getattr(self, verb)()
        self.lines += self.whole()
        self.text = "\n".join(self.lines) + "\n"

    def limits(self):
        """Small limits."""
        for name, bounds in LIMITS.items():
            number = self.choice.randint(*bounds)
            yield f"limit {name} {number * WIDER if self.is_wide and name != 'l0' else number}"

    def whole(self):
        """The nodes show what they have, and send what others may lack."""
        shows = [f"show {it}" for it in self.ids]
        ticks = [f"tick {it}" for it in self.ids]
        return [*shows, *ticks, "flow", *ticks, "flow", *shows]

    def node(self):
        """Any node."""
        return self.choice.choice(self.ids)

    def key(self):
        """Any key."""
        return self.choice.choice(KEYS)

    def edit(self):
        """A put of a value that no other edit has, or a deletion."""
        if self.choice.random() < 0.25:
            return f"-{self.key()}"
        name = f"{self.seed}.{len(self.lines)}."
        return f"{self.key()}={name}{'v' * self.choice.randrange(LONGEST)}"

    def edits(self):
        """The edits of a batch."""
        if self.is_wide and self.choice.random() < OFTEN:
            places = self.choice.sample(range(WIDE_KEYS), WIDE_EDITS)
            return [f"-w{it}" if it % 5 == 0 else f"w{it}={len(self.lines)}" for it in places]
        return [self.edit() for _ in range(self.choice.choice([1, 1, 1, 2, 2, 3, 8]))]

    def submit(self):
        """A batch for the head."""
        self.submits += 1
        return [" ".join(["submit", self.ids[0], *self.edits()])]

    def once(self):
        """A batch with a mark for the head: a client's next one, or one that is submitted again,
        also of an earlier script."""
        client = self.choice.randint(1, CLIENTS)
        greatest = max((it[1] for it in self.given if it[0] == client), default=0)
        more = self.choice.choices(list(REQUESTS), list(REQUESTS.values()))[0]
        request = max(1, greatest + more)
        edits = self.given.setdefault((client, request), self.edits())
        if self.choice.random() < OTHER:
            edits = self.edits()
        self.submits += request > greatest
        return [f"once {self.ids[0]} {client} {request} {' '.join(edits)}"]

    def flow(self):
        """All frames that are left."""
        return ["flow"]

    def tend(self):
        """A turn to work on files, or some turns."""
        return [f"tend {self.node()}"] * self.choice.choice([1, 1, 2, 4])

    def deliver(self):
        """A frame that may be early, late, twice or not there yet."""
        return [f"deliver {self.choice.randint(1, 3 * self.submits + 9)}"]

    def tick(self):
        """A turn to send again."""
        return [f"tick {self.node()}"]

    def settle(self):
        """Turns until nothing is due."""
        return [f"settle {self.node()}"]

    def get(self):
        """A read of a key."""
        return [f"get {self.node()} {self.key()}"]

    def rows(self, verb="rows"):
        """A page."""
        low, bound = self.key(), self.choice.choice(["*", self.key()])
        return [f"{verb} {self.node()} {low} {bound} {self.choice.choice([1, 3, 10, 100])}"]

    def back(self):
        """A page backward."""
        return self.rows("back")

    def open(self):
        """A snapshot, which holds the floor."""
        return [f"open {self.node()}"]

    def close(self):
        """A snapshot that may be there is closed."""
        return [f"close {self.node()} {self.choice.randint(0, self.submits)}"]

    def restart(self):
        """A node stops and starts."""
        node = self.node()
        return [f"stop {node}", f"start {node}"]

    def show(self):
        """A look at a node."""
        return [f"show {self.node()}"]
