"""The scripts whose events `sweep_faults` and `memory/sweep.py` sweep, by what happens in them."""

KEYS = [f"k{at:03}" for at in range(256)]
LONG = "x" * 200


def script(*lines):
    """The text of these lines."""
    return "".join(f"{line}\n" for line in lines)


def deliver(*places):
    """The deliveries of these frames."""
    return [f"deliver {place}" for place in places]


def wide(value):
    """A submit of 256 keys."""
    return "submit 1 " + " ".join(f"{key}={value}" for key in KEYS)


BATCH = script("config 1", "submit 1 a=1", "get 1 a")

CHAIN = script("config 1 2 3", "submit 1 a=1", *(f"deliver {place}" for place in (1, 1, 2, 4, 5)))

SNAPSHOT = ["limit log 16", "limit l0 1", "config 1", "submit 1 a=1", "open 1", "tend 1"]
SNAPSHOT += ["submit 1 a=2", "submit 1 -a", "settle 1", "get 1 a 1", "get 1 a", "show 1"]

CLOSED = [*SNAPSHOT, "close 1 1", "submit 1 a=4", "tend 1", "submit 1 c=1", "settle 1"]
CLOSED += ["get 1 a 1", "get 1 a", "show 1"]

TABLES = ["limit log 16", "config 1", "submit 1 a=1", "tend 1", "submit 1 b=2", "tend 1"]
TABLES += ["submit 1 c=3", "tend 1", "submit 1 d=4", "tend 1", "submit 1 a=5", "settle 1"]
TABLES += ["show 1", "rows 1 @ * 10"]

DEEPER = ["limit log 16", "limit l0 0", "limit level 300", "config 1", f"submit 1 a={LONG}"]
DEEPER += ["settle 1", "submit 1 -a", "settle 1", "get 1 a", "show 1"]

HEAD = ["config 1 2 3", "config 2 3", "submit 1 a=1", "flow", "notice 2 1", "notice 3 1"]
HEAD += ["submit 1 a=old", "submit 2 a=new", "flow", "get 3 a", "get 1 a"]

MIDDLE = ["config 1 2 3", "config 1 3", "submit 1 a=1", "flow", "submit 1 b=2", "deliver 5"]
MIDDLE += ["stop 2", "notice 1 1", "notice 3 1", "tick 1", "flow"]

TAIL = ["config 1 2 3", "config 1 2", "submit 1 a=1", "deliver 1", "notice 1 1", "notice 2 1"]
TAIL += ["deliver 3"]

ONCE = ["once 1 7 1 a=1", "once 1 7 1 a=1"]

AGAIN = ["limit log 16", "limit l0 0", "config 1 2", "config 2", *ONCE, "flow", "settle 1"]
AGAIN += [*ONCE, "once 1 7 2 a=2", "once 1 7 2 a=2", "deliver 3", "tend 2", "notice 2 1"]
AGAIN += ["once 2 7 1 a=1", "once 2 7 2 a=2", "settle 2", "once 2 7 2 a=2", "once 1 7 2 a=2"]

PARTS = ["limit log 16", "limit l0 1", "config 1", wide(1), "tend 1", wide(2)]
PARTS += ["tend 1"] * 3 + ["show 1", "tend 1", "show 1", "tend 1"]

# What `sweep_faults` sweeps.
FAULTS = {
    "a batch goes down a chain of three": CHAIN,
    "a snapshot holds the floor back until it is closed": script(*CLOSED),
    "five tables are merged": script(*TABLES),
    "a value goes on to level 2 below its deletion": script(*DEEPER),
    "the head leaves": script(*HEAD),
    "the middle node leaves": script(*MIDDLE),
    "the tail leaves": script(*TAIL),
    "a merge takes two parts": script(*PARTS),
    "batches with marks are submitted again": script(*AGAIN),
}

# Short runs that `sweep_faults` sweeps event by event, with the least limits, so that each tend has
# something to do. Behind each stands how many faults strike a call in it.
SMALL = ["limit log 16", "limit l0 64", "limit table 64", "limit level 64", "limit cache 1"]
HELD = ["limit log 16", "limit l0 1", "limit table 64", "limit level 10485760", "limit cache 1"]
DEEP = ["limit log 16", "limit l0 0", "limit table 64", "limit level 64", "limit cache 1"]
THREE = "submit 1 a=1 -a a=2"

COURSES = {
    "one node": (script(*SMALL, "config 1", "submit 1 a=1", "get 1 a"), 24),
    "a frame comes twice": (
        script(*SMALL, "config 1 2 3", "submit 1 a=1", *deliver(1, 1, 2, 4, 5)),
        72,
    ),
    "a frame overtakes another, and a tick sends again": (
        script(*SMALL, "config 1 2", "submit 1 a=1", "submit 1 a=2", "deliver 2", "tick 1")
        + script(*deliver(4, 5, 7, 6), "get 1 a"),
        108,
    ),
    "reads at nodes that know less": (
        script(*SMALL, "config 1 2 3", "submit 1 a=1", *deliver(1, 2, 3, 4), "submit 1 a=2")
        + script("deliver 5", "get 2 a 2", "get 2 a", "submit 2 a=1"),
        120,
    ),
    "a node stops between receiving and acknowledging": (
        script(*SMALL, "config 1 2 3", "submit 1 a=1", "deliver 1", "stop 2 new", "start 2")
        + script("tick 2", *deliver(2, 3, 4, 5, 6, 7), "get 1 a"),
        150,
    ),
    "batches go to tables, and the node starts over two logs": (
        script(*SMALL, "config 1", "submit 1 a=1", "tend 1", "get 1 a", "submit 1 a=2")
        + script("stop 1 01", "start 1", "tend 1", "tend 1", "get 1 a 1", THREE, "get 1 a"),
        360,
    ),
    "a node sends again what it has in a table and in its newest log": (
        script(*SMALL, "config 1 2", "submit 1 a=1", "tend 1", "submit 1 a=2", "tick 1")
        + script("deliver 3", "tend 2", *deliver(4, 5), "tend 2", "deliver 6", "get 2 a 1")
        + script("get 1 a"),
        348,
    ),
    "the head leaves, and then the tail": (
        script(*SMALL, "config 1 2 3", "config 2 3", "config 2", "submit 1 a=1", *deliver(1, 2))
        + script("notice 2 1", "submit 2 a=2", "notice 3 1", "tick 2", *deliver(6, 7))
        + script("submit 1 a=2", "notice 2 2", "submit 2 a=1 -a a=2", "get 2 a"),
        252,
    ),
    "the middle node leaves with a batch that the tail lacks": (
        script(*SMALL, "config 1 2 3", "config 1 3", "submit 1 a=1", "deliver 1", "submit 1 a=2")
        + script("notice 1 1", "notice 3 1", "tick 1", *deliver(5, 6), "tick 3", "deliver 8")
        + script("get 3 a", "get 1 a"),
        180,
    ),
    "a snapshot holds the floor back, tend by tend": (
        script(*HELD, "config 1", "submit 1 a=1", "open 1", "tend 1", "submit 1 a=2")
        + script("submit 1 -a", *["tend 1"] * 3, "get 1 a 1", "get 1 a", "close 1 1")
        + script("submit 1 a=2", "tend 1", "submit 1 a=1", *["tend 1"] * 3, "get 1 a 1", "get 1 a"),
        708,
    ),
    "a table goes down two levels, and its deletion behind it": (
        script(*DEEP, "config 1", "submit 1 a=1", *["tend 1"] * 5, "submit 1 -a", "stop 1 01")
        + script("start 1", *["tend 1"] * 3, "get 1 a"),
        630,
    ),
    "a batch with a mark is submitted again, and at the next head": (
        script(*SMALL, "config 1 2", "config 2", *ONCE, "deliver 1", *ONCE, "notice 2 1")
        + script("once 2 7 1 a=1", "once 2 7 2 a=2", "once 2 7 1 a=1", "once 1 7 2 a=3")
        + script("deliver 2"),
        120,
    ),
    "the mark of a batch is in a table": (
        script(*SMALL, "config 1", "once 1 7 1 a=1", "tend 1", *ONCE, "once 1 7 2 a=2", *ONCE),
        132,
    ),
}

# What `memory/sweep.py` sweeps besides its own.
MEMORY = {
    "a batch alone": BATCH,
    "a batch down a chain of three": CHAIN,
    "a snapshot holds the floor back": script(*SNAPSHOT),
    "five tables are merged": script(*TABLES),
    "the head leaves": script(*HEAD),
}
