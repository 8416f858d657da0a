"""The corruptions of outputs of runs with several configurations, as those of `corruptions.py`."""

import re

from corruptions import add, change, edit, places_of
from plain_maps import value_at


def drop_line(form, verb=""):
    """A line of this form is missing."""

    def corrupt(history, lines, choice):
        places = places_of(history, lines, form, verb)
        if places:
            lines.pop(choice.choice(places))

    return corrupt


def adopted(history, lines, at):
    """The line of the notice that has this place, as of one that was taken."""
    number = lines[at].partition(":")[0]
    _, node, epoch = history.words[int(number)]
    return f"{number}: node {node} adopted {epoch}"


def take_notice(form):
    """A notice that was dropped, or in which its node stopped, is said to be taken."""

    def corrupt(history, lines, choice):
        places = places_of(history, lines, form, "notice")
        if places:
            at = choice.choice(places)
            lines[at] = adopted(history, lines, at)

    return corrupt


def take_frame(history, lines, choice):
    """A Forward of another epoch is taken: it goes on, and later frames have later places."""
    drops = [it for it in history.drops if it.why == "OtherEpoch" and it.frame.kind == "forward"]
    if not drops:
        return
    it = choice.choice(drops)
    node, number, to = it.node, it.frame.numbers[0], it.node.neighbour(1)
    text = f"#{it.sent + 1} {node.name}>{to} forward {node.epoch} {number}"
    if to is None:
        back = node.neighbour(-1)
        text = f"#{it.sent + 1} {node.name}>{back} ack {node.epoch} {number} {number}"
    lines[it.place] = f"{lines[it.place].partition(':')[0]}: {text}"
    for at in range(it.place + 1, len(lines)):
        lines[at] = re.sub(r": #(\d+)", lambda place: f": #{int(place[1]) + 1}", lines[at])


def take_ack(history, lines, choice):
    """An Ack of another epoch is taken: it is not dropped."""
    drops = [it for it in history.drops if it.why == "OtherEpoch" and it.frame.kind == "ack"]
    if drops:
        lines.pop(choice.choice(drops).place)


def answer_forgotten(history, lines, choice):
    """A removed head answers a request that it had not answered when it was left out."""
    adoptions = [it for it in history.adoptions if it.forgotten]
    if adoptions:
        it = choice.choice(adoptions)
        number, line = choice.choice(it.forgotten)
        lines.insert(it.place + 1, f"{line}: committed {number}")


def keep_committed(history, lines, choice):
    """A new tail does not commit all that it has."""
    adoptions = [it for it in history.adoptions if it.is_tail and it.committed < it.count]
    adoptions = [it for it in adoptions if " ack " in "".join(lines[it.place + 1 : it.place + 2])]
    if adoptions:
        it = choice.choice(adoptions)
        lines[it.place + 1] = re.sub(r"\d+ (\d+)$", rf"{it.committed} \1", lines[it.place + 1])


def read_old(history, lines, choice):
    """The last tail answers at a number below one that was acknowledged or read."""
    reads = [it for it in history.reads if it.fresh]
    if reads:
        it = choice.choice(reads)
        at = choice.randrange(it.fresh)
        value = value_at(history.map_of(it.node, at), it.key)
        found = "none" if value is None else f"value {value}"
        change(lines, it.line, ": .*", lambda _: f": {found} at {at}")


def read_lost(history, lines, choice):
    """A read has the value that a batch has given which is not of the history."""
    reads = []
    for it in history.reads:
        for other in history.others():
            value = value_at([history.edits[line] for line in other[: it.at]], it.key)
            if len(other) >= it.at and value != it.value:
                reads.append((it, value))
    if reads:
        it, value = choice.choice(reads)
        found = "none" if value is None else f"value {value}"
        change(lines, it.line, ": .*", lambda _: f": {found} at {it.at}")


def acknowledge_lost(history, lines, choice):
    """A batch that is not of the history is acknowledged."""
    lost = []
    for other in history.others():
        pairs = zip(other, history.history.batches)
        lost += [(at, one) for at, (one, its) in enumerate(pairs, 1) if one != its]
    if lost:
        number, line = choice.choice(lost)
        lines.append(f"{line}: committed {number}")


def number_anew(history, lines, choice):
    """A head of a later configuration numbers batches from 1."""
    places = places_of(history, lines, r"forward [1-9]\d* ([2-9]|\d\d)", "submit")
    if places:
        at = choice.choice(places)
        lines[at] = re.sub(r"\d+$", "1", lines[at])


def send_elsewhere(history, lines, choice):
    """A frame goes to another node than the neighbour."""
    places = places_of(history, lines, ": #")
    if places and len(history.nodes) > 2:
        at = choice.choice(places)
        ends = re.search(r"(\d+)>(\d+)", lines[at]).groups()
        other = choice.choice([it for it in history.nodes if it not in ends])
        lines[at] = re.sub(r">\d+", f">{other}", lines[at])


def act_first(history, lines, choice):
    """A node acts in a configuration before it adopts that."""
    places = places_of(history, lines, " adopted ")
    numbers = [line.partition(":")[0] for line in lines]
    places = [at for at in places if at + 1 < len(lines) and numbers[at] == numbers[at + 1]]
    if places:
        at = choice.choice(places)
        lines[at : at + 2] = lines[at + 1], lines[at]


CHANGES = {
    "an adoption left out": drop_line(" adopted "),
    "an adoption of a later epoch": add(" adopted ", 1),
    "an adoption of an earlier epoch": add(" adopted ", -1),
    "an adoption by another node": add("node ", 1, "notice"),
    "an adoption behind its frame": act_first,
    "an old notice taken": take_notice("dropped OldNotice"),
    "a notice taken by a node that is down": take_notice("dropped NotRunning"),
    "a notice taken in which a node stopped": take_notice("stopped"),
    "a new notice dropped as old": edit("node .* adopted .*", "dropped OldNotice"),
    "a new notice dropped as bad": edit("node .* adopted .*", "dropped BadNotice"),
    "a stop in a notice without a fault": edit("adopted .*", "stopped"),
    "a Forward of another epoch taken": take_frame,
    "an Ack of another epoch taken": take_ack,
    "a frame of another epoch answered": edit("dropped OtherEpoch", "dropped OtherNumber"),
    "a frame dropped as of no predecessor": edit("dropped OtherEpoch", "dropped NotPredecessor"),
    "a frame dropped as of no successor": edit("dropped OtherEpoch", "dropped NotSuccessor"),
    "a frame dropped as of a removed node": edit("dropped OtherEpoch", "dropped Removed"),
    "a frame dropped as of another epoch": edit("dropped OtherNumber", "dropped OtherEpoch"),
    "a removed node that knows no epoch": edit("dropped Removed", "dropped OtherEpoch"),
    "a frame at a removed node taken": drop_line("dropped Removed", "deliver"),
    "a tick of a removed node taken": drop_line("dropped Removed", "tick"),
    "a get at a removed node": edit("refused 7 Removed", "none at 0", "get"),
    "a page at a removed node": edit("refused 7 Removed", "rows 0 at 0", "rows"),
    "a snapshot at a removed node": edit("refused 7 Removed", "opened 0", "open"),
    "a snapshot of a removed node closed": edit("refused 7 Removed", "closed 0", "close"),
    "a snapshot of a removed node denied": edit("7 Removed", "5 NoSuchSnapshot", "close"),
    "a batch taken by a removed head": edit("refused 7 Removed", "committed 1", "submit"),
    "a removed node refuses as no head": edit("7 Removed", "2 NotHead", "submit"),
    "a node that is no head refuses as removed": edit("2 NotHead", "7 Removed", "submit"),
    "a get refused by a node of its epoch": edit(r"(none|value \S+) at .*", "refused 7 Removed"),
    "a removed head answers what it forgot": answer_forgotten,
    "a batch beside the history acknowledged": acknowledge_lost,
    "a value that is not of the history": read_lost,
    "an old read at the last tail": read_old,
    "a new tail that does not commit": keep_committed,
    "a new head that numbers anew": number_anew,
    "a frame to another node": send_elsewhere,
    "a frame of an earlier epoch": add("(?:forward|ack) ", -1),
    "a node starts at a later epoch": add("started epoch ", 1),
    "a node starts at an earlier epoch": add("started epoch ", -1),
    "a node shown at a later epoch": add(r": node \d+ epoch ", 1, "show"),
    "a node shown at an earlier epoch": add(r": node \d+ epoch ", -1, "show"),
}
