"""The corruptions of outputs of runs whose batches bear marks, as those of `corruptions.py`."""

import re

from corruptions import change, edit, places_of
from plain_maps import value_at


def shift(lines, place, more):
    """Frames that are sent behind a place of the output have so many later places."""
    for at in range(place, len(lines)):
        lines[at] = re.sub(r": #(\d+)", lambda it: f": #{int(it[1]) + more}", lines[at])


def of_repeats(corrupt, waits=None):
    """A corruption of what is printed of a batch that was submitted again: of one that waits, of
    one that does not, or of any."""

    def corrupt_one(history, lines, choice):
        repeats = [it for it in history.repeats if waits in (None, it.waits)]
        if repeats:
            corrupt(choice.choice(repeats), lines)

    return corrupt_one


def append_again(it, lines):
    """It is appended again: it goes on, and later frames have later places."""
    number, to = it.node.count + 1, it.node.neighbour(1)
    text = f"committed {number}"
    if to is not None:
        shift(lines, it.place, 1)
        text = f"#{it.sent + 1} {it.node.name}>{to} forward {it.node.epoch} {number}"
    lines[it.place : it.place + (not it.waits)] = [f"{it.line}: {text}"]


def answer(text):
    """It is answered so, at once."""

    def corrupt(it, lines):
        lines[it.place : it.place + (not it.waits)] = [f"{it.line}: {text}"]

    return corrupt


def answer_early(it, lines):
    """It is acknowledged before its batch is committed."""
    text = f"{it.line}: committed {it.number}"
    if text in lines:
        lines.remove(text)
    lines.insert(it.place, text)


def answer_anew(it, lines):
    """It is acknowledged with the number that the next batch gets."""
    text = f"{it.line}: committed "
    if f"{text}{it.number}" in lines:
        lines[lines.index(f"{text}{it.number}")] = f"{text}{it.node.count + 1}"


def leave_unanswered(it, lines):
    """It waits, and is not acknowledged."""
    text = f"{it.line}: committed {it.number}"
    if text in lines:
        lines.remove(text)


def answer_forgotten(it, lines):
    """It waited when its node stopped or was left out, and is acknowledged."""
    text = f"{it.line}: committed {it.number}"
    if text not in lines:
        lines.append(text)


def turn_requests(history, lines, choice):
    """Of two requests that waited for one number the later one is acknowledged first."""
    places = places_of(history, lines, ": committed")
    ends = [line.partition(": ")[2] for line in lines]
    pairs = [at for at in places if at + 1 in places and ends[at] == ends[at + 1]]
    if pairs:
        at = choice.choice(pairs)
        lines[at : at + 2] = lines[at + 1], lines[at]


def read_other(history, lines, choice):
    """A read has the value of a batch that was submitted with the mark of one that is there."""
    marked = [line for line, batch in history.edits.items() if batch.mark]
    reads = []
    for it in history.reads:
        for at, line in enumerate(it.node.batches[: it.at]):
            for other in marked:
                if history.edits[other].mark == history.edits[line].mark:
                    batches = history.map_of(it.node, it.at)
                    batches[at] = history.edits[other]
                    reads.append((it, value_at(batches, it.key)))
    reads = [(it, value) for it, value in reads if value != it.value]
    if reads:
        it, value = choice.choice(reads)
        found = "none" if value is None else f"value {value}"
        change(lines, it.line, ": .*", lambda _: f": {found} at {it.at}")


def stop_unstruck(history, lines, choice):
    """A node stops as it asks for a mark, without a fault."""
    verbs = {it.line: it for it in history.statements if it.words[0] == "once" and not it.fault}
    places = places_of(history, lines, ": (refused [279]|committed)", "once")
    places = [at for at in places if int(lines[at].partition(":")[0]) in verbs]
    if places:
        at = choice.choice(places)
        line = int(lines[at].partition(":")[0])
        lines[at] = f"{line}: node {verbs[line].words[1]} stopped"


OLD = "refused 9 OldRequest"
REPEATS = {
    "a repeated batch appended again": of_repeats(append_again),
    "a repeated batch that waits appended again": of_repeats(append_again, True),
    "a repeated batch answered too early": of_repeats(answer_early, True),
    "a repeated batch answered with a new number": of_repeats(answer_anew),
    "a repeated batch refused as old": of_repeats(answer(OLD), False),
    "a repeated batch that waits refused as old": of_repeats(answer(OLD), True),
    "a repeated batch refused as at no head": of_repeats(answer("refused 2 NotHead")),
    "a repeated batch never answered": of_repeats(leave_unanswered, True),
    "a repeated batch answered that was forgotten": of_repeats(answer_forgotten, True),
    "two requests of one number turned": turn_requests,
    "an old request acknowledged": edit(OLD, "committed 1", "once"),
    "an old request refused as at no head": edit("9 OldRequest", "2 NotHead", "once"),
    "an old request refused as at a removed node": edit("9 OldRequest", "7 Removed", "once"),
    "a node that is no head refuses as old": edit("2 NotHead", "9 OldRequest", "once"),
    "a removed node refuses as old": edit("7 Removed", "9 OldRequest", "once"),
    "a node that is down refuses as old": edit("1 NotRunning", "9 OldRequest", "once"),
    "a newer request refused as old": edit("#.* forward .*", OLD, "once"),
    "a batch without a mark refused as old": edit("(#.* forward|committed) .*", OLD, "submit"),
    "a value of another batch with the mark": read_other,
    "a stop in a batch with a mark without a fault": stop_unstruck,
}
