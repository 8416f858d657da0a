"""The corruptions of outputs by which `random_runs` tries its checker.

A corruption is lent the checked run, the lines of its output, which it may change, and choices. It
leaves lines as they are where it can't be made, or where what it made could be so.
"""

import re

from known_store import DEEPEST
from lab_texts import ANSWERED, SUBMITS
from plain_maps import value_at


def edit(form, new, verb=""):
    """A corruption of one line of a statement of this verb: what has the form becomes the new."""

    def corrupt(history, lines, choice):
        places = places_of(history, lines, form, verb)
        if places:
            at = choice.choice(places)
            lines[at] = re.sub(form, new, lines[at], count=1)

    return corrupt


def places_of(history, lines, form, verb=""):
    """Where lines of this form stand, of statements of this verb, or of any."""
    verbs = {f"{line}": words[0] for line, words in history.words.items()}
    kept = [at for at, line in enumerate(lines) if re.search(form, line)]
    return [at for at in kept if verb in ("", verbs[lines[at].partition(":")[0]])]


def add(form, more, verb=""):
    """A corruption of the number at the end of this form."""
    return edit(form + r"(\d+)", lambda it: it[0][: -len(it[1])] + str(int(it[1]) + more), verb)


def move_read(by):
    """A read is said to be at another number, at which the key has another value, or none."""

    def corrupt(history, lines, choice):
        places = []
        for it in history.reads:
            at, there = it.at + by, history.map_of(it.node, it.at + by)
            if at >= 0 and (at > it.node.count or value_at(there, it.key) != it.value):
                places.append((it.line, at))
        if places:
            line, at = choice.choice(places)
            change(lines, line, r"at \d+$", f"at {at}")

    return corrupt


def change(lines, number, form, new):
    """In the first line of a statement what has the form becomes the new."""
    at = next(i for i, it in enumerate(lines) if it.startswith(f"{number}: "))
    lines[at] = re.sub(form, new, lines[at])


def exchange(history, lines, choice):
    """Two acknowledgements are exchanged."""
    places = places_of(history, lines, ": committed")
    if len(places) > 1:
        one, other = choice.sample(places, 2)
        first, second = lines[one].split(": "), lines[other].split(": ")
        lines[one], lines[other] = f"{first[0]}: {second[1]}", f"{second[0]}: {first[1]}"


def turn(history, lines, choice):
    """Two lines of different statements, one after the other, are turned."""
    pairs = [at for at in places_of(history, lines, "") if ": committed" not in lines[at]]
    numbers = [int(line.partition(":")[0]) for line in lines]
    pairs = [at for at in pairs if at + 1 in pairs and numbers[at] < numbers[at + 1]]
    if pairs:
        at = choice.choice(pairs)
        lines[at : at + 2] = lines[at + 1], lines[at]


def leave_out(history, lines, choice):
    """The answer to a statement is missing."""
    verb = choice.choice([*ANSWERED, "once"])
    places = places_of(history, lines, ": (?!committed)", verb)
    if places:
        lines.pop(choice.choice(places))


def turn_rows(history, lines, choice):
    """Two rows of a page are turned."""
    places = places_of(history, lines, ": row ")
    pairs = [at for at in places if at + 1 in places]
    pairs = [at for at in pairs if lines[at].split(": ")[0] == lines[at + 1].split(": ")[0]]
    if pairs:
        at = choice.choice(pairs)
        lines[at : at + 2] = lines[at + 1], lines[at]


def leave_out_row(history, lines, choice):
    """A row of a page is missing, and the page counts one less."""
    places = places_of(history, lines, ": row ")
    if places:
        at = choice.choice(places)
        number = lines.pop(at).partition(": ")[0]
        last = next(i for i, it in enumerate(lines) if it.startswith(number + ": rows "))
        lines[last] = re.sub(r"rows (\d+)", lambda it: f"rows {int(it[1]) - 1}", lines[last])


def twice(history, lines, choice):
    """An acknowledgement is printed again at the end."""
    lines += [line for line in lines if ": committed" in line][:1]


def early(history, lines, choice):
    """An acknowledgement comes right behind the frame that its submit sent."""
    sent = {lines[at].partition(":")[0] for at in places_of(history, lines, ": #", "submit")}
    places = places_of(history, lines, ": committed")
    places = [at for at in places if lines[at].partition(":")[0] in sent]
    if places:
        line = lines.pop(choice.choice(places))
        number = line.partition(": ")[0]
        at = next(i for i, it in enumerate(lines) if it.startswith(number + ": #"))
        lines.insert(at + 1, line)


def foreign(history, lines, choice):
    """An acknowledgement of the submit of another line."""
    places = places_of(history, lines, ": committed")
    others = [at for at, words in history.words.items() if words[0] in SUBMITS]
    if places and len(others) > 1:
        at = choice.choice(places)
        others.remove(int(lines[at].partition(": ")[0]))
        lines[at] = f"{choice.choice(others)}: {lines[at].partition(': ')[2]}"


def forget(history, lines, choice):
    """A node starts with a batch less than it must have."""
    starts = [(line, count) for line, _, _, count in history.starts if count]
    if starts:
        line, count = choice.choice(starts)
        change(lines, line, r"count \d+", f"count {count - 1}")


def leave_flush(history, lines, choice):
    """A tend says that nothing is due, and a flush is."""
    places = [it for it in history.flushes if f"{it}: tended" in lines]
    if places:
        change(lines, choice.choice(places), "tended", "idle")


def refuse_firm(verb):
    """A read that is at the floor or above it is refused as too old."""

    def corrupt(history, lines, choice):
        firm = {f"{line}" for line in history.firm if history.words[line][0] == verb}
        places = [at for at, it in enumerate(lines) if it.partition(":")[0] in firm]
        if places:
            at = choice.choice(places)
            lines[at] = lines[at].partition(":")[0] + ": refused 3 TooOld"

    return corrupt


def answer_old(history, lines, choice):
    """A read below the floor is answered, with the value at its number."""
    if history.too_old:
        line, key, at, node = choice.choice(history.too_old)
        value = value_at(history.map_of(node, at), key)
        kind = "none" if value is None else f"value {value}"
        lines[lines.index(f"{line}: refused 3 TooOld")] = f"{line}: {kind} at {at}"


def send_old(history, lines, choice):
    """A batch is sent again that its sender keeps in no log."""
    kept = [it for it in history.again if it[2]]
    if kept:
        line, place, number = choice.choice(kept)
        at = next(i for i, it in enumerate(lines) if it.startswith(f"{line}: #{place} "))
        lines[at] = re.sub(r"\d+$", f"{number}", lines[at])


def start_at(by):
    """A node that is no tail starts with another floor than it can have."""

    def corrupt(history, lines, choice):
        floors = [it for it in history.floors if not it[2].least <= it[1] + by <= it[2].most]
        floors = [it for it in floors if it[1] + by >= 0]
        if floors:
            line, floor, _ = choice.choice(floors)
            change(lines, line, r"\d+$", f"{floor + by}")

    return corrupt


def show_other(changes):
    """A node is shown with other numbers or tables: those that this gives, if it gives any."""

    def corrupt(history, lines, choice):
        shown = [(it, new) for it in history.shows if (new := changes(it))]
        if shown:
            it, new = choice.choice(shown)
            numbers = dict(zip(("count", "committed", "floor", "kept"), it.numbers))
            tables = new.pop("tables", it.tables)
            words = [f"{name} {number}" for name, number in (numbers | new).items()]
            words = f"epoch {it.epoch} {' '.join(words)} tables {' '.join(map(str, tables))}"
            change(lines, it.line, "epoch .*", words)

    return corrupt


def fallen_floor(it):
    """A floor lower than it was, and no lower than what is kept."""
    kept, least = it.before.kept, it.before.least
    return kept < least and {"floor": least - 1, "kept": kept}


def high_floor(it):
    """A floor higher than a merge can have begun with, and no higher than what is committed."""
    return it.before.most < it.numbers[1] and {"floor": it.before.most + 1}


def uncommitted_floor(it):
    """A floor above what is committed."""
    return {"floor": it.numbers[1] + 1}


def floor_above_snapshot(it):
    """A floor above an open snapshot."""
    is_below = it.snapshot is not None and it.snapshot < it.numbers[1]
    return is_below and {"floor": it.snapshot + 1}


def kept_above_floor(it):
    """More batches are in no log than the floor allows."""
    return {"kept": it.numbers[2] + 1}


def fallen_kept(it):
    """Batches are in a log again."""
    return it.before.kept and {"kept": it.before.kept - 1}


def risen_kept(it):
    """Fewer batches are in logs, and no tend did it."""
    is_steady = it.before.worked == 0 and it.numbers[3] < it.numbers[2]
    return is_steady and {"kept": it.numbers[3] + 1}


def more_of(level, tables, more):
    """Tables, and so many more of this level."""
    return [count + more * (at == level) for at, count in enumerate(tables)]


def changed_tables(it):
    """A table less, and no tend did it."""
    levels = [at for at, count in enumerate(it.tables) if count and it.before.worked == 0]
    return levels and {"tables": more_of(levels[-1], it.tables, -1)}


def more_flushes(it):
    """More tables are flushed than tends worked."""
    worked = it.before.worked
    if worked is None:
        return None
    return {"tables": [it.before.tables[0] + worked + 1, *it.tables[1:]]}


def more_tables(it):
    """More tables than entries."""
    more = it.most.entries + 1 - sum(it.tables)
    return {"tables": more_of(0, it.tables, more)}


def more_of_level(it):
    """More tables of a level than keys."""
    return {"tables": more_of(DEEPEST, it.tables, it.most.keys + 1)}


def over_limit(level):
    """A level has more tables than its limit, where a node is idle."""

    def changes(it):
        more = it.before.most_tables(level) + 1 - it.tables[level]
        return it.before.is_idle and {"tables": more_of(level, it.tables, more)}

    return changes


CORRUPTIONS = {
    "a value that no batch has": edit(r"value \S+ at", "value never at"),
    "a value hidden": edit(r"value \S+ at", "none at"),
    "a value made up": edit("none at", "value 1 at"),
    "a read a number later": move_read(1),
    "a read a number earlier": move_read(-1),
    "a read at a node that is down": edit("refused 1 NotRunning", "none at 0", "get"),
    "a refusal of a node that runs": edit("none at .*", "refused 1 NotRunning"),
    "a row of another value": edit("(: row [^=]+=).*", r"\1never"),
    "a row of another key": edit(": row [^=]+=", ": row never="),
    "a row left out": leave_out_row,
    "two rows turned": turn_rows,
    "a page of another count": edit(r"rows (\d+)", lambda it: f"rows {int(it[1]) + 1}"),
    "rows that are left hidden": edit(" more$", ""),
    "rows that are left made up": edit(r"(rows \d+ at \d+)$", r"\1 more"),
    "a page at a node that is down": edit("refused 1 NotRunning", "rows 0 at 0", "rows"),
    "a limit that there can't be": edit("invalid 8 BadLimit", "rows 0 at 0"),
    "a snapshot at a number too high": add("opened ", 100),
    "a snapshot refused": edit("opened .*", "refused 6 TooManySnapshots"),
    "another snapshot closed": add("closed ", 1),
    "a snapshot that is open denied": edit("closed .*", "refused 5 NoSuchSnapshot"),
    "two acknowledgements exchanged": exchange,
    "an acknowledgement twice": twice,
    "an acknowledgement too early": early,
    "an acknowledgement of another submit": foreign,
    "an acknowledged number too high": add(": committed ", 1),
    "an acknowledged number too low": add(": committed ", -1),
    "a batch twice": add(r"forward \d+ ", -1, "submit"),
    "a number left out": add(r"forward \d+ ", 1, "submit"),
    "a refused batch sent on": edit("refused .*", "#1 1>2 forward 0 1", "submit"),
    "a batch sent on that its sender lacks": add(r"forward \d+ ", 100),
    "a node reports more than it has": add(r"ack \d+ \d+ ", 100),
    "a node reports more than is committed": add(r"ack \d+ ", 100),
    "a place left out": add("#", 1),
    "a frame of another sender": edit(r"(\d+)>(\d+)", r"\2>\1"),
    "a frame of another epoch": add("(?:forward|ack) ", 1),
    "a node starts with less than it must have": forget,
    "a node starts with more than it can have": add("count ", 100),
    "a node starts with more committed": add("started .* committed ", 100),
    "a node shown with more than it can have": add(r"epoch \d+ count ", 100, "show"),
    "a node shown with more committed": add("count .* committed ", 100, "show"),
    "a floor that falls": show_other(fallen_floor),
    "a floor that no merge can have": show_other(high_floor),
    "a floor above what is committed": show_other(uncommitted_floor),
    "a floor above an open snapshot": show_other(floor_above_snapshot),
    "a floor of a start that is too low": start_at(-1),
    "a floor of a start that is too high": start_at(1),
    "kept above the floor": show_other(kept_above_floor),
    "kept that falls": show_other(fallen_kept),
    "kept that rises without a tend": show_other(risen_kept),
    "tables that change without a tend": show_other(changed_tables),
    "more tables flushed than tends worked": show_other(more_flushes),
    "more tables than entries": show_other(more_tables),
    "more tables of a level than keys": show_other(more_of_level),
    "idle with level 0 over its limit": show_other(over_limit(0)),
    "idle with level 1 over its limit": show_other(over_limit(1)),
    "a get at the floor or above it refused": refuse_firm("get"),
    "a snapshot at the floor or above it refused": refuse_firm("open"),
    "a get below the floor answered": answer_old,
    "a batch sent again that is in no log": send_old,
    "a flush that is due left out": leave_flush,
    "a store that is full": edit("tended|idle", "full", "tend"),
    "a node shown as down": edit("epoch .* tables .*", "stopped", "show"),
    "a stop of another node": add("node ", 1, "stop"),
    "a stop of another cause": edit("stopped$", "stopped: disk"),
    "a failure of the disk hidden": edit("stopped: disk", "stopped"),
    "an answer left out": leave_out,
    "two lines turned": turn,
}
