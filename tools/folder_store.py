"""What the files of a node's folder represent, in plain Python: the version of its slots, its logs and
tables, the batches and the values of each stored key, and what is not as docs/FORMATS.md says.

It is written from that page alone, and shares nothing with the store.
"""

import os
import re

from folder_formats import DEEPEST, FIRST, GREATEST, MOST_LINES, ROWS
from folder_formats import Damage, batch_of, changes_of, expect, format_of, records_of, slot_of
from folder_formats import slot_that_counts, table_of

NAME = re.compile(r"0|[1-9][0-9]*")
PLAIN = re.compile(rb"[A-Za-z0-9_.]")


class NotCreated(Exception):
    """No slot is open."""


class OldFormat(Exception):
    """The slot that counts is of the first format."""


def files_in(folder):
    """The files of a folder by their numbers, each with its bytes. Other names are ignored."""
    files = {}
    for name in os.listdir(os.fsencode(folder)):
        path = os.path.join(os.fsencode(folder), name)
        text = os.fsdecode(name)
        if NAME.fullmatch(text) and int(text) < 2**64 and os.path.isfile(path):
            with open(path, "rb") as file:
                files[int(text)] = file.read()
    return files


# ---- the version


def is_part(ids, old):
    """Whether these are the old ids, with some left out or none, in their order."""
    rest = iter(old)
    return all(it in rest for it in ids)


class Version:
    """Numbers, ids, logs and tables of a store, as its edits give them."""

    def __init__(self, kind, node):
        """The empty version, of this node, in a slot of this format."""
        self.kind, self.node, self.ids, self.logs, self.tables = kind, node, None, [], []
        self.next_file = self.floor = self.flushed = self.epoch = 0

    def change(self, edit, place):
        """The version after an edit, which it may take."""
        for name in ("next_file", "floor", "flushed", "epoch"):
            old, new = getattr(self, name), getattr(edit, name)
            expect(old <= new, f"edit {place}: {name} falls from {old} to {new}")
            setattr(self, name, new)
        ids_fit = self.ids is None or is_part(edit.ids, self.ids)
        expect(ids_fit, f"edit {place}: ids {edit.ids} behind {self.ids}")
        self.ids = edit.ids
        self.add(edit, place, self.give_up(edit, place))
        self.look(place)

    def give_up(self, edit, place):
        """Leaves out what the edit gives up. It answers the files that were named before."""
        named = {it.file for it in (*self.logs, *self.tables)}
        logs = [it.file for it in self.logs]
        tables = [(it.level, it.file) for it in self.tables]
        for gone, there in ((edit.logs_gone, logs), (edit.tables_gone, tables)):
            expect(all(it in there for it in gone), f"edit {place} gives up what is not there")
            expect(len(set(gone)) == len(gone), f"edit {place} gives something up twice")
        self.logs = [it for it in self.logs if it.file not in edit.logs_gone]
        self.tables = [it for it in self.tables if (it.level, it.file) not in edit.tables_gone]
        return named

    def add(self, edit, place, named):
        """Adds the edit's lines, of files that were not named."""
        for line in (*edit.logs_added, *edit.tables_added):
            is_new = 3 <= line.file < edit.next_file and line.file not in named
            expect(is_new, f"edit {place} adds file {line.file}")
        self.logs = sorted(self.logs + edit.logs_added, key=lambda it: it.first)
        self.tables = sorted(
            self.tables + edit.tables_added,
            key=lambda it: (it.level, it.least if it.level else b"", it.file),
        )

    def look(self, place):
        """What holds after each edit."""
        expect(self.logs, f"edit {place} leaves no log")
        few = len(self.logs) <= MOST_LINES and len(self.tables) <= MOST_LINES
        expect(few, f"edit {place} leaves too many logs or tables")
        files = [it.file for it in (*self.logs, *self.tables)]
        expect(len(set(files)) == len(files), f"edit {place} leaves a file twice")
        for a, b in zip(self.tables, self.tables[1:]):
            apart = a.level != b.level or a.level == 0 or a.greatest < b.least
            expect(apart, f"edit {place}: tables {a.file} and {b.file} overlap")


def version_in(files, is_old_read):
    """The version that the slots of these files represent. One of the first format raises `OldFormat`
    where it is not to be read."""
    slot = slot_that_counts(files.get(1), files.get(2))
    if slot is None:
        raise NotCreated
    if format_of(files[slot]) == FIRST and not is_old_read:
        raise OldFormat
    kind, node, edits = slot_of(files[slot])
    version = Version(kind, node)
    for place, edit in enumerate(edits):
        version.change(edit, place + 1)
    return version


# ---- logs and tables


def named_file(files, number):
    """The bytes of a file that the version names."""
    expect(number in files, "it is named, and absent")
    return files[number]


def batches_of(content, line, following):
    """The batches of a log, each with its number. The log behind it begins with the one given."""
    records = records_of(content)
    last = line.first + len(records)
    expect(following in (None, last), f"the log ends before batch {last}, the next begins at {following}")
    expect(last - 1 <= GREATEST, "the log has too many batches")
    return {line.first + i: batch_of(it, line.first + i) for i, it in enumerate(records)}


def entries_as_named(content, line, flushed):
    """The entries of a table, which its line names."""
    expect(len(content) == line.length, f"it has {len(content)} bytes, its line says {line.length}")
    entries = table_of(content)
    expect(entries[0].key == line.least, "its least key is another than its line says")
    expect(entries[-1].key == line.greatest, "its greatest key is another than its line says")
    newest = max(it.number for it in entries)
    expect(newest <= flushed, f"it has batch {newest}, only {flushed} are flushed")
    return entries


class Store:
    """What the files of a node represent, and the faults that were met, each with its file."""

    def __init__(self, files, is_old_read=False):
        """Reads these files, those of the first format only where they are to be read."""
        self.faults, self.batches, self.versions = [], {}, {}
        try:
            self.version = version_in(files, is_old_read)
        except Damage as damage:
            self.faults.append(f"the slots: {damage}")
            return
        self.unnamed = sorted(set(files) - {1, 2} - {it.file for it in self.lines()})
        firsts = [it.first for it in self.version.logs[1:]] + [None]
        for line, following in zip(self.version.logs, firsts):
            self.read(files, line, lambda it: self.batches.update(batches_of(it, line, following)))
        for line in self.version.tables:
            self.read(files, line, lambda it: self.add_entries(it, line))
        if not self.faults:
            self.check()

    def lines(self):
        """The logs and tables of the version."""
        return [*self.version.logs, *self.version.tables]

    def read(self, files, line, reader):
        """Reads one file that is named, or notes what is wrong with it."""
        try:
            reader(named_file(files, line.file))
        except Damage as damage:
            self.faults.append(f"file {line.file}: {damage}")

    def add_entries(self, content, line):
        """Adds the entries of a table to the versions of their keys."""
        for entry in entries_as_named(content, line, self.version.flushed):
            versions = self.versions.setdefault(entry.key, [])
            versions.append((entry.number, line.level, entry.value))

    def check(self):
        """Looks at all files together, and adds the batches that no table has."""
        try:
            self.check_numbers()
            self.check_levels()
            for number in range(self.version.flushed + 1, self.count + 1):
                for key, value in changes_of(self.batches[number]).items():
                    self.versions.setdefault(key, []).append((number, -1, value))
            self.check_batches()
        except Damage as damage:
            self.faults.append(f"the files together: {damage}")

    def check_numbers(self):
        """Counts the batches, and looks at the order of the numbers."""
        version = self.version
        first, current = version.logs[0].first, version.logs[-1].first - 1
        self.kept, self.count = first - 1, max(self.batches, default=current)
        expect(self.kept <= version.floor <= self.count, f"the floor is {version.floor}")
        expect(current <= version.flushed <= self.count, f"{version.flushed} batches are flushed")

    def check_levels(self):
        """Of one key no two entries have one number, and a lesser level has the newer ones."""
        for key, versions in self.versions.items():
            versions.sort(key=lambda it: it[0])
            for (low, deeper, _), (high, level, _) in zip(versions, versions[1:]):
                expect(low < high, f"key {spelled(key)} has batch {low} twice")
                expect(level <= deeper, f"key {spelled(key)} has batch {high} below batch {low}")

    def shown_at(self, key, number):
        """The value that a stored key shows at a number, and the number of its entry, or None."""
        entries = [it for it in self.versions.get(key, []) if it[0] <= number]
        return (entries[-1][2], entries[-1][0]) if entries and entries[-1][2] is not None else None

    def value_at(self, key, number):
        """The value that a key shows at a number."""
        return (self.shown_at(ROWS + key, number) or (None,))[0]

    def keys(self):
        """The keys of rows, in order."""
        return sorted(it[1:] for it in self.versions if it[:1] == ROWS)

    def rows_at(self, number):
        """The rows at a number, in the order of their keys."""
        values = {key: self.value_at(key, number) for key in self.keys()}
        return [(key, value) for key, value in values.items() if value is not None]

    def check_batches(self):
        """From the floor on, what is shown at each number, and of which batch, is what the batches
        leave."""
        floor, changes = self.version.floor, {}
        for number in range(self.kept + 1, self.count + 1):
            for key, value in changes_of(self.batches[number]).items():
                changes.setdefault(key, {})[number] = value
        for key in set(self.versions) | set(changes):
            own = changes.get(key, {})
            shown = self.shown_at(key, floor)
            left = shown if shown and shown[1] <= self.kept else None
            numbers = {floor, *own, *(it[0] for it in self.versions.get(key, []))}
            for number in sorted(it for it in numbers if it >= floor):
                last = max((it for it in own if it <= number), default=None)
                if last is not None:
                    left = None if own[last] is None else (own[last], last)
                same = self.shown_at(key, number) == left
                expect(same, f"key {spelled(key)} shows another entry at {number} than its batches leave")

    def text(self):
        """What is printed of a store without faults."""
        version = self.version
        tables = [sum(it.level == level for it in version.tables) for level in range(DEEPEST + 1)]
        lines = [
            f"node {version.node} epoch {version.epoch} count {self.count} floor {version.floor}"
            f" kept {self.kept} tables {' '.join(map(str, tables))}"
        ]
        rows = self.rows_at(self.count)
        lines += [f"row {spelled(key)}={spelled(value)}" for key, value in rows]
        return "\n".join([*lines, f"rows {len(rows)} at {self.count}", ""])


def spelled(text):
    """Bytes as a script spells them."""
    parts = [bytes([it]) for it in text]
    return "".join(it.decode() if PLAIN.match(it) else f"%{it[0]:02x}" for it in parts) or "@"
