"""A node's folder made by hand, byte for byte as docs/FORMATS.md says, and what damage of it tells.

Each file is made of named fields. Every bit of every byte is changed in turn, and each byte is set to
0, 1 and 255; each file is cut at each length, and left out. Where a change is not found, its field has
to be one of those that SILENT names, and each of those has to have such a change.
"""

import hashlib

# Fields of which some change is not found, and why the formats can't tell it.
SILENT = {
    # Any byte but 01 is a closed gate, and what is behind it means nothing.
    "gate of the newest log's record",
    "closed gate",
    "closed slot",
    # Without the last edits the files are those of an older version, which are there too.
    "gate of edit 5",
    "gate of edit 6",
    # Any generation will do where one slot is open, and any id but 0.
    "generation",
    "node",
    # Numbers that may be other ones: no file, batch or later edit contradicts each change.
    "next file of edit 1",
    "next file of edit 3",
    "next file of edit 5",
    "next file of edit 6",
    "floor of edit 2",
    "floor of edit 3",
    "floor of edit 6",
    "flushed of edit 1",
    "flushed of edit 2",
    "flushed of edit 5",
    "epoch of edit 4",
    "epoch of edit 5",
    "epoch of edit 6",
    # A log or a table that a later edit gives up: nothing else tells of it.
    "first batch of log 3",
    "length of table 4",
    "keys of table 4",
    # A deeper level.
    "level of table 6",
    "level of table 7",
    # Mark, key and value of a batch that is in no table.
    "client of batch 4",
    "request of batch 4",
    "key of batch 4",
    "value of batch 4",
}


def number(value, size):
    """A number in so many bytes."""
    return value.to_bytes(size, "big")


def text(content):
    """Bytes behind their length."""
    return number(len(content), 2) + content


def row(key):
    """A row's key as a stored key, which is a space and bytes."""
    return 0, key


def client(number_of_client):
    """A client as a stored key."""
    return 1, number(number_of_client, 8)


def stored(key):
    """The spelling of a stored key."""
    return number(key[0], 1) + text(key[1])


def sealed(content):
    """A part of a table."""
    return content + hashlib.sha256(content).digest()[:8]


def plain(fields):
    """The bytes of named fields."""
    return b"".join(it for _, it in fields)


# ---- the parts of a folder, as lists of named fields


def record(name, fields):
    """A record of a log, behind its open gate."""
    length = number(len(plain(fields)), 4)
    return [(f"gate of {name}", b"\x01"), (f"length of {name}", length), *fields]


def batch(place, key, value, mark=None):
    """The record of a batch that puts a value to a key, and of its mark of a client and a request."""
    fields = [(f"number of batch {place}", number(place, 8))]
    if mark:
        fields.append((f"front of batch {place}", number(0, 2)))
        fields.append((f"client of batch {place}", number(mark[0], 8)))
        fields.append((f"request of batch {place}", number(mark[1], 8)))
    return fields + [
        (f"head of batch {place}", number(1, 2) + b"\x01" + number(len(key), 2)),
        (f"key of batch {place}", key),
        (f"length of batch {place}'s value", number(len(value), 2)),
        (f"value of batch {place}", value),
    ]


def edit(place, numbers, ids, logs=((), ()), tables=((), ())):
    """An edit with next file, floor, flushed number and epoch, ids, and what is given up and added."""
    names = ("next file", "floor", "flushed", "epoch")
    sizes = (8, 8, 8, 4)
    fields = [(f"{it} of edit {place}", number(n, s)) for it, n, s in zip(names, numbers, sizes)]
    fields.append((f"number of ids of edit {place}", number(len(ids), 1)))
    fields.append((f"ids of edit {place}", b"".join(number(it, 2) for it in ids)))
    fields.append((f"logs that edit {place} gives up", number(len(logs[0]), 2)))
    fields += [(f"log {it} that is given up", number(it, 8)) for it in logs[0]]
    fields.append((f"logs that edit {place} adds", number(len(logs[1]), 2)))
    for file, first in logs[1]:
        fields.append((f"file of log {file}", number(file, 8)))
        fields.append((f"first batch of log {file}", number(first, 8)))
    fields.append((f"tables that edit {place} gives up", number(len(tables[0]), 2)))
    fields += [(f"table {f} that is given up", number(l, 1) + number(f, 8)) for l, f in tables[0]]
    fields.append((f"tables that edit {place} adds", number(len(tables[1]), 2)))
    for level, file, length, least, greatest in tables[1]:
        fields.append((f"level of table {file}", number(level, 1)))
        fields.append((f"file of table {file}", number(file, 8)))
        fields.append((f"length of table {file}", number(length, 8)))
        fields.append((f"keys of table {file}", stored(least) + stored(greatest)))
    return record(f"edit {place}", fields)


def block(entries):
    """A block of entries: stored key, number and value, or None."""
    parts = [number(len(entries), 4)]
    for key, place, value in entries:
        parts += [stored(key), number(place, 8), b"\x02" if value is None else b"\x01" + text(value)]
    return sealed(b"".join(parts))


def table(blocks, bits):
    """A table of blocks, with a filter of these bytes."""
    data, lines = b"", b""
    for entries in blocks:
        part = block(entries)
        lines += number(len(data), 8) + number(len(part), 4)
        lines += stored(entries[-1][0]) + number(entries[-1][1], 8)
        data += part
    middle, index = sealed(number(len(bits), 4) + bits), sealed(number(len(blocks), 4) + lines)
    footer = number(len(data) + len(middle), 8) + number(len(index), 4)
    footer += number(len(data), 8) + number(len(middle), 4)
    footer += number(sum(map(len, blocks)), 8) + number(2, 4) + b"CRLSMT01"
    return data + middle + index + sealed(footer)


def bits_of(keys):
    """The filter of fewer than seven stored keys."""
    bits = [0] * 8
    for space, content in keys:
        digest = hashlib.sha256(number(space, 1) + content).digest()
        first, second = digest[:8], digest[8:16]
        for probe in range(7):
            bit = (int.from_bytes(first, "big") + probe * int.from_bytes(second, "big")) % 64
            bits[bit // 8] |= 1 << bit % 8
    return bytes(bits)


def head(generation, node):
    """The head of an open slot."""
    fields = [("gate of the slot", b"\x01"), ("generation", number(generation, 8))]
    return [*fields, ("zero of the slot", number(0, 2)), ("node", number(node, 2))]


# The second batch bears the mark of request 1 of client 7, the fourth that of request 5 of client 9.
A, B, C, SEVEN = row(b"a"), row(b"b"), row(b"c"), client(7)


def edits(sizes, flushed):
    """The edits of the slot, with the sizes of the tables and the entries of the one that is flushed."""
    fields = edit(1, (4, 0, 0, 0), (1, 2), logs=((), ((3, 1),)))
    fields += edit(2, (6, 0, 2, 0), (1, 2), ((), ((5, 3),)), ((), ((0, 4, 240, A, SEVEN),)))
    fields += edit(3, (6, 2, 2, 0), (1, 2), logs=((3,), ()))
    merge = (((0, 4),), ((1, 6, sizes[6], A, C), (1, 7, sizes[7], SEVEN, SEVEN)))
    fields += edit(4, (8, 2, 2, 0), (1, 2), tables=merge)
    fields += edit(5, (8, 2, 2, 1), (1,))
    flush = ((), ((0, 8, sizes[8], B, flushed[-1][0]),))
    return fields + edit(6, (10, 2, 3, 1), (1,), ((), ((9, 4),)), flush)


def folder(more=()):
    """Node 1 of the configurations `1 2` and `1`: two flushes and a merge between them, whose marks have
    a table of their own, and the fourth batch in the newest log. The last flush has more entries."""
    flushed, closed = [(B, 3, b"%"), *more], [("closed gate", b"\x00")]
    made = {
        6: table([[(A, 2, None)], [(B, 1, b"1"), (C, 2, b"")]], bits_of([A, B, C])),
        7: table([[(SEVEN, 2, number(1, 8))]], bits_of([SEVEN])),
        8: table([flushed], bits_of([key for key, _, _ in flushed])),
    }
    sizes = {file: len(it) for file, it in made.items()}
    newest = batch(4, b"-", b"new", mark=(9, 5))
    return {
        1: head(5, 1) + edits(sizes, flushed) + closed,
        2: [("closed slot", b"\x00")],
        5: record("batch 3", batch(3, b"b", b"%")) + closed,
        **{file: [("a table", it)] for file, it in made.items()},
        9: record("the newest log's record", newest) + closed,
    }


TEXT = """\
node 1 epoch 1 count 4 floor 2 kept 2 tables 1 2 0 0 0 0 0
row %2d=new
row b=%25
row c=@
rows 3 at 4
"""

# Examples of docs/FORMATS.md: the slot of node 1 alone after its creation, a log after batch 1, a batch
# with a mark, and the smallest table.
EXAMPLES = (
    (
        "01 0000000000000001 0000 0001 01 00000037 0000000000000004 0000000000000000 0000000000000000"
        "00000000 01 0001 0000 0001 0000000000000003 0000000000000001 0000 0000 00",
        head(1, 1) + edit(1, (4, 0, 0, 0), (1,), logs=((), ((3, 1),))) + [("", b"\x00")],
    ),
    (
        "01 00000011 0000000000000001 0001 01 0001 61 0001 31 00",
        record("", batch(1, b"a", b"1")) + [("", b"\x00")],
    ),
    (
        "0000 0000000000000007 0000000000000001 0001 01 0001 61 0001 31",
        batch(1, b"a", b"1", mark=(7, 1))[1:],
    ),
    (
        "00000001 00 0001 61 0000000000000001 01 0001 31 a4f294274afb7e18"
        "00000008 4200002100841000 04c77bab90533f6b"
        "00000001 0000000000000000 0000001c 00 0001 61 0000000000000001 7d322378c29ef567"
        "0000000000000030 00000024 000000000000001c 00000014 0000000000000001"
        "00000002 43524c534d543031 543fc877deb90c24",
        [("", table([[(A, 1, b"1")]], bits_of([A])))],
    ),
)


# ---- damage


class Trial:
    """The reader that is tried, and what it found."""

    def __init__(self, store, refusals):
        """A reader of files by their numbers, and what it raises where no slot of its format counts."""
        self.store, self.refusals, self.tried, self.passed = store, refusals, 0, []

    def finds(self, files):
        """Whether the reader finds damage in these files, or no store. Else it can print them."""
        self.tried += 1
        try:
            store = self.store(files)
        except self.refusals:
            return True
        return bool(store.faults) or not store.text()

    def change(self, files, file, content, name):
        """Tries these files with another content of one, and notes the name if no damage is found."""
        if not self.finds({**files, file: content}):
            self.passed.append(name)


def field_at(fields, place):
    """The name of the field that the byte in this place belongs to."""
    for name, content in fields:
        if place < len(content):
            return name
        place -= len(content)
    raise IndexError(place)


def damage_all(trial, fields, files):
    """Changes each byte, and cuts and leaves out each file."""
    for file, content in files.items():
        for place, byte in enumerate(content):
            others = {byte ^ 1 << bit for bit in range(8)} | {0, 1, 255}
            for other in sorted(others - {byte}):
                changed = content[:place] + bytes([other]) + content[place + 1 :]
                trial.change(files, file, changed, field_at(fields[file], place))
        for length in range(len(content)):
            trial.change(files, file, content[:length], f"file {file} cut at {length}")
        rest = {it: files[it] for it in files if it != file}
        if not trial.finds(rest):
            trial.passed.append(f"file {file} left out")


def slots_are_told(trial, files):
    """Which of two slots counts, and what is wrong with two."""
    slot = files[1]

    def other(generation, behind=slot[13:], ids=number(1, 4)):
        return b"\x01" + number(generation, 8) + ids + behind

    old = number(1, 2)
    rows = [
        (other(4), False),
        (other(4, b"anything"), False),
        (other(4, b""), False),
        (other(4, slot[13:], old), False),
        (other(4, b"", old), False),
        (other(4, b"", b"\x00\x00\x00"), True),
        (other(4, b"", b"\x00\x00"), True),
        (other(4, b"", b"\x01"), True),
        (other(5), True),
        (other(6), False),
        (other(6, b""), True),
        (other(6, slot[13:-1]), True),
        (other(6, b"\x00"), True),
        (other(6, slot[13:], old), True),
        (other(2**63), True),
        (b"\x01", True),
        (b"", True),
        (b"\x00anything", False),
    ]
    for place, (content, is_damage) in enumerate(rows):
        if trial.finds({**files, 2: content}) != is_damage:
            trial.passed.append(f"row {place} of two slots")


def old_is_told(store, old_format, files):
    """Whether the reader tells the old format just where the slot that counts is of it, and no head is
    damaged."""
    slot = files[1]
    old, lesser = slot[:9] + number(1, 2) + slot[13:], slot[:8] + b"\x04" + slot[9:]
    rows = [
        ({1: old}, True),
        ({1: old[:11]}, True),
        ({1: old, 2: lesser}, True),
        ({1: old, 2: lesser[:12]}, False),
        ({1: old[:10]}, False),
        ({1: b"\x01" + number(2**63, 8) + old[9:]}, False),
        ({1: slot[:9] + number(0, 2) + slot[13:]}, False),
        ({2: old[:8] + b"\x04" + old[9:]}, False),
    ]
    return all(is_old(store, old_format, {**files, **it}) == want for it, want in rows)


def is_old(store, old_format, files):
    """Whether the reader says that these files are of the old format."""
    try:
        store(files)
    except old_format:
        return True
    return False


def self_test(store, not_created, old_format):
    """Makes the folder, reads it, damages it, and answers a status."""
    for spelled, fields in EXAMPLES:
        if plain(fields) != bytes.fromhex(spelled):
            print(f"another example than docs/FORMATS.md has: {plain(fields).hex()}")
            return 1
    fields = folder()
    files = {file: plain(it) for file, it in fields.items()}
    found = store(files)
    if found.faults or found.text() != TEXT:
        print("the folder is read as another:", *found.faults, sep="\n")
        return 1
    if not old_is_told(store, old_format, files):
        print("a slot of the old format is not told as one")
        return 1
    # An entry of a batch that does not have it, though it shows what an older one shows.
    more = {file: plain(it) for file, it in folder([(SEVEN, 3, number(1, 8))]).items()}
    if not store(more).faults:
        print("an entry that its batch does not have is not found")
        return 1
    trial = Trial(store, (not_created, old_format))
    slots_are_told(trial, files)
    damage_all(trial, fields, files)
    passed = set(trial.passed)
    for name in sorted(passed - SILENT):
        print(f"not found: {name}")
    for name in sorted(SILENT - passed):
        print(f"always found: {name}")
    size = sum(map(len, files.values()))
    print(f"{size} bytes, {trial.tried} damages, {len(trial.passed)} of which no format tells")
    return int(passed != SILENT)
