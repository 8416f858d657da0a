"""The files of a node's folder in plain Python, written from docs/FORMATS.md and not from the code:
slots with their edits, logs with their batches, tables with filter and index.

What is not as the page says raises `Damage`, with the place where it was met. A stored key is the byte
of its space and the key behind it.
"""

import collections
import hashlib

GREATEST = 2**63 - 1
LONGEST_KEY, LONGEST_VALUE, LONGEST_BATCH, MOST_EDITS = 1_024, 16_384, 65_536, 256
MOST_IDS, LAST_EPOCH, DEEPEST, MOST_LINES = 16, 15, 6, 4_096
MOST_DATA, FOOTER, DIGEST, MAGIC = 2**33, 52, 8, b"CRLSMT01"
# The formats of tables and slots: in the first each key is a row's, and stands without its space.
FIRST, SECOND = 1, 2
# Where the log of a slot begins, by its format.
HEADS = {FIRST: 11, SECOND: 13}
ROWS, MARKS = b"\0", b"\1"

# A client's mark, and a batch: a mark or None, and edits as pairs of which a deletion has no value.
Mark = collections.namedtuple("Mark", "client request")
Batch = collections.namedtuple("Batch", "mark edits")
# An edit of the version, a line of a log, a line of a table, and an entry of a table, with stored keys:
# a deletion has no value.
Edit = collections.namedtuple(
    "Edit", "next_file floor flushed epoch ids logs_gone logs_added tables_gone tables_added"
)
LogLine = collections.namedtuple("LogLine", "file first")
TableLine = collections.namedtuple("TableLine", "level file length least greatest")
Entry = collections.namedtuple("Entry", "key number value")


class Damage(Exception):
    """Bytes that are not as the formats say."""


def expect(holds, text):
    """Bytes for which this does not hold are damaged."""
    if not holds:
        raise Damage(text)


class Fields:
    """Bytes that are read from the front on, up to their end."""

    def __init__(self, content, what):
        """These bytes, which are what."""
        self.content, self.what, self.place = content, what, 0

    def take(self, length):
        """The next bytes."""
        expect(self.place + length <= len(self.content), f"{self.what} ends inside a field")
        self.place += length
        return self.content[self.place - length : self.place]

    def number(self, size, name, least=0, most=None):
        """The next number, of so many bytes, which is in its range."""
        value = int.from_bytes(self.take(size), "big")
        most = 256**size - 1 if most is None else most
        expect(least <= value <= most, f"{name} of {self.what} is {value}")
        return value

    def text(self, most, name):
        """The next bytes behind their length."""
        return self.take(self.number(2, f"the length of {name}", most=most))

    def stored(self, name, kind=SECOND):
        """The next stored key, as a file of this format spells it."""
        if kind == FIRST:
            return ROWS + self.text(LONGEST_KEY, name)
        space = self.number(1, f"the space of {name}", most=1)
        return bytes([space]) + self.text(LONGEST_KEY, name)

    def end(self):
        """Nothing is left."""
        expect(self.place == len(self.content), f"bytes stand behind {self.what}")


# ---- logs


def records_of(content, start=0):
    """The records of the log that begins at this place."""
    records, place = [], start
    while content[place : place + 1] == b"\x01":
        expect(place + 5 <= len(content), f"the log ends in the length of the record at {place}")
        length = int.from_bytes(content[place + 1 : place + 5], "big")
        expect(place + 5 + length <= len(content), f"the log ends in the record at {place}")
        records.append(content[place + 5 : place + 5 + length])
        place += 5 + length
    expect(place < len(content), "the log has no closed gate")
    return records


def mark_of(fields):
    """The mark in front of the edits, or None."""
    if fields.content[fields.place : fields.place + 2] != b"\0\0":
        return None
    fields.take(2)
    client = fields.number(8, "the client of a mark", least=1, most=GREATEST)
    return Mark(client, fields.number(8, "the request of a mark", least=1, most=GREATEST))


def batch_of(content, number):
    """The batch that this record of a log holds."""
    fields = Fields(content, f"the record of batch {number}")
    told = fields.number(8, "the number", most=GREATEST)
    expect(told == number, f"batch {told} stands in the place of batch {number}")
    expect(len(content) - 8 <= LONGEST_BATCH, f"batch {number} is too long")
    mark, edits = mark_of(fields), []
    for _ in range(fields.number(2, "the number of edits", least=1, most=MOST_EDITS)):
        kind = fields.number(1, "the kind of an edit", least=1, most=2)
        key = fields.text(LONGEST_KEY, "a key")
        edits.append((key, fields.text(LONGEST_VALUE, "a value") if kind == 1 else None))
    fields.end()
    return Batch(mark, edits)


def changes_of(batch):
    """What a batch leaves at each stored key that it changes."""
    changes = {ROWS + key: value for key, value in batch.edits}
    if batch.mark:
        changes[MARKS + batch.mark.client.to_bytes(8, "big")] = batch.mark.request.to_bytes(8, "big")
    return changes


# ---- the manifest


def ids_of(fields):
    """The ids of a configuration."""
    count = fields.number(1, "the number of ids", least=1, most=MOST_IDS)
    ids = [fields.number(2, "an id", least=1) for _ in range(count)]
    expect(len(set(ids)) == count, f"{fields.what} has an id twice")
    return ids


def list_of(fields, name, item):
    """The items behind their number."""
    return [item() for _ in range(fields.number(2, name))]


def edit_of(content, place, kind):
    """The edit that this record of a slot of this format is, the one in this place of its edits."""
    fields = Fields(content, f"edit {place}")

    def file():
        return fields.number(8, "a file", most=GREATEST)

    def level():
        return fields.number(1, "a level", most=DEEPEST)

    def log_line():
        return LogLine(file(), fields.number(8, "the first number", least=1, most=GREATEST + 1))

    def table_line():
        line = TableLine(
            level(),
            file(),
            fields.number(8, "the length of a table", most=GREATEST),
            fields.stored("a least key", kind),
            fields.stored("a greatest key", kind),
        )
        expect(line.least <= line.greatest, f"the keys of a table of edit {place} are out of order")
        return line

    edit = Edit(
        fields.number(8, "the next file", most=GREATEST + 1),
        fields.number(8, "the floor", most=GREATEST),
        fields.number(8, "the flushed number", most=GREATEST),
        fields.number(4, "the epoch", most=LAST_EPOCH),
        ids_of(fields),
        list_of(fields, "the number of logs given up", file),
        list_of(fields, "the number of logs added", log_line),
        list_of(fields, "the number of tables given up", lambda: (level(), file())),
        list_of(fields, "the number of tables added", table_line),
    )
    fields.end()
    return edit


def format_of(content):
    """The format of an open slot: in the first the id stands where a 0 is in the second."""
    return SECOND if content[9:11] == b"\0\0" else FIRST


def generation_of(content):
    """The generation in the head of an open slot."""
    is_there = len(content) >= max(HEADS[FIRST], HEADS[format_of(content)])
    expect(is_there, "the open slot ends before its log")
    return int.from_bytes(content[1:9], "big")


def slot_that_counts(first, second):
    """Which of the slots counts, 1 or 2, by their bytes: none where a file is absent. No slot counts
    where none is open."""
    slots = {1: first or b"", 2: second or b""}
    generations = {it: generation_of(slots[it]) for it in slots if slots[it][:1] == b"\x01"}
    if not generations:
        return None
    expect(all(slots.values()), "one slot is open, and the other absent or empty")
    are_once = len(set(generations.values())) == len(generations)
    expect(are_once, "both slots are open with one generation")
    slot = max(generations, key=generations.get)
    expect(generations[slot] <= GREATEST, f"the generation is {generations[slot]}")
    return slot


def slot_of(content):
    """The format, the id and the edits of the slot that counts."""
    kind = format_of(content)
    head = HEADS[kind]
    node = int.from_bytes(content[head - 2 : head], "big")
    expect(node > 0, "the id of the node is 0")
    records = records_of(content, head)
    expect(records, "the slot has no edit")
    return kind, node, [edit_of(it, place + 1, kind) for place, it in enumerate(records)]


# ---- tables


def filter_of(keys):
    """The filter of these keys, which are different."""
    size = max(8, (10 * len(keys) + 7) // 8)
    bits = bytearray(size)
    for key in keys:
        digest = hashlib.sha256(key).digest()
        first, second = (int.from_bytes(digest[i : i + 8], "big") for i in (0, 8))
        for probe in range(7):
            bit = (first + probe * second) % (8 * size)
            bits[bit // 8] |= 1 << bit % 8
    return bytes(bits)


def part_of(content, place, length, what):
    """The fields of a part of a table: of what stands before its digest."""
    expect(length >= DIGEST and place + length <= len(content), f"{what} has no place in the file")
    part = content[place : place + length - DIGEST]
    digest = content[place + length - DIGEST : place + length]
    expect(hashlib.sha256(part).digest()[:DIGEST] == digest, f"the digest of {what} is another")
    return Fields(part, what)


def entries_of(fields, kind):
    """The entries of a block of a table of this format."""
    entries = []
    for _ in range(fields.number(4, "the number of entries", least=1)):
        key = fields.stored("a key", kind)
        number = fields.number(8, "the number of an entry", most=GREATEST)
        change = fields.number(1, "the kind of an entry", least=1, most=2)
        value = fields.text(LONGEST_VALUE, "a value") if change == 1 else None
        entries.append(Entry(key, number, value))
    fields.end()
    return entries


def blocks_of(content, lines, end, kind):
    """The entries of all blocks, which fill the file from its front to this place."""
    entries, behind = [], 0
    for place, length, key, number in lines:
        expect(place == behind, f"the block at {place} should be at {behind}")
        block = entries_of(part_of(content, place, length, f"the block at {place}"), kind)
        expect(block[-1][:2] == (key, number), f"the block at {place} ends with another entry")
        entries, behind = entries + block, place + length
    expect(behind == end, "the blocks do not end where the filter begins")
    expect(end <= MOST_DATA, "the blocks are too long")
    order = [(it.key, -it.number) for it in entries]
    expect(all(a < b for a, b in zip(order, order[1:])), "the entries are out of order")
    return entries


def table_of(content):
    """The entries of a table of either format."""
    expect(len(content) >= FOOTER, "the file is shorter than a footer")
    fields = part_of(content, len(content) - FOOTER, FOOTER, "the footer")
    index, index_length = fields.number(8, "the index's place"), fields.number(4, "its length")
    place, length = fields.number(8, "the filter's place"), fields.number(4, "its length")
    count = fields.number(8, "the number of entries")
    kind = fields.number(4, "the format", least=FIRST, most=SECOND)
    expect(fields.take(len(MAGIC)) == MAGIC, "the footer has other last bytes")
    expect(place + length == index, "the index does not begin where the filter ends")
    expect(index + index_length == len(content) - FOOTER, "the footer is not behind the index")
    fields = part_of(content, index, index_length, "the index")
    lines = []
    for _ in range(fields.number(4, "the number of blocks", least=1)):
        line = fields.number(8, "a block's place"), fields.number(4, "its length")
        key = fields.stored("the key of a line", kind)
        lines.append((*line, key, fields.number(8, "the number of a line", most=GREATEST)))
    fields.end()
    entries = blocks_of(content, lines, place, kind)
    expect(count == len(entries), f"the footer tells of {count} entries")
    fields = part_of(content, place, length, "the filter")
    bits = fields.take(fields.number(4, "the length of the filter"))
    fields.end()
    keys = list(dict.fromkeys(it.key[1:] if kind == FIRST else it.key for it in entries))
    expect(bits == filter_of(keys), "the filter is not that of the keys")
    return entries
