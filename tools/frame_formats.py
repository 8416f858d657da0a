"""Streams of frames in plain Python, written from docs/FORMATS.md and not from the code: what a stream
has, and random streams, lawful or damaged.
"""

import collections
import itertools

GREATEST, LONGEST_FRAME, LAST_EPOCH, MOST_IDS, MOST_REFUSALS = 2**63 - 1, 131_072, 15, 16, 9
LONGEST_KEY, LONGEST_VALUE, LONGEST_BATCH, MOST_EDITS = 1_024, 16_384, 65_536, 256
MOST_ROWS, LONGEST_PAGE, ROW = 1_024, 98_304, 4
KINDS = 14


class Fault(Exception):
    """Bytes that are no frame, by the name of the fault."""


class Content:
    """The content of a frame, read from the front on."""

    def __init__(self, content):
        """These bytes."""
        self.content, self.place = content, 0

    def take(self, length):
        """The next bytes."""
        self.require(self.place + length <= len(self.content))
        self.place += length
        return self.content[self.place - length : self.place]

    def require(self, holds):
        """A field for which this does not hold is a bad one."""
        if not holds:
            raise Fault("BadField")

    def number(self, size, least=0, most=GREATEST):
        """The next number."""
        value = int.from_bytes(self.take(size), "big")
        self.require(least <= value <= most)
        return value

    def text(self, most):
        """The next bytes behind their length."""
        return self.take(self.number(2, most=most))

    def truth(self):
        """The next truth value."""
        return self.number(1, most=1)

    def at(self):
        """The next number that may be left out."""
        if self.truth():
            self.number(8)

    def origin(self):
        """An epoch and a node."""
        self.number(4, most=LAST_EPOCH)
        self.number(2, least=1)

    def batch(self):
        """A batch, with a mark in front of its edits or without."""
        start = self.place
        if self.content[start : start + 2] == b"\0\0":
            self.take(2)
            self.number(8, least=1)
            self.number(8, least=1)
        for _ in range(self.number(2, least=1, most=MOST_EDITS)):
            kind = self.number(1, least=1, most=2)
            self.text(LONGEST_KEY)
            if kind == 1:
                self.text(LONGEST_VALUE)
        self.require(self.place - start <= LONGEST_BATCH)

    def ids(self):
        """The ids of a configuration."""
        count = self.number(1, least=1, most=MOST_IDS)
        ids = [self.number(2, least=1) for _ in range(count)]
        self.require(len(set(ids)) == count)

    def range(self):
        """A range."""
        self.text(LONGEST_KEY)
        if self.truth():
            self.text(LONGEST_KEY)
        self.truth()
        self.number(4, least=1, most=MOST_ROWS)

    def page(self):
        """The rows of a page, and whether there are more."""
        self.truth()
        size = 0
        for _ in range(self.number(2, most=MOST_ROWS)):
            size += len(self.text(LONGEST_KEY)) + len(self.text(LONGEST_VALUE)) + ROW
        self.require(size <= LONGEST_PAGE)

    def frame(self):
        """A whole frame."""
        kind = self.take(1)[0]
        if not 1 <= kind <= KINDS:
            raise Fault("BadKind")
        self.fields(kind)
        if self.place < len(self.content):
            raise Fault("Trailing")

    def fields(self, kind):
        """The fields of a kind."""
        if kind <= 2:
            self.origin()
            self.number(8, least=kind % 2)
        elif kind == 3:
            self.number(4, most=LAST_EPOCH)
        else:
            self.number(8)
        if kind in (5, 6, 7):
            self.at()
        elif kind in (2, 8, 9, 10, 11, 12, 14):
            self.number(8)
        if kind in (1, 4):
            self.batch()
        elif kind == 3:
            self.ids()
        elif kind == 5:
            self.text(LONGEST_KEY)
        elif kind == 6:
            self.range()
        elif kind == 10 and self.truth():
            self.text(LONGEST_VALUE)
        elif kind == 11:
            self.page()
        elif kind == 13:
            self.number(1, least=1, most=MOST_REFUSALS)


def frames_of(stream):
    """How many frames a stream begins with, how many bytes they have, and the fault behind them, or
    `none`."""
    for count in itertools.count():
        length = int.from_bytes(stream[:4], "big")
        if len(stream) < 4:
            return count, "none", stream
        if length > LONGEST_FRAME:
            return count, "TooLong", stream
        if not length:
            return count, "BadField", stream
        if len(stream) < 4 + length:
            return count, "none", stream
        try:
            Content(stream[4 : 4 + length]).frame()
        except Fault as fault:
            return count, str(fault), stream
        stream = stream[4 + length :]


# A stream, and the sizes of the pieces in which it comes: what they leave comes last.
Stream = collections.namedtuple("Stream", "content sizes")


class RandomStreams:
    """Random streams of the same random frames, each damaged and parted in its own way."""

    def __init__(self, choice, count):
        """So many streams that these choices give. Of their fields so many are out of their range."""
        self.choice, self.strays = choice, choice.choice([0, 0, 0.01, 0.1])
        frames = [self.frame() for _ in range(choice.choice([0, 1, 1, 2, 2, 3, 5]))]
        content = b"".join(frames)
        self.streams = [Stream(self.damaged(content), self.sizes()) for _ in range(count)]

    def one_of(self, lawful, stray):
        """One of what is in range, or of what is not."""
        return self.choice.choice(stray if self.choice.random() < self.strays else lawful)

    def number(self, size, most=GREATEST, least=0):
        """A number, most often a small one or one at a bound."""
        lawful = [least, least + 1, self.choice.randint(least, min(20, most)), most, most - 1]
        return self.one_of(lawful, [max(0, least - 1), most + 1]).to_bytes(size, "big")

    def text(self, most):
        """A key or a value behind its length: now and then a long one."""
        length = self.one_of([0, 1, 2, 3], [most, most + 1] + [4] * 14)
        return length.to_bytes(2, "big") + self.choice.randbytes(length)

    def truth(self):
        """A truth value."""
        return bytes([self.one_of([0, 1], [2, 255])])

    def at(self):
        """A number that may be left out."""
        truth = self.truth()
        return truth + (self.number(8) if truth == b"\x01" else b"")

    def batch(self):
        """A batch, often with a mark in front of its edits."""
        count = self.one_of([1, 1, 2, 3], [0, 256, 257])
        edits = count.to_bytes(2, "big") + b"".join(self.edit() for _ in range(count))
        return self.mark() + edits if self.choice.random() < 0.4 else edits

    def mark(self):
        """A mark of a client and a request: now and then cut, or one that another follows."""
        mark = b"\0\0" + self.number(8, least=1) + self.number(8, least=1)
        return self.one_of([mark], [mark[:-1], mark[:2], mark + mark])

    def edit(self):
        """An edit of a batch."""
        kind = self.one_of([1, 1, 2], [0, 3])
        key = self.text(LONGEST_KEY)
        return bytes([kind]) + key + (self.text(LONGEST_VALUE) if kind == 1 else b"")

    def ids(self):
        """A configuration."""
        count = self.one_of([1, 2, 3, 16], [0, 17])
        ids = self.choice.sample(range(1, 65_536), count)
        if count > 1:
            ids[-1] = self.one_of([ids[-1]], [0, ids[0]])
        return bytes([count]) + b"".join(it.to_bytes(2, "big") for it in ids)

    def page(self):
        """Rows of a page."""
        count = self.one_of([0, 1, 2, 3], [7])
        rows = [self.text(LONGEST_KEY) + self.text(LONGEST_VALUE) for _ in range(count)]
        return self.truth() + count.to_bytes(2, "big") + b"".join(rows)

    def found(self):
        """A value that may be absent."""
        truth = self.truth()
        return truth + (self.text(LONGEST_VALUE) if truth == b"\x01" else b"")

    def range(self):
        """A range."""
        least, bounded = self.text(LONGEST_KEY), self.truth()
        bound = self.text(LONGEST_KEY) if bounded == b"\x01" else b""
        return least + bounded + bound + self.truth() + self.number(4, MOST_ROWS, 1)

    def frame(self):
        """A frame, most often one that is in range."""
        kind = self.one_of(range(1, KINDS + 1), [0, KINDS + 1])
        head = self.number(4, LAST_EPOCH) if kind <= 3 else self.number(8)
        if kind <= 2:
            head += self.number(2, 65_534, 1)
        content = bytes([kind]) + head + self.fields(kind)
        length = len(content) + self.one_of([0], [-1, 1])
        return length.to_bytes(4, "big") + content

    def fields(self, kind):
        """The fields of a kind behind its first ones."""
        if kind in (1, 4):
            return (self.number(8, least=1) if kind == 1 else b"") + self.batch()
        if kind == 3:
            return self.ids()
        if kind in (5, 6, 7):
            return self.at() + {5: lambda: self.text(LONGEST_KEY), 6: self.range, 7: bytes}[kind]()
        if kind == 13:
            return self.number(1, MOST_REFUSALS, 1)
        more = {2: lambda: self.number(8), 10: self.found, 11: self.page}.get(kind, bytes)
        return self.number(8) + more()

    def damaged(self, stream):
        """The stream, with some of its bytes changed, added, taken or cut, or random ones alone."""
        choice, way = self.choice, self.choice.randrange(10)
        if way == 0:
            return choice.randbytes(choice.randint(0, 40))
        if way == 1:
            return stream[: choice.randint(0, len(stream))]
        return self.changed(bytearray(stream), way) if way < 5 else stream

    def changed(self, stream, way):
        """The stream with some bytes changed, added or taken."""
        choice = self.choice
        for _ in range(choice.choice([1, 1, 2, 4])):
            at = choice.randint(0, len(stream))
            if way == 2:
                stream.insert(at, choice.choice([0, 1, choice.randrange(256)]))
            elif way == 3:
                del stream[at : at + 1]
            elif at < len(stream):
                stream[at] ^= choice.choice([1, 2, 128, choice.randint(1, 255)])
        return bytes(stream)

    def sizes(self):
        """The sizes of some pieces, which may be empty."""
        most = self.choice.choice([1, 2, 4, 16, 64, 1 << 17])
        return self.choice.choices(range(most + 1), k=self.choice.choice([0, 1, 5, 40]))
