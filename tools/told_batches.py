"""The list of batches that a chain's head took over many runs by `loop`, from scripts and what was
printed of them, even where a run was cut off; and whether folders have what was told.

A batch is in the list where a line says that it was sent or committed. The last submit of a run that
was cut off, or one in which the head stopped, may be in it or not: the head's folder tells. A batch
with a mark is in it once, whatever run submits it again, and the requests of a client rise. All
runs are of one configuration, so each node has a beginning of the head's list.
"""

import bisect
import collections

from lab_texts import SENT, SHOWN, SUBMITS, batch_of, bytes_of, expect
from plain_maps import change_of

# Why no node may stop here.
STOPS = ("stopped: damaged", "stopped: memory", "stopped: not created", "stopped: old format")


class ToldBatches:
    """The head's list, and how many of its batches were acknowledged."""

    def __init__(self, ids):
        """No batch, of a chain with these ids from head to tail."""
        self.ids, self.seen = ids, collections.Counter()
        # The batches as changes, their marks, and the run and line of each one's submit.
        self.batches, self.marks, self.places = [], [], []
        # Of each client the number of the last batch that bears one of its marks.
        self.last = {}
        # Of each key the numbers of the batches that change it, and what it has from there on.
        self.numbers, self.values = collections.defaultdict(list), {}
        self.acknowledged, self.run = 0, 0
        # A batch that the head may have behind these, and its place.
        self.unsure = None

    # ---- the list

    def append(self, batch, place):
        """The head took a batch."""
        expect(self.is_new(batch), f"{place}: a batch with a mark that is not its client's next")
        changes = [change_of(edit) for edit in batch]
        self.batches.append(changes)
        self.marks.append(batch.mark)
        self.places.append(place)
        if batch.mark:
            self.last[batch.mark.client] = len(self.batches)
        for key, value in dict(changes).items():
            self.numbers[key].append(len(self.batches))
            self.values[key, len(self.batches)] = value

    def request_of(self, batch):
        """The request of the last mark of the client of a batch's mark, or 0."""
        number = self.last.get(batch.mark.client, 0)
        return self.marks[number - 1].request if number else 0

    def is_new(self, batch):
        """Whether a batch bears no mark, or one of a greater request than its client's last one."""
        return batch.mark is None or batch.mark.request > self.request_of(batch)

    def value_at(self, key, number):
        """What a key has after so many batches."""
        numbers = self.numbers.get(key, [])
        at = bisect.bisect_right(numbers, number)
        return self.values[key, numbers[at - 1]] if at else None

    def rows_at(self, number, low=b"", bound=None):
        """The keys from one on and below another, with their values after so many batches."""
        keys = (it for it in self.numbers if low <= it and (bound is None or it < bound))
        rows = ((key, self.value_at(key, number)) for key in sorted(keys))
        return [(key, value) for key, value in rows if value is not None]

    def count_is(self, count):
        """The head has so many batches, of which the last may be the one that was unsure."""
        if self.unsure and count == len(self.batches) + 1:
            self.append(*self.unsure)
            self.seen["unsure batch kept"] += 1
        elif self.unsure:
            self.seen["unsure batch lost"] += 1
        self.unsure = None
        expect(count == len(self.batches), f"the head has {count} batches of {len(self.batches)}")

    # ---- what is printed

    def learn(self, script, output, was_ended=False):
        """Reads what a run printed, whose last line may be cut off, and the lines behind it."""
        self.run += 1
        self.statements, rows, last = script.split("\n"), [], 0
        for line in output.split("\n")[:-1]:
            place, _, text = line.partition(": ")
            last = max(last, int(place))
            rows = self.tell(int(place), text, rows)
        if was_ended:
            self.cut_off(last)

    def cut_off(self, last):
        """The run was cut off behind this line: its next new batch may be in the list."""
        for place, statement in enumerate(self.statements[last:], last + 1):
            words = statement.split(" ")
            is_submit = words[0] in SUBMITS and words[1] == self.ids[0]
            if is_submit and self.is_new(batch_of(words)):
                expect(not self.unsure, "two unsure batches")
                self.unsure = (batch_of(words), (self.run, place))
                return

    def tell(self, place, text, rows):
        """One line, behind these rows of a page. It answers the rows so far."""
        words = self.statements[place - 1].split(" ")
        self.seen[f"{words[0]}: {kind_of(text)}"] += 1
        expect(not text.endswith(STOPS) and not text.startswith("invalid"), f"{place}: {text}")
        if text.startswith("row "):
            return [*rows, text[4:].split("=")]
        if text.startswith("rows "):
            self.page(words, rows, text.split(" "))
        elif text.startswith(("value ", "none ")):
            self.read(words, text.split(" "))
        elif text.startswith("committed "):
            self.acknowledge(place, words, int(text.split(" ")[1]))
        elif text == "refused 9 OldRequest":
            self.refuse(place, batch_of(words))
        elif text.startswith(f"node {self.ids[0]} "):
            self.head(place, words, text)
        elif words[0] in SUBMITS and (sent := SENT.fullmatch(text)):
            self.sent(place, words, sent)
        return []

    def sent(self, place, words, sent):
        """The head sent the batch of a submit."""
        number = int(sent[5].split(" ")[1])
        expect(number == len(self.batches) + 1, f"batch {number} behind {len(self.batches)}")
        self.append(batch_of(words), (self.run, place))

    def acknowledge(self, place, words, number):
        """A batch is acknowledged: it is the one of its line, or an earlier one with its mark."""
        batch, here = batch_of(words), (self.run, place)
        if len(self.ids) == 1 and number == len(self.batches) + 1:
            self.append(batch, here)
        expect(number <= len(self.batches), f"batch {number} of {len(self.batches)}")
        is_repeat = batch.mark is not None and self.marks[number - 1] == batch.mark
        self.seen["batch acknowledged again"] += is_repeat and self.places[number - 1] != here
        is_it = self.places[number - 1] == here or is_repeat
        expect(is_it and self.places[number - 1] <= here, f"{place}: committed {number}")
        self.acknowledged = max(self.acknowledged, number)

    def refuse(self, place, batch):
        """A request is refused as old: its client has a later one in the list."""
        is_old = batch.mark is not None and batch.mark.request < self.request_of(batch)
        expect(is_old, f"{place}: refused as old")

    def head(self, place, words, text):
        """The head stopped, started or was shown."""
        if words[0] in SUBMITS and "stopped" in text and self.is_new(batch_of(words)):
            self.unsure = (batch_of(words), (self.run, place))
        if " count " in text:
            self.count_is(int(text.split(" count ")[1].split(" ")[0]))

    def read(self, words, found):
        """A get is answered as the list says."""
        number, key = int(found[-1]), bytes_of(words[2])
        value = bytes_of(found[1]) if found[0] == "value" else None
        expect(number <= len(self.batches), f"a read at {number} of {len(self.batches)}")
        expect(self.value_at(key, number) == value, f"{' '.join(words)}: {' '.join(found)}")

    def page(self, words, rows, found):
        """A page of rows is the one that the list says."""
        number, limit = int(found[3]), int(words[4])
        bound = None if words[3] == "*" else bytes_of(words[3])
        wanted = self.rows_at(number, bytes_of(words[2]), bound)
        if words[0] == "back":
            wanted.reverse()
        got = [(bytes_of(key), bytes_of(value)) for key, value in rows]
        is_so = got == wanted[:limit] and (found[-1] == "more") == (len(wanted) > limit)
        expect(is_so and int(found[1]) == len(got), f"{' '.join(words)}: {' '.join(found)}")

    # ---- folders

    def check(self, stores):
        """The nodes' stores, in the order of the chain, have what was told. None is one that was not
        created."""
        counts = [store.count if store else 0 for store in stores]
        self.count_is(counts[0])
        expect(counts == sorted(counts, reverse=True), f"counts {counts} along the chain")
        least = min(counts)
        expect(least >= self.acknowledged, f"{self.acknowledged} acknowledged, counts {counts}")
        for name, store in zip(self.ids, stores):
            if store:
                self.check_store(name, store)

    def check_store(self, name, store):
        """A store is that of the node, and has the first batches of the list."""
        version = store.version
        ids = [str(it) for it in version.ids]
        expect(str(version.node) == name and ids == self.ids, f"node {version.node} of {ids}")
        for number in range(store.kept + 1, store.count + 1):
            is_so = store.batches[number] == (self.marks[number - 1], self.batches[number - 1])
            expect(is_so, f"node {name}: another batch {number}")
        for key in {*store.keys(), *self.numbers}:
            for number in (version.floor, store.count):
                is_so = store.value_at(key, number) == self.value_at(key, number)
                expect(is_so, f"node {name}: key {key} at {number}")


def kind_of(text):
    """The kind of a line, without what differs from run to run."""
    if text.startswith("#"):
        return "sent " + text.split(" ")[2]
    words = text.split(" ")
    if words[0] == "node":
        return "shown" if SHOWN.fullmatch(" ".join(words[2:])) else " ".join(words[2:5:])
    return " ".join(words[:2]) if words[0] in ("dropped", "refused", "invalid") else words[0]
