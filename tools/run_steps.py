"""A script and its output as the steps of a run, for `draw_run`.

A step is what one statement, or one delivery of a flow, printed. Lines of a flow have all one
number: which delivery one belongs to follows from what each delivery can have caused. What a tend
did is named as far as it follows from the texts (`run_tends.py`).
"""

import collections
import re

from lab_texts import ANSWERED, CAUSES, SENT, SHOWN, SUBMITS
from lab_texts import Batch, batch_of, kind_of, limits_of, read_script
from run_tends import NodeTends

MOST_IN_FLOW, LONGEST_VALUE = 10_000, 12
# A frame that was sent, by its place.
Frame = collections.namedtuple("Frame", "place sender addressee kind numbers")
# A step of a node, with the frame that it delivers, if any. Of no node where nothing came.
Step = collections.namedtuple("Step", "line text node frame notes")
# A line of the output at its node: the mark and words, and the place of the frame, if it is one.
Note = collections.namedtuple("Note", "node shape text frame")
# The marks of the lines of these forms.
SHAPES = {
    r"committed \d+": "diamond",
    r"dropped \w+": "cross",
    r"(refused|invalid) \d+ \w+": "square",
    r"(value \S*|none) at \d+": "circle",
    r"rows \d+ at \d+( more)?|(opened|closed) \d+": "circle",
    r"tended|idle|full|busy": "tend",
}
STEPS = ("deliver", "flow", "tick", "once", *ANSWERED)
# So many numbers a statement has at least, of nodes, places or epochs.
NUMBERS = {"flow": 0, "notice": 2}


def shorten(words, length):
    """Words that are too long lose their end."""
    return words if len(words) <= length else words[: length - 2] + ".."


class Run:
    """A run as steps: what each statement, or each delivery of a flow, printed."""

    def __init__(self, script, output):
        """Reads both texts. A ValueError says where the output does not fit the script."""
        configurations, statements = read_script(script)
        self.configurations = [list(map(int, ids)) for ids in configurations]
        self.nodes = self.configurations[0]
        self.lines = collections.deque(map(self.line_of, filter(None, output.split("\n"))))
        self.frames, self.steps = {}, []
        self.delivered, self.up = set(), set(self.nodes)
        # Of each node its epoch, its batches, the one in whose step it stopped last, and its tends.
        self.epochs = dict.fromkeys(self.nodes, 0)
        self.batches, self.unsure = {node: [] for node in self.nodes}, {}
        limit = limits_of(script)["log"]
        self.tends = {node: NodeTends(limit) for node in self.nodes}
        if len(configurations) > 1:
            lines = [it for it in enumerate(script.split("\n"), 1) if it[1].startswith("config ")]
            self.steps += [Step(*it, None, None, []) for it in lines]
        for it in statements:
            self.check(it)
            self.add_statement(it)
        self.name_tends()
        if self.lines:
            line, text = self.lines[0]
            raise ValueError(f"the output's line '{line}: {text}' does not fit the script")

    def ids(self, node):
        """The configuration of a node, as far as it was told."""
        return self.configurations[self.epochs[node]]

    def role(self, node):
        """The part of a node in its configuration, in words."""
        ids = self.ids(node)
        ends = [word for word, at in (("head", 0), ("tail", -1)) if ids[at] == node]
        return ", ".join(ends) if node in ids else "removed"

    def line_of(self, text):
        """A line of the output as its number and the rest."""
        number, colon, rest = text.partition(": ")
        if not colon or not number.isdecimal():
            raise ValueError(f"the output's line '{text}' has no number")
        return int(number), rest

    def name_tends(self):
        """The notes of tends say what these did, where that is known."""
        names = {id(note): name for it in self.tends.values() for note, name in it.named()}
        for step in self.steps:
            for at, note in enumerate(step.notes):
                if name := names.get(id(note)):
                    shape = "merge" if "merge" in name else note.shape
                    step.notes[at] = note._replace(shape=shape, text=f"{note.text}: {name}")

    def check(self, it):
        """A statement is one that is drawn, and names a node and an epoch of the script."""
        if it.words[0] not in STEPS:
            raise ValueError(f"the script's line {it.line}, '{it.text}', is no statement")
        count = NUMBERS.get(it.words[0], 1)
        numbers = [int(word) for word in it.words[1 : count + 1] if word.isdecimal()]
        if len(numbers) < count:
            raise ValueError(f"the script's line {it.line}, '{it.text}', has no number")
        if it.words[0] not in ("flow", "deliver") and numbers[0] not in self.nodes:
            raise ValueError(f"the script's line {it.line}, '{it.text}', names no known node")
        if it.words[0] == "notice" and numbers[1] >= len(self.configurations):
            raise ValueError(f"the script's line {it.line}, '{it.text}', names no known epoch")

    def add_statement(self, it):
        """The steps of a statement: one, or in a flow one for each delivery."""
        if it.words[0] == "flow":
            self.add_flow(it)
        elif it.words[0] == "deliver":
            self.add_delivery(it, int(it.words[1]), it.text)
        else:
            node, notes = int(it.words[1]), []
            texts = list(iter(lambda: self.take(it.line, ""), None))
            # Of a page its own line is drawn, and not its rows.
            if it.words[0] in CAUSES["row"]:
                texts = [text for text in texts if kind_of(text) != "row"]
            number = sum(it.words[0] != "notice" or kind_of(text) != "sent" for text in texts)
            if number != 1 and it.words[0] in ANSWERED:
                number = number or "no"
                raise ValueError(f"the output has {number} answers to '{it.line}: {it.text}'")
            for text in texts:
                notes += self.notes_of(text, node, it)
                self.note_store(text, node, it, notes[-1])
            if it.words[0] == "notice" and self.role(node) == "head, tail":
                notes += self.take_replies(node, len(self.batches[node]))
            self.steps.append(Step(it.line, it.text, node, None, notes))

    def note_store(self, text, node, it, note):
        """What a line says of the batches and the tends of its node."""
        tends, kind, shown = self.tends[node], kind_of(text), SHOWN.search(text)
        if it.words[0] in SUBMITS and self.is_next(text, node):
            self.append(node, batch_of(it.words))
        elif shown:
            tends.show([int(number) for number in shown[6].split(" ")], int(shown[4]))
        elif it.words[0] == "tend" and kind in ("tended", "idle", "full"):
            tends.tend(kind, self.batches[node], note)
        elif it.words[0] == "settle" and kind != "dropped":
            tends.settle(kind, self.batches[node])

    def is_next(self, text, node):
        """Whether a line of a submit is of the batch behind those of its node: then it is new."""
        kind, number = kind_of(text), int(text.rpartition(" ")[2]) if text[-1:].isdecimal() else 0
        return kind in ("sent", "committed") and number == len(self.batches[node]) + 1

    def append(self, node, batch):
        """A node has one batch more."""
        self.batches[node].append(batch)
        self.tends[node].count = len(self.batches[node])

    def add_flow(self, it):
        """A step for each frame that no statement delivered yet, in order of place."""
        place, count = 1, 0
        while place in self.frames and count < MOST_IN_FLOW:
            if place not in self.delivered:
                count += 1
                self.add_delivery(it, place, f"{'flow' if count == 1 else '    '} #{place}")
            place += 1
        busy = self.take(it.line, "busy")
        if busy or not count:
            text = "flow: busy" if busy else "flow"
            self.steps.append(Step(it.line, text, None, None, []))

    def add_delivery(self, it, place, text):
        """The step of one delivery. Of a flow the first alone has the number of the line."""
        frame, line = self.frames.get(place), "" if text.startswith(" ") else it.line
        if frame is None:
            if not self.take(it.line, "nothing"):
                raise ValueError(f"the output has no frame #{place} before line {it.line}")
            self.steps.append(Step(line, f"{text}: nothing", None, None, []))
            return
        self.delivered.add(place)
        notes = self.take_delivery(it, frame)
        self.steps.append(Step(line, text, frame.addressee, frame, notes))

    def take(self, line, form):
        """The next line of the output, if it has this number and form."""
        if self.lines and self.lines[0][0] == line and re.match(form, self.lines[0][1]):
            return self.lines.popleft()[1]
        return None

    def take_delivery(self, it, frame):
        """The notes of one delivery. Only what it can have caused is taken, for a flow goes on."""
        node, (epoch, number, *_) = frame.addressee, map(int, frame.numbers.split())
        if node not in self.up:
            forms = ["dropped NotRunning"]
        elif self.role(node) == "removed":
            forms = ["dropped Removed"]
        elif epoch != self.epochs[node]:
            forms = ["dropped OtherEpoch"]
        elif frame.kind == "forward":
            self.unsure[node] = self.batch_at(frame.sender, number)
            forms = ["dropped (?!NotRunning)", rf"#\d+ {node}>", f"node {node} stopped"]
        else:
            forms = [rf"#\d+ {node}>\d+ ack \d+ {number} ", f"node {node} stopped"]
        notes = []
        for text in filter(None, [self.take(it.line, form) for form in forms]):
            notes += self.notes_of(text, node, it)
        if frame.kind == "forward" and [note.shape for note in notes[:1]] == ["dot"]:
            self.append(node, self.batch_at(frame.sender, number))
        if frame.kind == "ack" and len(forms) == 2 and self.ids(node)[0] == node:
            notes += self.take_replies(node, number)
        return notes

    def batch_at(self, node, number):
        """The batch of this number of a node. An output may speak of one that it does not have."""
        batches = self.batches[node]
        return batches[number - 1] if 0 < number <= len(batches) else Batch([])

    def take_replies(self, node, committed):
        """What a head acknowledges when it knows so many batches as committed."""
        notes = []
        while self.lines and re.fullmatch(r"committed \d+", self.lines[0][1]):
            if int(self.lines[0][1].split()[1]) > committed:
                break
            line, text = self.lines.popleft()
            notes.append(Note(node, "diamond", f"{text} (line {line})", None))
        return notes

    def notes_of(self, text, node, it):
        """A line of the output as notes: where it is drawn, with what mark and words."""
        if it.words[0] not in CAUSES.get(kind_of(text), ()):
            raise ValueError(f"the output's line '{it.line}: {text}' does not fit '{it.text}'")
        if sent := SENT.fullmatch(text):
            return [self.frame_of(it, sent)]
        if it.words[0] == "show" and (words := self.shown_of(text, node)):
            return [Note(node, "circle", words, None)]
        if turn := re.fullmatch(rf"node {node} ((started|stopped).*)", text):
            return self.turn_of(turn[1], node, it)
        if adopted := re.fullmatch(rf"node {node} (adopted (\d+))", text):
            return [self.adoption_of(it, node, *adopted.groups())]
        for form, shape in SHAPES.items():
            if re.fullmatch(form, text):
                words = " ".join(shorten(word, LONGEST_VALUE) for word in text.split(" "))
                return [Note(node, shape, words, None)]
        raise ValueError(f"the output's line '{it.line}: {text}' has no form")

    def shown_of(self, text, node):
        """A look at a node, in words."""
        words = text.removeprefix(f"node {node} ")
        if shown := SHOWN.fullmatch(words):
            _, count, committed, floor, _, tables = shown.groups()
            tables = re.sub("( 0)+$", "", tables)
            return f"{committed}/{count} floor {floor} tables {tables}"
        return "is down" if words == "stopped" else None

    def frame_of(self, it, sent):
        """The note of a frame that was sent, which has the next place."""
        frame = Frame(*map(int, sent.groups()[:3]), *sent.groups()[3:])
        if frame.place in self.frames or not {frame.sender, frame.addressee} <= {*self.nodes}:
            raise ValueError(f"the output's line '{it.line}: {sent[0]}' does not fit the script")
        self.frames[frame.place] = frame
        words = f"#{frame.place} {frame.kind} {frame.numbers}"
        return Note(frame.sender, "dot", words, frame.place)

    def adoption_of(self, it, node, text, epoch):
        """The note of a configuration that a node adopts, with its part there if that is new."""
        if [epoch] != it.words[2:]:
            raise ValueError(f"the output's line '{it.line}: {text}' does not fit '{it.text}'")
        return Note(node, "adopt", text + self.new_role(node, int(epoch)), None)

    def new_role(self, node, epoch):
        """The part of a node in the configuration of its new epoch, in words, if it is another."""
        before, self.epochs[node] = self.role(node), epoch
        return f": {self.role(node)}" if self.role(node) != before else ""

    def turn_of(self, text, node, it):
        """The notes of a node that stopped, with the statement or fault that did it, or started."""
        tends, batches = self.tends[node], self.batches[node]
        if started := re.match(r"started epoch (\d+) count (\d+)", text):
            role = self.new_role(node, min(int(started[1]), len(self.configurations) - 1))
            if int(started[2]) > len(batches) and node in self.unsure:
                self.append(node, self.unsure[node])
            self.up.add(node)
            rest = Note(node, "none", text.removeprefix("started "), None)
            return [Note(node, "start", f"started{role}", None), rest]
        self.up.discard(node)
        if it.words[0] in SUBMITS:
            self.unsure[node] = batch_of(it.words)
        tends.stop(batches, it.words[0] == "tend")
        by = ["stop", *it.words[2:]] if it.words[0] == "stop" else it.fault
        cause = f" by {' '.join(by)}" if by and text in ("stopped", "stopped: disk") else ""
        return [Note(node, "stop", text + cause, None)]
