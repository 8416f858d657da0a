"""The texts of a run, for the tools that read them: a script's statements, and what is printed."""

import collections
import re
import subprocess

# A statement: the number and text of its line, its words, and those of its fault.
Statement = collections.namedtuple("Statement", "line text words fault")
# The mark of a batch.
Mark = collections.namedtuple("Mark", "client request")
# The statements that submit a batch; the second bears a mark.
SUBMITS = ("submit", "once")
# A frame that was sent: its place, sender and addressee, its kind, and its numbers.
SENT = re.compile(r"#(\d+) (\d+)>(\d+) (forward|ack) (\d+ \d+(?: \d+)?)")
# The statements that always have an answer: a submit may have a frame in place of it. One of a mark
# that the node has may be answered later.
ANSWERED = ("get", "submit", "tend", "settle", "show", "stop", "start", "rows", "back", "open")
ANSWERED += ("close", "notice")
# The statements that a line of each kind can be printed for.
CAUSES = {
    "sent": (*SUBMITS, "deliver", "tick", "flow", "notice"),
    "committed": SUBMITS,
    "value": ("get",),
    "none": ("get",),
    "row": ("rows", "back"),
    "rows": ("rows", "back"),
    "opened": ("open",),
    "closed": ("close",),
    "refused": (*SUBMITS, "get", "rows", "back", "open", "close"),
    "invalid": (*SUBMITS, "get", "rows", "back"),
    "nothing": ("deliver",),
    "busy": ("flow", "settle"),
    "tended": ("tend",),
    "idle": ("tend", "settle"),
    "full": ("tend", "settle"),
    "dropped": ("deliver", "tick", "tend", "settle", "start", "stop", "flow", "notice"),
    "node": (*SUBMITS, "get", "deliver", "tick", "tend", "show", "start", "stop", "notice")
    + ("rows", "back", "open", "close"),
}
# Bytes of a batch without its edits, of a mark, of an edit without key and value, and of a value's
# length.
BATCH, MARK, EDIT, LENGTH = 2, 18, 3, 2
# The limits of a store for which a script has no other.
LIMITS = {"log": 4_194_304, "l0": 4, "table": 2_097_152, "level": 10_485_760}
# What a node that runs shows: its epoch, count and committed number, its floor and kept number, and
# how many tables each level has.
SHOWN = re.compile(
    r"epoch (\d+) count (\d+) committed (\d+) floor (\d+) kept (\d+) tables (\d+(?: \d+){6})"
)
# What a node that starts shows.
STARTED = re.compile(r"started epoch (\d+) count (\d+) committed (\d+)")


class Broken(Exception):
    """What an output breaks."""


def expect(holds, what):
    """The output is broken where this does not hold."""
    if not holds:
        raise Broken(what)


class Batch(list):
    """The edits of a batch, as words, and its mark, or None."""

    def __init__(self, edits, mark=None):
        """A batch of these edits."""
        super().__init__(edits)
        self.mark = mark


def batch_of(words):
    """The batch of a statement of these words, which submits one."""
    if words[0] == "once":
        return Batch(words[4:], Mark(int(words[2]), int(words[3])))
    return Batch(words[2:])


def key_of(edit):
    """The key of an edit."""
    return edit[1:] if edit[:1] == "-" else edit.partition("=")[0]


def bytes_of(word):
    """The bytes that a word spells."""
    plain = re.sub("%(..)", lambda it: chr(int(it[1], 16)), "" if word == "@" else word)
    return plain.encode("latin-1")


def entries_of(batch):
    """The keys of the entries that a batch leaves: of its edits, and the client of its mark."""
    return {*map(key_of, batch), *([batch.mark.client] if batch.mark else [])}


def bytes_of_batch(batch):
    """The number of bytes in which a batch is spelled."""
    length = BATCH + (MARK if batch.mark else 0)
    for edit in batch:
        length += EDIT + len(bytes_of(key_of(edit)))
        if edit[:1] != "-":
            length += LENGTH + len(bytes_of(edit.partition("=")[2]))
    return length


def kind_of(text):
    """The kind of a line of the output, by how it begins."""
    return "sent" if text.startswith("#") else text.split(" ")[0]


def read_script(text):
    """The words of a script's configurations, each from head to tail, and its statements."""
    configurations, statements = [], []
    for at, line in enumerate(text.split("\n"), 1):
        words = line.split(" ")
        first = next((i for i, word in enumerate(words) if word[:1] == "!"), len(words))
        if words[0] == "config":
            configurations.append(words[1:])
        elif line and words[0] != "limit" and line[0] != "#":
            statements.append(Statement(at, line, words[:first], words[first:]))
    return configurations, statements


def limits_of(text):
    """The limits of the stores of a script, by name."""
    lines = [line.split(" ") for line in text.split("\n") if line.startswith("limit ")]
    return LIMITS | {name: int(number) for _, name, number in lines}


def output_of(command, script):
    """What a program prints that has a script as its input: a path is that of one that is called as
    `PATH lab -`, a list is a whole command. Another end than a good one is a ValueError."""
    command = [command, "lab", "-"] if isinstance(command, str) else command
    done = subprocess.run(command, input=script.encode(), capture_output=True)
    if done.returncode or done.stderr:
        raise ValueError(f"status {done.returncode} {done.stderr.decode().strip()}")
    return done.stdout.decode()
