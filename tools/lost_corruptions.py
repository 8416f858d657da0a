"""The corruptions of outputs of runs that lose requests, frames and replies, as those of
`corruptions.py`; and chains in plain Python that lose them in a wrong way.
"""

import re

from corruptions import edit, places_of
from lab_texts import SUBMITS
from losing_run import copy_of
from mark_corruptions import shift
from plain_chain import PlainChain
from ruled_run import REQUESTS

# The statements of which nothing is carried.
UNCARRIED = ("tick", "tend", "settle", "notice", "start", "stop", "show")
NO_LOSS = ": (?!lost$)"


def leave_out(verbs):
    """The line of a loss is missing, of a statement of these verbs."""

    def corrupt(history, lines, choice):
        places = [at for verb in verbs for at in places_of(history, lines, ": lost$", verb)]
        if places:
            lines.pop(choice.choice(places))

    return corrupt


def made_up(verbs, more=0):
    """A loss that was none: a line of a statement of these verbs, or as many more, give way."""

    def corrupt(history, lines, choice):
        places = [at for verb in verbs for at in places_of(history, lines, NO_LOSS, verb)]
        if places:
            at = choice.choice(places)
            lines[at : at + more] = [lines[at].partition(":")[0] + ": lost"]

    return corrupt


def report(form, is_late=False):
    """A reply of this form is reported though it was lost: in its place, or at the end."""

    def corrupt(history, lines, choice):
        replies = [it for it in history.unsaid_replies if re.match(form, it.texts[-1])]
        if replies:
            it = choice.choice(replies)
            at = len(lines) if is_late else it.place
            lines[at:at] = [f"{it.line}: {text}" for text in it.texts]

    return corrupt


def answer_of(loss):
    """What a node would have answered to what was lost; None where it would have had no step."""
    node, it = copy_of(loss.node), loss.statement
    if loss.frame:
        return node.receive(loss.frame) if node.is_up else None
    return None if node.refusal_of_submit(it.line) else node.submit(it.line)


def texts_of(loss, answer):
    """The lines of this answer, as they would be printed."""
    texts = [f"dropped {answer.dropped}"] if answer.dropped else []
    for place, it in enumerate(answer.frames, loss.sent + 1):
        numbers = " ".join(map(str, (it.epoch, *it.numbers)))
        texts.append(f"#{place} {it.sender}>{it.addressee} {it.kind} {numbers}")
    lines = [f"{loss.statement.line}: {text}" for text in texts]
    return lines + [f"{line}: committed {number}" for number, line in answer.replies]


def act(verbs, is_printed):
    """What was lost of a statement of these verbs acted all the same. The loss is printed too, or
    not. Later frames have later places."""

    def corrupt(history, lines, choice):
        losses = [it for it in history.losses if it.statement.words[0] in verbs]
        losses = [(it, answer) for it in losses if (answer := answer_of(it))]
        losses = [(it, answer) for it, answer in losses if texts_of(it, answer)]
        if losses:
            it, answer = choice.choice(losses)
            shift(lines, it.place, len(answer.frames))
            lines[it.place + is_printed : it.place + 1] = texts_of(it, answer)

    return corrupt


def lose_place(history, lines, choice):
    """A frame that was lost has no place: those behind it have earlier ones."""
    losses = [it for it in history.losses if it.frame]
    losses = [it for it in losses if any(": #" in line for line in lines[it.place :])]
    if losses:
        shift(lines, choice.choice(losses).place, -1)


FRAMES = ("deliver", "flow")
LOSSES = {
    "the line of a lost submit left out": leave_out(["submit"]),
    "the line of a lost batch with a mark left out": leave_out(["once"]),
    "the line of a lost read left out": leave_out(["get", "rows", "back"]),
    "the line of a lost open or close left out": leave_out(["open", "close"]),
    "the line of a lost frame left out": leave_out(FRAMES),
    "a request lost that was not": made_up(REQUESTS, 1),
    "a frame lost that was not": made_up(FRAMES, 1),
    "a loss beside what was carried": made_up([*REQUESTS, *FRAMES]),
    "a loss of what is not carried": made_up(UNCARRIED, 1),
    "a loss of what is not carried beside it": made_up(UNCARRIED),
    "a lost acknowledgement reported": report("committed"),
    "a lost acknowledgement reported at the end": report("committed", True),
    "a lost value reported": report("(value|none) "),
    "a lost page reported": report("rows"),
    "a lost snapshot reported": report("opened"),
    "a lost close reported": report("closed"),
    "a lost refusal reported": report("refused"),
    "a lost frame that acted": act(FRAMES, False),
    "a lost frame that acted, and is said to be lost": act(FRAMES, True),
    "a lost submit that acted": act(["submit"], False),
    "a lost submit that acted, and is said to be lost": act(["submit"], True),
    "a lost batch with a mark that acted": act(["once"], False),
    "a lost batch with a mark that acted, and is said to be lost": act(["once"], True),
    "a lost batch with a mark acknowledged": edit("lost$", "committed 1", "once"),
    "a lost batch with a mark refused as old": edit("lost$", "refused 9 OldRequest", "once"),
    "a lost get answered": edit("lost$", "none at 0", "get"),
    "a lost get refused": edit("lost$", "refused 1 NotRunning", "get"),
    "a lost page answered": edit("lost$", "rows 0 at 0", "rows"),
    "a lost open answered": edit("lost$", "opened 0", "open"),
    "a lost close answered": edit("lost$", "closed 0", "close"),
    "a lost frame dropped": edit("lost$", "dropped OtherNumber", "deliver"),
    "a lost frame dropped by a node that is down": edit("lost$", "dropped NotRunning", "deliver"),
    "a lost frame said to be none": edit("lost$", "nothing", "deliver"),
    "a lost frame that stopped its node": edit(r"lost$", "node 1 stopped", "deliver"),
    "a lost frame without a place": lose_place,
}


class ActsOnLostFrames(PlainChain):
    """A chain whose nodes have steps of lost frames, of which nothing is sent or printed."""

    def lose(self, it, frame):
        """The addressee takes it."""
        super().lose(it, frame)
        if frame and self.nodes[frame.addressee].is_up:
            self.nodes[frame.addressee].receive(frame)


class TakesLostSubmits(PlainChain):
    """A chain whose head takes lost batches, of which nothing is sent or printed."""

    def lose(self, it, frame):
        """The node takes it."""
        super().lose(it, frame)
        if it.words[0] in SUBMITS and not self.nodes[it.words[1]].refusal_of_submit(it.line):
            self.nodes[it.words[1]].submit(it.line)


class SaysLostReplies(PlainChain):
    """A chain whose clients get lost replies."""

    def unsaid(self, line, texts):
        """It is printed."""
        for text in texts:
            self.say(line, text)


class UndoesUnanswered(PlainChain):
    """A chain whose head gives up its last batch where an acknowledgement is lost."""

    def unsaid(self, line, texts):
        """The batch is gone."""
        if texts[-1].startswith("committed"):
            node = self.nodes[self.words_of(line)[1]]
            del node.batches[-1:]

    def words_of(self, line):
        """The words of the statement in this line."""
        return next(it.words for it in self.statements if it.line == line)


class LosesTheNext(PlainChain):
    """A chain whose carrier loses what comes behind what it is to lose."""

    def carry(self):
        """The turn before this one counts."""
        self.turn += 1
        return self.turn - 2 not in self.lost_turns


class LosesAgain(PlainChain):
    """A chain whose carrier loses the next one too, and does not count it."""

    def carry(self):
        """A loss leaves the turn as it is, once."""
        is_there = super().carry()
        if not is_there:
            self.lost_turns = self.lost_turns - {self.turn - 1}
            self.turn -= 1
        return is_there


class LeavesLostFrames(PlainChain):
    """A chain in which a flow delivers again what another statement delivered, and was lost."""

    def lose(self, it, frame):
        """The frame is left."""
        super().lose(it, frame)
        if frame and it.words[0] == "deliver":
            self.delivered.discard(int(it.words[1]))


# Chains that lose in a wrong way, each seen in some run.
WRONG_LOSSES = (ActsOnLostFrames, TakesLostSubmits, SaysLostReplies, UndoesUnanswered)
WRONG_LOSSES += (LosesTheNext, LosesAgain, LeavesLostFrames)
