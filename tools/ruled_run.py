"""A run of a script at plain nodes: what each statement prints by the rules of `chain_rules.py`.

What clients and nodes send is carried, each in its turn, and what the carrier loses in its turns is
lost: a request or frame reaches no node, a reply no client.

The rules leave open where a node's floor is, what its tends do, and how many calls of the disk a
step makes that reads it, so whether a fault strikes there. A node that runs and gets a batch with a
mark reads first which mark of the client is the last. A subclass decides all that, and what a line
is for: `one_history.py` compares lines with a program's, `plain_chain.py` writes them.
"""

from chain_rules import Node
from lab_texts import SUBMITS, batch_of, bytes_of, bytes_of_batch, key_of, read_script
from plain_maps import page_of, value_at

# The statements that are requests of a client.
REQUESTS = (*SUBMITS, "get", "rows", "back", "open", "close")
# A flow delivers so many frames at most.
MOST_IN_FLOW = 10_000
# So many calls of the disk record a batch or a configuration: the record, a sync, its gate, a sync.
# What was recorded is there after a crash where the gate is open: 01.
CALLS, GATE_CALL = 4, 3
# The greatest lengths in bytes of a key, a value and a batch, and how many edits and rows there are
# at most.
LONGEST_KEY, LONGEST_VALUE, LONGEST_BATCH, MOST_EDITS, MOST_ROWS = 1_024, 16_384, 65_536, 256, 1_024


def invalid_of(words):
    """Why there can be no statement of these words, or None: the first fault in their order."""
    if words[0] in SUBMITS:
        return invalid_batch(batch_of(words))
    places = {"get": [2], "rows": [2, 3], "back": [2, 3]}.get(words[0], [])
    keys = [words[at] for at in places if words[at] != "*"]
    if any(len(bytes_of(key)) > LONGEST_KEY for key in keys):
        return "1 KeyTooLong"
    is_walk = words[0] in ("rows", "back")
    return "8 BadLimit" if is_walk and not 1 <= int(words[4]) <= MOST_ROWS else None


def invalid_batch(batch):
    """Why there can be no such batch, or None."""
    for edit in batch:
        if len(bytes_of(key_of(edit))) > LONGEST_KEY:
            return "1 KeyTooLong"
        if edit[:1] != "-" and len(bytes_of(edit.partition("=")[2])) > LONGEST_VALUE:
            return "2 ValueTooLong"
    if not batch:
        return "3 NoEdits"
    if len(batch) > MOST_EDITS:
        return "4 TooManyEdits"
    return "5 BatchTooLong" if bytes_of_batch(batch) > LONGEST_BATCH else None


def is_kept(fault):
    """Whether a record is there after this fault struck one of its calls."""
    if fault[0] == "!fail" or int(fault[1]) < GATE_CALL:
        return False
    return fault[2] == "new" or fault[2][:2] == "01"


def behind(it, calls):
    """A statement with its fault so many calls of its step earlier."""
    word, call, *junk = it.fault
    return it._replace(fault=[word, str(int(call) - calls), *junk])


class RuledRun:
    """A run, statement by statement. Each statement is a method of its name."""

    def __init__(self, script, rules=Node, lost=()):
        """Reads a script. Its nodes have these rules, and its carrier loses these turns, from 0."""
        self.configurations, self.statements = read_script(script)
        submits = [it for it in self.statements if it.words[0] in SUBMITS]
        self.edits = {it.line: batch_of(it.words) for it in submits}
        marks = {line: batch.mark for line, batch in self.edits.items() if batch.mark}
        ids = self.configurations[0]
        self.nodes = {name: rules(name, self.configurations, marks) for name in ids}
        # The frames by their places, and the places of those that a statement delivered.
        self.frames, self.delivered, self.next_in_flow = [], set(), 1
        # The carrier's next turn, and those in which it loses what it carries.
        self.turn, self.lost_turns = 0, frozenset(lost)

    def run(self):
        """Each statement in its turn. A request is carried to its node."""
        for it in self.statements:
            if why := invalid_of(it.words):
                self.say(it.line, f"invalid {why}")
            elif it.words[0] in REQUESTS and not self.carry():
                self.lose(it, None)
            else:
                getattr(self, it.words[0])(it)

    def carry(self):
        """Whether what the carrier takes in this turn arrives."""
        self.turn += 1
        return self.turn - 1 not in self.lost_turns

    def is_next_lost(self):
        """Whether the carrier will lose what it takes next."""
        return self.turn in self.lost_turns

    def lose(self, it, frame):
        """The request of a statement is lost, or a frame that it delivers: no node has a step."""
        self.say(it.line, "lost")

    def reply(self, line, *texts):
        """The lines of a reply to the request of this line are printed, if it arrives."""
        if is_there := self.carry():
            for text in texts:
                self.say(line, text)
        else:
            self.unsaid(line, texts)
        return is_there

    def map_of(self, node, at):
        """The first so many batches of a node."""
        return [self.edits[line] for line in node.batches[:at]]

    def answer(self, it, node, answer, adopted=""):
        """The lines of a node's step: a drop, an adoption, frames in order, replies."""
        if answer.dropped:
            self.say(it.line, f"dropped {answer.dropped}")
        if adopted:
            self.say(it.line, adopted)
        for frame in answer.frames:
            self.frames.append(frame)
            numbers = " ".join(map(str, (frame.epoch, *frame.numbers)))
            ends = f"{frame.sender}>{frame.addressee}"
            self.sent(it, frame)
            self.say(it.line, f"#{len(self.frames)} {ends} {frame.kind} {numbers}")
        for number, line in answer.replies:
            if self.reply(line, f"committed {number}"):
                self.acknowledged(node, line, number)

    def fall(self, it, node):
        """A node stops in a step, by the fault of the statement."""
        node.stop()
        cause = ": disk" if it.fault[0] == "!fail" else ""
        self.say(it.line, f"node {node.name} stopped{cause}")

    def step(self, it, node, rule, *given):
        """What a rule answers; or None, where the statement's fault struck as it was recorded."""
        count, epoch = node.count, node.epoch
        answer = rule(*given)
        is_recorded = (node.count, node.epoch) != (count, epoch)
        if not is_recorded or not it.fault or int(it.fault[1]) > CALLS:
            return answer
        if not is_kept(it.fault):
            node.epoch = epoch
            del node.batches[count:]
        self.fall(it, node)
        return None

    def submit(self, it):
        """A batch for a node."""
        node = self.nodes[it.words[1]]
        if why := node.refusal_of_submit(it.line):
            self.reply(it.line, f"refused {why}")
        elif answer := self.step(it, node, node.submit, it.line):
            self.answer(it, node, answer)

    def once(self, it):
        """A batch with a mark for a node, which asks its store for the client's last one first."""
        node = self.nodes[it.words[1]]
        calls = self.calls_for_mark(it, node) if it.fault and node.is_up else 0
        if it.fault and int(it.fault[1]) <= calls:
            self.fall(it, node)
        else:
            self.submit(behind(it, calls) if it.fault else it)

    def deliver(self, it):
        """The frame in a place goes to its addressee."""
        place = int(it.words[1])
        if 1 <= place <= len(self.frames):
            self.deliver_frame(it, place)
        else:
            self.say(it.line, "nothing")

    def flow(self, it):
        """Each frame that no statement delivered goes to its addressee, those sent now too."""
        count = 0
        while self.next_in_flow <= len(self.frames):
            if self.next_in_flow not in self.delivered:
                if count == MOST_IN_FLOW:
                    self.say(it.line, "busy")
                    return
                count += 1
                self.deliver_frame(it, self.next_in_flow)
            self.next_in_flow += 1

    def deliver_frame(self, it, place):
        """A frame is carried to its addressee. If that runs, it has a step of the frame."""
        frame = self.frames[place - 1]
        node = self.nodes[frame.addressee]
        self.delivered.add(place)
        if not self.carry():
            self.lose(it, frame)
        elif not node.is_up:
            self.say(it.line, "dropped NotRunning")
        elif answer := self.step(it, node, node.receive, frame):
            self.answer(it, node, answer)

    def notice(self, it):
        """A node is told of the configuration of an epoch."""
        node, epoch = self.nodes[it.words[1]], int(it.words[2])
        if not node.is_up:
            self.say(it.line, "dropped NotRunning")
        elif answer := self.step(it, node, node.notice, epoch):
            adopted = "" if answer.dropped else f"node {node.name} adopted {epoch}"
            self.answer(it, node, answer, adopted)

    def tick(self, it):
        """A turn to send again. Batches that are sent are read from the disk."""
        node = self.nodes[it.words[1]]
        if not node.is_up:
            self.say(it.line, "dropped NotRunning")
            return
        answer = node.tick()
        is_read = any(frame.kind == "forward" for frame in answer.frames)
        if is_read and it.fault and self.is_struck(it, node):
            self.fall(it, node)
        else:
            self.answer(it, node, answer)

    def tend(self, it):
        """A turn to work on files, or as many as work."""
        node = self.nodes[it.words[1]]
        if not node.is_up:
            self.say(it.line, "dropped NotRunning")
            return
        outcome = self.tend_of(it, node)
        if outcome == "stopped":
            self.fall(it, node)
        else:
            self.say(it.line, outcome)

    settle = tend

    def start(self, it):
        """A node that does not run starts again."""
        node = self.nodes[it.words[1]]
        if node.is_up:
            self.say(it.line, "dropped Running")
        elif it.fault and self.is_struck(it, node):
            self.fall(it, node)
        else:
            node.start(0 if node.is_tail() else self.floor_of(it, node))
            numbers = f"epoch {node.epoch} count {node.count} committed {node.committed}"
            self.say(it.line, f"node {node.name} started {numbers}")
            self.started(it, node)

    def stop(self, it):
        """A machine stops."""
        node = self.nodes[it.words[1]]
        if node.is_up:
            node.stop()
            self.say(it.line, f"node {node.name} stopped")
        else:
            self.say(it.line, "dropped NotRunning")

    def show(self, it):
        """The numbers of a node."""
        node = self.nodes[it.words[1]]
        if not node.is_up:
            self.say(it.line, f"node {node.name} stopped")
            return
        floor, kept, tables = self.numbers_of(it, node)
        numbers = f"epoch {node.epoch} count {node.count} committed {node.committed}"
        numbers = f"{numbers} floor {floor} kept {kept} tables {' '.join(map(str, tables))}"
        self.say(it.line, f"node {node.name} {numbers}")

    def is_full(self, it, node, at):
        """Whether no more snapshots of a node may be open."""
        return node.is_full()

    def read_at(self, it, node, asked):
        """The number of a read that is answered; None where it is refused, or stops its node."""
        at = int(asked[0]) if asked else node.committed
        why = node.refusal() or ("4 NotCommitted" if at > node.committed else None)
        if not why and self.is_hidden(it, node, at):
            why = "3 TooOld"
        if not why and it.words[0] == "open" and self.is_full(it, node, at):
            why = "6 TooManySnapshots"
        if why:
            self.reply(it.line, f"refused {why}")
            return None
        if it.words[0] != "open" and it.fault and self.is_struck(it, node):
            self.fall(it, node)
            return None
        return at

    def get(self, it):
        """A read of a key."""
        node = self.nodes[it.words[1]]
        at = self.read_at(it, node, it.words[3:])
        if at is not None:
            value = value_at(self.map_of(node, at), it.words[2])
            found = "none" if value is None else f"value {value}"
            if self.reply(it.line, f"{found} at {at}"):
                self.told(it, node, at)

    def rows(self, it):
        """A page of rows."""
        node, (low, bound, limit) = self.nodes[it.words[1]], it.words[2:5]
        at = self.read_at(it, node, it.words[5:])
        if at is not None:
            backward = it.words[0] == "back"
            rows, more = page_of(self.map_of(node, at), low, bound, backward, int(limit))
            lines = [f"row {key}={value}" for key, value in rows]
            if self.reply(it.line, *lines, f"rows {len(rows)} at {at}" + " more" * more):
                self.told(it, node, at)

    back = rows

    def open(self, it):
        """A snapshot."""
        node = self.nodes[it.words[1]]
        at = self.read_at(it, node, it.words[2:])
        if at is not None:
            node.snapshots[at] += 1
            if self.reply(it.line, f"opened {at}"):
                self.told(it, node, at)

    def close(self, it):
        """A snapshot is one no more."""
        node, at = self.nodes[it.words[1]], int(it.words[2])
        if why := node.refusal_of_close(at):
            self.reply(it.line, f"refused {why}")
        else:
            node.snapshots[at] -= 1
            self.reply(it.line, f"closed {at}")
