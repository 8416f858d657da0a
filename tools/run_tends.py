"""What each tend of a run did: a flush, or the begin, a part or the end of a merge.

A node prints `tended` of all of them. Whether a flush is due follows from the lengths of the
batches behind the last one; a merge ends before another begins; and a look at the node shows its
tables. Of all courses that fit what is printed, a tend is named by what it was in each of them. It
is taken that no rewrite of the manifest is due: its slot would need 65,536 bytes.
"""

import collections

from lab_texts import bytes_of_batch, entries_of

STEP, DEEPEST = 256, 6
# Bytes of an empty log, and of a record beside its batch.
LOG, RECORD = 1, 13
# One way in which a node's tends can have gone: so many batches stand before the newest log; the
# merge under way has had so many tends (none is under way: 0); and since the last look so many
# flushes were done, and a merge ended, or not, and one began, or not.
Course = collections.namedtuple("Course", "start merge flushes has_ended has_begun")
WORKED = ("flush", "begin", "part", "end")
NAMES = {
    ("flush",): "flush",
    ("begin",): "merge begins",
    ("part",): "merge goes on",
    ("end",): "merge ends",
    ("end", "part"): "part of a merge",
    ("begin", "end"): "part of a merge",
    ("begin", "part"): "part of a merge",
    ("begin", "end", "part"): "part of a merge",
    ("give up",): "merge given up",
}


def length_of(batch):
    """The bytes of a batch's record in a log."""
    return RECORD + bytes_of_batch(batch)


class NodeTends:
    """The tends of one node, with the courses that fit: forward, as they are printed."""

    def __init__(self, limit):
        """A new node, whose logs have this limit."""
        self.limit, self.count = limit, 0
        self.look = ([0] * (DEEPEST + 1), 0)
        self.courses = {Course(0, 0, 0, False, False)}
        # Of each event the steps from a course to the next, with what the tend was: a tend has a
        # note to be named, other events have none.
        self.events = []

    def after_tend(self, course, batches):
        """What a tend can do after a course, and the courses behind it."""
        lengths = sum(map(length_of, batches[course.start : self.count]))
        if LOG + lengths > self.limit and self.count > course.start:
            flushed = course._replace(start=self.count, flushes=course.flushes + 1)
            return [("flush", flushed), ("full", course)]
        if not course.merge:
            return [("idle", course), ("begin", course._replace(merge=1, has_begun=True))]
        ended = course._replace(merge=0, has_ended=True)
        done = [("end", ended), ("give up", course._replace(merge=0))]
        entries = sum(len(entries_of(batch)) for batch in batches[: self.count])
        if STEP * course.merge < entries:
            done.append(("part", course._replace(merge=course.merge + 1)))
        return done

    def tend(self, outcome, batches, note):
        """A tend ends so: what it can have been, by course."""
        fits = {"tended": WORKED, "idle": ("idle",), "full": ("full", "give up")}
        steps = []
        for course in self.courses:
            for kind, after in self.after_tend(course, batches):
                if kind in fits[outcome]:
                    steps.append((course, kind, after))
        self.add(steps, note)

    def settle(self, outcome, batches):
        """Tends of which the last ends so: any number of them went before."""
        self.any_tends(batches, is_one=False)
        if outcome in ("idle", "full"):
            self.tend(outcome, batches, None)

    def any_tends(self, batches, is_one):
        """A tend, or any number of them, may have worked."""
        steps = []
        for origin in self.courses:
            reached, more = {origin}, [origin]
            while more:
                for kind, after in self.after_tend(more.pop(), batches):
                    if kind in WORKED and after not in reached:
                        reached.add(after)
                        more += [] if is_one else [after]
            steps += [(origin, "", after) for after in reached]
        self.add(steps, None)

    def stop(self, batches, is_in_tend):
        """A stop loses the merge under way; one in a tend loses or keeps what that did."""
        if is_in_tend:
            self.any_tends(batches, is_one=True)
        self.add([(it, "", it._replace(merge=0)) for it in self.courses], None)

    def show(self, tables, floor):
        """A look at the node: its tables and its floor fit the courses to it."""
        before, old = self.look
        self.look = (tables, floor)
        steps = []
        for course in self.courses:
            flushed = [before[0] + course.flushes, *before[1:]]
            if course.has_ended != (tables == flushed) and (course.has_begun or floor == old):
                after = course._replace(flushes=0, has_ended=False, has_begun=False)
                steps.append((course, "", after))
        self.add(steps, None)

    def add(self, steps, note):
        """An event with its steps. Where no course fits, no more is known from here on."""
        self.events.append((steps, note))
        self.courses = {after for _, _, after in steps}

    def named(self):
        """The notes of tends with what each was in all courses that fit the whole run."""
        alive = self.courses
        for steps, note in reversed(self.events):
            steps = [it for it in steps if it[2] in alive]
            alive = {course for course, _, _ in steps}
            kinds = tuple(sorted({kind for _, kind, _ in steps}))
            if note is not None and kinds in NAMES:
                yield note, NAMES[kinds]
