"""Changes of folders, of what is printed and of programs, each of which `ended_loops` has to find."""

import copy
import os
import shutil
import stat

from folder_runs import looped, store_in
from lab_texts import Broken

TRIES = 10
# Programs in the place of the tried one, which they call as $PROGRAM.
PROGRAMS = {
    "dump makes a file": 'touch "$2/note"',
    "dump touches a file": 'touch "$2/1"',
    "dump changes a mode": 'chmod 600 "$2/1"',
    "dump prints a line more": "echo more",
    "dump prints on standard error": "echo more >&2",
    "dump ends with another status": "exit 1",
}
WRAPPED = """#!/bin/sh
{program} "$@" || exit $?
if [ "$1" = dump ]; then
  {fault}
fi
"""


class Trial:
    """A chain whose last run is done: what was known and there before it, and what it printed."""

    def __init__(self, chain, room):
        """Runs the chain twice, and then a script of batches alone."""
        self.chain, self.room, self.choice = chain, room, chain.choice
        self.done = looped(chain.program, chain.folder, chain.next_script())
        chain.told.learn(chain.script, self.done.out)
        self.old = self.copy_of(chain.folder, "old")
        self.before = copy.deepcopy(chain.told)
        chain.script = script_of_batches(chain)
        self.done = looped(chain.program, chain.folder, chain.script)
        chain.told.learn(chain.script, self.done.out)
        chain.check_folders()
        self.number = 0

    def copy_of(self, folder, name):
        """A copy of folders."""
        to = os.path.join(self.room, name)
        shutil.copytree(folder, to)
        return to

    def finds(self, change):
        """Whether a change of the folders is found."""
        other = copy.copy(self.chain)
        self.number += 1
        other.told = copy.deepcopy(self.chain.told)
        other.folder = self.copy_of(self.chain.folder, f"changed-{self.number}")
        change(self, other)
        return is_broken(other.check_folders)

    def finds_line(self, change):
        """Whether a change of the lines that were printed is found."""
        other = copy.copy(self.chain)
        other.told, lines = copy.deepcopy(self.before), self.done.out.splitlines()
        change(self, lines)

        def look():
            other.told.learn(other.script, "\n".join([*lines, ""]))
            other.check_folders()

        return is_broken(look)


def is_broken(look):
    """Whether a look finds something broken."""
    try:
        look()
    except Broken:
        return True
    return False


def script_of_batches(chain):
    """A script of three batches that are acknowledged, the last one twice, with reads of what they
    have."""
    ids = chain.told.ids
    lines = ["config " + " ".join(ids)]
    for at in range(3):
        batch = f"once {ids[0]} 9 {at + 1} z{at}=last{at} a{at}={'v' * 40}{at}"
        lines += [batch, "flow"]
    lines.append(batch)
    return "\n".join([*lines, f"get {ids[0]} z0", f"rows {ids[2]} z0 z3 9", f"get {ids[2]} b", ""])


# ---- folders


def node_folder(trial, chain):
    """The folder of any node."""
    return os.path.join(chain.folder, trial.choice.choice(chain.told.ids))


def write_at(path, place, content):
    """Writes bytes into a file."""
    with open(path, "r+b") as file:
        file.seek(place)
        file.write(content)


def change_batch(trial, chain):
    """One byte of a value in a log is another."""
    folder = node_folder(trial, chain)
    path = os.path.join(folder, str(store_in(folder).version.logs[-1].file))
    with open(path, "rb") as file:
        place = file.read().index(b"v" * 40)
    write_at(path, place + trial.choice.randrange(40), b"w")


def change_table(trial, chain):
    """One byte of a table is another."""
    folders = [os.path.join(chain.folder, it) for it in chain.told.ids]
    tables = [f"{folder}/{it.file}" for folder in folders for it in store_in(folder).version.tables]
    path = trial.choice.choice(tables)
    place = trial.choice.randrange(os.path.getsize(path))
    with open(path, "rb") as file:
        byte = file.read()[place]
    write_at(path, place, bytes([byte ^ 1 << trial.choice.randrange(8)]))


def close_last(trial, chain, names):
    """The gate of the last batch's record is closed."""
    for name in names:
        folder = os.path.join(chain.folder, name)
        path = os.path.join(folder, str(store_in(folder).version.logs[-1].file))
        with open(path, "rb") as file:
            content, places = file.read(), [0]
        while content[places[-1] :][:1] == b"\1":
            length = int.from_bytes(content[places[-1] + 1 :][:4], "big")
            places.append(places[-1] + 5 + length)
        write_at(path, places[-2], b"\0")


def close_last_of_one(trial, chain):
    """The last batch is gone in one folder."""
    close_last(trial, chain, [trial.choice.choice(chain.told.ids)])


def close_last_of_all(trial, chain):
    """The last batch is gone in all folders."""
    close_last(trial, chain, chain.told.ids)


def remove_file(trial, chain):
    """A file that a version names is gone."""
    folder = node_folder(trial, chain)
    version = store_in(folder).version
    os.unlink(f"{folder}/{trial.choice.choice([*version.logs, *version.tables]).file}")


def exchange(trial, chain):
    """Two folders are exchanged."""
    one, other = (os.path.join(chain.folder, it) for it in trial.choice.sample(chain.told.ids, 2))
    os.rename(one, one + ".aside")
    os.rename(other, one)
    os.rename(one + ".aside", other)


def restore(trial, chain, names):
    """Folders are as they were before the last run."""
    for name in names:
        shutil.rmtree(os.path.join(chain.folder, name))
        shutil.copytree(os.path.join(trial.old, name), os.path.join(chain.folder, name))


def restore_one(trial, chain):
    """One folder is as it was before the last run."""
    restore(trial, chain, [trial.choice.choice(chain.told.ids)])


def restore_all(trial, chain):
    """All folders are as they were before the last run."""
    restore(trial, chain, chain.told.ids)


def empty_one(trial, chain):
    """A folder is empty."""
    folder = node_folder(trial, chain)
    shutil.rmtree(folder)
    os.mkdir(folder)


FOLDERS = (change_batch, change_table, close_last_of_one, close_last_of_all, remove_file, exchange)
FOLDERS += (restore_one, restore_all, empty_one)


# ---- lines


def places_of(lines, word):
    """The places of lines of a kind."""
    return [at for at, line in enumerate(lines) if line.partition(": ")[2].startswith(word)]


def replace(trial, lines, word, old, new):
    """In a line of a kind that has it, the last old text is a new one."""
    at = trial.choice.choice([it for it in places_of(lines, word) if old in lines[it]])
    head, _, tail = lines[at].rpartition(old)
    lines[at] = head + new + tail


def acknowledge_more(trial, lines):
    """A batch is acknowledged that no node has."""
    head, _, number = lines[places_of(lines, "committed")[-1]].rpartition(" ")
    lines.append(f"{head} {int(number) + 1}")


def acknowledge_other(trial, lines):
    """An acknowledgement names another batch."""
    at = trial.choice.choice(places_of(lines, "committed"))
    head, _, number = lines[at].rpartition(" ")
    lines[at] = f"{head} {int(number) - 1}"


def leave_out_frame(trial, lines):
    """A frame of a batch is left out."""
    del lines[next(at for at in places_of(lines, "#") if " forward " in lines[at])]


def change_value(trial, lines):
    """A get has another value."""
    replace(trial, lines, "value", "last", "past")


def change_row(trial, lines):
    """A page has another row."""
    replace(trial, lines, "row ", "last", "past")


def leave_out_row(trial, lines):
    """A row of a page is left out."""
    del lines[trial.choice.choice(places_of(lines, "row "))]


def add_value(trial, lines):
    """A key has a value that it has not."""
    replace(trial, lines, "none", "none", "value 1")


def stop_damaged(trial, lines):
    """A node stopped for damage."""
    lines.append(f"2: node {trial.chain.told.ids[0]} stopped: damaged")


LINES = (acknowledge_more, acknowledge_other, leave_out_frame, change_value, change_row)
LINES += (leave_out_row, add_value, stop_damaged)


# ---- programs


def with_fault(fault):
    """A change: the program does something else behind a dump."""

    def change(trial, chain):
        path = os.path.join(trial.room, "program")
        with open(path, "w", encoding="utf-8") as file:
            file.write(WRAPPED.format(program=chain.program, fault=fault))
        os.chmod(path, stat.S_IRWXU)
        chain.program = path

    return change


def self_test(chain, room):
    """Makes each change some times. Whether each was found each time."""
    trial, holds = Trial(chain, room), True
    rows = [(change.__doc__, trial.finds, change) for change in FOLDERS]
    rows += [(change.__doc__, trial.finds_line, change) for change in LINES]
    rows += [(name, trial.finds, with_fault(fault)) for name, fault in PROGRAMS.items()]
    for name, finds, change in rows:
        found = sum(finds(change) for _ in range(TRIES))
        holds = holds and found == TRIES
        print(f"{name.rstrip('.')}: {TRIES} made, {found} found")
    print(f"{len(rows)} kinds")
    return holds
