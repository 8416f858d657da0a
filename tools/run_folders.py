"""What the nodes of a checked run have in their folders, after `loop` has run the script there.

A script of `loop` has no faults and no JUNK. What each node has is known from the script and what was
printed (`one_history.py`); its folder is read by `read_folder`, and `dump` has to agree.
"""

import re

from folder_runs import dumped_store
from lab_texts import expect
from plain_maps import change_of, rows_of

JUNK = re.compile(r"^(stop \d+) .*")


def without_faults(script):
    """A script without its faults and JUNK."""
    lines = [line.partition(" !")[0] for line in script.split("\n")]
    return "\n".join(JUNK.sub(r"\1", it) for it in lines)


def check_folders(program, folder, history):
    """Each node of a checked run has in its folder what the run says, and not more."""
    for name, node in history.nodes.items():
        store = dumped_store(program, f"{folder}/{name}")
        expect(store, f"node {name} was not created")
        version = store.version
        told = str(version.node), version.epoch, [str(it) for it in version.ids]
        expect(told == (name, node.epoch, node.ids), f"node {told[0]} of epoch {told[1]}")
        check_batches(store, [history.edits[line] for line in node.batches])


def check_batches(store, batches):
    """A store has these batches, and rows that they leave."""
    changes = [[change_of(edit) for edit in batch] for batch in batches]
    node = store.version.node
    expect(store.count == len(changes), f"node {node} has {store.count} batches of {len(changes)}")
    for number in range(store.kept + 1, store.count + 1):
        is_so = store.batches[number] == (batches[number - 1].mark, changes[number - 1])
        expect(is_so, f"node {node} has another batch {number}")
    for number in (store.version.floor, store.count):
        rows = rows_of(change for batch in changes[:number] for change in batch)
        expect(store.rows_at(number) == rows, f"node {node} has other rows at {number}")
