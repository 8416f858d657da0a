"""Reads the wrong bodies of a crate: those of its file wrong-bodies.txt, and the edits in must-fail/.

A wrong body is a name and pairs of texts, each of a file: the first text stands once in the file,
and the second takes its place. In wrong-bodies.txt a body begins with a line `name: NAME`, and `#`
begins a comment. An edit in must-fail/ is a file NAME.edit of the kit's form, without that line.
"""

import os

ROOT = os.path.dirname(os.path.dirname(os.path.abspath(__file__)))


def listed(crate):
    """The bodies of the crate's list, in its order: pairs of a name and its lines."""
    path, found = f"{ROOT}/crates/{crate}/wrong-bodies.txt", []
    if not os.path.isfile(path):
        return found
    with open(path, encoding="utf-8") as it:
        for line in it.read().split("\n"):
            if line.startswith("name: "):
                found.append((line[6:].strip(), []))
            elif line and not line.startswith("#"):
                found[-1][1].append(line)
    return found


def in_gate(crate):
    """The edits that the gate tries, by name: pairs of a name and its lines."""
    path, found = f"{ROOT}/crates/{crate}/must-fail", []
    for name in sorted(os.listdir(path)) if os.path.isdir(path) else []:
        if name.endswith(".edit"):
            with open(f"{path}/{name}", encoding="utf-8") as it:
                found.append((name.removesuffix(".edit"), it.read().split("\n")))
    return found


def pairs_of(lines):
    """The pairs of an edit, each with its file: what stands there, and what takes its place."""
    pairs, file, old = [], "", ""
    for line in lines:
        if line.startswith("file: "):
            file = line[6:].strip()
        elif line.startswith("old: "):
            old = line[5:]
        elif line.startswith("new:"):
            pairs.append((file, old, line[4:].removeprefix(" ")))
    return pairs
