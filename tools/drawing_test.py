"""The test of `draw_run`: some known runs are drawn, and the drawings are read back."""

import collections
import re
import xml.etree.ElementTree as tree

from drawing import ROOT, boxes_of, misplaced

DOCS = ROOT / "docs"
# What the drawing of each run has: arrows by their ends, marks by their shapes, and words.
RUNS = {
    "frame_twice": {"head": 5, "lost": 1, "dot": 5, "cross": 1, "diamond": 1},
    "node_stops": {"head": 3, "dot": 3, "cross": 1, "diamond": 1, "stop": 1, "start": 1}
    | {"circle": 1, "square": 1, "tend": 2},
    "merges": {"diamond": 2, "circle": 3, "square": 2, "tend": 3, "merge": 3, "stop": 1}
    | {"start": 1},
    "node_removed": {"head": 5, "dot": 5, "adopt": 3, "cross": 1, "square": 1, "diamond": 1}
    | {"circle": 1},
}
WORDS = {
    "frame_twice": ["#2 forward 0 1", "#3 ack 0 0 1", "dropped OtherNumber"]
    + ["committed 1 (line 2)"],
    "node_stops": ["stopped by !stop 3 new", "epoch 0 count 1 committed 1", "refused 1 NotRunning"]
    + ["#3 ack 0 1 1", "value 1 at 1", "tended: flush", "idle"],
    "merges": ["tended: merge ends", "2/2 floor 2 tables 0 1", "opened 1", "stopped by stop"],
    "node_removed": ["config 1 3", "adopted 1: removed", "dropped OtherEpoch", "#3 ack 1 0 0"]
    + ["refused 7 Removed", "committed 1 (line 3)"],
}
# The page that quotes a run, and how many nodes of it have a grey line, if it is not SCRIPT or none.
QUOTED = {"node_removed": "MODEL"}
GREY = {"node_removed": 1}
# Outputs that do not fit the scripts of these runs: a form in the output, and what stands in its
# place.
MISFITS = {
    "node_stops": {
        "an answer left out": (r"9: value 1 at 1\n", ""),
        "an answer to another statement": ("9: value", "2: value"),
        "an answer of another statement": ("9: value 1 at 1", "9: tended"),
        "two answers": ("9: value 1 at 1", "9: value 1 at 1\n9: none at 0"),
        "a stop of another node": ("node 2 stopped", "node 1 stopped"),
        "a frame of an unknown node": ("2>1 ack", "2>7 ack"),
        "a place twice": ("#3", "#2"),
        "no frame to deliver": (r"3: #1.*\n", ""),
        "a line of no form": ("refused 1 NotRunning", "refused"),
        "a line without a number": ("11: idle", "idle"),
        "a line too many": ("11: idle", "11: idle\n12: idle"),
    },
    "node_removed": {
        "an adoption of another epoch": ("adopted 1", "adopted 0"),
        "an adoption by another node": ("node 1 adopted", "node 2 adopted"),
        "an adoption left out": (r"5: node 1 adopted 1\n", ""),
        "two adoptions": ("5: node 1 adopted 1", "5: node 1 adopted 1\n5: node 1 adopted 1"),
        "a frame of another epoch taken": ("8: dropped OtherEpoch", "8: #4 3>1 ack 1 1 1"),
    },
}


def parts_of(page):
    """The arrows and marks of a page by kind, those of its legend apart, and its texts."""
    root, kinds = tree.fromstring(page), collections.Counter()
    for it in root:
        if it.get("marker-end"):
            kinds[it.get("marker-end")[5:].partition("-")[0]] += 1
        elif it.tag.endswith("}path"):
            kinds[it.get("class").split(" ")[1]] += 1
    return kinds, [words for words, *_ in boxes_of(root)]


def faults_of(pages, name):
    """What is wrong with the pages of a known run."""
    kinds, texts = collections.Counter(), []
    for page in pages:
        more, words = parts_of(page)
        kinds, texts = kinds + more, texts + words
        yield from misplaced(page)
    for kind in {*kinds, *RUNS[name]}:
        if kinds[kind] != RUNS[name].get(kind, 0):
            yield f"{kinds[kind]} of {kind}, and not {RUNS[name].get(kind, 0)}"
    yield from (f"no text '{words}'" for words in WORDS[name] if texts.count(words) != 1)


def page_faults(name, script, output, pages_of):
    """What is wrong with a run's drawing, with its copy in the docs, and with its quotation."""
    pages = pages_of(script, output, 80)
    yield from faults_of(pages, name)
    if [(DOCS / f"pictures/{name}.svg").read_text(encoding="utf-8")] != pages:
        yield "docs/pictures has another picture"
    grey = "".join(pages).partition('<g class="legend">')[0].count('class="gone"')
    if grey != GREY.get(name, 0):
        yield f"{grey} grey lines"
    page = f"{QUOTED.get(name, 'SCRIPT')}.md"
    quoted = f"```text\n{script}```\n\nprints\n\n```text\n{output}```\n"
    if quoted not in (DOCS / page).read_text(encoding="utf-8"):
        yield f"docs/{page} does not quote the run as it stands"


def cut_faults(name, script, output, pages_of):
    """What is wrong with a run that is cut into pages: an arrow then has one end all the same."""
    pages = pages_of(script, output, 4)
    if len(pages) < 2:
        yield "one page of four rows"
    yield from faults_of(pages, name)


def misfit_faults(pages_of):
    """The outputs that do not fit, and are drawn."""
    pairs = [(name, what) for name, kinds in MISFITS.items() for what in kinds]
    for name, what in pairs:
        script, output = texts_of(name)
        changed = re.sub(*MISFITS[name][what], output, count=1)
        try:
            pages_of(script, changed, 80)
        except ValueError as fault:
            print(f"{what}: {fault}")
            if changed != output:
                continue
        yield f"{what} is drawn"


def texts_of(name):
    """The script of a known run, and what it printed."""
    texts = [DOCS / f"pictures/{name}.{kind}" for kind in ("script", "output")]
    return [it.read_text(encoding="utf-8") for it in texts]


def self_test(pages_of):
    """Draws the known runs, and prints what is wrong. The status to end with."""
    faults = []
    for name in RUNS:
        script, output = texts_of(name)
        for find in (page_faults, cut_faults):
            faults += [f"{name}: {fault}" for fault in find(name, script, output, pages_of)]
    faults += misfit_faults(pages_of)
    print(*faults, f"{len(RUNS)} runs, {len(faults)} faults", sep="\n")
    return 1 if faults else 0
