#!/usr/bin/env python3
"""sweep.py PROGRAM: runs scripts with each request for memory refused.

It is refused alone, and with all later ones. Each outcome must be one of three: the script's
lines; its lines up to one that ends in `stopped: memory`, behind which what is acknowledged, read
and opened still is of one list of the submitted batches, in their order; or status 1, with
`run: memory` or `line N: out of memory` on standard error and no line that the script does not print
there. Builds refuse.c with cc first. Ends with status 1 if an outcome is none of these.
"""

import collections
import itertools
import os
import re
import subprocess
import sys
import tempfile

sys.dont_write_bytecode = True
sys.path.insert(0, os.path.dirname(os.path.dirname(os.path.abspath(__file__))))
from lab_texts import SUBMITS, batch_of, read_script
from plain_maps import page_of, value_at
from swept_scripts import MEMORY

SCRIPTS = {
    "a batch and a read": "config 1\nsubmit 1 a=1\nget 1 a\n",
    "a deletion in a batch": "config 1\nsubmit 1 a=1 -a a=2\nget 1 a\n",
    "a stop with junk": "config 1\nsubmit 1 a=1\nstop 1 01\nstart 1\nget 1 a\n",
    "a running node started": "config 1\nstart 1\nstop 1\nget 1 a\n",
    "a stop in an append": (
        "config 1\nsubmit 1 a=1\nsubmit 1 a=2 !stop 2 01\nstart 1\nget 1 a\n"
    ),
    "a flush and a look": (
        "limit log 16\nconfig 1\nsubmit 1 a=1\ntend 1\nshow 1\nstop 1\nstart 1\nget 1 a\n"
        "settle 1\n"
    ),
    "a chain of three": (
        "config 1 2 3\nsubmit 1 a=1\ndeliver 1\ndeliver 1\nflow\ntick 2\nflow\nget 2 a\n"
    ),
    "a node left out": (
        "config 1 2 3\nconfig 1 3\nsubmit 1 a=1\ndeliver 1\nnotice 1 1\nnotice 3 1\nflow\ntick 1\n"
        "flow\nnotice 2 1\nget 2 a\nget 3 a\n"
    ),
    "a batch with a mark, twice": "config 1\nonce 1 7 1 a=1\nonce 1 7 1 a=1\nget 1 a\n",
    "a notice that a fault strikes": (
        "config 1 2\nconfig 2\nnotice 2 1 !stop 4 01\nstart 2\nsubmit 2 a=1\nget 2 a\n"
    ),
    **MEMORY,
}
REFUSED = re.compile(r"(run: memory|line \d+: out of memory)\n")


def built(folder):
    source = os.path.join(os.path.dirname(os.path.abspath(__file__)), "refuse.c")
    library = os.path.join(folder, "refuse.so")
    subprocess.run(["cc", "-O1", "-shared", "-fPIC", "-o", library, source, "-ldl"], check=True)
    return library


def run(program, library, folder, script, settings):
    count = os.path.join(folder, "count")
    env = {"LD_PRELOAD": library, "REFUSE_COUNT": count, **settings}
    done = subprocess.run(
        [program, "lab", "-"], input=script, env=env, capture_output=True, text=True, timeout=60
    )
    with open(count, encoding="ascii") as file:
        requests = int(file.readline())
    return done.returncode, done.stdout.splitlines(), done.stderr, requests


def lists_of(statements):
    """The lists that a run can have: some of the submitted batches, by their lines, in their order,
    no two with one mark."""
    submits = [line for line, words in statements.items() if words[0] in SUBMITS]
    for count in range(len(submits) + 1):
        for lines in itertools.combinations(submits, count):
            marks = [it for line in lines if (it := batch_of(statements[line]).mark)]
            if len(marks) == len({*marks}):
                yield lines


def replies_of(lines):
    """The line and the text of each reply. A page is one reply, with a line feed behind each row."""
    rows = ""
    for it in lines:
        line, _, text = it.partition(": ")
        if text.startswith("row "):
            rows += f"{text}\n"
        elif text.split(" ")[0] in ("committed", "value", "none", "rows", "opened", "closed"):
            yield int(line), rows + text
            rows = ""


def is_reply(batches, statements, line, text):
    """Whether a reply to the statement of a line is of this list."""
    number = int(re.search(r"(?:at|committed|opened|closed) (\d+)(?: more)?$", text)[1])
    if number > len(batches):
        return False
    words, last = statements[line], text.split("\n")[-1]
    edits = [batch_of(statements[it]) for it in batches[:number]]
    if last.startswith("committed"):
        mark = batch_of(words).mark
        return batches[number - 1] == line or mark is not None and edits[-1].mark == mark
    if words[0] == "get":
        value = value_at(edits, words[2])
        return text == ("none" if value is None else f"value {value}") + f" at {number}"
    if words[0] in ("rows", "back"):
        rows, more = page_of(edits, words[2], words[3], words[0] == "back", int(words[4]))
        shown = [f"row {key}={value}" for key, value in rows]
        return text == "\n".join([*shown, f"rows {len(rows)} at {number}{' more' * more}"])
    return True


def has_one_list(script, lines):
    """Whether there is a list of which all replies are."""
    statements = {it.line: it.words for it in read_script(script)[1]}
    replies = list(replies_of(lines))
    return any(
        all(is_reply(it, statements, *reply) for reply in replies) for it in lists_of(statements)
    )


def outcome(script, status, lines, error, want):
    if (status, lines, error) == (0, want, ""):
        return "the script's lines"
    if status == 1 and REFUSED.fullmatch(error) and lines == want[: len(lines)]:
        return "refused, status 1"
    stops = [i for i, line in enumerate(lines) if line.endswith("stopped: memory")]
    is_stopped = status == 0 and stops and lines[: stops[0]] == want[: stops[0]]
    if is_stopped and has_one_list(script, lines):
        return "stopped: memory"
    return None


def sweep(program, library, folder, name, script):
    _, want, _, requests = run(program, library, folder, script, {})
    counts, wrong = collections.Counter(), []
    for on in (False, True):
        for at in range(1, requests + 2):
            settings = {"REFUSE_AT": str(at), **({"REFUSE_ON": "1"} if on else {})}
            status, lines, error, _ = run(program, library, folder, script, settings)
            kind = outcome(script, status, lines, error, want)
            counts[kind] += 1
            if kind is None:
                wrong.append((at, on, status, lines, error))
    print(f"{name}: {requests} requests;", "; ".join(f"{k}: {n}" for k, n in counts.items()))
    for case in wrong:
        print("  WRONG", *case)
    return not wrong


def main():
    program = os.path.abspath(sys.argv[1])
    with tempfile.TemporaryDirectory() as folder:
        library = built(folder)
        good = [sweep(program, library, folder, *item) for item in SCRIPTS.items()]
    sys.exit(0 if all(good) else 1)


if __name__ == "__main__":
    main()
