"""Reads files of cases: what a program is given, and what it has to print.

A file of cases begins with comments, lines that begin with `#`, and a line `program: NAME WORD ..`.
Then each case has

- a line `=== TITLE`, a sentence on what the case shows;
- lines that may be left out: `words: WORD ..`, more words of the program, as a shell reads them;
  `each: TEXT | TEXT ..`, the case is tried for each of these texts, which stands where `{}` does, also
  in other such lines; `also: LINE`, the case is tried once more with this line before its input, so that
  what is printed has greater numbers of lines; `without: SIGN`, lines of the input that begin with this
  sign change nothing: the case is tried with them, without their signs, and once more with an empty
  line in the place of each, where what is printed lacks the lines with their numbers;
- the input;
- `--- stdout`, and what is printed; `--- stdout ends`, and how it ends; `--- stdout has`, and lines
  that it has, in this order; or `--- stderr`, and what is reported. Behind it may stand `, status N`.
  What a case does not name is empty, and the status is 0.

A case runs in a folder of its own, which is empty, and has to be so behind it. These lines are for
programs that work on files:

- `files: PATH=HEX ..`, files that are there before the run, with their bytes, and folders `PATH`;
  `meanwhile: PATH=HEX ..`, files that are written once the run has printed something. It goes on up to
  4,096 bytes of what it prints, and waits there;
- `locked: PATH`, a folder that another user has locked; `same:`, the run changes nothing in the folder;
- `leaves: PATH ..`, what a case leaves: these files and folders, and nothing that is not below them;
- `+++ TITLE` behind an answer: another run in the same folder, with its own lines, input and answer.
  `each`, `also`, `without` and `leaves` stand in the first one.

An input or answer that ends without a line feed ends with a backslash and a line feed. In both
`{TEXT*N}` stands for N times this text, `{TEXT*A..B}` for this text with each number from A to B in
the place of `$`, `{0xHEX}` for bytes, and `{frame WORD ..}` for the bytes of a frame, in hexadecimal
(`frame_words.py`); the inner one of two is read first. In these texts and in those of `each` `\\n`
is a line feed.
"""

import collections
import re
import shlex

from frame_words import frame_of

# One run: the words of its program, its input, and what it has to end with: standard output and
# whether that is all of it (""), its end ("ends") or some of its lines ("has"), standard error, and the
# status. Then what stands in its folder before it, and meanwhile, each a path with bytes or None for a
# folder; a folder that is locked, or None; whether it changes nothing.
Run = collections.namedtuple("Run", "words given out part err status files meanwhile locked same")
# A case: its title, its runs one after another, and what they leave.
Case = collections.namedtuple("Case", "title runs leaves")
TITLE = re.compile(r"(?m)^=== (.*)\n")
FURTHER = re.compile(r"(?m)^\+\+\+ .*\n")
OF_CASE = ("each", "also", "without", "leaves")
OF_RUN = ("words", "files", "meanwhile", "locked", "same")
OPTION = re.compile(rf"({'|'.join(OF_CASE + OF_RUN)}):(?: (.*))?\n")
ANSWER = re.compile(r"(?m)^--- (stdout|stdout ends|stdout has|stderr)(?:, status (\d+))?\n")
FORM = re.compile(r"\{(?:0x([0-9a-f]+)|frame ([^{}]*)|([^{}]*)\*(\d+)(?:\.\.(\d+))?)\}")
NUMBER = re.compile(rb"(?m)^(?:(line )?(\d+))(?=: )")


class BadCases(Exception):
    """A file of cases that is of another form."""


def expanded(form):
    """What a form in braces stands for, a character for each byte."""
    code, frame, text, first, last = form.groups()
    if code is not None:
        return bytes.fromhex(code).decode("latin-1")
    if frame is not None:
        return frame_of(frame).hex()
    text = text.replace("\\n", "\n")
    if last is None:
        return text * int(first)
    return "".join(text.replace("$", str(it)) for it in range(int(first), int(last) + 1))


def bytes_of(text, chosen):
    """The bytes of an input or answer, with this text in the place of `{}`."""
    text, found = text.replace("{}", chosen.replace("\\n", "\n")), 1
    while found:
        text, found = FORM.subn(expanded, text)
    return text.encode("latin-1")


def shifted(answer):
    """An answer with each number of a line one greater."""
    return NUMBER.sub(lambda it: (it[1] or b"") + str(int(it[2]) + 1).encode(), answer)


def files_of(text):
    """Paths with their bytes, or None for a folder."""
    words = [word.partition("=") for word in text.split()]
    return [(path, bytes.fromhex(spelled) if sign else None) for path, sign, spelled in words]


def left_out(sign, given, answer):
    """An input with an empty line for each that has the sign, and an answer without what these print."""
    lines = given.split(b"\n")
    signed = {str(place).encode() for place, it in enumerate(lines, 1) if it.startswith(sign)}
    if not signed:
        raise BadCases("a case without lines of its sign")
    kept = [it for it in answer.splitlines(keepends=True) if it.partition(b":")[0] not in signed]
    return b"\n".join(b"" if it.startswith(sign) else it for it in lines), b"".join(kept)


def ways_of(options, name, run):
    """How a case is tried: each time its name, and its first run."""
    given, part = run.given, "err" if run.err else "out"
    answer = getattr(run, part)
    if sign := options.get("without", "").encode():
        less, kept = left_out(sign, given, answer)
        yield f"{name} [without]", run._replace(given=less, **{part: kept})
        given = b"\n".join(it.removeprefix(sign) for it in given.split(b"\n"))
    yield name, run._replace(given=given)
    if line := options.get("also"):
        more = f"{line}\n".encode() + given
        yield f"{name} [{line}]", run._replace(given=more, **{part: shifted(answer)})


def split_run(title, body):
    """The lines of a run by their names, its input, and its answer: its kind, status and text."""
    options = {}
    while option := OPTION.match(body):
        if option[1] in options:
            raise BadCases(f"{title}: two lines {option[1]}")
        options[option[1]] = option[2] or ""
        body = body[option.end() :]
    parts = ANSWER.split(body)
    if len(parts) != 4:
        raise BadCases(f"{title}: a run has one answer")
    given, kind, status, answer = parts
    return options, given.removesuffix("\\\n"), (kind, int(status or 0)), answer.removesuffix("\\\n")


def run_of(part, words, chosen):
    """The run of a part of a case, for the text of `each`."""
    options, given, (kind, status), answer = part
    text, wanted = bytes_of(given, chosen), bytes_of(answer, chosen)
    options = {name: bytes_of(it, chosen).decode() for name, it in options.items() if name in OF_RUN}
    words = words + shlex.split(options.get("words", ""))
    out, err = (b"", wanted) if kind == "stderr" else (wanted, b"")
    there = [files_of(options.get(name, "")) for name in ("files", "meanwhile")]
    more = (*there, options.get("locked"), "same" in options)
    return Run(words, text, out, kind[7:] if out else "", err, status, *more)


def cases_of(title, body, words):
    """The cases that a case of a file stands for."""
    parts = [split_run(title, it) for it in FURTHER.split(body)]
    first = parts[0][0]
    alone = {"also", "without"} & set(first)
    if any(set(it[0]) & set(OF_CASE) for it in parts[1:]) or alone and len(parts) > 1:
        raise BadCases(f"{title}: a line of the first run alone")
    for chosen in first.get("each", "").split(" | "):
        name = f"{title} [{chosen}]" if chosen else title
        leaves = bytes_of(first.get("leaves", ""), chosen).decode().split()
        run, *further = [run_of(it, words, chosen) for it in parts]
        for way, run in ways_of(first, name, run):
            yield Case(way, [run, *further], leaves)


def cases_in(text):
    """The cases of a file, the first word of each run being its program."""
    head, *parts = TITLE.split(text)
    lines = [it for it in head.split("\n") if it and not it.startswith("#")]
    if len(lines) != 1 or not lines[0].startswith("program: ") or not parts:
        raise BadCases("a file of cases begins with its program, and has a case")
    for title, body in zip(parts[::2], parts[1::2]):
        yield from cases_of(title, body, lines[0].split()[1:])
