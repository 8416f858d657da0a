"""Finds what the repository's files define: in specs/, and as types and functions of the code."""

import re

SPEC = re.compile(r"^(?:abbrev |unfoldable )?pub (?:data |record )?([A-Za-z_][\w'-]*) ?[:({]")
MODULE = re.compile(r"module\b")
TYPE = re.compile(r"\s*(?:pub(?:\(crate\))? )?(?:struct|enum|trait) (\w+)")
HEAD = re.compile(r"^( *)(?:pub(?:\([a-z]+\))? )?(?:const )?fn (\w+)")


def definitions_in(lines):
    """What a file of specs/ defines, inside a `module _` too: pairs of a place and a name."""
    margins, is_header, is_first = [0], False, False
    for place, line in enumerate(lines):
        text = line.strip()
        if not text or text.startswith("--"):
            continue
        margin = len(line) - len(line.lstrip())
        if is_first:
            margins.append(margin)
        while margin < margins[-1]:
            margins.pop()
        found = SPEC.match(text) if margin == margins[-1] and not is_header else None
        is_header = is_header or bool(MODULE.match(text))
        is_first = is_header and text.endswith("where")
        is_header = is_header and not is_first
        if found and found[1] not in ("mod", "use"):
            yield place, found[1]


def types_in(lines):
    """The types of a file of code: pairs of a place and a name."""
    for place, line in enumerate(lines):
        found = TYPE.match(line)
        if found:
            yield place, found[1]


class Function:
    """A function: its place and name, its clauses, and how many lines its body has."""

    def __init__(self, place, name):
        self.place, self.name, self.clauses, self.body = place, name, 0, 0


def functions_in(lines):
    """The functions of a file of code, in a trait too."""
    one, indent, has_body = None, "", False
    for place, line in enumerate(lines):
        head = HEAD.match(line) if one is None else None
        if head:
            one, indent, has_body = Function(place, head[2]), head[1], False
        if one is None:
            continue
        if not has_body:
            one.clauses += bool(re.match(r"\s*(ensures|requires)\b", line))
            # a head in one line, or the brace behind the clauses
            has_body = line == indent + "{" or (place == one.place and line.endswith("{"))
            has_body = has_body or line == indent + ") {" or line.startswith(indent + ") -> ") and line.endswith("{")
            ends = line.endswith("{}") or (not has_body and line.endswith(";"))
        else:
            ends = line == indent + "}"
            one.body += not ends
        if ends:
            yield one
            one = None
