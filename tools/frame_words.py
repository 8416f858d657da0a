"""Frames to a node, spelled from words by docs/FORMATS.md and not by the code."""

import re

KINDS = ("forward", "ack", "notice", "submit", "get", "rows", "open", "close")


def number(word, size=8):
    """A number of so many bytes."""
    return int(word).to_bytes(size, "big")


def text(word):
    """A key or a value behind its length."""
    return number(len(word), 2) + word.encode()


def edit(word):
    """The edit KEY=VALUE, or the deletion -KEY."""
    key, is_put, value = word.partition("=")
    return b"\x01" + text(key) + text(value) if is_put else b"\x02" + text(word[1:])


def batch(words):
    """The batch of these edits, before which its mark may stand: CLIENT:REQUEST."""
    if found := re.fullmatch(r"(\d+):(\d+)", words[0]):
        return number(0, 2) + number(found[1]) + number(found[2]) + batch(words[1:])
    return number(len(words), 2) + b"".join(map(edit, words))


def ids(words):
    """The configuration of these nodes."""
    return number(len(words), 1) + b"".join(number(it, 2) for it in words)


def at(words):
    """A number that may be left out."""
    return b"\x01" + number(words[0]) if words else b"\x00"


def fields(kind, first, *rest):
    """The fields of a kind. A page is asked for all keys, and has at most 9 rows."""
    if kind in ("forward", "ack"):
        more = batch(rest[2:]) if kind == "forward" else number(rest[2])
        return number(first, 4) + number(rest[0], 2) + number(rest[1]) + more
    if kind == "notice":
        return number(first, 4) + ids(rest)
    ends = {
        "submit": lambda: batch(rest),
        "get": lambda: at(rest[1:]) + text(rest[0]),
        "rows": lambda: at(rest) + text("") + b"\x00\x00" + number(9, 4),
        "open": lambda: at(rest),
        "close": lambda: number(rest[0]),
    }
    return number(first) + ends[kind]()


def frame_of(words):
    """The bytes of the frame that words spell: its kind, and its fields. The first number of a request
    is its own."""
    kind, *rest = words.split(" ")
    content = number(KINDS.index(kind) + 1, 1) + fields(kind, *rest)
    return number(len(content), 4) + content
