"""The map of a list of batches in plain Python: what a key has, and a page of a range.

A batch is its edits as words of a script, and so are keys and values.
"""

from lab_texts import bytes_of, key_of

# The most bytes of a page, of which each row has its key, its value and so many more.
MOST_BYTES, ROW = 98_304, 4


def change_of(edit):
    """The key and the value of an edit, as bytes. A deletion has no value."""
    value = None if edit[:1] == "-" else bytes_of(edit.partition("=")[2])
    return bytes_of(key_of(edit)), value


def rows_of(changes):
    """The rows that changes leave, one after another, in the order of the keys."""
    values = dict(changes)
    return [(key, values[key]) for key in sorted(values) if values[key] is not None]


def value_at(batches, key):
    """The word of the value that a key has after these batches of edits, or None."""
    value = None
    for edit in (edit for batch in batches for edit in batch):
        if key_of(edit) == key:
            value = None if edit[:1] == "-" else edit.partition("=")[2]
    return value


def page_of(batches, low, bound, backward, limit):
    """The rows of a page after these batches, as pairs of words, and whether rows are left."""
    values = {}
    for edit in (edit for batch in batches for edit in batch):
        if edit[:1] == "-":
            values.pop(edit[1:], None)
        else:
            key, _, value = edit.partition("=")
            values[key] = value
    keys = [key for key in values if bytes_of(key) >= bytes_of(low)]
    keys = [key for key in keys if bound == "*" or bytes_of(key) < bytes_of(bound)]
    rows, size = [], 0
    keys.sort(key=bytes_of, reverse=backward)
    for key in keys:
        size += len(bytes_of(key)) + len(bytes_of(values[key])) + ROW
        if len(rows) == limit or size > MOST_BYTES:
            break
        rows.append((key, values[key]))
    return rows, len(rows) < len(keys)
