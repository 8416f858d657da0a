"""The bars of our store beside LevelDB: of each operation the ratio, with the limit as a line."""

import drawing

STYLE = """
.ours { fill: #2b6cb0 } .less { fill: #c05621 } .limit { stroke: #111; stroke-width: 2 }
.even { stroke: #999; stroke-dasharray: 3 3 }
"""
LEFT, WIDE, HIGH, GREATEST = 290, 300, 20, 2.0


def bar_of(top, row):
    """One operation: its words, its bar, its limit and both rates."""
    text, ours, theirs, ratio, limit = row
    style = "less" if limit is not None and ratio < limit else "ours"
    middle = top + HIGH / 2 + 4
    yield drawing.text(LEFT - 8, middle, text, "end")
    yield drawing.box(LEFT, top + 4, WIDE * min(ratio, GREATEST) / GREATEST, HIGH - 8, style)
    if limit is not None:
        x = LEFT + WIDE * limit / GREATEST
        yield drawing.line(x, top + 1, x, top + HIGH - 1, "limit")
    yield drawing.text(LEFT + WIDE + 10, middle, f"{ratio:.2f}   {ours:,.0f} : {theirs:,.0f}")


def page_of(rows):
    """The picture's text."""
    parts = [drawing.text(LEFT, 16, "our speed by LevelDB's; a second: ours, LevelDB's", "bold")]
    top = 26
    for row in rows:
        parts += bar_of(top, row)
        top += HIGH
    x = LEFT + WIDE / GREATEST
    parts.append(drawing.line(x, 24, x, top + 2, "even"))
    parts.append(drawing.text(x, top + 16, "1", "mid"))
    words = "a black line: the limit; the other colour: below it"
    parts.append(drawing.text(LEFT, top + 32, words, "grey"))
    return drawing.page_of(LEFT + WIDE + 230, top + 42, STYLE, parts)


def draw(name, rows):
    """Writes the picture, and stops where its words lie on one another."""
    page = page_of(rows)
    faults = list(drawing.misplaced(page))
    if faults:
        raise SystemExit("\n".join(faults))
    drawing.write(name, page)
