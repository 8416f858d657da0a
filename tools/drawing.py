"""What the tools that draw have in common: the parts of a picture, and what is wrong with one."""

import argparse
import html
import pathlib
import sys
import xml.etree.ElementTree as tree

ROOT = pathlib.Path(__file__).resolve().parent.parent
PICTURES = ROOT / "docs/pictures"
# The width of a letter, and how far it stands above and below its line.
CHAR, WIDTH, ABOVE, BELOW = 6.7, 6.63, 9, 2
STYLE = """
text { font: 11px "DejaVu Sans Mono", Menlo, Consolas, monospace; fill: #111 }
.paper { fill: #fff } .grey { fill: #666 } .bold { font-weight: bold }
.end { text-anchor: end } .mid { text-anchor: middle }
"""


def text(x, y, words, style=""):
    """Words at a place of the page."""
    named = f' class="{style}"' if style else ""
    return f'<text x="{x:.1f}" y="{y:.1f}"{named}>{html.escape(words)}</text>' if words else ""


def line(x0, y0, x1, y1, style, end=""):
    """A line of a style, with an end of its own or none."""
    marker = f' marker-end="url(#{end}-{style})"' if end else ""
    places = f'x1="{x0:.1f}" y1="{y0:.1f}" x2="{x1:.1f}" y2="{y1:.1f}"'
    return f'<line {places} class="{style}"{marker}/>'


def box(x, y, width, height, style):
    """A box of a style."""
    size = f'width="{width:.1f}" height="{height:.1f}"'
    return f'<rect class="{style}" x="{x:.1f}" y="{y:.1f}" {size}/>'


def path(places, style, end=""):
    """A line through places, with an end of its own or none."""
    marker = f' marker-end="url(#{end}-{style})"' if end else ""
    ends = "L".join(f"{x:.1f} {y:.1f}" for x, y in places)
    return f'<path class="{style}" d="M{ends}"{marker}/>'


def arrow_head(kind, colour):
    """The head of the arrows of a style."""
    form = 'viewBox="0 0 10 10" refX="10" refY="5" markerWidth="8" markerHeight="8"'
    name = f'id="head-{kind}" markerUnits="userSpaceOnUse" orient="auto"'
    path = f'<path d="M0 0L10 5L0 10z" fill="{colour}"/>'
    return f"<defs><marker {name} {form}>{path}</marker></defs>"


def page_of(width, height, style, parts):
    """The text of a picture's file."""
    size = f'width="{width:.0f}" height="{height:.0f}"'
    head = f'<svg xmlns="http://www.w3.org/2000/svg" {size} viewBox="0 0 {width:.0f} {height:.0f}">'
    paper = '<rect class="paper" width="100%" height="100%"/>'
    style = f"<style>{STYLE}{style.lstrip()}</style>"
    return "\n".join([head, style, paper, *filter(None, parts), "</svg>"]) + "\n"


def boxes_of(root):
    """The texts of a picture, each with its left, right, top and bottom."""
    for it in root.iterfind(".//{*}text"):
        style = it.get("class", "").split(" ")
        width, x, y = len(it.text) * WIDTH, float(it.get("x")), float(it.get("y"))
        left = x - width * (1 if "end" in style else 0.5 if "mid" in style else 0)
        yield it.text, left, left + width, y - ABOVE, y + BELOW


def misplaced(page):
    """The texts of a picture that lie on one another, or not on the paper."""
    root = tree.fromstring(page)
    boxes = list(boxes_of(root))
    width, height = (float(root.get(it)) for it in ("width", "height"))
    for at, (words, left, right, top, bottom) in enumerate(boxes):
        if left < 0 or top < 0 or right > width or bottom > height:
            yield f"'{words}' leaves the page"
        for other, start, end, high, low in boxes[:at]:
            if left < end and start < right and top < low and high < bottom:
                yield f"'{words}' lies on '{other}'"


def words_of_tool(name, usage, description, options=()):
    """The words that a tool is called with: NAME, --check, or one of its own options."""
    parser = argparse.ArgumentParser(
        prog=name,
        usage=usage,
        description=description,
        formatter_class=argparse.RawDescriptionHelpFormatter,
    )
    parser.add_argument("name", nargs="?", metavar="NAME")
    parser.add_argument("--check", action="store_true")
    for option in options:
        parser.add_argument(option, metavar="PATH")
    words = parser.parse_args()
    if not (words.name or words.check or any(getattr(words, it[2:]) for it in options)):
        parser.error("NAME, or an option")
    return words


def write(name, page):
    """Writes a picture into the file NAME.svg, and prints the file's name."""
    path = pathlib.Path(f"{name}.svg")
    path.write_text(page, encoding="utf-8")
    print(path)


def page_faults(name, page):
    """What is wrong with a picture, and with its copy in docs/pictures."""
    path = PICTURES / f"{name}.svg"
    if not path.exists() or path.read_text(encoding="utf-8") != page:
        yield f"docs/pictures/{name}.svg is another picture"
    yield from misplaced(page)


def end_with(tool, faults):
    """Prints what is wrong, and how much; ends with status 1 where something is, or the look at it
    fails."""
    try:
        faults = list(faults)
    except (ValueError, OSError) as fault:
        sys.exit(f"{tool}: {fault}")
    print(*faults, f"{len(faults)} faults", sep="\n")
    sys.exit(1 if faults else 0)
