#!/usr/bin/env python3
"""Keeps docs/flow.svg, a picture of a delivery on its way through a verification.

    flow.py          fails where the picture is not what this script draws
    flow.py --write  draws it
"""

import sys
from xml.sax.saxutils import escape

import tree

PICTURE = tree.TOP / "docs" / "flow.svg"
WIDTH, HEIGHT = 920, 480
# The stages in order: the question, in two lines, what is read to answer it, and the refusals.
STAGES = [
    ("Do the policy, the digest list", "and the moment read?", "policy, sums, at", "10 – 14"),
    ("Is the layout signed", "by every owner?", "layout, policy", "20 – 23"),
    ("Enough keys for each step, with", "records that agree? Rules kept?", "links, layout", "30 – 35, 40"),
    ("Does each inspection have its", "record, and keep its rules?", "records", "40, 50, 51"),
    ("Do the delivered files keep", "the policy's deliver rules?", "sums, policy", "40"),
    ("Does each file have signed", "provenance as expected?", "provenance, policy", "60 – 61"),
]
# Where each input comes from.
SOURCES = [
    ("comes with the delivery", ["layout.envelope.json", "links/", "provenance.jsonl"], "#fff3dc"),
    ("from the delivered files", ["sums, by itv digest"], "#e6f2e6"),
    ("is your own", ["policy.json", "rings, where there are any", "records/", "the moment"], "#e3edf9"),
]
STYLE = ("text{font-family:Helvetica,Arial,sans-serif;font-size:14px;fill:#222}"
         ".small{font-size:12px;fill:#555}.strong{font-weight:bold}"
         "line,path{stroke:#555;stroke-width:1.5;fill:none}")
LEFT, STAGE_LEFT, STAGE_WIDTH, STAGE_HEIGHT, STEP = 20, 290, 330, 46, 62
REFUSED_LEFT = 760


def text(left, base, words, kind=""):
    """A line of text."""
    named = f' class="{kind}"' if kind else ""
    return f'<text x="{left}" y="{base}"{named}>{escape(words)}</text>'


def box(left, top, width, height, colour):
    """A box."""
    return (f'<rect x="{left}" y="{top}" width="{width}" height="{height}" rx="6" '
            f'fill="{colour}" stroke="#999"/>')


def arrow(path):
    """An arrow along a path."""
    return f'<path d="{path}" marker-end="url(#tip)"/>'


def sources():
    """The boxes of what goes in."""
    top = 50
    for title, files, colour in SOURCES:
        height = 34 + 20 * len(files)
        yield box(LEFT, top, 220, height, colour)
        yield text(LEFT + 12, top + 21, title, "strong")
        for number, file in enumerate(files):
            yield text(LEFT + 12, top + 43 + 20 * number, file)
        yield arrow(f"M{LEFT + 220},{top + height // 2} H{STAGE_LEFT - 26}")
        top += height + 24


def stages():
    """The boxes of the questions, each with the refusals that it can end in."""
    for number, (first, second, given, refusals) in enumerate(STAGES):
        top = 50 + STEP * number
        middle = top + STAGE_HEIGHT // 2
        yield box(STAGE_LEFT, top, STAGE_WIDTH, STAGE_HEIGHT, "#fff")
        yield text(STAGE_LEFT + 12, top + 19, first)
        yield text(STAGE_LEFT + 12, top + 37, second)
        yield (f'<text x="{STAGE_LEFT + STAGE_WIDTH - 10}" y="{top + 37}" text-anchor="end" '
               f'class="small">{escape(given)}</text>')
        yield arrow(f"M{STAGE_LEFT + STAGE_WIDTH},{middle} H{REFUSED_LEFT - 2}")
        yield text(STAGE_LEFT + STAGE_WIDTH + 12, middle - 6, f"no: {refusals}", "small")
        yield arrow(f"M{STAGE_LEFT + 40},{top + STAGE_HEIGHT} V{top + STEP - 2}")
        yield text(STAGE_LEFT + 50, top + STAGE_HEIGHT + 12, "yes", "small")


def ends():
    """The boxes of the two verdicts."""
    last = 50 + STEP * len(STAGES)
    yield box(STAGE_LEFT, last, STAGE_WIDTH, 32, "#d3ecd3")
    yield text(STAGE_LEFT + 12, last + 21, "accepted: each step, each file; status 0", "strong")
    yield box(REFUSED_LEFT, 50, 140, STEP * len(STAGES) - 16, "#f9dedc")
    for number, (words, kind) in enumerate([("refused", "strong"), ("by the first that", ""),
                                            ("does not hold;", ""), ("status 1", "")]):
        yield text(REFUSED_LEFT + 12, 200 + 20 * number, words, kind)


def picture():
    """The text of the picture."""
    tip = ('<marker id="tip" viewBox="0 0 8 8" refX="7" refY="4" markerWidth="7" markerHeight="7" '
           'orient="auto"><path d="M0,0 L8,4 L0,8 z" style="fill:#555;stroke:none"/></marker>')
    side = STAGE_LEFT - 26
    bottom = 50 + STEP * (len(STAGES) - 1) + STAGE_HEIGHT // 2
    parts = [
        f'<svg xmlns="http://www.w3.org/2000/svg" viewBox="0 0 {WIDTH} {HEIGHT}" '
        f'width="{WIDTH}" height="{HEIGHT}" role="img">',
        "<title>A delivery on its way through itv verify</title>",
        "<!-- Made by checks/flow.py. -->",
        f"<defs><style>{STYLE}</style>{tip}</defs>",
        f'<rect width="{WIDTH}" height="{HEIGHT}" fill="#fdfdfd"/>',
        text(LEFT, 30, "What goes in", "strong"),
        text(STAGE_LEFT, 30, "What itv verify asks, in this order", "strong"),
        text(REFUSED_LEFT, 30, "What comes out", "strong"),
        f'<line x1="{side}" y1="50" x2="{side}" y2="{bottom}"/>',
        *(arrow(f"M{side},{50 + STEP * number + STAGE_HEIGHT // 2} H{STAGE_LEFT - 2}")
          for number in range(len(STAGES))),
        *sources(), *stages(), *ends(), "</svg>",
    ]
    return "\n".join(parts) + "\n"


def main():
    """Does what the arguments say."""
    words = tree.words_of(__doc__)
    words.add_argument("--write", action="store_true")
    if words.parse_args().write:
        PICTURE.write_text(picture())
    is_drawn = PICTURE.exists() and PICTURE.read_text() == picture()
    return tree.report([] if is_drawn else [f"{tree.name_of(PICTURE)}: is not what flow.py draws"])


if __name__ == "__main__":
    sys.exit(main())
