#!/usr/bin/env python3
"""Keeps docs/must-fail.md, the index of the must-fail edits, by crate and then by rule.

Each rule has a source file of its own, so an edit is listed under the file that it changes, with
the first sentence of the comment at the head of that file. Fails where the page is not what this
script writes; where an edit changes no source file, or one without such a comment; where what it
changes does not stand there just once; where two edits share a name; and where the gate has more
edits, or more crates with edits, than it should.

    edits.py          checks
    edits.py --write  writes the page
"""

import collections
import re
import sys

import tree

PAGE = tree.TOP / "docs" / "must-fail.md"
# Where the edits of a crate are that the gate tries, and those that a trial tries.
IN_GATE, IN_TRIAL = "crates/{}/must-fail", "trials/edits/{}"
# The most edits in the gate, and the most crates with any: each such crate is proved twice.
MOST_EDITS, MOST_CRATES = 60, 17
HEAD = """\
# The must-fail edits, by rule

Each turns a meaning that a user would feel. The gate tries {gate} of them, those of \
`crates/*/must-fail`, and fails where a proof lets one pass; `trials/edits/run` tries the other \
{trial}, those of `trials/edits`. [What makes a good one](../CONTRIBUTING.md#must-fail-edits). \
Made by `checks/edits.py --write`.
"""


def edits_of(crate, place):
    """The edits of a crate in a place, each with the source files that it changes."""
    for path in sorted((tree.TOP / place.format(crate)).glob("*.edit")):
        found = re.findall(r"^file: (\S+)$", path.read_text(), re.MULTILINE)
        yield path, [file for file in found if file.startswith("src/")]


def subject_of(path):
    """The first sentence of the comment at the head of a source file."""
    lines = []
    for line in path.read_text().splitlines() if path.exists() else []:
        if not line.startswith("//!"):
            break
        lines.append(line.removeprefix("//!").strip())
    return re.split(r"(?<=\.)\s", " ".join(lines))[0].rstrip(".")


def by_file(crate, place):
    """The names of a crate's edits in a place, by the first file that each changes."""
    found = {}
    for path, files in edits_of(crate, place):
        for file in files[:1]:
            found.setdefault(file, []).append(path.stem)
    return dict(sorted(found.items()))


def rows(crate):
    """The rows of a crate's table."""
    gate, trial = by_file(crate, IN_GATE), by_file(crate, IN_TRIAL)
    for file in sorted({*gate, *trial}):
        subject = subject_of(tree.TOP / "crates" / crate / file).replace("|", "\\|")
        cells = [", ".join(f"`{name}`" for name in found.get(file, [])) for found in (gate, trial)]
        yield f"| {subject} | `{file.removeprefix('src/')}` | {' | '.join(cells)} |"


def counts():
    """For the gate and for the trial, how many edits each crate has that has any."""
    found = [{crate: len(list(edits_of(crate, place))) for crate in tree.crate_names()}
             for place in (IN_GATE, IN_TRIAL)]
    return [{crate: count for crate, count in one.items() if count} for one in found]


def page():
    """The text of the page."""
    parts = []
    for crate in tree.crate_names():
        found = list(rows(crate))
        if found:
            head = (f"## {crate}\n\n| What the file is about | File | In the gate | In the trial |\n"
                    "|---|---|---|---|")
            parts.append("\n".join([head, *found]))
    gate, trial = (sum(one.values()) for one in counts())
    return HEAD.format(gate=gate, trial=trial) + "\n" + "\n\n".join(parts) + "\n"


def faults_of_pairs(crate, path):
    """Where an edit's texts cannot be replaced: in order, each pair in what earlier ones made."""
    texts, file, old = {}, None, None
    for line in path.read_text().splitlines():
        word, _, text = line.partition(": ")
        if word == "file":
            file = tree.TOP / "crates" / crate / text
            texts.setdefault(file, file.read_text() if file.exists() else "")
        elif word == "old":
            old = text
            if texts.get(file, "").count(old) != 1:
                yield f"{tree.name_of(path)}: does not stand just once in its file: {old}"
        elif word == "new" and file and old:
            texts[file] = texts[file].replace(old, text)


def faults_of_edit(crate, path, files):
    """What is wrong with an edit."""
    if not files:
        yield f"{tree.name_of(path)}: changes no file of src/"
    for file in files[:1]:
        if not subject_of(tree.TOP / "crates" / crate / file):
            yield f"crates/{crate}/{file}: says nothing of itself at its head"
    yield from faults_of_pairs(crate, path)


def faults_of_places():
    """Where edits are in no crate's folder, and where two have one name."""
    known = tree.crate_names()
    names = collections.Counter()
    for path in [*tree.TOP.glob("crates/*/must-fail/*"), *tree.TOP.glob("trials/edits/*/*")]:
        names[path.stem] += 1
        crate = path.parts[-3] if path.parent.name == "must-fail" else path.parent.name
        if crate not in known or path.suffix != ".edit":
            yield f"{tree.name_of(path)}: is no edit of a crate"
    yield from (f"two edits have the name {name}" for name, count in names.items() if count > 1)


def faults():
    """What is not as it should be."""
    for crate in tree.crate_names():
        for place in (IN_GATE, IN_TRIAL):
            for path, files in edits_of(crate, place):
                yield from faults_of_edit(crate, path, files)
    yield from faults_of_places()
    gate = counts()[0]
    if sum(gate.values()) > MOST_EDITS or len(gate) > MOST_CRATES:
        yield (f"the gate has {sum(gate.values())} edits in {len(gate)} crates, more than "
               f"{MOST_EDITS} or {MOST_CRATES}: move some to trials/edits")
    if not PAGE.exists() or PAGE.read_text() != page():
        yield f"{tree.name_of(PAGE)}: is not what the edits give: run checks/edits.py --write"


def main():
    """Does what the arguments say."""
    words = tree.words_of(__doc__)
    words.add_argument("--write", action="store_true")
    if words.parse_args().write:
        PAGE.write_text(page())
    return tree.report(list(faults()))


if __name__ == "__main__":
    sys.exit(main())
