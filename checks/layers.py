#!/usr/bin/env python3
"""Fails where the table of crates in docs/layers.md is not what crates.txt and the crates give, or
where its tables of rules name files that do not exist.

A row of the table of crates has the first sentence of the crate's own comment, and the crates that
it stands on: those of crates.txt, without the ones that these stand on themselves. It comes after
the rows of the crates that it stands on.

    layers.py          checks
    layers.py --write  puts the table of crates into the page
"""

import re
import sys

import tree

PAGE = tree.TOP / "docs" / "layers.md"
TABLE = re.compile(r"^\| Crate \| .*\n(?:\|.*\n)+", re.MULTILINE)
# A table of a crate's rules, with a column for each of these folders.
RULES = re.compile(r"^In `(?P<crate>\w+)`.*\n\n.*\n.*\n(?P<rows>(?:\|.*\n)+)", re.MULTILINE)
FOLDERS = ("src", "specs", "proofs")


def uses_of():
    """The crates of this repository that each crate uses."""
    names = tree.crate_names()
    lines = [line.split("#")[0].partition(":") for line in
             (tree.TOP / "crates.txt").read_text().splitlines()]
    words = {head.split()[0]: rest.split() for head, _, rest in lines if head.split()}
    return {name: [used for used in words[name] if used in names] for name in names}


def below(name, uses):
    """All crates that a crate stands on, directly or through others."""
    found = set(uses[name])
    for used in uses[name]:
        found |= below(used, uses)
    return found


def stands_on(name, uses):
    """The crates that a crate uses, without those that another crate it uses stands on."""
    implied = set().union(*(below(used, uses) for used in uses[name]))
    return [used for used in uses[name] if used not in implied]


def in_order(uses):
    """The crates in the order of crates.txt, but each after those that it uses."""
    found = []

    def visit(name):
        if name not in found:
            for used in uses[name]:
                visit(used)
            found.append(name)

    for name in tree.crate_names():
        visit(name)
    return found


def sentence_of(name):
    """The first sentence of a crate's comment, without a program's name and arguments."""
    root = "lib.rt" if tree.is_library(name) else "main.rt"
    lines = (tree.TOP / "crates" / name / "src" / root).read_text().splitlines()
    comment = []
    for line in lines:
        if not line.startswith("//! "):
            break
        comment.append(line[4:].strip())
    first = re.split(r"(?<=[a-z)`])\. ", " ".join(comment))[0].rstrip(".") + "."
    first = re.sub(r"^`[^`]*`: ", "", first)
    return first[0].upper() + first[1:]


def table():
    """The table of the crates."""
    uses = uses_of()
    rows = ["| Crate | What it is | Stands on |", "|---|---|---|"]
    for name in in_order(uses):
        used = ", ".join(f"`{one}`" for one in stands_on(name, uses))
        rows.append(f"| `{name}` | {sentence_of(name)} | {used} |")
    return "\n".join(rows) + "\n"


def files_named(rows):
    """The files that a table's rows name, each with its folder, remarks in parentheses aside."""
    for row in rows.splitlines():
        for folder, cell in zip(FOLDERS, row.strip("|").split("|")[1:]):
            for name in re.findall(r"`([^`]+)`", re.sub(r"\(.*?\)", "", cell)):
                yield f"{folder}/{name}"


def faults_of_rules(text):
    """The files that the tables of rules name and that do not exist."""
    tables = list(RULES.finditer(text))
    if not tables:
        yield "docs/layers.md: there is no table of rules"
    for found in tables:
        for name in files_named(found["rows"]):
            path = tree.TOP / "crates" / found["crate"] / name
            if not path.exists() and not path.with_suffix(".antt").exists():
                yield f"docs/layers.md: {found['crate']} has no {name}"


def faults_of_crates(text):
    """The fault where the page has another table of crates."""
    if not TABLE.search(text) or TABLE.sub(lambda _: table(), text, count=1) != text:
        yield "docs/layers.md: not the crates as they are: run checks/layers.py --write"


def main():
    """Checks the page, or writes its table, and returns the exit status."""
    words = tree.words_of(__doc__)
    words.add_argument("--write", action="store_true", help="put the table of crates into the page")
    if words.parse_args().write:
        PAGE.write_text(TABLE.sub(lambda _: table(), PAGE.read_text(), count=1))
    text = PAGE.read_text()
    return tree.report([*faults_of_crates(text), *faults_of_rules(text)])


if __name__ == "__main__":
    sys.exit(main())
