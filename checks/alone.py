#!/usr/bin/env python3
"""Fails where a text cites what is outside this repository: a paper, a demand, a machine's path."""

import re
import sys

import tree

CITATION = re.compile(
    r"\b[TDWR][0-9]+\b|\b[Rr]ow [0-9]+|\bdocument 0[1-4]\b|/(?:work|opt|home)/"
)
# What looks like a citation but is not: base64, hexadecimal digits, the time of day in a moment.
ALLOWED = [
    re.compile(r"[A-Za-z0-9+/]{20,}={1,2}"),
    re.compile(r"\b[0-9A-Fa-f]{8,}\b"),
    re.compile(r"\bT[0-9]{2}(?=:[0-9]{2})"),
]
ENDINGS = {".rt", ".antt", ".edit", ".md"}


def texts():
    """The files to check."""
    for folder in ("crates", "docs", "examples", "conformance", "trials", "bench"):
        for path in sorted((tree.TOP / folder).rglob("*")):
            is_made = "out" in path.relative_to(tree.TOP).parts
            if path.suffix in ENDINGS and path.is_file() and not is_made:
                yield path
    yield from sorted(tree.TOP.glob("*.md"))


def without_allowed(line):
    """The line with what is allowed taken out."""
    for pattern in ALLOWED:
        line = pattern.sub("", line)
    return line


def faults_of(path):
    """The citations in a file."""
    for number, line in enumerate(path.read_text().splitlines(), 1):
        found = CITATION.search(without_allowed(line))
        if found:
            yield f"{tree.name_of(path)}:{number}: cites {found[0]!r}"


if __name__ == "__main__":
    sys.exit(tree.report([fault for path in texts() for fault in faults_of(path)]))
