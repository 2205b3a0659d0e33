#!/usr/bin/env python3
"""Fails where a product file, a line or the body of a function is too long, or a private function
has too many parameters.

    shape.py           files, lines, bodies and parameters of src/ and specs/
    shape.py --proofs  the lines of proofs/ too, except those that name a goal and its answer

A table that a script of conformance/ made may have any number of lines, and a line that is a number
any length.
"""

import re
import sys

import tree

MOST_LINES = 250
MOST_COLUMNS = 100
MOST_BODY_LINES = 35
MOST_PARAMETERS = 5
# What the traits of checks ask, in the form that their callers have.
OF_TRAIT = {"any_valid"}
# A line of a proof with nothing but two names, both given by the check.
ANSWER = re.compile(r"\s*(abbrev )?(pub )?\S+ : goal\.\S+$")
# A line with nothing but a number, such as those of a curve.
NUMBER = re.compile(r"\s*\d+$")
# The first line of a table that a script made.
MADE = re.compile(r"//! .+, made by conformance/\w+\.$")
FUNCTION = re.compile(r"( *)(?:pub(?:\([a-z]+\))? )?(?:unsafe )?(?:const )?fn (\w+)")
# The head of a function that other crates do not see, up to its first parameter.
PRIVATE = re.compile(r"^ *(?:pub\(crate\) )?fn (\w+)(?:<.*>)?\(", re.MULTILINE)


def product_files(crate):
    """The files of src/ and specs/."""
    return tree.folder_files(crate, "src", ".rt") + tree.folder_files(crate, "specs", ".antt")


def long_file(path, lines):
    """The fault of a file that has too many lines."""
    if len(lines) > MOST_LINES and not MADE.match(lines[0]):
        yield f"{tree.name_of(path)}: {len(lines)} lines, more than {MOST_LINES}"


def long_lines(path, lines):
    """The lines that have too many columns."""
    for number, line in enumerate(lines, 1):
        if len(line) > MOST_COLUMNS and not ANSWER.match(line) and not NUMBER.match(line):
            yield f"{tree.name_of(path)}:{number}: {len(line)} columns, more than {MOST_COLUMNS}"


def body_of(lines, start, indent):
    """The places of a body's first line, which is at or after a line, and of its closing brace."""
    first = start
    while not lines[first].endswith("{") or re.search(r"\b(requires|ensures)\b", lines[first]):
        if lines[first].rstrip().endswith((";", "{}")):
            return first, first
        first += 1
    last = first
    while lines[last] != indent + "}":
        last += 1
    return first + 1, last


def long_bodies(path, lines):
    """The functions whose bodies have too many lines, in the layout of rt fmt."""
    for number, line in enumerate(lines):
        found = FUNCTION.match(line)
        if found:
            first, last = body_of(lines, number, found[1])
            if last - first > MOST_BODY_LINES:
                told = f"{found[2]} has {last - first} lines, more than {MOST_BODY_LINES}"
                yield f"{tree.name_of(path)}:{number + 1}: {told}"


def parameters_at(text, place):
    """How many parameters follow, up to the bracket that closes them."""
    depth, count, begun = 1, 0, False
    while depth:
        here = text[place]
        depth += (here in "([<") - (here in ")]" or here == ">" and text[place - 1] != "-")
        if depth == 0 or depth == 1 and here == ",":
            count, begun = count + begun, False
        else:
            begun = begun or not here.isspace()
        place += 1
    return count


def many_parameters(path, text):
    """The private functions that have too many parameters."""
    for found in PRIVATE.finditer(text):
        count = parameters_at(text, found.end())
        if count > MOST_PARAMETERS and found[1] not in OF_TRAIT:
            told = f"{found[1]} has {count} parameters, more than {MOST_PARAMETERS}"
            yield f"{tree.name_of(path)}:{text.count(chr(10), 0, found.end()) + 1}: {told}"


def file_faults(path):
    """Everything that is too long in a file."""
    text = path.read_text()
    lines = text.splitlines()
    yield from long_file(path, lines)
    yield from long_lines(path, lines)
    if path.suffix == ".rt":
        yield from long_bodies(path, lines)
        yield from many_parameters(path, text)


def main():
    """Does what the arguments say."""
    words = tree.words_of(__doc__)
    words.add_argument("--proofs", action="store_true")
    chosen = words.parse_args()
    faults = []
    for crate in tree.crate_names():
        for path in product_files(crate):
            faults += file_faults(path)
        for path in tree.folder_files(crate, "proofs", ".antt") if chosen.proofs else []:
            faults += long_lines(path, path.read_text().splitlines())
    return tree.report(faults)


if __name__ == "__main__":
    sys.exit(main())
