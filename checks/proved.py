#!/usr/bin/env python3
"""Fails where docs/proved.md leaves out a public function that has a contract, or names a relation
that docs/semantics.md does not explain.

The text of a crate's section names functions; the others come in a list after it, each with the
first sentence of its comment.

    proved.py          checks
    proved.py --write  puts the lists into the page
"""

import re
import sys

import contracts
import specs
import tree

PAGE = tree.TOP / "docs" / "proved.md"
MEANING = tree.TOP / "docs" / "semantics.md"
# The crates whose definitions docs/semantics.md leaves out: those on public keys and on tables.
LEFT_OUT = re.compile(r"it_(numbers|ed|p256|p384|ecdsa_der|limb_slices|rsa|tables|vectors)|itv_cases")
HEADING = re.compile(r"^## (.+)$", re.MULTILINE)
# A name that a comment links to.
LINKED = re.compile(r"\[(`[^`]*`)\]")
LIST = "Further public functions, with what their contracts pin:"


def source_of(contract):
    """The lines of the file that has a contract."""
    path = tree.TOP / "crates" / contract.crate / "src" / contract.module.replace(".", "/")
    return path.with_suffix(".rt").read_text().splitlines()


def comment_before(lines, place):
    """The comment before a line, without the slashes; attributes may stand between."""
    comment = []
    for line in reversed(lines[:place]):
        if line.strip().startswith("///"):
            comment.insert(0, line.strip()[3:].strip())
        elif not line.strip().startswith("#"):
            break
    return " ".join(comment)


def uncapitalised(sentence):
    """A sentence with its first letter in lower case, if its first word is an ordinary word."""
    first = sentence.partition(" ")[0]
    is_plain = first.isalpha() and first[1:] == first[1:].lower()
    return sentence[:1].lower() + sentence[1:] if is_plain else sentence


def sentence_of(contract):
    """The first sentence of a function's comment, or None if the contract is not a function's."""
    lines = source_of(contract)
    start = re.compile(rf"\s*(pub )?(const )?fn {re.escape(contract.name)}\b")
    owner = re.compile(rf"(pub )?(impl|trait)\b.*\b{contract.owner}\b")
    inside = contract.owner is None
    for place, line in enumerate(lines):
        inside = inside or bool(owner.match(line))
        if inside and start.match(line):
            sentence = re.split(r"(?<=\.) ", comment_before(lines, place))[0]
            return uncapitalised(LINKED.sub(r"\1", sentence))
    return None


def functions():
    """The public functions of each library that have a contract, each with its sentence."""
    found = {}
    for source in contracts.read_all().values():
        for contract in source.contracts:
            is_type = contract.owner == contract.name
            if contract.is_public and contract.clauses.strip() and not is_type:
                sentence = sentence_of(contract)
                if sentence is not None and tree.is_library(contract.crate):
                    found.setdefault(contract.crate, []).append((contract, sentence))
    return found


def quoted_in(text):
    """What a text has between backticks."""
    return " ".join(re.findall(r"`([^`]*)`", text))


def is_named(contract, names, quoted):
    """Whether `quoted` names a function, with its owner if `names` has its name more than once."""
    owner = rf"\b{contract.owner}::" if contract.owner else r"(?<!::)\b"
    pattern = re.escape(contract.name) + r"\b"
    return re.search((owner if names.count(contract.name) > 1 else r"\b") + pattern, quoted)


def list_of(text, crates, found):
    """The list of the functions of these crates that a text does not name."""
    quoted = quoted_in(text)
    functions_here = [one for crate in crates for one in found.get(crate, [])]
    names = [contract.name for contract, _ in functions_here]
    free = [contract.name for contract, _ in functions_here if not contract.owner]
    items = []
    for contract, sentence in functions_here:
        if not is_named(contract, names, quoted):
            owner = contract.owner or (contract.crate if free.count(contract.name) > 1 else None)
            items.append(f"- `{f'{owner}::' if owner else ''}{contract.name}`: {sentence}")
    return [LIST, "", *items, ""] if items else []


def crates_of(heading):
    """The crates that a section is about."""
    return re.findall(r"\bit\w*", heading.split(":")[0])


def with_lists(page, found):
    """The page with its lists, and the crates that have no section on it."""
    parts = HEADING.split(page)
    left = set(found)
    made = [parts[0]]
    for heading, body in zip(parts[1::2], parts[2::2]):
        crates = crates_of(heading)
        left -= set(crates)
        text = body.split(LIST)[0].rstrip("\n") + "\n\n"
        made += [f"## {heading}", text + "\n".join([*list_of(text, crates, found), ""])]
    return "".join(made).rstrip("\n") + "\n", sorted(left)


def sections(page):
    """The crates of each section of the page, and its text."""
    parts = HEADING.split(page)
    for heading, body in zip(parts[1::2], parts[2::2]):
        yield crates_of(heading), body


def unexplained(page):
    """The relations that the sections name and that docs/semantics.md does not explain."""
    explained = set(re.findall(r"\w+", quoted_in(MEANING.read_text())))
    of_crates = {}
    for module in specs.read_all().values():
        names = {one.name for one in module.definitions if one.name[:1].isupper()}
        of_crates.setdefault(module.crate, set()).update(names)
    for crates, body in sections(page):
        named = set(re.findall(r"\w+", quoted_in(body)))
        for crate in crates:
            if not LEFT_OUT.match(crate):
                yield from sorted(named & of_crates.get(crate, set()) - explained)


def main():
    """Checks the page, or writes it, and returns the exit status."""
    words = tree.words_of(__doc__)
    words.add_argument("--write", action="store_true", help="put the lists into the page")
    page = PAGE.read_text()
    made, left = with_lists(page, functions())
    if words.parse_args().write:
        PAGE.write_text(made)
    elif made != page:
        left.append("a list")
    faults = [f"docs/proved.md lacks {name}: checks/proved.py --write" for name in left]
    return tree.report(faults + [f"docs/semantics.md does not explain {name}"
                                 for name in unexplained(made)])


if __name__ == "__main__":
    sys.exit(main())
