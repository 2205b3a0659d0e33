"""The files that digest lists by SHA-256 and by SHA-512 describe together, by docs/formats.md alone."""

import hashlib
import re

# The members of a case that give digest lists: the algorithm of each, and how many digits a line has.
LISTS = {"sums": ("sha256", 64), "sums512": ("sha512", 128)}


class BadLine(Exception):
    """The first bad line of two lists: the member that gives its list, and its number from 1."""

    def __init__(self, name, number):
        super().__init__(f"{name}, line {number}")
        self.name, self.number = name, number


def digests(text, *algorithms):
    """The digest set of a text by these algorithms, which are all three unless some are given."""
    return {name: hashlib.new(name, text.encode()).hexdigest()
            for name in algorithms or ("sha256", "sha384", "sha512")}


def path_in(text):
    """The path in the rest of a line, or None where it is none."""
    try:
        return text.decode() or None
    except UnicodeDecodeError:
        return None


def read_list(content, name):
    """The digest sets in a list, by their paths."""
    algorithm, digits = LISTS[name]
    found, lines = {}, content.removesuffix(b"\n").split(b"\n") if content else []
    for number, line in enumerate(lines, 1):
        parts = re.fullmatch(rb"([0-9a-fA-F]{%d}) [ *](.*)" % digits, line, re.DOTALL)
        path = path_in(parts[2]) if parts else None
        if path is None or path in found:
            raise BadLine(name, number)
        found[path] = {algorithm: parts[1].decode().lower()}
    return found


def listed(given):
    """The digest sets of the delivered files by their paths, where `given` has the bytes of the
    lists; a list that is not given is empty."""
    found = {}
    for name in LISTS:
        for path, one in read_list(given.get(name) or b"", name).items():
            found.setdefault(path, {}).update(one)
    return found


def agree(one, other):
    """Whether two digest sets have an algorithm in common, and none with unequal values."""
    in_both = one.keys() & other.keys()
    return bool(in_both) and all(one[name].lower() == other[name].lower() for name in in_both)
