"""Where things are in this repository: its crates, and their files."""

import argparse
import re
from pathlib import Path

TOP = Path(__file__).resolve().parent.parent


def crate_names():
    """The names of the crates, in the order of crates.txt."""
    names = []
    for line in (TOP / "crates.txt").read_text().splitlines():
        head = line.split("#")[0].split(":")[0].split()
        if head:
            names.append(head[0])
    return names


def is_library(crate):
    """Whether the crate is a library, and not a program."""
    return (TOP / "crates" / crate / "src" / "lib.rt").exists()


def folder_files(crate, folder, ending):
    """The files with an ending below a folder of a crate, in order."""
    return sorted((TOP / "crates" / crate / folder).rglob("*" + ending))


def name_of(path):
    """A path as it is shown: from the top of the repository."""
    return str(path.relative_to(TOP))


def words_of(text):
    """The parser of a script's arguments, with the script's docstring as help."""
    layout = argparse.RawDescriptionHelpFormatter
    return argparse.ArgumentParser(description=text, formatter_class=layout)


def report(faults):
    """Writes the faults, and returns the exit status."""
    for fault in faults:
        print(fault)
    return 1 if faults else 0


def without_strings(text):
    """The text with its string literals emptied."""
    return re.sub(r'"(?:[^"\\]|\\.)*"', '""', text)
