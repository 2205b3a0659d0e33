#!/usr/bin/env python3
"""Fails where a page links to a file or a heading of this repository that does not exist, or names
such a file in code, and where a page that ./install installs links to a file that it leaves out.

A path in code that begins with a folder at the top is checked as it is. A path of a source or a
table that begins with a folder of a crate belongs to the crate named last, in a heading or by a
path from the top. Paths with NAME or a star, and paths of what a build makes, are not checked.
"""

import re
import subprocess
import sys

import tree

LINK = re.compile(r"\]\((?P<path>[^)\s#]*)(?:#(?P<heading>[^)\s]*))?\)")
HEADING = re.compile(r"^#+ (.*)$", re.MULTILINE)
CODE = re.compile(r"^```.*?^```$", re.DOTALL | re.MULTILINE)
NAMED = re.compile(r"^#+ (?P<heading>.*)$|`(?P<path>[\w.-]+/[\w/.-]+)`", re.MULTILINE)
OF_CRATE = re.compile(r"(src|specs|proofs|data)/.*\.(rt|antt|json|jsonl)$")


def pages():
    """The pages of the repository."""
    for place in ("*.md", "docs/*.md", "conformance/*.md", "examples/*/*.md"):
        yield from sorted(tree.TOP.glob(place))


def anchors_of(path):
    """The anchors by which the headings of a page can be linked to."""
    for words in HEADING.findall(CODE.sub("", path.read_text())):
        plain = re.sub(r"[^\w\- ]", "", words.lower())
        yield plain.strip().replace(" ", "-")


def faults_of(page):
    """The links of a page that lead nowhere."""
    for found in LINK.finditer(CODE.sub("", page.read_text())):
        path, heading = found["path"], found["heading"]
        if "://" in path:
            continue
        target = (page.parent / path).resolve() if path else page
        if not target.exists():
            yield f"{tree.name_of(page)}: there is no {path}"
        elif heading and heading not in anchors_of(target):
            yield f"{tree.name_of(page)}: {path or 'the page'} has no heading #{heading}"


def faults_of_names(page):
    """The files that a page names in code and that do not exist."""
    crates = []
    for found in NAMED.finditer(CODE.sub("", page.read_text())):
        if found["heading"] is not None:
            named = re.findall(r"\w+", found["heading"])
            crates = [name for name in named if name in tree.crate_names()] or crates
            continue
        path = found["path"]
        parts = path.split("/")
        if parts[0] == "crates":
            crates = [parts[1]]
        if "NAME" in [*crates, *parts] or parts[0] == "." or "out" in parts:
            continue
        if OF_CRATE.match(path):
            places = [tree.TOP / "crates" / crate / path for crate in crates]
        elif (tree.TOP / parts[0]).is_dir():
            places = [tree.TOP / path]
        else:
            continue
        if not any(place.exists() for place in places):
            yield f"{tree.name_of(page)}: there is no {path}"


def installed():
    """The files that ./install puts in place, and the folders in which they are."""
    listed = subprocess.run([tree.TOP / "install", "--list"], stdout=subprocess.PIPE, text=True,
                            check=True).stdout
    files = {tree.TOP / line.split()[1] for line in listed.splitlines()}
    return files | {folder for file in files for folder in file.parents if folder != tree.TOP}


def faults_installed():
    """The links of installed pages that lead to no installed file."""
    found = installed()
    for page in sorted(file for file in found if file.suffix == ".md"):
        for link in LINK.finditer(CODE.sub("", page.read_text())):
            path = link["path"]
            if path and "://" not in path and (page.parent / path).resolve() not in found:
                yield f"{tree.name_of(page)}: ./install leaves out {path}"


def main():
    """Checks all pages, and returns the exit status."""
    faults = [fault for page in pages() for fault in [*faults_of(page), *faults_of_names(page)]]
    return tree.report(faults + list(faults_installed()))


if __name__ == "__main__":
    sys.exit(main())
