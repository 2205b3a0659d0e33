#!/usr/bin/env python3
"""Fails where a figure that a page gives is not the one counted in the tree.

    figures.py          checks
    figures.py --write  puts the counted figures into the pages
"""

import json
import re
import shutil
import subprocess
import sys

import reach
import tree

CRATES = tree.TOP / "crates"
# The folders of tables: those of the programs that `rt ci` runs, and that of conformance/run.
TABLES = {name: CRATES / name / "data" for name in ("it_values", "it_sigstore_values", "it_rows",
                                                "itv_cases", "itv_runs", "it_vectors")}
TABLES["conformance"] = tree.TOP / "conformance" / "data"
OF_CASES, OF_RUNS = ("itv_cases", "conformance"), ("itv_runs", "conformance")
NUMBER = r"(?P<figure>\d[\d,]*)"
# The folders of tables of rows, with where they are.
OF_ROWS = {"values": ["it_values"], "sigstore": ["it_sigstore_values"], "reports": ["it_rows"], "commands": ["it_rows"],
           "verify": ["itv_cases"], "runs": OF_RUNS}
# The name of each figure, with a page that gives it and the words around it there.
PLACES = [
    ("verify", "README.md", "the definitions, {} lines of them for the verdict"),
    ("verify", "docs/trusted.md", "`verify` rests on {} lines"),
    ("run_verify", "docs/trusted.md", "with `run_verify` {}, of"),
    ("public", "docs/trusted.md", ", of {} that public contracts reach"),
    ("cases", "README.md", "among it {} whole verifications"),
    ("cases", "docs/testing.md", "- {} whole verifications,"),
    ("vectors", "docs/testing.md", "- {} vectors of public keys"),
    ("vectors", "CHANGELOG.md", "- {} vectors of Ed25519"),
    ("worked", "docs/testing.md", "whole verifications, {} written by hand"),
    ("random", "docs/testing.md", "by hand and {} changed at random"),
    ("rows of values", "docs/testing.md", "envelopes, rings and documents, in {} rows"),
    ("rows of sigstore", "docs/testing.md", "identities, and trusted roots, in {} rows"),
    ("rows of verify", "docs/testing.md", "that the cases cannot show, in {} rows"),
    ("rows of commands", "docs/testing.md", "and the exit status, in {} rows"),
    ("rows of reports", "docs/testing.md", "reports, most as JSON, in {} rows"),
    ("rows of runs", "docs/testing.md", "good and of wrong words, in {} rows"),
    ("cases in memory", "docs/testing.md", "`itv_cases` tries {} of the cases"),
    ("runs in memory", "docs/testing.md", "`itv_runs` {} of the runs"),
    ("answered twice", "conformance/README.md", "The answers of the {} cases in the eight files"),
    ("by hand", "conformance/README.md", "Those of the other {} were written down by hand"),
    ("by hand", "conformance/README.md", "The signatures of these {} were made"),
    ("noted", "conformance/README.md", "and so were the notes of the {} that have any"),
    ("by keys", "conformance/README.md", "and in the {} of `public-keys.jsonl`"),
    ("version", "examples/ci/github.yml", "ref: v{}"),
    ("version", "examples/ci/gitlab.yml", "--branch v{} "),
    ("version", "examples/ci/README.md", "its tag `v{}`"),
    ("version", "CHANGELOG.md", "commands.json).\n\n## {}\n"),
    ("logic", "README.md", "The toolchain (a `rattle-kit-13` of `logic {}`)"),
    ("logic", "docs/trusted.md", "The toolchain (a `rattle-kit-13` of `logic {}`)"),
    ("logic", "CONTRIBUTING.md", "`rt version` prints a `rattle-kit-13` and `logic {}`"),
]


def lines_reached(graph, functions):
    """How many lines of specs/ the contracts of these functions, or all public ones, rest on."""
    reached = graph.reached(reach.keys_of(graph, functions))
    return sum(reach.lines_by_crate(graph, reached).values())


def files_in(places, pattern):
    """The tables at some places that match a pattern, in the order of their names."""
    return sorted((path for place in places for path in TABLES[place].glob(pattern)),
                  key=lambda path: path.name)


def lines_of(paths):
    """How many lines some files have."""
    return sum(path.read_bytes().count(b"\n") for path in paths)


def lines(places, pattern):
    """How many lines there are in the tables at some places that match a pattern."""
    return lines_of(files_in(places, pattern))


# Ratios of README.md: the words before each, and the beginning of its row in docs/performance.md.
RATIOS = [
    ("reading the same envelopes | ", "`verify`, 1,000 links of 100 steps by 10 functionaries"),
    ("JSON, base64 and SHA-256 once | ", "`verify`, 50 steps, 10,000 artifacts each"),
    ("| one before it | ", "`verify`, 500 wrong signatures before the right one"),
    ("| `sha256sum` | ", "`digest`, 1 GiB"),
]
# How long ./build took, and what the parts of the gate did, in CONTRIBUTING.md.
OF_BUILD = re.compile(r"what `\./build` proves and compiles took (\d+) processor minutes")
OF_GATE = re.compile(r"the gate's parts took (?P<all>\d+) processor minutes: the libraries and the "
                     r"program (\d+), the edits with the second proofs that they begin with (\d+), "
                     r"and the programs of tests (\d+)\.")
# A line of conformance/README.md that names files of cases or vectors and how many each has.
OF_FILES = re.compile(r"^- (?P<names>`[\w-]+\.jsonl`.*?): (?P<counts>\d+((, | and )\d+)*)", re.M)


def of_cases():
    """The numbers of cases, by where their answers and their signatures come from."""
    twice = [path for name in ("base", "sha384", "levels", "panel")
             for path in files_in(OF_CASES, f"cases/*-{name}.jsonl")]
    others = [path for path in files_in(OF_CASES, "cases/*.jsonl") if path not in twice]
    noted = [path for path in others for line in path.read_text().splitlines()
             if json.loads(line).get("notes") is not None]
    by_keys = [path for name in ("public-keys", "in-toto-golang")
               for path in files_in(OF_CASES, f"cases/{name}.jsonl")]
    groups = {"answered twice": twice, "by hand": others, "by keys": by_keys}
    return {"noted": len(noted), **{name: lines_of(paths) for name, paths in groups.items()}}


def faults_of_files():
    """Where conformance/README.md gives a wrong number of cases or vectors for a file, or none."""
    seen = set()
    for found in OF_FILES.finditer((tree.TOP / "conformance" / "README.md").read_text()):
        names = re.findall(r"`([\w-]+\.jsonl)`", found["names"])
        for name, given in zip(names, re.findall(r"\d+", found["counts"])):
            count = lines(OF_CASES, f"cases/{name}") + lines(["it_vectors"], name)
            seen.add(name)
            if count != int(given):
                yield f"conformance/README.md: {name} has {count} lines, and not {given}"
    for name in sorted({path.name for path in files_in(OF_CASES, "cases/*.jsonl")} - seen):
        yield f"conformance/README.md: how many cases {name} has is not said"


def faults_of_ratios():
    """Where a ratio in README.md is not the one in docs/performance.md."""
    readme = (tree.TOP / "README.md").read_text()
    rows = (tree.TOP / "docs" / "performance.md").read_text().splitlines()
    for words, begin in RATIOS:
        measured = [row.split("|")[-2].strip() for row in rows if row.startswith("| " + begin)]
        if len(measured) != 1 or f"{words}{measured[0]} |" not in readme:
            yield f"README.md: the ratio after {words!r} is not that of docs/performance.md"


def faults_of_times():
    """Where README.md or the build gives other times than CONTRIBUTING.md, in tens of minutes."""
    text = (tree.TOP / "CONTRIBUTING.md").read_text()
    build, gate = OF_BUILD.findall(text), OF_GATE.search(text)
    if len(build) != 1 or not gate:
        yield "CONTRIBUTING.md: the times of ./build and of the gate are not there"
        return
    whole, *parts = map(int, gate.groups())
    if whole != sum(parts):
        yield f"CONTRIBUTING.md: the parts of the gate took {sum(parts)} minutes, and not {whole}"
    processor = round(int(build[0]), -1)
    wanted = [("README.md", f"| about {processor} processor minutes where other work runs"),
              ("README.md", f"| about {round(whole, -1)} processor minutes where other work runs"),
              ("build", f"about {processor} processor minutes from nothing")]
    for name, words in wanted:
        if words not in (tree.TOP / name).read_text():
            yield f"{name}: {words!r} is not there"


def counted():
    """Each figure as it is written, by its name; the toolchain's logic only where rt is on PATH.

    Kits with the same logic prove the same, so the letter of the kit does not matter.
    """
    graph, every = reach.Graph(), lines(OF_CASES, "cases/*.jsonl")
    thrown, vectors = lines(OF_CASES, "cases/random-*.jsonl"), lines(["it_vectors"], "*.jsonl")
    numbers = {"verify": lines_reached(graph, reach.VERIFY),
               "run_verify": lines_reached(graph, reach.VERIFYING),
               "public": lines_reached(graph, None),
               "cases": every, "random": thrown, "worked": every - thrown,
               "vectors": vectors, **of_cases(),
               "cases in memory": lines(["itv_cases"], "cases/*.jsonl"),
               "runs in memory": lines(["itv_runs"], "runs/*.jsonl"),
               **{f"rows of {folder}": lines(places, f"{folder}/*.jsonl")
                  for folder, places in OF_ROWS.items()}}
    found = {name: f"{number:,}" for name, number in numbers.items()}
    found["version"] = json.loads((tree.TOP / "docs" / "commands.json").read_text())["version"]
    if shutil.which("rt"):
        ran = subprocess.run(["rt", "version"], stdout=subprocess.PIPE, text=True, check=True)
        found["logic"] = ran.stdout.split()[-1]
    return found


def pattern_of(name, words):
    """The pattern that finds a figure by the words around it."""
    figure = {"logic": r"(?P<figure>[0-9a-f]+)",
              "version": r"(?P<figure>\d+(\.\d+)+)"}.get(name, NUMBER)
    before, after = (re.escape(part) for part in words.split("{}"))
    return re.compile(f"(?<={before}){figure}(?={after})")


def faults(found):
    """Where the pages give something else."""
    for name, page, words in PLACES:
        places = pattern_of(name, words).finditer((tree.TOP / page).read_text())
        given = {place["figure"] for place in places}
        if not given:
            yield f"{page}: the words {words.format('N')!r} are not there"
        for figure in sorted(given):
            if figure != found.get(name, figure):
                yield f"{page}: {words.format(figure)!r} should be {found[name]}"


def write(found):
    """Puts the figures into the pages."""
    for name, page, words in PLACES:
        path = tree.TOP / page
        if name in found:
            path.write_text(pattern_of(name, words).sub(found[name], path.read_text()))


def main():
    """Does what the arguments say."""
    words = tree.words_of(__doc__)
    words.add_argument("--write", action="store_true")
    is_written, found = words.parse_args().write, counted()
    if is_written:
        write(found)
    return tree.report([*faults(found), *faults_of_files(), *faults_of_ratios(),
                        *faults_of_times()])


if __name__ == "__main__":
    sys.exit(main())
