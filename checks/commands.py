#!/usr/bin/env python3
"""Runs the commands that a page shows, and fails where what they write is not what it shows.

The `sh` blocks of a page run in sequence, in one shell, with the built program as `itv`: those of a
page of docs/ in an empty folder, those of any other page in its own folder. A `text` block right
after an `sh` block is what that block writes to standard output; an `sh` block without one writes
nothing. Needs the built program (./build at the top), jq, openssl 3, curl and GNU tools.

    commands.py                       runs README, the guide, the page on other signatures, and the
                                      examples
    commands.py PAGE..                runs these pages
    commands.py --installed [PAGE..]  runs them with the itv on PATH, which is not changed; without
                                      README, which builds the program; and the examples in a copy,
                                      where they do not find the built program
"""

import os
import re
import shutil
import subprocess
import sys
import tempfile
from pathlib import Path

import tree

PROGRAM = tree.TOP / "crates" / "itv" / "out"
DOCS = ["docs/guide.md", "docs/interop.md"]
BLOCK = re.compile(r"^```sh\n(?P<run>.*?)^```\n(?:```text\n(?P<shown>.*?)^```\n)?", re.DOTALL | re.M)
END = "end of a block"


def script_of(blocks):
    """The commands of all blocks, each followed by one that writes a marker line."""
    return "".join(f"{block['run']}echo '{END}'\n" for block in blocks)


def written(script, folder):
    """What the script writes to standard output, block by block, and to standard error."""
    done = subprocess.run(["bash", "-c", script], cwd=folder, capture_output=True, text=True,
                          check=False)
    return done.stdout.split(END + "\n"), done.stderr


def run(page, script, is_installed):
    """What the script of a page writes, run in the folder that it needs."""
    if page not in DOCS and not is_installed:
        return written(script, (tree.TOP / page).parent)
    with tempfile.TemporaryDirectory() as folder:
        if page in DOCS:
            return written(script, folder)
        shutil.copytree(tree.TOP / "examples", Path(folder) / "examples",
                        ignore=shutil.ignore_patterns("out"))
        return written(script, (Path(folder) / page).parent)


def faults_of(page, is_installed):
    """The blocks of a page that write something other than it shows."""
    text = (tree.TOP / page).read_text()
    blocks = list(BLOCK.finditer(text))
    outputs, notes = run(page, script_of(blocks), is_installed)
    if notes:
        yield f"{page}: {notes.strip()}"
    for number, block in enumerate(blocks):
        output = outputs[number] if number < len(outputs) else ""
        if output != (block["shown"] or ""):
            line = text.count("\n", 0, block.start()) + 1
            yield f"{page}:{line}: writes\n{output}"


def all_pages(is_installed):
    """The pages whose commands are run."""
    first = [] if is_installed else ["README.md"]
    examples = sorted(tree.name_of(path) for path in tree.TOP.glob("examples/*/README.md"))
    return first + DOCS + examples


def main():
    """Does what the arguments say."""
    words = tree.words_of(__doc__)
    words.add_argument("pages", nargs="*")
    words.add_argument("--installed", action="store_true")
    chosen = words.parse_args()
    if not chosen.installed:
        os.environ["PATH"] = f"{PROGRAM}:{os.environ['PATH']}"
    if not shutil.which("itv"):
        return tree.report(["there is no itv on PATH"])
    return tree.report([fault for page in chosen.pages or all_pages(chosen.installed)
                        for fault in faults_of(page, chosen.installed)])


if __name__ == "__main__":
    sys.exit(main())
