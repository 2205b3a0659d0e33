"""Whole verifications as data: a small good delivery, what a case changes in it, what it expects.

The documents are made by bench/deliveries.py, where everybody's secret is their own name.
"""

import json
import sys

sys.dont_write_bytecode = True
import lines
from cases_on_disk import can_run

sys.path.insert(0, str(lines.TOP / "bench"))
from deliveries import MOMENT, compact, digest, layout, link, policy, signed, statement, step

# Where the cases are that the built program is given as files, and where the others.
ON_DISK = lines.TOP / "conformance" / "data" / "cases"
IN_MEMORY = lines.TOP / "crates" / "itv_cases" / "data" / "cases"
PEOPLE = ["owner", "builder", "alice", "bob", "carol"]
NO_LEVEL = ("policy no-level /expectations/0/level: expectation 0 asks for level 0, which every "
            "builder reaches")
# The report of the good delivery, and the rules that it has: those on what is delivered, and those
# on what its step makes.
ACCEPTED = ["accepted", "step build 1", "file app"]
TIES, CLOSES = ["MATCH", "*", "WITH", "PRODUCTS", "FROM", "build"], ["DISALLOW", "*"]
DELIVER = [TIES, CLOSES]
MAKES = [["CREATE", "app"], CLOSES]


def ring(people):
    """The ring of these people."""
    return json.dumps([{"id": who, "secret": who.encode().hex()} for who in people])


def text(document):
    """The text of a document; a text is given as it is."""
    return document if isinstance(document, str) else compact(document).decode()


def folder(files, folders=()):
    """A folder of links: files and folders, each list in its order, by their names."""
    return {"files": [list(file) for file in files], "folders": [list(one) for one in folders]}


def good():
    """The smallest delivery, which is accepted: alice builds `app`, and a builder attests it."""
    body = layout(["alice"], [step("build", ["alice"], [], MAKES)])
    return {"policy": compact(policy(DELIVER)).decode(), "layout": signed(body, "owner"),
            "links": folder([("build.alice.link", signed(link("build", [], ["app"]), "alice"))]),
            "records": [], "provenance": signed(statement(["app"]), "builder") + "\n",
            "sums": f"{digest('app')}  app\n", "at": MOMENT, "depth": 4, "rings": [ring(PEOPLE)]}


def over(body, *files, **changed):
    """What a layout and its files change in `good`: a file is a name, a document and a signer."""
    return {"layout": signed(body, "owner"), **changed,
            "links": folder([(name, signed(document, who)) for name, document, who in files])}


def case(name, report, notes, found=None, **changed):
    """A case: its name, the lines of the report and of the notes, and what it changes in `good`.

    Where it is accepted, the lines of what is found come after the notes: where they are not given,
    only that the expectation has no level, if it has none.
    """
    status = 0 if report[0] == "accepted" else 1
    made = {**good(), **changed}
    if status == 0:
        notes = [*notes, *(no_level(made["policy"]) if found is None else found)]
    return {"name": name, **made, "report": "".join(line + "\n" for line in report),
            "status": status, "notes": list(notes)}


def no_level(text):
    """The line of what is found where the policy's expectation has no level."""
    return [] if json.loads(text)["expectations"][0].get("level") else [NO_LEVEL]


def no_rules(place, whose):
    """The line of a list of rules that is empty."""
    return f"{place}: there are no rules on {whose}, so that every path passes"


def write(name, cases):
    """Writes cases, each on a line of its own, to the files of this name in the two places.

    With `--check`, fails if a file differs.
    """
    lines.write(ON_DISK / name, [one for one in cases if can_run(one)])
    others = [one for one in cases if not can_run(one)]
    if others or (IN_MEMORY / name).exists():
        lines.write(IN_MEMORY / name, others)
