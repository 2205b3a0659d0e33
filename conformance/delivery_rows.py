"""Rows of runs of `itv verify` on deliveries: a good delivery, and what a row changes in it."""

import sys

sys.dont_write_bytecode = True
import lines
from cases import CLOSES, MAKES, PEOPLE, TIES, folder, good, ring

sys.path.insert(0, str(lines.TOP / "bench"))
from deliveries import compact, layout, policy, signed, step

COMMAND = ("itv verify --policy policy --layout layout --links links --sums sums "
           "--provenance provenance --at 2029-12-31T00:00:00Z --ring ring")
PARTS = ("policy", "layout", "sums", "sums512", "provenance")
NONE = [CLOSES]
TAKES = [["ALLOW", "src"], CLOSES]
# What is written of the good delivery, and where it is good but for what --strict finds.
ACCEPTED = "0 accepted\nstep build 1\nfile app\n"
SENTENCE = "findings stand against the delivery, which would be accepted without --strict"
STOPPED = "2 " + SENTENCE


def text_node(path, content):
    """A file of a row."""
    return {"path": path, "kind": "file", "bytes": content}


def folder_nodes(path, held):
    """A folder of a row, and all that is below it."""
    names = [name for name, _ in [*held["files"], *held["folders"]]]
    yield {"path": path, "kind": "folder", "names": "/".join(names), "further": 0}
    for name, content in held["files"]:
        yield text_node(f"{path}/{name}", content)
    for name, below in held["folders"]:
        yield from folder_nodes(f"{path}/{name}", below)


def made(materials=NONE, products=MAKES, inspect=()):
    """The envelope of a layout with the step `build` and these rules, signed by the owner."""
    body = layout(["alice"], [step("build", ["alice"], materials, products)])
    return signed({**body, "inspect": list(inspect)}, "owner")


def deliver(*rules):
    """A policy with these rules on what is delivered, which asks for level 2."""
    document = policy(list(rules))
    expectation = document["expectations"][0]
    expectation["level"] = expectation["builders"][0]["level"] = 2
    return compact(document).decode()


def delivery(**changed):
    """A delivery that is accepted, in which nothing is found, with these changes."""
    return {**good(), "policy": deliver(TIES, CLOSES), "layout": made(), **changed}


def row(name, gives, *words, call="run with notes", command=COMMAND, people=PEOPLE, **changed):
    """A run on that delivery, with a ring of these people; what it gives begins with its notes. A
    digest list that is `None` is not given."""
    given = delivery(**changed)
    parts = [path for path in PARTS if given.get(path) is not None]
    nodes = [*(text_node(path, given[path]) for path in parts),
             text_node("ring", ring(people)), *folder_nodes("links", given["links"])]
    if "sums" not in parts:
        command = command.replace(" --sums sums", "")
    if "sums512" in parts:
        words = (*words, "--sums512 sums512")
    if given["records"]:
        nodes += folder_nodes("records", folder(given["records"]))
        words = (*words, "--records records")
    about = {"about": ""} if call == "run with notes" else {}
    fault = {"fault": "StorageFull"} if call == "run to a full disk" else {}
    return {"name": name, "call": call, **about, **fault, "command": " ".join([command, *words]),
            "nodes": nodes, "gives": gives}
