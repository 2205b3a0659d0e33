"""Rows of whole runs as runs of the program over files.

What is at a path is a node: the member `kind` says what, as conformance/README.md has it.
"""

import functools
import json
import os

from cases_on_disk import Difference
from lines import TOP
from on_disk import bytes_of

# More files than this take too long to make.
MOST_FILES = 2000
CALLS = ("run", "run with notes", "run to a full disk", "count words", "note")
# Reasons for which a file can be made not to be readable.
FAULTS = ("IsADirectory", "PermissionDenied")


@functools.cache
def shared_files():
    """The files that rows share, under their names."""
    return json.loads((TOP / "conformance" / "data" / "runs" / "files.json").read_text())


def root_of(path):
    """The first part of a path."""
    return path.split("/")[0]


def nodes_of(row):
    """The nodes of a row: its own, and those that it shares, under the paths in its words."""
    words = [word for node in row.get("nodes", []) for word in node.get("by", "").split()]
    roots = {root_of(word) for word in [*row.get("command", "").split(" "), *words]}
    shared = shared_files()[row["files"]] if "files" in row else []
    nodes = [*(node for node in shared if root_of(node["path"]) in roots), *row.get("nodes", [])]
    return list({node["path"]: node for node in nodes}.values())


def names_in(node):
    """The names in a folder, and those of its further files."""
    names = [name for name in bytes_of(node["names"]).split(b"/") if name]
    return names + [b"%07d.link" % number for number in range(node["further"])]


def can_be_on_disk(node, paths):
    """Whether a node can be made: no name that is listed but missing, no device that fails."""
    if node["kind"] == "failing":
        return node["fault"] in FAULTS and not node["bytes"]
    if "folder" not in node["kind"]:
        return True
    listed = [os.path.join(node["path"].encode(), name) for name in names_in(node)]
    return len(listed) <= MOST_FILES and not any(
        b"gone" in path and path not in paths for path in listed)


def can_run(row):
    """Whether the program can show what a row gives."""
    nodes = nodes_of(row)
    paths = {node["path"].encode() for node in nodes}
    return (row["call"] in CALLS and all(can_be_on_disk(node, paths) for node in nodes)
            and (row["call"] != "run to a full disk" or row.get("fault") == "StorageFull")
            and (row["call"] != "count words" or "UTF-8" in row["gives"]))


def make_folder(path, node):
    """Makes a folder with its names as empty files, or a symbolic link to such a folder."""
    if node["kind"] == "linked folder":
        path.symlink_to(f"behind-{path.name}")
        path = path.with_name(f"behind-{path.name}")
    path.mkdir(exist_ok=True)
    for name in names_in(node):
        (path / os.fsdecode(name)).touch()


def make_other(path, node):
    """Makes what is neither a folder nor made by the program."""
    path.unlink(missing_ok=True)
    if node["kind"] == "file":
        path.write_bytes(bytes_of(node["bytes"]))
    elif node["kind"] == "repeated":
        path.write_text(node["begin"] + node["each"] * node["times"] + node["end"])
    elif node["kind"] == "blank":
        path.touch()
        os.truncate(path, node["length"])
    elif node["kind"] == "dangling":
        path.symlink_to("nowhere")
    elif node["kind"] == "looped":
        path.symlink_to(".")
    elif node["kind"] == "device":
        os.mkfifo(path)
    elif node["fault"] == "IsADirectory":
        path.mkdir()
    else:
        path.touch(mode=0)


def lay_out(row, folder, program=None):
    """Makes the files of a row, some of them by runs of the program."""
    nodes = nodes_of(row)
    folders = [node for node in nodes if "folder" in node["kind"]]
    for node in sorted(folders, key=lambda node: node["path"].count("/")):
        path = folder / node["path"]
        if path.is_file():
            path.unlink()
        make_folder(path, node)
    for node in nodes:
        if node["kind"] == "made":
            made = program.run(node["by"].split(" "), folder).out
            (folder / node["path"]).write_bytes(made)
        elif "folder" not in node["kind"]:
            make_other(folder / node["path"], node)


def words_of(row):
    """The words of a run, whose first is the name of the program."""
    if row["call"] == "count words":
        return bytes_of(row["line"]).split(b"/")
    return row["words"] if "words" in row else row["command"].split(" ")


def text_of(row, given):
    """What a row would have to give: lines of notes, the status, the output, and the fault."""
    if row["call"] == "count words":
        return given.fault()
    about = row.get("about", "").encode() if row["call"] == "run with notes" else b"\0"
    if row["call"] == "run" and words_of(row)[1] != "verify":
        about = b""
    lines = [line for line in given.notes().splitlines(keepends=True) if about in line]
    return b"".join(lines) + str(given.status).encode() + b" " + given.out + given.fault()


def run_of(program, row, folder):
    """Runs the command of a row."""
    words = words_of(row)
    if row["call"] == "run to a full disk":
        return program.run_to_full_disk(words, folder)
    if "room" in row:
        return program.run_into(row["room"], words, folder)
    return program.run(words, folder)


def is_noted(row, given):
    """Whether the words are no command, and what is said about them is as the row has it."""
    note = given.fault().decode()
    return (given.status == 2 and not given.out and "\n\nitv " in note
            and note == row.get("gives", note) and note.startswith(row.get("begins", ""))
            and row.get("has", "") in note
            and row.get("first_line_has", "") in note.split("\n")[0])


def differences(program, row, folder):
    """Runs the command of a row, and compares what it gives."""
    lay_out(row, folder, program)
    given = run_of(program, row, folder)
    if row["call"] == "note":
        if not is_noted(row, given):
            yield Difference("note", words_of(row), json.dumps(row).encode(), given.err)
    elif text_of(row, given) != bytes_of(row["gives"]):
        yield Difference(row["call"], words_of(row), bytes_of(row["gives"]), text_of(row, given))
