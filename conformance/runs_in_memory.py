"""Rows of `itv verify` by the packages of the library, over files in memory.

Each is tried by its words; those with a trusted root, which no case has, also as a delivery, whose
verdict must say what the report says.
"""

import json

from cases_in_memory import moment_of
from cases_on_disk import Difference
from on_disk import bytes_of
from report_forms import json_of_lines
from runs_on_disk import can_run, names_in, nodes_of, text_of, words_of

# What the packages' own functions are tried with: words that say how a verdict is written stay out.
OPTIONS = {"--policy", "--layout", "--links", "--sums", "--sums512", "--provenance", "--records",
           "--ring", "--at", "--depth", "--public-keys", "--trusted-root"}
# The options without a value.
FLAGS = {"--public-keys", "--strict", "--json"}


def files_of(row):
    """The files of a row by their paths. One more keeps a folder without names."""
    nodes = {node["path"]: node for node in nodes_of(row)}
    found = {}
    for path, node in nodes.items():
        if node["kind"] == "file":
            found[path] = bytes_of(node["bytes"])
        elif node["kind"] == "repeated":
            found[path] = (node["begin"] + node["each"] * node["times"] + node["end"]).encode()
        else:
            names = [name.decode() for name in names_in(node)] or [".empty"]
            inside = [f"{path}/{name}" for name in names]
            found.update({one: b"" for one in inside if one not in nodes})
    return found


def below(files, folder):
    """The files below a folder, as a case has them: those in it, and its folders."""
    inside = {path.removeprefix(f"{folder}/"): content for path, content in files.items()
              if path.startswith(f"{folder}/")}
    names = sorted({path.partition("/")[0] for path in inside if "/" in path})
    return {"files": [[path, {"hex": content.hex()}] for path, content in inside.items()
                      if "/" not in path and path != ".empty"],
            "folders": [[name, below(inside, name)] for name in names]}


def options_of(row):
    """The options of a row with their values, in their order."""
    words, found = iter(words_of(row)[2:]), []
    for word in words:
        name, equals, value = word.partition("=")
        found.append((name, value if equals or name in FLAGS else next(words, "")))
    return found


def case_of(row):
    """A row as a case: its files by what the words say that they are."""
    files, options = files_of(row), options_of(row)
    given, part = dict(options), lambda path: {"hex": files[path].hex()}
    records = below(files, given["--records"])["files"] if "--records" in given else []
    parts = ("policy", "layout", "sums", "sums512", "provenance")
    case = {name: part(given[f"--{name}"]) for name in parts if f"--{name}" in given}
    return {**case, "links": below(files, given["--links"]), "at": given["--at"],
            "records": [[name.removesuffix(".link"), one] for name, one in records],
            "rings": [part(path) for name, path in options if name == "--ring"],
            "depth": int(given.get("--depth", 8)), "public_keys": "--public-keys" in given,
            "trusted_root": part(given["--trusted-root"])}


def is_plain(row):
    """Whether a row is a verdict by a trusted root, as its report alone."""
    return (row["call"] == "run" and row["gives"][:2] in ("0 ", "1 ")
            and all(name in OPTIONS for name, _ in options_of(row))
            and "--trusted-root" in dict(options_of(row)))


def parts_of(row, package):
    """What is compared: its kind, what is wanted, and what was given."""
    files = files_of(row)
    given = package.ran(words_of(row)[1:], files)
    yield row["call"], bytes_of(row["gives"]), text_of(row, given)
    if is_plain(row):
        case, report = case_of(row), json.loads(json_of_lines(row["gives"][2:]))
        wanted = json.dumps(report, sort_keys=True).encode()
        for kind, found in zip(("verdict's report", "verdict"),
                               package.verified(case, moment_of(case))):
            yield kind, wanted, json.dumps(found, sort_keys=True).encode()


def differences(row, package):
    """Verifies a row by its words, and as the package's own function, and compares."""
    for kind, wanted, found in parts_of(row, package):
        if wanted != found:
            yield Difference(kind, words_of(row), wanted, found)


def is_plain_node(node):
    """Whether a node is a file, or a folder whose names are UTF-8."""
    return node["kind"] in ("file", "repeated") or node["kind"] == "folder" and all(
        name.decode(errors="replace").encode() == name for name in names_in(node))


def can_try(row):
    """Whether the library can be given the row: a verification over plain files and folders."""
    return (row["call"] in ("run", "run with notes") and words_of(row)[:2] == ["itv", "verify"]
            and can_run(row) and all(map(is_plain_node, nodes_of(row))))
