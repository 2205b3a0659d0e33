"""Whole verifications as runs of `itv verify` over files."""

import dataclasses
import json

import evidence_in_reports
from on_disk import bytes_of, is_name
from report_forms import json_of_lines, places_text


def is_folder(links):
    """Whether a folder can be on a disk: no name that cannot be a file's, and none twice."""
    names = [name.encode() for name, _ in links.get("files", []) + links.get("folders", [])]
    return (all(map(is_name, names)) and len({*names}) == len(names)
            and all(is_folder(inner) for _, inner in links.get("folders", [])))


def can_run(case):
    """Whether the program can be given the case: as files, and with at least one check."""
    names = [f"{name}.link".encode() for name, _ in case["records"]]
    return (is_folder(case["links"]) and all(map(is_name, names)) and len({*names}) == len(names)
            and 0 <= len(case["rings"]) <= 8 and (case["rings"] or case.get("public_keys", False)))


def is_in_order(links):
    """Whether the names in each folder are in the order of their bytes."""
    lists = [[name.encode() for name, _ in links.get(kind, [])] for kind in ("files", "folders")]
    return (all(names == sorted(names) for names in lists)
            and all(is_in_order(inner) for _, inner in links.get("folders", [])))


def may_reorder(case):
    """Whether the program may give the notes that the case expects in another order."""
    return case.get("notes") is not None and not is_in_order(case["links"])


def write_links(folder, links):
    """Writes out a folder of links with the folders in it."""
    folder.mkdir()
    for name, content in links.get("files", []):
        (folder / name).write_bytes(bytes_of(content))
    for name, inner in links.get("folders", []):
        write_links(folder / name, inner)


def lay_out(case, folder):
    """Writes a case out, and returns the words that verify it."""
    words = ["itv", "verify", f"--at={case['at']}", f"--depth={case['depth']}", "--links=links"]
    for name in ("policy", "layout", "sums", "sums512", "provenance"):
        if case.get(name) is not None:
            (folder / name).write_bytes(bytes_of(case[name]))
            words.append(f"--{name}={name}")
    write_links(folder / "links", case["links"])
    if case["records"]:
        (folder / "records").mkdir()
        words.append("--records=records")
    for name, record in case["records"]:
        (folder / "records" / f"{name}.link").write_bytes(bytes_of(record))
    for number, ring in enumerate(case["rings"]):
        (folder / f"ring-{number}").write_bytes(bytes_of(ring))
        words.append(f"--ring=ring-{number}")
    return words + ["--public-keys"] * bool(case.get("public_keys"))


@dataclasses.dataclass
class Difference:
    """Where an answer differs from what is expected."""

    kind: str
    words: list
    wanted: bytes
    given: bytes


def notes(case, given):
    """The notes that a case expects and those that were given, sorted if the order may differ.

    Where the case says nothing about notes, it expects those that were given.
    """
    if case.get("notes") is None:
        return given.err, given.err
    wanted = "".join(line + "\n" for line in case["notes"]).encode()
    if may_reorder(case):
        return tuple(b"".join(sorted(one.splitlines(keepends=True))) for one in (wanted, given.err))
    return wanted, given.err


def differences(program, case, folder):
    """Verifies a case twice, for the report in lines and as JSON, and compares the answers."""
    words, report = lay_out(case, folder), bytes_of(case["report"])
    as_json = json_of_lines(report.decode()).encode()
    for form, wanted, more in (("report", report, []), ("JSON", as_json, ["--json"])):
        given = program.run([*words, *more], folder)
        parts = [("status", str(case["status"]).encode(), str(given.status).encode()),
                 (form, wanted, given.out), ("notes", *notes(case, given))]
        if form == "JSON":
            parts += full_parts(case, as_json, given, program.run([*words, "--json=2"], folder))
        for kind, wanted_part, part in parts:
            if wanted_part != part:
                yield Difference(kind, [*words, *more], wanted_part, part)


def document_of(finding):
    """How a line names the document of a finding: a sublayout with its place."""
    at = finding["at"]
    return f"{finding['document']} at {places_text(at)}" if at else finding["document"]


def full_parts(case, as_json, noted, given):
    """What `--json=2` has to give beside what it gave, where `--json` gave these notes.

    The object goes on behind that of `--json`. Its findings are among the lines of the notes but
    for those that a note says in other words, and its notes are the other lines. What its evidence
    names is in the documents.
    """
    written = json.loads(given.out)
    findings = [(document_of(one), one) for one in written.get("findings", [])]
    found = [f"{document} {one['name']} " for document, one in findings]
    lines = noted.err.decode().splitlines()
    others = [line for line in lines if not line.startswith(tuple(found))]
    told = [f"{document} {one['name']} {one['place']}: {one['sentence']}"
            for document, one in findings]
    missing = [line for line in lines if line not in others and line not in told]
    given_notes = written["notes"]
    if others and others[-1].endswith(" further notes"):
        # What is found is counted among the further notes, and is not among the notes of the object.
        others, given_notes = others[:39], given_notes[:39]
    members, unfit = ["notes", "notesComplete"], []
    if case["status"] == 0:
        members = ["findings", "evidence", *members]
        unfit = evidence_in_reports.faults(case, written)
    return [("status of --json=2", str(case["status"]).encode(), str(given.status).encode()),
            ("beginning of --json=2", as_json[:-2], given.out[:len(as_json) - 2]),
            ("members of --json=2", str(members).encode(),
             str(list(written)[len(json.loads(as_json)):]).encode()),
            ("notes of --json=2", str((others, True)).encode(),
             str((given_notes, written["notesComplete"])).encode()),
            ("findings of --json=2", b"[]", str(missing).encode()),
            ("evidence of --json=2", b"[]", str(unfit).encode()),
            ("errors of --json=2", b"", given.err)]
