"""`itv verify`: whether delivered files were made as their owners prescribed."""

import dataclasses
import datetime
import json
from typing import Any, Dict, List, Optional, Sequence

from ._documents import Document, Folder, bytes_of, files_of
from ._errors import Found, Refused
from ._evidence import Evidence, evidence_of
from ._library import run

# The form of the report that is asked for.
FORM = "--json=2"
# How deep sublayouts may lie where nothing else is said, and at most.
DEPTH, MOST_DEPTH = 4, 8


@dataclasses.dataclass(frozen=True)
class Refusal:
    """The first thing that does not hold.

    `number` and `name` are those of docs/formats.md, `at` the sublayout in which it lies, as
    `report["at"]`; `details` are the further members of the report.
    """

    number: int
    name: str
    at: Any
    details: Dict[str, Any]

    def __str__(self):
        said = "".join(f", {name} {value}" for name, value in self.details.items())
        return f"{self.number} {self.name}{said}"


@dataclasses.dataclass(frozen=True)
class Finding:
    """Something in the policy, in the layout or in a sublayout that may not do what its author
    meant, a file that is tied to no step, a path that one of two digest lists alone names, or a
    nonce with which two keys signed: in which document, and `at` which sublayout, as the `at` of a
    refusal; the name of docs/formats.md, the place as a JSON pointer, which is empty for a digest
    list, and a sentence.
    """

    document: str
    at: Any
    name: str
    place: str
    sentence: str

    def __str__(self):
        place = f" {self.place}" if self.place else ""
        return f"{self.document} {self.name}{place}: {self.sentence}"


@dataclasses.dataclass(frozen=True)
class Verdict:
    """Whether a delivery is accepted, the refusal where it is not, what is found and what stands
    behind it where it is, the notes, whether these are all, and the report.
    """

    accepted: bool
    refusal: Optional[Refusal]
    findings: List[Finding]
    evidence: Optional[Evidence]
    notes: List[str]
    notes_complete: bool
    report: Dict[str, Any]

    def raise_for_refusal(self) -> "Verdict":
        """This verdict where the delivery is accepted. Otherwise raises `Refused`."""
        if not self.accepted:
            raise Refused(self)
        return self


def _findings(report):
    """What is found, by a report in JSON."""
    return [Finding(**one) for one in report.pop("findings", [])]


def _verdict(report, before):
    """The verdict of a report in JSON, with what stands beside it, and the notes before it."""
    findings = _findings(report)
    evidence = evidence_of(report.pop("evidence")) if "evidence" in report else None
    notes, complete = [*before, *report.pop("notes")], report.pop("notesComplete")
    told = findings, evidence, notes, complete, report
    if report["verdict"] == "accepted":
        return Verdict(True, None, *told)
    further = {name: value for name, value in report.items()
               if name not in ("verdict", "number", "name", "at")}
    return Verdict(False, Refusal(report["number"], report["name"], report["at"], further), *told)


def _moment(at):
    """A moment as the command takes it, in UTC."""
    if not isinstance(at, datetime.datetime) or at.utcoffset() is None:
        raise ValueError("at is a datetime.datetime with a zone, such as "
                         "datetime.datetime.now(datetime.timezone.utc)")
    moment = at.astimezone(datetime.timezone.utc).replace(microsecond=0, tzinfo=None)
    return f"{moment.isoformat()}Z"


def _optional(words, files, **documents):
    """Hands over the documents that are given: adds the files, and the words that name them."""
    for name, one in documents.items():
        if one is not None:
            option = name.replace("_", "-")
            files[option] = bytes_of(one, name)
            words.append(f"--{option}={option}")


def _judged(words, files):
    """The verdict of the command."""
    try:
        given = run(words, files)
    except Found as found:
        found.findings = _findings(json.loads(found.output))
        raise
    return _verdict(json.loads(given.output), given.notes)


def verify(*, policy: Document, layout: Document, links: Folder, at: datetime.datetime,
           sums: Optional[Document] = None, sums512: Optional[Document] = None,
           rings: Sequence[Document] = (), public_keys: bool = False,
           trusted_root: Optional[Document] = None, provenance: Optional[Document] = None,
           records: Optional[Folder] = None, strict: bool = False, depth: Optional[int] = None,
           most_checks: Optional[int] = None) -> Verdict:
    """Whether the files of digest lists were made as the policy and the layout prescribe.

    `policy` says who owns the layout, what may be delivered, and which provenance it needs;
    `layout` is the layout in its envelope, and `links` are the signed links of its steps, with the
    folders of sublayouts. `sums` is the digest list of the delivered files by SHA-256, as `digest`
    makes it, and `sums512` the one by SHA-512, which it makes with `sha512`: one of them is needed,
    and a path that is in both has both digests. `at` is the moment at which no layout may have
    expired, a `datetime` with a zone, of which parts of a second are cut off. Signatures are
    checked by the `rings`, in their order, and then by `public_keys` where that is true; lines of
    the provenance that are bundles by the `trusted_root` of Sigstore. One of the three is needed.
    `provenance` has an envelope on each line, or with a `trusted_root` a bundle, and `records` are
    those of inspections. `depth` is how deep sublayouts may lie, 4 where it is not given;
    `most_checks` how many signatures are checked by public keys at most, 20,000 where it is not.

    Raises `Stopped` where the command stops; with `strict` a `Found` where something is found in
    what would be accepted, with these `findings`.
    """
    files = {"policy": bytes_of(policy, "policy"), "layout": bytes_of(layout, "layout"),
             **files_of(links, "links", DEPTH if depth is None else min(depth, MOST_DEPTH))}
    words = ["verify", FORM, "--policy=policy", "--layout=layout", "--links=links",
             f"--at={_moment(at)}"]
    _optional(words, files, sums=sums, sums512=sums512)
    for number, ring in enumerate(rings, 1):
        files[f"ring-{number}"] = bytes_of(ring, "a ring")
        words.append(f"--ring=ring-{number}")
    _optional(words, files, trusted_root=trusted_root, provenance=provenance)
    if records is not None:
        files.update(files_of(records, "records", 0))
        words.append("--records=records")
    words += ["--public-keys"] * bool(public_keys) + ["--strict"] * bool(strict)
    given_numbers = {"depth": depth, "most-checks": most_checks}
    words += [f"--{name}={one}" for name, one in given_numbers.items() if one is not None]
    return _judged(words, files)
