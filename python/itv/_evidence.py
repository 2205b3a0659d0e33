"""What stands behind a delivery that is accepted."""

import dataclasses
from typing import Any, Dict, List, Optional


@dataclasses.dataclass(frozen=True)
class CountedKey:
    """A key id that counted for a step, the names of the files by which it did, and for each of
    these the place of the key's signature among the signatures of its envelope, counted from 1.
    """

    keyid: str
    files: List[str]
    signatures: List[int]


@dataclasses.dataclass(frozen=True)
class StepEvidence:
    """A step of the layout, and the key ids that counted for it, in the order of their bytes."""

    name: str
    keys: List[CountedKey]


@dataclasses.dataclass(frozen=True)
class Signer:
    """An identity that signed, its issuer, and the time of the log by which a bundle vouches for
    it, in seconds since 1970.
    """

    identity: str
    issuer: str
    logged_at: int


@dataclasses.dataclass(frozen=True)
class FileEvidence:
    """A delivered file, its digests from the name of the algorithm to hexadecimal digits, and what
    stood for it: the line of the provenance, counted from 1, the builder that it names, the
    builder's level, and, where a bundle vouches for an identity of this builder, who signed.
    """

    path: str
    digests: Dict[str, str]
    line: int
    builder: str
    level: int
    signer: Optional[Signer] = None


@dataclasses.dataclass(frozen=True)
class Evidence:
    """What stands behind a delivery that is accepted.

    `moment` is that of the verification, `policy` and `layout` are the SHA-256 of these documents in
    hexadecimal digits, `expires` is what the layout says; `steps` are in the order of the layout, and
    `files` in that of the bytes of their paths.
    """

    moment: str
    policy: str
    layout: str
    expires: str
    steps: List[StepEvidence]
    files: List[FileEvidence]


def file_of(told: Dict[str, Any]) -> FileEvidence:
    """What a report tells of a file."""
    signer = told.get("signer")
    if signer is None:
        return FileEvidence(**told)
    who = Signer(signer["identity"], signer["issuer"], signer["loggedAt"])
    return FileEvidence(**{**told, "signer": who})


def evidence_of(told: Dict[str, Any]) -> Evidence:
    """The evidence that a report tells as JSON."""
    steps = [StepEvidence(step["name"], [CountedKey(**key) for key in step["keys"]])
             for step in told["steps"]]
    files = [file_of(file) for file in told["files"]]
    return Evidence(**{**told, "steps": steps, "files": files})
