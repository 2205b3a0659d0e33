"""Verifies software supply chains by the in-toto specification 1.0, in this process.

    import datetime, pathlib, itv

    verdict = itv.verify(
        policy=pathlib.Path("policy.json"), layout=pathlib.Path("layout.envelope.json"),
        links=pathlib.Path("links"), sums=itv.digest(pathlib.Path("app.tar")),
        public_keys=True, at=datetime.datetime.now(datetime.timezone.utc))
    verdict.raise_for_refusal()

Each function runs a command of `itv`, over the documents that it is given: bytes as they are, a
`pathlib.Path` as what its file holds. Folders of links and of records are a `pathlib.Path`, or a
dictionary from names to documents, in which a dictionary is a folder. That a delivery is refused is
a value; that a command does not run is a `Stopped`, with the sentence of the program. Functions may
be called in several threads at once.
"""

from ._commands import (Checked, check, digest, key, link, match, pae, payload, sign, signed,
                        statement)
from ._errors import Found, ItvError, NoMemory, Refused, Stopped
from ._evidence import CountedKey, Evidence, FileEvidence, Signer, StepEvidence
from ._library import Run, run, version
from ._verify import Finding, Refusal, Verdict, verify

__all__ = ["Checked", "CountedKey", "Evidence", "FileEvidence", "Finding", "Found", "ItvError",
           "NoMemory", "Refusal", "Refused", "Run", "Signer", "StepEvidence", "Stopped", "Verdict", "check",
           "digest", "key", "link", "match", "pae", "payload", "run", "sign", "signed", "statement",
           "verify", "version"]
