"""The commands of `itv` other than `verify`."""

import dataclasses
import hashlib
import json
import pathlib
from typing import Any, Dict, List, Mapping, Optional

from ._documents import Document, bytes_of
from ._library import lines_of, run


@dataclasses.dataclass(frozen=True)
class Checked:
    """What is found in a policy and in a layout, one a line, and the notes where one does not
    read."""

    good: bool
    findings: List[str]
    notes: List[str]


def check(*, policy: Optional[Document] = None, layout: Optional[Document] = None) -> Checked:
    """What in a policy or a layout may not do what its author meant."""
    given = {"policy": policy, "layout": layout}
    files = {name: bytes_of(one, name) for name, one in given.items() if one is not None}
    found = run(["check", *(f"--{name}={name}" for name in files)], files)
    return Checked(found.status == 0, lines_of(found.output.decode()), found.notes)


def signed(envelope: Document, *, ring: Optional[Document] = None,
           keys: Optional[Document] = None,
           trusted_root: Optional[Document] = None) -> List[str]:
    """The ids, of a ring or of a file of public keys, that signed an envelope, as reports write
    them, in the order of their bytes. With `keys` and a `trusted_root` of Sigstore the envelope may
    be a bundle that holds it, and identities are among the keys. Nobody signed bytes that are no
    envelope."""
    name, by = _by(ring=ring, keys=keys)
    if trusted_root is not None and keys is None:
        raise TypeError("trusted_root is given beside keys")
    given = {"envelope": envelope, name: by, "trusted-root": trusted_root}
    files = {kind: bytes_of(one, kind) for kind, one in given.items() if one is not None}
    options = [f"--{kind}={kind}" for kind in files if kind != "envelope"]
    found = run(["signed", *options, "--", "envelope"], files)
    return lines_of(found.output.decode()) if found.status == 0 else []


def _by(**given):
    """The only one of some arguments that is given, with its name."""
    there = [(name, one) for name, one in given.items() if one is not None]
    if len(there) != 1:
        raise TypeError(f"one of {' and '.join(given)} is needed, and not both")
    return there[0]


def match(pattern: str, path: str) -> bool:
    """Whether a pattern of artifact rules matches a path."""
    return run(["match", "--", pattern, path], {}).status == 0


def digest(*paths: pathlib.Path, of: Optional[Mapping[str, bytes]] = None,
           sha512: bool = False) -> bytes:
    """The digest list of files, as `itv digest` writes it: of files by their paths, or of bytes by
    their names. It is by SHA-256, or by SHA-512 where `sha512` is true.

    The files at paths are digested here, by Python's `hashlib`, so that they need no room in
    memory; the names in the list are the paths as `pathlib` writes them. A name with a line feed or
    that is not UTF-8 is a `ValueError`.
    """
    if of is not None:
        if paths:
            raise TypeError("paths or bytes by names, and not both")
        words = ["digest", *["--sha512"] * bool(sha512), "--"]
        return run([*words, *of], dict(of)).output if of else b""
    return b"".join(_line(path, "sha512" if sha512 else "sha256") for path in paths)


def _line(path, algorithm):
    """The line of a file in a list by an algorithm."""
    name = str(path)
    if "\n" in name:
        raise ValueError(f"{name!r} has a line feed in its name, which a digest list cannot hold")
    hashed = hashlib.new(algorithm)
    with open(path, "rb") as file:
        for block in iter(lambda: file.read(1 << 20), b""):
            hashed.update(block)
    return f"{hashed.hexdigest()}  {name}\n".encode()


def pae(body: Document, *, type: str) -> bytes:  # pylint: disable=redefined-builtin
    """What is signed for a body: its pre-authentication encoding."""
    return run(["pae", f"--type={type}", "--", "body"], {"body": bytes_of(body, "body")}).output


def payload(envelope: Document) -> Optional[bytes]:
    """The payload of an envelope, or `None` where the bytes are none. No signature is looked at."""
    found = run(["payload", "--", "envelope"], {"envelope": bytes_of(envelope, "envelope")})
    return found.output if found.status == 0 else None


def sign(body: Document, *, key: str, type: str,  # pylint: disable=redefined-builtin
         ring: Optional[Document] = None, signature: Optional[Document] = None,
         keys: Optional[Document] = None, onto: Optional[Document] = None) -> bytes:
    """The envelope of a body, signed under a key of a ring, or with a signature that was made
    elsewhere by a key of a file of public keys; with `onto` that envelope with one more
    signature."""
    given = {"ring": ring, "signature": signature, "keys": keys, "onto": onto}
    files = {name: bytes_of(one, name) for name, one in given.items() if one is not None}
    options = [f"--{name}={name}" for name in files]
    files["body"] = bytes_of(body, "body")
    return run(["sign", *options, f"--key={key}", f"--type={type}", "--", "body"], files).output


def link(name: str, *, materials: Optional[Document] = None,
         products: Optional[Document] = None) -> bytes:
    """The body of a step's link, from digest lists of its materials and of its products."""
    given = {"materials": materials, "products": products}
    files = {kind: bytes_of(one, kind) for kind, one in given.items() if one is not None}
    return run(["link", f"--name={name}", *(f"--{kind}={kind}" for kind in files)], files).output


def statement(*, sums: Document, builder: str, build_type: str,
              parameters: Optional[Document] = None) -> bytes:
    """A Statement with provenance for the files of a digest list; `parameters` are the external
    parameters of the build, a JSON object."""
    files = {"sums": bytes_of(sums, "sums")}
    words = ["statement", "--sums=sums", f"--builder={builder}", f"--build-type={build_type}"]
    if parameters is not None:
        files["parameters"] = bytes_of(parameters, "parameters")
        words.append("--parameters=parameters")
    return run(words, files).output


def key(*files: Document, identity: Optional[str] = None, issuer: Optional[str] = None,
        name: Optional[str] = None) -> Dict[str, Any]:
    """The public keys of PEM files, or an identity with its issuer, as key objects under their ids,
    or one of them under a given name."""
    named = {f"key-{number}": bytes_of(one, "a key") for number, one in enumerate(files, 1)}
    given = {"identity": identity, "issuer": issuer, "name": name}
    words = [f"--{option}={value}" for option, value in given.items() if value is not None]
    return json.loads(run(["key", *words, "--", *named], named).output)
