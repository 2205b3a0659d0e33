"""Other verifiers of in-toto layouts: the forms that each reads, and how it is run."""

import json
import pathlib

from cryptography.hazmat.primitives import serialization

import by_keys
from byte_forms import base64_text, pae
from peer_deliveries import TYPE
from peer_documents import Inexpressible, canonical, compact
from signing_keys import Ed25519Key, RsaKey


def pem_of(key):
    """The PEM text of a public key."""
    public = key.private.public_key() if isinstance(key, Ed25519Key) else key.public
    form = serialization.PublicFormat.SubjectPublicKeyInfo
    return public.public_bytes(serialization.Encoding.PEM, form)


def bytes_of_body(body):
    """The bytes of a body, which is a document or bytes that are none."""
    return body if isinstance(body, bytes) else compact(body)


class Golang:
    """in-toto-golang, which reads envelopes by DSSE and keys as PEM texts."""

    name = "in-toto-golang"
    packages, command = ["in-toto-golang"], "in-toto-golang verify"
    form = "DSSE envelopes"

    @staticmethod
    def message(kind, body):
        """What is signed for a body of a type."""
        return pae(kind, bytes_of_body(body))

    @staticmethod
    def envelope(kind, body, signatures):
        """The bytes of an envelope, with the pairs of an id and a signature."""
        made = [{"keyid": who, "sig": base64_text(sig)} for who, sig in signatures]
        payload = base64_text(bytes_of_body(body))
        return compact({"payload": payload, "payloadType": kind, "signatures": made})

    @staticmethod
    def words(owners, folder):
        """Writes the keys of owners, and returns the words that verify the delivery."""
        words = [Golang.name, "verify", "--layout=layout", "--link-dir=links"]
        for number, key in enumerate(owners):
            (folder / f"owner-{number}").write_bytes(pem_of(key))
            words.append(f"--layout-keys=owner-{number}")
        return words

    @staticmethod
    def said(answer):
        """What the program says where it refuses: its first line."""
        return next(iter((answer.err or answer.out).decode(errors="replace").splitlines()), "")


class Python:
    """in-toto for Python 1.3, which reads `signed` and `signatures`, over canonical JSON."""

    name = "in-toto"
    packages, command = ["in-toto", "python3-securesystemslib"], "in-toto-verify"
    form = "the form `{\"signatures\": [..], \"signed\": {..}}`"

    @staticmethod
    def message(kind, body):
        """What is signed for a body of a type."""
        if kind != TYPE:
            raise Inexpressible("another payload type, which the classic form does not have")
        if isinstance(body, bytes):
            raise Inexpressible("a body that is no JSON, which the classic form does not have")
        return canonical(body).encode()

    @staticmethod
    def envelope(_, body, signatures):
        """The bytes of an envelope, with the pairs of an id and a signature."""
        made = [{"keyid": who, "sig": sig.hex()} for who, sig in signatures]
        return compact({"signatures": made, "signed": body})

    @staticmethod
    def words(owners, folder):
        """Writes the keys of owners, and returns the words that verify the delivery."""
        files, kinds = [], []
        for number, key in enumerate(owners):
            files.append(f"owner-{number}")
            kinds.append(by_keys.KINDS[type(key)][0])
            of_json = {"keyid_hash_algorithms": ["sha256", "sha512"], **by_keys.key(key)}
            content = pem_of(key) if isinstance(key, RsaKey) else json.dumps(of_json).encode()
            (folder / files[-1]).write_bytes(content)
        return ["in-toto-verify", "--verbose", "--layout", "layout", "--link-dir", "links",
                "--layout-keys", *files, "--key-types", *kinds]

    @staticmethod
    def said(answer):
        """What the program says where it refuses: the error that it names, or its last line."""
        lines = answer.err.decode(errors="replace").splitlines()
        return next((line for line in lines if "(in-toto-verify)" in line), [*lines, ""][-1])


PEERS = {peer.name: peer for peer in (Golang, Python)}


def versions_of(peer, path):
    """The packages of a peer with their versions, as the file beside the program has them."""
    lines = (pathlib.Path(path).parent / "versions").read_text(encoding="utf-8").splitlines()
    found = dict(line.split("\t") for line in lines)
    return " and ".join(f"`{name}` {found[name]}" for name in peer.packages)
