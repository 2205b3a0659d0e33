"""Chains signed by public keys, in the forms in which in-toto-golang reads them.

Used by bench/library and bench/run. Needs the package `cryptography`.
"""

import base64
import functools
import json
import pathlib
import sys

TOP = pathlib.Path(__file__).resolve().parent.parent
sys.path.append(str(TOP / "conformance"))

from deliveries import chain
import peer_programs
from scripts import loaded

tool = loaded(TOP / "conformance" / "in_toto_golang")
# The kinds of keys by their names.
KINDS = tool.KINDS


def payload_in(text):
    """The document in an envelope."""
    return json.loads(base64.b64decode(json.loads(text)["payload"]))


def by_keys(folder, kind, steps, people, files, statements=1):
    """A chain in which the owner, the builder and each of these people have a key of this kind."""
    delivery = chain(folder, steps, people, files, statements)
    keys = {who: KINDS[kind](who) for who in ("owner", "builder", *delivery.people)}
    body = payload_in(pathlib.Path(delivery.path("layout")).read_text(encoding="utf-8"))
    body.update(readme="", keys=tool.keys(*map(keys.get, delivery.people)))
    for step in body["steps"]:
        step["pubkeys"] = [tool.id_of(keys[who]) for who in step["pubkeys"]]
    delivery.write("layout", tool.sealed(body, keys["owner"]))
    for path in list(pathlib.Path(delivery.path("links")).iterdir()):
        name, who, _ = path.name.split(".")
        record = {**payload_in(path.read_bytes()), "byproducts": {}, "command": [], "environment": {}}
        path.unlink()
        delivery.write(f"links/{tool.file_of(name, keys[who])}", tool.sealed(record, keys[who]))
    policy = json.loads(pathlib.Path(delivery.path("policy")).read_bytes())
    policy["owners"] = tool.keys(keys["owner"])
    policy["expectations"][0]["builders"][0]["keys"] = tool.keys(keys["builder"])
    delivery.write("policy", json.dumps(policy))
    lines = pathlib.Path(delivery.path("provenance")).read_bytes().splitlines()
    delivery.write("provenance", "".join(
        tool.sealed(payload_in(line), keys["builder"]) + "\n" for line in lines))
    delivery.owner = keys["owner"]
    return delivery


class KeyBytes:
    """A key with its encoding: 32 bytes of Ed25519, or a SubjectPublicKeyInfo."""

    def __init__(self, kind, number):
        self.made = KINDS[kind](f"signer {number}")
        self.sign = self.made.sign
        public = tool.by_keys.public_text(self.made)
        self.encoded = bytes.fromhex(public) if kind == "Ed25519" else body_of_pem(public)


key_bytes = functools.cache(KeyBytes)


def body_of_pem(text):
    """The bytes in a PEM text."""
    return base64.b64decode("".join(text.splitlines()[1:-1]))


def words_for_golang(peer, delivery):
    """The command by which in-toto-golang verifies the layout and the links of a chain."""
    path = delivery.path("owner.pem")
    pathlib.Path(path).write_bytes(peer_programs.pem_of(delivery.owner))
    return [peer, "verify", "--layout", delivery.path("layout"), "--layout-keys", path,
            "--link-dir", delivery.path("links")]
