"""Entries of the transparency log of a private Sigstore, with their bodies and proofs."""

import hashlib
import json

from byte_forms import base64_text

from .keys import pem
from .leaves import change
from .trees import path, top

# How the log's signatures on checkpoints begin.
MARK = "\u2014 log.example.test "


def compact(document):
    """A document as JSON without spaces."""
    return json.dumps(document, separators=(",", ":"))


def sha256_of(content):
    """The SHA-256 of bytes, as bodies have it."""
    return {"algorithm": "sha256", "value": hashlib.sha256(content).hexdigest()}


def body_parts(made, kind, said):
    """The version and the contents of a body of a kind; `said` are its options."""
    signature = base64_text(said.get("signature", made.signature))
    own = sha256_of(made.dice.randbytes(8))
    leaf = base64_text(said.get("pem", pem(made.leaf, end=said.get("pem_end", "\n"))).encode())
    payload_hash = said.get("payload_hash", sha256_of(said.get("payload", made.payload)))
    count = said.get("count", 1)
    if kind == "dsse":
        one = {"signature": said.get("signature_text", signature), "verifier": leaf}
        return "0.0.1", {"envelopeHash": own, "payloadHash": payload_hash,
                         "signatures": [one] * count}
    if kind == "hashedrekord":
        return "0.0.1", {"data": {"hash": sha256_of(made.message)},
                         "signature": {"content": signature, "publicKey": {"content": leaf}}}
    twice = base64_text(signature.encode())
    one = {"publicKey": leaf, "sig": said.get("signature_text", twice)}
    envelope = {"payloadType": said.get("payload_type", made.payload_type),
                "signatures": [one] * count}
    return "0.0.2", {"content": {"envelope": envelope, "hash": own, "payloadHash": payload_hash}}


def body(made, **said):
    """The body of an entry, and the kind and the version that it says."""
    version, contents = body_parts(made, made.kind, said)
    document = {"apiVersion": said.get("version", version),
                "kind": said.get("kind_text", made.kind), "spec": contents}
    said.get("edit", lambda document: None)(document)
    text = json.dumps(document, separators=(",", ":"), sort_keys=True)
    return text.encode(), document["kind"], document["apiVersion"]


def entry(made, **options):
    """An entry about a bundle, by the log or by another one."""
    dice, log = made.dice, options.get("log", made.sigstore.log)
    options = {**made.options.get("entry", {}), **options}
    content, kind, version = body(made, **{**made.options.get("body", {}),
                                           **options.get("body", {})})
    content = options.get("body_bytes", content)
    index = options.get("index", dice.randrange(1, 10**8))
    promise = base64_text(promised(made, log, content, index, options))
    made_entry = {
        "logIndex": str(index), "logId": {"keyId": base64_text(log.id)},
        "kindVersion": {"kind": kind, "version": version},
        "integratedTime": str(options.get("moment", made.moment)),
        "inclusionPromise": {"signedEntryTimestamp": promise},
        "inclusionProof": proof(made, log, content, **options.get("proof", {})),
        "canonicalizedBody": base64_text(content)}
    is_free = not options.get("keep_proof") and "proof" not in options
    if made.version == 1 and dice.random() < 0.5 and is_free:
        dice.randrange(1)  # takes a number, so that those after it stay the same
        made_entry["inclusionProof"] = None
    change(made_entry, options.get("over", {}))
    return made_entry


def promised(made, log, content, index, options):
    """The signature of a log by which it promises to include an entry."""
    moment = options.get("moment", made.moment)
    signed = {"body": base64_text(options.get("signed_body", content)),
              "integratedTime": options.get("signed_moment", moment),
              "logID": log.id.hex(), "logIndex": options.get("signed_index", index)}
    text = options.get("promise_text", compact)(signed)
    return options.get("promise_key", log).sign(text.encode()) + options.get("promise_after", b"")


def proof(made, log, content, **options):
    """The proof that an entry is in a tree of the log, with its checkpoint."""
    dice = made.dice
    count = options.get("size", dice.choice([1, 2, 3, 7, 8, 9, dice.randrange(1, 300)]))
    place = options.get("at", dice.randrange(count))
    leaves = [dice.randbytes(32) for _ in range(count)]
    leaves[place] = hashlib.sha256(options.get("prefix", b"\x00") + content).digest()
    root = top(leaves)
    hashes = options.get("hashes", lambda hashes: hashes)(path(place, leaves))
    note = checkpoint(made, log, options.get("said_size", count), options.get("said_root", root),
                      **options.get("checkpoint", {}))
    found = {"logIndex": str(options.get("said_at", place)),
             "rootHash": base64_text(options.get("root", root)),
             "treeSize": str(options.get("tree_size", count)),
             "hashes": list(map(base64_text, hashes)), "checkpoint": {"envelope": note}}
    change(found, options.get("over", {}))
    return found


def checkpoint(made, log, count, root, **options):
    """The checkpoint of a tree of a log."""
    dice, key = made.dice, options.get("key", log)
    lines = [options.get("origin", f"log.example.test - {dice.randrange(10**15)}"),
             options.get("size_text", str(count)), options.get("root_text", base64_text(root))]
    time = f"Timestamp: {made.moment}{dice.randrange(10**9):09d}" if dice.random() < 0.5 else None
    lines += options.get("more", [time] if time else [])
    text = "".join(line + "\n" for line in lines)
    signature = key.sign(options.get("signed", lambda text: text)(text).encode())
    mark = MARK + base64_text(options.get("hint", log.id[:4]) + signature) + "\n"
    marks = options.get("marks", lambda mark: [mark])(mark)
    return options.get("whole", note_of)(text, marks)


def note_of(text, marks):
    """A checkpoint of its text and of signatures on it."""
    return text + "\n" + "".join(marks)
