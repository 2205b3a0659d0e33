"""Vectors of public keys as data: what is tried with a key, and what the rules say about it."""

import sys

sys.dont_write_bytecode = True
import lines

DATA = lines.TOP / "crates" / "it_vectors" / "data"


def of_key(name, kind, key, is_key):
    """A vector that tries whether the bytes are a key."""
    return {"name": name, "kind": kind, "key": key.hex(), "is_key": is_key}


def of_signature(name, kind, key, message, signature, valid):
    """A vector that tries whether the bytes are a key and its signature of the message."""
    return {"name": name, "kind": kind, "key": key.hex(), "message": message.hex(),
            "signature": signature.hex(), "valid": valid}


def write(name, vectors):
    """Writes a file of vectors, whose names differ; with `--check`, fails if it differs."""
    made = list(vectors)
    names = [one["name"] for one in made]
    twice = sorted({one for one in names if names.count(one) > 1})
    if twice:
        sys.exit(f"{name}: these names stand twice: {', '.join(twice)}")
    lines.write(DATA / name, made)
