#!/usr/bin/env python3
"""Writes bundles.jsonl: bundles, trusted roots and identities, and whether the bundle vouches for
the identity by the root; always the same.

    conformance/bundle_vectors.py            writes the file
    conformance/bundle_vectors.py --check    fails where it differs

The bundles, and what they do not meet, are those of private_sigstore.
"""
import collections
import random
import sys

sys.dont_write_bytecode = True
import lines
import private_sigstore
from sigstore_cases import line_of

DATA = lines.TOP / "crates" / "it_bundle_vectors" / "data" / "bundles.jsonl"
# How many bad bundles of each condition there are.
MOST = 2
# The conditions of which there are more, since each of their bundles is at an edge.
EDGES = ("authority-time", "authority-signature", "authority-name", "body-signature",
         "envelope-signature", "leaf-time", "one-signature")
GOOD = """uri email other-name v1-promise-only v1-with-proof v2-chain v3 v3-old-form intoto
    issuer-old-alone issuer-both root-issues-leaf chain-of-three p256-authority
    at-first-second-of-leaf at-last-second-of-leaf at-ends-of-authority-window
    at-ends-of-log-window at-ends-of-ct-window at-last-second-of-intermediate
    at-first-second-of-root greatest-log-index entry-of-unknown-log-besides
    entry-with-wrong-promise-besides entry-with-wrong-proof-besides entry-no-object-besides
    eight-entries second-timestamp timestamp-wrong-besides checkpoint-cosigned second-authority
    authority-twice-one-outside-its-window authority-that-does-not-read-besides
    log-of-unknown-kind-besides log-id-twice keyid other-payload-type low-and-high-s
    intermediate-is-anchor""".split()


def chosen():
    """The names of the cases that are written, in their order."""
    counts = collections.Counter()
    for name, (condition, _) in private_sigstore.CASES.items():
        counts[condition] += 1
        most = 3 * MOST if condition in EDGES else MOST
        if name.removeprefix("good-") in GOOD if condition is None else counts[condition] <= most:
            yield name


def text(value):
    """The text of a document, which may be given as its bytes."""
    return line_of(value).decode()


def row(name):
    """The row of a case."""
    condition, build = private_sigstore.CASES[name]
    bundle, root, identity, issuer, *_ = build(random.Random(f"1 {name} 0"))
    return {"name": name, "condition": condition or "", "root": text(root), "line": text(bundle),
            "identity": identity, "issuer": issuer, "vouches": condition is None}


def rows():
    """The rows of the cases that are written."""
    for name in chosen():
        try:
            yield row(name)
        except UnicodeDecodeError:
            continue  # a line that is no text is no bundle; a row cannot hold it


if __name__ == "__main__":
    lines.write(DATA, rows())
