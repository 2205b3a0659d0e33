"""The cases of the private Sigstore as bytes, and good bundles of it at random.

The same seed gives the same bytes.
"""

import json
import random
from typing import NamedTuple

import private_sigstore as private
from bundle_runs import named

# How many random good bundles a seed gives.
MANY = 200


class Case(NamedTuple):
    """A bundle, a trusted root, and the identity that is asked for.

    `condition` is the one that the bundle does not meet, or None. `key` is the key object that is
    asked for, where the case is about key objects.
    """

    name: str
    condition: str
    bundle: bytes
    root: bytes
    identity: str
    issuer: str
    key: dict = None

    def asked(self):
        """The key object that is asked for."""
        return self.key or named(self.identity, self.issuer)


def line_of(document):
    """The bytes of a document on one line; it may be given as its bytes."""
    if isinstance(document, bytes):
        return document
    return json.dumps(document, ensure_ascii=False, separators=(",", ":")).encode()


def case(name, condition, made):
    """A case of what was made: a bundle, a trusted root, and who is asked for."""
    bundle, root, *asked = made
    return Case(name, condition, line_of(bundle), line_of(root), *asked)


def cases(seed):
    """The cases of a seed: the random ones, and those that have names."""
    for number in range(MANY):
        made = private.Made(random.Random(f"{seed} good {number}"))
        yield case(f"random-{number}", None, made.case())
    for name, (condition, build) in private.CASES.items():
        yield case(name, condition, build(random.Random(f"{seed} {name} 0")))
