"""What random deliveries with Sigstore bundles are made of: bundles, and small deliveries by them.

The bundles are those of a private Sigstore (conformance/private_sigstore).
"""

import hashlib

import by_keys
import private_sigstore as private
from bundle_runs import named
from deliveries import MOMENT, compact, layout
from keys_made import Bundle
from private_sigstore import BUILD_TYPE, BUILDER, WORKFLOW

FILES = {"app": b"an artifact\n", "lib": b"lib\n"}


def digests(content, *algorithms):
    """The digest set of bytes by these algorithms."""
    return {name: hashlib.new(name, content).hexdigest() for name in algorithms}


class Part:
    """A bundle with what there is to trust it by: its trusted root, and a key object.

    `artifact` is what its Statement is about, and `condition` what the bundle does not meet.
    """

    def __init__(self, bundle, root, key, artifact=FILES["app"], condition=None):
        self.bundle, self.root, self.key = bundle, root, key
        self.artifact, self.condition = artifact, condition

    def is_plain(self):
        """Whether the bundle is a document, which can be changed."""
        return isinstance(self.bundle, dict) and isinstance(self.bundle.get("dsseEnvelope"), dict)


def of_case(dice, name):
    """The part of a case of the private Sigstore, with a root of its own."""
    condition, build = private.CASES[name]
    bundle, root, identity, issuer, *keys = build(dice)
    key = keys[0] if keys else named(identity, issuer)
    return Part(bundle, root, key, condition=condition)


def of_made(made):
    """The part of a bundle that was just made."""
    bundle, root, *identity = made.case()
    return Part(bundle, root, named(*identity), made.artifact)


class Plain:
    """A delivery of one file, without steps, whose builder has one key object."""

    moment, depth, ring, public_keys = MOMENT, 4, None, True

    def __init__(self, root, provenance, key, digest_set, builder=BUILDER, **expected):
        self.root, self.provenance, self.bundle = root, provenance, Bundle()
        owner = by_keys.p256("owner")
        self.layout = by_keys.signed_by(layout([], []), ("owner", owner))
        self.sums, self.sums512 = (f"{digest_set[name]}  app\n" if name in digest_set else None
                                   for name in ("sha256", "sha512"))
        self.expectation = {"files": "*", "builders": [{"id": builder, "keys": {"signer": key}}],
                            **expected}
        self.owned_by(by_keys.key(owner))

    def owned_by(self, key):
        """Has the policy say that the layout is owned by a key."""
        self.policy = compact({"owners": {"owner": key}, "deliver": [["ALLOW", "*"]],
                               "expectations": [self.expectation]}).decode()
