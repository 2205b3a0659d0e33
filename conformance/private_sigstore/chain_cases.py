"""Cases of authorities: the times and the names of their certificates, and who signed them."""

import hashlib
import random

from byte_forms import der, integer

from .authority import SECOND, Sigstore, raw, time_text
from .bundles import Made
from .certificates import signed_part
from .keys import Key
from .leaf_cases import made_again
from .registry import BEGIN, Drawn, case, on_chain, on_root, put, simple
from .values import (NAME_CONSTRAINTS, SERVER, SHA256_ECDSA, SHA384_ECDSA, UNKNOWN, YES,
                     distinguished_name, extension)

# The condition that is not met where no authority that may issue has the issuer's name.
UNUSABLE = "authority-name"
NOT_SIGNED = "authority-signature"


def add():
    """Adds the cases that are not at edges."""
    of_times()
    of_signatures()
    of_changed_leaves()
    of_authorities()
    of_names()


def add_edges():
    """Adds the cases at edges."""
    of_constraints()
    of_long_chains()


def of_times():
    """Entries outside the time of a certificate, and leaves of an issuer that is not there."""
    def at(name, condition, seconds, **options):
        simple(name, condition, begin=BEGIN, moment=BEGIN + seconds, **options)

    moment = (BEGIN + 5) * SECOND
    intermediate = distinguished_name("intermediate")
    otherwise = intermediate.replace(b"\x0c\x0cintermediate", b"\x13\x0cintermediate")
    at("before-leaf", "leaf-time", -1)
    at("after-leaf", "leaf-time", 601)
    at("long-after-leaf", "leaf-time", 86_400 * 400)
    simple("issuer-of-other-name", UNUSABLE, leaf_issuer_name=distinguished_name("else"))
    simple("issuer-name-in-other-encoding", UNUSABLE, leaf_issuer_name=otherwise)
    simple("no-authority", UNUSABLE, root=on_root(put(certificateAuthorities=[])))
    at("before-authority-window", "authority-window", 5,
       root={"authority_window": {"start": time_text(moment + 1, 9)}})
    at("after-authority-window", "authority-window", 5,
       root={"authority_window": {"start": "2020-01-01T00:00:00Z",
                                  "end": time_text(moment - 1, 9)}})
    at("intermediate-ended", "authority-time", 5, authority={"middle_last": BEGIN + 4})
    at("intermediate-not-begun", "authority-time", 5, authority={"middle_first": BEGIN + 6})
    at("root-ended", "authority-time", 5, authority={"root_last": BEGIN + 4})
    at("root-not-begun", "authority-time", 5, authority={"root_first": BEGIN + 6})


def stranger(dice):
    """A key that nobody knows."""
    return Key(dice, "p384")


def strangers_authority(dice):
    """The case of a trusted root whose authority has the names of the one that issued the leaf,
    which came with the bundle."""
    made = Made(dice, version=2, form="chain")
    other = Sigstore(dice, made.begin)
    chain = made.bundle["verificationMaterial"]["x509CertificateChain"]["certificates"]
    chain[1:] = map(raw, made.sigstore.chain)
    own, root = made.sigstore.trusted_root(), other.trusted_root()
    root.update(tlogs=own["tlogs"], ctlogs=own["ctlogs"])
    return made.bundle, root, made.identity, made.issuer


def of_signatures():
    """Leaves that the authority did not sign, or not with its own hash."""
    def hashed(name, algorithm, another_hash, **options):
        simple(name, NOT_SIGNED, **options, certificate={
            "inner": algorithm, "outer": algorithm, "another_hash": another_hash})

    simple("leaf-of-stranger", NOT_SIGNED, leaf_signer=Drawn(stranger))
    case("authority-of-stranger-in-the-bundle", NOT_SIGNED, strangers_authority)
    hashed("leaf-sha256-of-p384", SHA256_ECDSA, hashlib.sha256)
    hashed("leaf-sha384-of-p256", SHA384_ECDSA, hashlib.sha384,
           authority={"middle_curve": "p256"})


def of_changed_leaves():
    """Leaves of which something was changed after they were signed."""
    def changed(name, condition, changing):
        def build(dice):
            made = Made(dice)
            return made_again(made, dice, changing(made)).case()
        case(name, condition, build)

    def signed_anew(unused, *after):
        def changing(made):
            key, signed = made.sigstore.issuer_key, signed_part(made.leaf)
            bits = der(3, bytes([unused]), key.sign(signed), *after)
            return der(0x30, signed, key.algorithm, bits)
        return changing

    def renamed(made):
        name = made.identity.encode()
        return made.leaf.replace(name, name[:-1] + b"X")

    changed("leaf-signature-byte-after", NOT_SIGNED, signed_anew(0, b"\x00"))
    changed("leaf-signature-of-unused-bits", "certificate-form", signed_anew(1))
    changed("leaf-changed-name", NOT_SIGNED, renamed)


def unusable(name, options=None, **authority):
    """Adds the case of an authority that may not issue the leaf."""
    simple(name, UNUSABLE, authority=authority, **(options or {}))


def of_authorities():
    """Authorities that may not issue, or not to so many below them."""
    unusable("intermediate-is-no-authority", middle_basic=der(0x30))
    unusable("intermediate-without-basic-constraints", middle_basic=None)
    unusable("intermediate-may-not-sign", middle_usage=bytes.fromhex("03020780"))
    unusable("intermediate-without-usage", middle_usage=None)
    unusable("intermediate-for-servers", middle_purposes=[SERVER])
    unusable("root-for-servers", root_purposes=[SERVER])
    unusable("root-without-usage", root_usage=None)
    unusable("root-path-too-short", root_path=0)
    unusable("intermediate-path-too-short", chain=3, middle_path=0)


def of_names():
    """Authorities whose certificates do not lead to one another, or may not be for all names."""
    constraints = extension(NAME_CONSTRAINTS, der(0x30, der(0xA0, der(0x30, der(0x86, b".test")))),
                            True)
    unusable("intermediate-of-other-root", middle_signer=stranger(random.Random(7)))
    unusable("intermediate-of-other-name", middle_issuer=distinguished_name("other root"))
    unusable("intermediate-critical-unknown", middle_more=[extension(UNKNOWN, b"x", True)])
    unusable("intermediate-name-constraints-of-another-kind", {"names": "email"},
             middle_more=[constraints])
    unusable("intermediate-name-constraints", {"names": "uri"}, middle_more=[constraints])
    simple("authority-in-other-order", UNUSABLE, root=on_chain(lambda chain: chain.reverse()))
    simple("good-intermediate-is-anchor", None, root=on_chain(lambda chain: chain.pop()))


def of_constraints():
    """Constraints and usages of intermediates that are nearly right."""
    def basic(name, *parts):
        unusable(name, middle_basic=der(0x30, YES, *parts))

    basic("intermediate-path-128", integer(128))
    simple("good-intermediate-path-127", None,
           authority={"middle_basic": der(0x30, YES, integer(127))})
    basic("intermediate-path-negative", der(2, b"\x80"))
    basic("intermediate-path-of-another-tag", der(4, b"\x00"))
    basic("intermediate-constraints-of-three", integer(0), integer(0))
    unusable("intermediate-crl-sign-alone", middle_usage=bytes.fromhex("03020102"))
    simple("good-intermediate-cert-sign-alone", None,
           authority={"middle_usage": bytes.fromhex("03020204")})


def of_long_chains():
    """Chains of as many certificates as there may be, and of one more."""
    def with_roots(count):
        def extend(chain):
            chain += [chain[-1]] * (count - len(chain))
        return on_chain(extend)

    simple("good-chain-of-eight", None, authority={"root_path": None}, root=with_roots(8))
    simple("root-chain-of-nine", "root", authority={"root_path": None}, root=with_roots(9))
