"""Cases of leaves: their keys, what their extensions say, their names and their issuers."""

import hashlib

from byte_forms import der, integer
from cryptography.hazmat.primitives.serialization import Encoding, PublicFormat

from .bundles import Made
from .certificates import signed_part
from .keys import Key
from .leaves import other_name
from .registry import Drawn, case, simple
from .values import (ANY, CONSTRAINTS, NAME_CONSTRAINTS, NAMES, NEW_ISSUER, POLICIES,
                     SERVER, UNKNOWN, YES, extension, identifier)

FORM, CRITICAL = "certificate-form", "certificate-critical"
OIDC = "https://oidc.example.test"
# Identifiers of keys on curves (RFC 5480, section 2.1), and how the point of a P-256 key begins.
OF_CURVE, P256 = identifier("1.2.840.10045.2.1"), identifier("1.2.840.10045.3.1.7")
POINT = b"\x03\x42\x00\x04"


def add():
    """Adds the cases that are not at edges."""
    of_keys()
    of_usages()
    of_critical_extensions()
    of_purposes()
    of_names()
    of_issuers()


def add_edges():
    """Adds the cases at edges."""
    of_sizes()
    of_empty_names()
    of_parts_of_keys()


def off_curve(dice):
    """A key that is no point of its curve."""
    info = Key(dice).info
    return info[:-1] + bytes([info[-1] ^ 1])


def compressed(dice):
    """A key whose point is written in the short way."""
    point = Key(dice).private.public_key().public_bytes(Encoding.X962,
                                                        PublicFormat.CompressedPoint)
    return der(0x30, der(0x30, OF_CURVE, P256), der(3, b"\x00", point))


def ed25519(dice):
    """A key of Ed25519."""
    return der(0x30, der(0x30, identifier("1.3.101.112")), der(3, b"\x00", dice.randbytes(32)))


def of_keys():
    """Keys of other kinds, and a key that is no point."""
    simple("leaf-key-off-curve", "envelope-signature", leaf_info=Drawn(off_curve))
    simple("leaf-key-compressed", FORM, leaf_info=Drawn(compressed))
    simple("leaf-key-ed25519", FORM, leaf_info=Drawn(ed25519))
    simple("leaf-key-p384", "leaf-key", leaf_key=Drawn(lambda dice: Key(dice, "p384")),
           sign_envelope=lambda made: made.leaf_key.sign(made.message, hashlib.sha256))


def of_usages():
    """Usages, constraints and purposes of other forms."""
    simple("usage-unused-bits", FORM, usage=bytes.fromhex("03020781"))
    simple("usage-empty", FORM, usage=bytes.fromhex("030100"))
    simple("usage-zeros-at-the-end", FORM, usage=bytes.fromhex("03020080"))
    simple("usage-second-byte-of-zeros", FORM, usage=bytes.fromhex("0303078000"))
    simple("basic-false-written", FORM, extensions={
        "basic": extension(CONSTRAINTS, der(0x30, der(1, b"\x00")), True)})
    simple("purposes-empty", FORM, purposes=[])


def of_critical_extensions():
    """Critical extensions that are not known, and known ones that must not be critical."""
    def more(name, kind, value, critical=True):
        simple(name, CRITICAL, extensions={"more": extension(kind, value, critical)})

    more("critical-unknown", UNKNOWN, b"any")
    simple("critical-issuer", CRITICAL, issuers="new", issuer=OIDC, extensions={
        "new": extension(NEW_ISSUER, der(0x0C, OIDC.encode()), True)})
    simple("critical-timestamps", CRITICAL, timestamps_critical=True)
    more("critical-policies", POLICIES, der(0x30, der(0x30, identifier("1.2.3.4"))))
    constrained = der(0x30, der(0xA0, der(0x30, der(0x86, b"github.com"))))
    more("name-constraints", NAME_CONSTRAINTS, constrained, critical=False)


def of_purposes():
    """Leaves that may not sign code, and authorities in their place."""
    simple("no-usage", "leaf-usage", extensions={"usage": None})
    simple("usage-of-authority", "leaf-usage", usage=bytes.fromhex("03020106"))
    simple("usage-encipherment", "leaf-usage", usage=bytes.fromhex("03020520"))
    simple("no-purposes", "leaf-purpose", extensions={"purposes": None})
    simple("purpose-server", "leaf-purpose", purposes=[SERVER])
    simple("purpose-any", "leaf-purpose", purposes=[ANY])
    simple("leaf-is-authority", "leaf-authority", extensions={
        "basic": extension(CONSTRAINTS, der(0x30, YES), True)})
    simple("leaf-is-authority-path-0", "leaf-authority", extensions={
        "basic": extension(CONSTRAINTS, der(0x30, YES, integer(0)), True)})


def of_names():
    """Leaves with no name, with several, or with one of another kind."""
    def named(name, names, identity, *values):
        simple(name, "leaf-name", names=names, identity=identity, name_values=b"".join(values))

    uri, user = "https://a.test/x", b"user!a.test"
    one, another = der(0x86, b"https://a.test/x"), der(0x86, b"https://b.test/x")
    email = der(0x81, b"a@b.test")
    simple("no-name", "leaf-name", extensions={"names": None})
    named("two-uris", "uri", uri, one, another)
    named("uri-and-email", "uri", uri, one, email)
    named("email-and-uri", "email", "a@b.test", email, one)
    named("dns-name", "uri", "a.test", der(0x82, b"a.test"))
    simple("names-empty", "leaf-name", identity=uri, name_values=b"")
    named("other-name-of-another-kind", "other", "user!a.test",
          other_name(user, "1.3.6.1.4.1.311.20.2.3"))
    named("other-name-ia5", "other", "user!a.test", other_name(user, tag=0x16))
    named("other-name-twice", "other", "user!a.test", other_name(user) * 2)


def of_issuers():
    """Leaves with no issuer, with two, or with one of another form."""
    def new(name, value):
        simple(name, "leaf-issuer", issuers="new", issuer=OIDC, new_issuer=value)

    simple("no-issuer", "leaf-issuer", issuers="none")
    simple("issuers-differ", "leaf-issuer", issuers="both", old_issuer=b"https://evil.test")
    simple("issuers-differ-in-case", "leaf-issuer", issuers="both", issuer=OIDC,
           old_issuer=OIDC.encode().replace(b"oidc", b"OIDC"))
    new("issuer-printable", der(0x13, OIDC.encode()))
    new("issuer-without-tag", OIDC.encode())
    new("issuer-byte-after", der(0x0C, OIDC.encode()) + b"\x00")


def of_sizes():
    """Names and whole certificates that are long, and lengths in more bytes than they need."""
    email = b"\x30\x81\x0a" + der(0x81, b"a@b.test")
    simple("name-length-in-two-bytes", "leaf-name", names="email", identity="a@b.test",
           extensions={"names": extension(NAMES, email, True)})
    simple("good-name-of-300", None, names="uri",
           identity="https://github.com/acme/" + "x" * 300)
    case("good-certificate-of-65535", None, longest_leaf)
    simple("certificate-of-65536", FORM, version=3,
           extensions={"more": extension(UNKNOWN, bytes(65_200))})
    case("signature-length-in-two-bytes", FORM, long_signature_length)


def longest_leaf(dice):
    """The case of a leaf whose contents have as many bytes as they may have."""
    size = 64_000
    for _ in range(400):
        made = Made(dice, begin=1_700_000_000, version=3,
                    extensions={"more": extension(UNKNOWN, bytes(size))})
        lacking = 65_535 - (len(made.leaf) - 4)
        if lacking == 0:
            return made.case()
        # Signatures differ in length, so that near the end only another attempt helps.
        if abs(lacking) > 6:
            size += lacking
    raise AssertionError


def made_again(made, dice, leaf):
    """A bundle with another leaf for the same key and identity."""
    return Made(dice, made.sigstore, begin=made.begin, moment=made.moment, leaf=leaf,
                leaf_key=made.leaf_key, identity=made.identity, issuer=made.issuer)


def long_signature_length(dice):
    """The case of a leaf in which the length of the signature takes a byte more than it needs."""
    made = Made(dice)
    signed, key = signed_part(made.leaf), made.sigstore.issuer_key
    sig = key.sign(signed)
    bits = b"\x03\x81" + bytes([len(sig) + 1]) + b"\x00" + sig
    return made_again(made, dice, der(0x30, signed, key.algorithm, bits)).case()


def of_empty_names():
    """Names and issuers that are empty, which no key object names."""
    simple("name-empty", "identity", names="uri", identity="",
           asked=lambda made: ("", made.issuer))
    simple("issuer-empty", "identity", issuers="both", issuer="",
           asked=lambda made: (made.identity, ""))


def of_parts_of_keys():
    """Keys that say that they are of another curve or kind, or whose point is written otherwise."""
    def renamed(name, old, new):
        def info(dice):
            found = Key(dice).info
            assert found.count(old) == 1
            return found.replace(old, new)
        simple(name, FORM, leaf_info=Drawn(info))

    renamed("leaf-key-of-another-curve-name", P256, identifier("1.2.840.10045.3.1.1"))
    renamed("leaf-key-of-another-kind", OF_CURVE, identifier("1.2.840.10045.2.2"))
    renamed("leaf-key-of-unused-bits", POINT, b"\x03\x42\x01\x04")
    renamed("leaf-key-hybrid-point", POINT, b"\x03\x42\x00\x06")
