#!/usr/bin/env python3
"""Writes leaves.jsonl: leaves, an authority and certificate logs, and whether the authority issued
the leaf and one of the logs promised to log it; always the same.

    conformance/leaf_vectors.py            writes the file
    conformance/leaf_vectors.py --check    fails where it differs

The certificates are made by the package `cryptography`, which also says what is signed by a
certificate log (`tbs_precertificate_bytes`). Each answer is written beside what is changed.
"""
import datetime
import hashlib
import sys
from dataclasses import dataclass, field, replace

sys.dont_write_bytecode = True
from cryptography import x509
from cryptography.hazmat.primitives import hashes, serialization
from cryptography.hazmat.primitives.asymmetric import ec
from cryptography.x509.oid import ExtendedKeyUsageOID, NameOID, ObjectIdentifier
import lines
from byte_forms import base64_text, der

DATA = lines.TOP / "crates" / "it_leaf_vectors" / "data" / "leaves.jsonl"
TIMESTAMPS = ObjectIdentifier("1.3.6.1.4.1.11129.2.4.2")
ISSUER = ObjectIdentifier("1.3.6.1.4.1.57264.1.8")
CURVES = {"p256": (ec.SECP256R1(), hashes.SHA256()), "p384": (ec.SECP384R1(), hashes.SHA384())}
MOMENT = 1_700_000_300
FIRST, LAST = MOMENT - 300, MOMENT + 300
YEAR = 365 * 86_400
# When authorities' certificates are valid.
YEARS = {"first": MOMENT - YEAR, "last": MOMENT + YEAR}


class Key:
    """A key that is always the same under one name."""

    def __init__(self, name, curve="p256"):
        self.curve, self.hash = CURVES[curve]
        seed = hashlib.sha512(name.encode()).digest()[:40]
        self.private = ec.derive_private_key(int.from_bytes(seed, "big") % 2**250 + 1, self.curve)
        self.info = self.private.public_key().public_bytes(
            serialization.Encoding.DER, serialization.PublicFormat.SubjectPublicKeyInfo)
        self.id = hashlib.sha256(self.info).digest()

    def sign(self, message):
        """The signature of a message."""
        return self.private.sign(message, ec.ECDSA(self.hash, deterministic_signing=True))


def named(text):
    """A name with this common name."""
    return x509.Name([x509.NameAttribute(NameOID.ORGANIZATION_NAME, "example.test"),
                      x509.NameAttribute(NameOID.COMMON_NAME, text)])


def at(seconds):
    """A moment."""
    return datetime.datetime.fromtimestamp(seconds, datetime.timezone.utc)


def usage(**bits):
    """A key usage of these purposes."""
    names = ("digital_signature", "content_commitment", "key_encipherment", "data_encipherment",
             "key_agreement", "key_cert_sign", "crl_sign", "encipher_only", "decipher_only")
    return x509.KeyUsage(**{name: bits.get(name, False) for name in names})


@dataclass(frozen=True)
class Certificate:
    """What is said of a certificate that is to be made."""

    subject: str
    issuer: str
    key: Key
    signer: Key
    first: int
    last: int
    hash: object = None  # another one than the signer's

    def bytes(self, extensions):
        """The certificate with these extensions, each with whether it is critical."""
        builder = x509.CertificateBuilder().subject_name(named(self.subject))
        builder = builder.issuer_name(named(self.issuer)).public_key(self.key.private.public_key())
        builder = builder.serial_number(int.from_bytes(self.key.id[:8], "big"))
        builder = builder.not_valid_before(at(self.first)).not_valid_after(at(self.last))
        for extension, critical in extensions:
            builder = builder.add_extension(extension, critical)
        made = builder.sign(self.signer.private, self.hash or self.signer.hash,
                            ecdsa_deterministic=True)
        return made.public_bytes(serialization.Encoding.DER)


@dataclass(frozen=True)
class Timestamp:
    """A timestamp of a certificate log."""

    log: Key
    moment: int = MOMENT * 1000
    extensions: bytes = b""
    signer: Key = None
    issuer_info: bytes = None
    version: int = 0
    moment_told: int = None
    algorithm: bytes = b"\x04\x03"

    def bytes(self, issuer_info, bare):
        """The timestamp for a leaf without timestamps."""
        signed = (b"\x00\x00" + self.moment.to_bytes(8, "big") + b"\x00\x01"
                  + hashlib.sha256(self.issuer_info or issuer_info).digest()
                  + len(bare).to_bytes(3, "big") + bare + counted(self.extensions))
        told = self.moment if self.moment_told is None else self.moment_told
        signature = (self.signer or self.log).sign(signed)
        return (bytes([self.version]) + self.log.id + told.to_bytes(8, "big")
                + counted(self.extensions) + self.algorithm + counted(signature))


def counted(content):
    """Bytes after their number."""
    return len(content).to_bytes(2, "big") + content


def leaf_bytes(leaf, issuer_info, items, place):
    """The leaf, with the items as its timestamps at a place among its extensions."""
    name = x509.UniformResourceIdentifier("https://example.test/build")
    extensions = [(usage(digital_signature=True), True),
                  (x509.ExtendedKeyUsage([ExtendedKeyUsageOID.CODE_SIGNING]), False),
                  (x509.SubjectAlternativeName([name]), True),
                  (x509.UnrecognizedExtension(ISSUER, b"\x0c\x14https://issuer.test/"), False)]
    if items is None:
        return leaf.bytes(extensions)

    def with_timestamps(listed):
        value = der(4, counted(b"".join(map(counted, listed))))
        timestamps = (x509.UnrecognizedExtension(TIMESTAMPS, value), False)
        return leaf.bytes(extensions[:place] + [timestamps] + extensions[place:])

    # Any list will do to learn the bytes without it, as long as it reads.
    shape = with_timestamps([Timestamp(KEYS["log"]).bytes(issuer_info, b"")])
    bare = x509.load_der_x509_certificate(shape).tbs_precertificate_bytes
    return with_timestamps([one if isinstance(one, bytes) else one.bytes(issuer_info, bare)
                            for one in items])


KEYS = {name: Key(name) for name in ("log", "other log", "stranger", "leaf", "root", "middle")}
BIG = {name: Key(name, "p384") for name in ("root", "middle")}
STRANGER = KEYS["stranger"]


@dataclass(frozen=True)
class Case:
    """A leaf with its authority and logs, all good, where nothing is changed."""

    chain: tuple = ("p384", "p384")  # the curves of the authority's keys, the issuer's first
    leaf: dict = field(default_factory=dict)
    middle: dict = field(default_factory=dict)
    anchor: dict = field(default_factory=dict)
    middle_path: int = 0
    middle_signs: bool = True
    window: tuple = (MOMENT - YEAR, None)
    log_window: tuple = (MOMENT - YEAR, None)
    items: tuple = (Timestamp(KEYS["log"]),)
    place: int = 4
    log: Key = KEYS["log"]
    log_id: bytes = None
    hash_algorithm: str = "SHA2_256"
    moment: int = MOMENT
    wrong_leaf: bool = False  # a bit of its signature is flipped
    wrong_middle: bool = False

    def certificates(self):
        """The leaf and the authority's certificates, the issuer's first."""
        curves = [{"p256": KEYS, "p384": BIG}[curve] for curve in self.chain]
        chain, issuer, name = [self.anchor_bytes(curves[-1]["root"])], curves[-1]["root"], "root"
        if len(curves) == 2:
            issuer, name = curves[0]["middle"], "middle"
            chain.insert(0, self.middle_bytes(issuer, curves[-1]["root"]))
        leaf = replace(Certificate("leaf", name, KEYS["leaf"], issuer, FIRST, LAST), **self.leaf)
        content = leaf_bytes(leaf, issuer.info, self.items, self.place)
        if self.wrong_leaf:
            content = flipped(content)
        if self.wrong_middle:
            chain[0] = flipped(chain[0])
        return content, chain

    def anchor_bytes(self, key):
        """The anchor, which is of this key."""
        anchor = replace(Certificate("root", "root", key, key, **YEARS), **self.anchor)
        return anchor.bytes([(usage(key_cert_sign=True), True),
                             (x509.BasicConstraints(True, 1), True)])

    def middle_bytes(self, key, signer):
        """The issuer's certificate, which is of this key, where that is not the anchor."""
        middle = replace(Certificate("middle", "root", key, signer, **YEARS), **self.middle)
        signs = usage(**{"key_cert_sign" if self.middle_signs else "digital_signature": True})
        return middle.bytes([
            (signs, True), (x509.BasicConstraints(True, self.middle_path), True),
            (x509.ExtendedKeyUsage([ExtendedKeyUsageOID.CODE_SIGNING]), False)])

    def row(self, name, issued, logged):
        """The row of the case, with what is to be found."""
        leaf, chain = self.certificates()
        log = {"hashAlgorithm": self.hash_algorithm,
               "publicKey": {"rawBytes": base64_text(self.log.info),
                             "keyDetails": "PKIX_ECDSA_P256_SHA_256",
                             "validFor": span(self.log_window)},
               "logId": {"keyId": base64_text(self.log_id or self.log.id)}}
        certificates = [{"rawBytes": base64_text(one)} for one in chain]
        authority = {"certChain": {"certificates": certificates}, "validFor": span(self.window)}
        return {"name": name, "authority": lines.text(authority), "logs": lines.text([log]),
                "leaf": leaf.hex(), "moment": self.moment, "issued": issued, "logged": logged}


def flipped(data):
    """Bytes whose last bit is the other one."""
    return data[:-1] + bytes([data[-1] ^ 1])


def span(window):
    """The times from when and until when something counts, as a trusted root has them."""
    texts = [None if one is None else at(one).strftime("%Y-%m-%dT%H:%M:%SZ") for one in window]
    return {"start": texts[0]} | ({} if texts[1] is None else {"end": texts[1]})


def good():
    """Leaves that their authority issued and a log promised to log."""
    yield "p384", Case()
    yield "p256", Case(chain=("p256", "p256"))
    yield "p256 under p384", Case(chain=("p256", "p384"))
    yield "p384 under p256", Case(chain=("p384", "p256"))
    yield "one certificate of p256", Case(chain=("p256",))
    yield "one certificate of p384", Case(chain=("p384",))
    yield "at the leaf's first moment", Case(moment=FIRST)
    yield "at the leaf's last moment", Case(moment=LAST)
    yield "at the window's start", Case(window=(MOMENT, None))
    yield "at the window's end", Case(window=(MOMENT - YEAR, MOMENT))
    yield "at the log window's start", Case(log_window=(MOMENT, None))
    yield "at the log window's end", Case(log_window=(MOMENT - YEAR, MOMENT))
    yield "the timestamp after its log's time in seconds", Case(
        log_window=(MOMENT - YEAR, MOMENT + 1), items=stamped(moment=MOMENT * 1000 + 999))
    yield "an anchor that another signed", Case(anchor={"issuer": "elsewhere", "signer": STRANGER})
    yield "timestamps first", Case(place=0)
    yield "timestamps in the middle", Case(place=2)
    yield "a timestamp with extensions", Case(items=stamped(extensions=b"more"))
    yield "a bad timestamp before the good one", Case(
        items=(*stamped(signer=STRANGER), *stamped()))
    yield "an item that is no timestamp", Case(items=(b"none", *stamped()))
    yield "eight timestamps", Case(items=(Timestamp(STRANGER),) * 7 + stamped())


def stamped(log="log", **changed):
    """The one timestamp of a log, with these changes."""
    return (Timestamp(KEYS[log], **changed),)


def not_issued():
    """Leaves that their authority did not issue, but a log promised to log."""
    small = {"chain": ("p256", "p256")}
    yield "the leaf's signature is wrong", Case(wrong_leaf=True)
    yield "the leaf is signed by a stranger", Case(**small, leaf={"signer": STRANGER})
    yield "the leaf is signed by the anchor", Case(leaf={"signer": BIG["root"]})
    yield "the leaf names another issuer", Case(leaf={"issuer": "root"})
    yield "p384 with sha256", Case(leaf={"hash": hashes.SHA256()})
    yield "p256 with sha384", Case(**small, leaf={"hash": hashes.SHA384()})
    yield "the leaf expired", Case(moment=LAST + 1)
    yield "before the leaf", Case(moment=FIRST - 1)
    yield "before the window", Case(window=(MOMENT + 1, None))
    yield "after the window", Case(window=(MOMENT - YEAR, MOMENT - 1))
    yield "the issuer expired", Case(middle={"last": MOMENT - 1})
    yield "before the issuer", Case(middle={"first": MOMENT + 1})
    yield "the anchor expired", Case(anchor={"last": MOMENT - 1})
    yield "before the anchor", Case(anchor={"first": MOMENT + 1})
    yield "the issuer's signature is wrong", Case(wrong_middle=True)
    yield "the issuer is signed by a stranger", Case(chain=("p384", "p256"),
                                                     middle={"signer": STRANGER})
    yield "the issuer names another", Case(middle={"issuer": "elsewhere"})
    yield "the issuer may not issue", Case(middle_signs=False)


def not_logged():
    """Leaves that their authority issued, but no log promised to log."""
    other = KEYS["other log"]
    yield "no timestamps", Case(items=None)
    yield "a log that is not known", Case(items=stamped("other log"))
    yield "another log's signature", Case(items=stamped(signer=other))
    yield "a log with another id", Case(log_id=other.id)
    yield "another moment than was signed", Case(items=stamped(moment_told=MOMENT * 1000 + 1))
    yield "another issuer's key", Case(items=stamped(issuer_info=STRANGER.info))
    yield "before the log's window", Case(log_window=(MOMENT + 1, None))
    yield "after the log's window", Case(log_window=(MOMENT - YEAR, MOMENT),
                                         items=stamped(moment=MOMENT * 1000 + 1))
    yield "another version", Case(items=stamped(version=1))
    yield "another algorithm", Case(items=stamped(algorithm=b"\x05\x03"))
    yield "a log that is passed over", Case(hash_algorithm="SHA2_512")
    yield "nine timestamps", Case(items=stamped() * 9)


def neither():
    """A leaf of which neither holds."""
    yield "neither", Case(wrong_leaf=True, items=stamped("other log"))


def rows():
    """The rows of all leaves."""
    for cases, issued, logged in ((good, True, True), (not_issued, False, True),
                                  (not_logged, True, False), (neither, False, False)):
        for name, case in cases():
            # The timestamps are those of an authority that can be used.
            usable = not (case.wrong_middle or case.middle.get("signer")
                          or case.middle.get("issuer") or not case.middle_signs)
            yield case.row(name, issued, logged and usable)


if __name__ == "__main__":
    lines.write(DATA, rows())
