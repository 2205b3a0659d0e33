"""Whom a Sigstore bundle vouches for, in plain Python.

Written from docs/sigstore.md, docs/formats.md and docs/keys.md: it shares nothing with the program.
Where a bundle vouches for nobody, Unfit says which condition it misses, in the words of the first.
"""

import pathlib
import re
from typing import NamedTuple

from sigstore_certificates import Leaf, check_logged
from sigstore_der import is_valid
from sigstore_forms import (Unfit, bytes_at, document, list_at, member, need, object_at, of_type,
                            saying, text_at)
from sigstore_logs import OF_NO_LOG, OF_NOBODY, Entry, Signed

VERSIONS = {"application/vnd.dev.sigstore.bundle+json;version=0.1": 1,
            "application/vnd.dev.sigstore.bundle+json;version=0.2": 2,
            "application/vnd.dev.sigstore.bundle+json;version=0.3": 3,
            "application/vnd.dev.sigstore.bundle.v0.3+json": 3}
MOST_ENTRIES, MOST_BYTES = 8, 512
PAGE = pathlib.Path(__file__).resolve().parent.parent / "docs" / "sigstore.md"
UNREADABLE = "its entry has a member that is missing or of another form"


def conditions():
    """What a bundle can miss, in the order and the words of the page."""
    _, _, section = PAGE.read_text().partition("### What a bundle misses")
    rows = section.partition("|---|---|")[2].partition("\n\n")[0]
    return re.findall(r"`([^`]+)`", rows)


ORDER = conditions()


class Identity(NamedTuple):
    """Who signed, and who says so, both as bytes."""

    name: bytes
    issuer: bytes


def identity(name, issuer):
    """The identity of two byte strings, of which neither is empty or too long."""
    need(all(1 <= len(one) <= MOST_BYTES for one in (name, issuer)), "no identity")
    return Identity(name, issuer)


def identity_of(key):
    """The identity that a key object describes, or None."""
    try:
        held = object_at(key, "keyval")
        found = identity(text_at(held, "identity").encode(), text_at(held, "issuer").encode())
    except Unfit:
        return None
    return found if member(key, "scheme") == "Fulcio" else None


class Signature(NamedTuple):
    """A signature of an envelope, with its hint."""

    hint: str
    sig: bytes


class Envelope:
    """An envelope, from a document."""

    def __init__(self, value):
        self.payload, self.kind = bytes_at(value, "payload"), text_at(value, "payloadType")
        self.signatures = [
            Signature("" if member(one, "keyid") is None else text_at(one, "keyid"),
                      bytes_at(of_type(one, dict, "signature"), "sig"))
            for one in list_at(value, "signatures")]
        kind = self.kind.encode()
        self.message = b"DSSEv1 %d %s %d %s" % (len(kind), kind, len(self.payload), self.payload)


class Bundle:
    """A bundle, from a document that is no envelope."""

    def __init__(self, value):
        self.version = VERSIONS.get(text_at(value, "mediaType"))
        need(self.version, "another mediaType")
        self.envelope = Envelope(object_at(value, "dsseEnvelope"))
        self.material = member(value, "verificationMaterial")

    def certificate(self):
        """The bytes of the certificate of who signed."""
        need(member(self.material, "publicKey") is None,
             "it is signed by a public key, not by a certificate")
        alone, chain = (member(self.material, name)
                        for name in ("certificate", "x509CertificateChain"))
        need(alone is not None or chain is not None, "it has no certificate")
        need(alone is None or chain is None, "it has both a certificate and a chain")
        need(chain is None or self.version < 3,
             "bundles of version 0.3 have one certificate, not a chain")
        return saying("its certificate is empty, or not in base64", raw_bytes, alone, chain)

    def entries(self):
        """The elements that are to be entries of a transparency log."""
        none = "it has no entry of a transparency log"
        listed = saying(none, list_at, self.material, "tlogEntries")
        need(listed, none)
        need(len(listed) <= MOST_ENTRIES, f"it has more than {MOST_ENTRIES} entries")
        return listed


def raw_bytes(alone, chain):
    """The bytes of a certificate, or of the first of a chain."""
    if chain is not None:
        listed = list_at(chain, "certificates")
        need(listed, "an empty chain")
        alone = listed[0]
    return bytes_at(of_type(alone, dict, "certificate"), "rawBytes")


def read_line(line):
    """The envelope of a line of provenance, and the bundle that it is or None; or None for both."""
    try:
        value = document(line)
    except Unfit:
        return None, None
    try:
        return Envelope(value), None
    except Unfit:
        pass
    try:
        found = Bundle(value)
        return found.envelope, found
    except Unfit:
        return None, None


def vouched(bundle, root):
    """The identity that a bundle vouches for by a trusted root."""
    envelope = bundle.envelope
    count = len(envelope.signatures)
    need(count == 1, f"its envelope has {count} signatures, and a bundle's must have one")
    need(bundle.material is not None, "it has no verificationMaterial")
    content, listed = bundle.certificate(), bundle.entries()
    leaf = Leaf(content)
    found = saying("its certificate's name or issuer is empty or has more than 512 bytes",
                   identity, leaf.name, leaf.who_says)
    signed = Signed(envelope.payload, envelope.kind, envelope.signatures[0].sig, content)
    check_one(UNREADABLE, listed, lambda value: check_entry(value, bundle, signed, leaf, root))
    need(is_valid(leaf.info, envelope.message, signed.sig),
         "the certificate's key did not sign the envelope")
    return found


def check_one(least, given, check):
    """Raises Unfit where none of what is given passes a check: with the furthest condition that one
    of them misses, or with the least."""
    missed = [least]
    for one in given:
        try:
            return check(one)
        except Unfit as fault:
            missed.append(str(fault))
    raise Unfit(max(missed, key=ORDER.index))


def check_entry(value, bundle, signed, leaf, root):
    """Raises Unfit where an element is no entry by which a log vouches for what must be signed, or
    the leaf was not issued and logged at its moment."""
    entry = saying(UNREADABLE, lambda: Entry(of_type(value, dict, "entry")))
    check_one(OF_NO_LOG, root.logs, lambda log: entry.check(signed, bundle.version > 1, log))
    check_one(OF_NOBODY, root.authorities,
              lambda authority: check_issued(leaf, entry.moment, authority, root))


def check_issued(leaf, moment, authority, root):
    """Raises Unfit where an authority did not issue a leaf at a moment, or it is not logged as its."""
    authority.check(leaf, moment)
    check_logged(leaf, authority.certificates[0].info, root.certificate_logs)


class Vouched(NamedTuple):
    """What a line vouches for: an identity, a message and a signature of it."""

    identity: Identity
    message: bytes
    sig: bytes


def vouched_lines(lines, root):
    """What lines of provenance vouch for by a trusted root."""
    for line in lines:
        envelope, bundle = read_line(line)
        try:
            need(bundle, "no bundle")
            yield Vouched(vouched(bundle, root), envelope.message, envelope.signatures[0].sig)
        except Unfit:
            continue
