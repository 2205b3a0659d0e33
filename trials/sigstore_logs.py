"""Trusted roots, and entries of transparency logs, by docs/sigstore.md."""

import base64
import hashlib
import re
from typing import NamedTuple

from sigstore_certificates import usable
from sigstore_der import P256, curve_of, is_valid, key_of
from sigstore_forms import (Unfit, bytes_at, bytes_in, document, list_at, list_or_empty, member,
                            nanoseconds_at, need, number_at, object_at, of_type, saying,
                            standard_bytes_in, text_at, utf8)

ROOT_TYPES = ["application/vnd.dev.sigstore.trustedroot+json;version=0.1",
              "application/vnd.dev.sigstore.trustedroot.v0.1+json"]
MOST_LISTED, MOST_CERTIFICATES, MOST_HASHES, MOST_SIGNATURE_LINES = 64, 8, 63, 8
# What is said where no log that is used has an entry's id, and no authority the issuer's name.
OF_NO_LOG = "its entry is of no log of the trusted root that is used"
OF_NOBODY = "no authority that is used has the name of the certificate's issuer"
# What each kind of entry is called, and its version.
DSSE, INTOTO = ("dsse", "0.0.1"), ("intoto", "0.0.2")


class Window(NamedTuple):
    """A window, in nanoseconds since 1970; the end may be None."""

    start: int
    end: int

    def holds(self, moment):
        """Whether a moment lies in it."""
        return self.start <= moment and (self.end is None or moment <= self.end)


def window_at(value):
    """The window in the member `validFor`."""
    held = object_at(value, "validFor")
    end = None if member(held, "end") is None else nanoseconds_at(held, "end")
    return Window(nanoseconds_at(held, "start"), end)


class Log(NamedTuple):
    """A log that is used: its id, its key in its encoding, and when it counts."""

    id: bytes
    info: bytes
    window: Window


def log_in(value):
    """The log that an element of a trusted root is, or None where it is one that is not used."""
    algorithm, key = text_at(value, "hashAlgorithm"), object_at(value, "publicKey")
    details, info = text_at(key, "keyDetails"), bytes_at(key, "rawBytes")
    found = Log(bytes_at(object_at(value, "logId"), "keyId"), info, window_at(key))
    if (algorithm, details, len(found.id)) != ("SHA2_256", "PKIX_ECDSA_P256_SHA_256", 32):
        return None
    need(curve_of(info) == P256 and key_of(info), "a log whose key is not of P-256")
    return found


class Authority(NamedTuple):
    """An authority that can be used: its certificates, and when it counts."""

    certificates: list
    window: Window

    def check(self, leaf, moment):
        """Raises Unfit where it did not issue a leaf at a moment in seconds."""
        need(leaf.issuer == self.certificates[0].subject, OF_NOBODY)
        need(self.window.holds(moment * 10**9),
             "the certificate's issuer was not trusted at the time of its entry")
        need(leaf.is_valid_at(moment), "the certificate was not valid at the time of its entry")
        need(all(one.is_valid_at(moment) for one in self.certificates),
             "a certificate of the certificate's issuer was not valid at the time of its entry")
        need(leaf.is_signed_by(self.certificates[0].info),
             "the certificate is not signed by its issuer with the digest for the issuer's key")


def authority_in(value):
    """The authority that an element of a trusted root is, or None where it cannot be used."""
    listed = list_at(object_at(value, "certChain"), "certificates")
    need(1 <= len(listed) <= MOST_CERTIFICATES, "no certificate, or too many")
    contents = [bytes_at(of_type(one, dict, "certificate"), "rawBytes") for one in listed]
    window = window_at(value)
    try:
        return Authority(usable(contents), window)
    except Unfit:
        return None


class Root:
    """A trusted root, of which only what is used is kept."""

    def __init__(self, content):
        whole = of_type(document(content), dict, "trusted root")
        need(text_at(whole, "mediaType") in ROOT_TYPES, "another mediaType")
        self.logs = used(whole, "tlogs", log_in)
        self.authorities = used(whole, "certificateAuthorities", authority_in)
        self.certificate_logs = used(whole, "ctlogs", log_in)


def used(whole, name, read):
    """What is used of a list of a trusted root."""
    listed = list_or_empty(whole, name)
    found = [read(of_type(one, dict, name)) for one in listed]
    need(len(listed) <= MOST_LISTED, f"too many {name}")
    return [one for one in found if one is not None]


class Signed(NamedTuple):
    """What an entry must be about: a payload and its type, the signature, and the certificate."""

    payload: bytes
    kind: str
    sig: bytes
    certificate: bytes


class Proof:
    """An inclusion proof."""

    def __init__(self, value):
        self.index = number_at(value, "logIndex", missing=0)
        self.size = number_at(value, "treeSize")
        self.root = hash_in(text_at(value, "rootHash"))
        listed = list_or_empty(value, "hashes")
        need(len(listed) <= MOST_HASHES, "too many hashes")
        self.hashes = [hash_in(of_type(one, str, "hash")) for one in listed]
        self.note = text_at(object_at(value, "checkpoint"), "envelope")

    def check(self, body, log):
        """Raises Unfit where it does not hold for a body, by the key of a log."""
        saying("its inclusion proof does not lead to its root", self.check_hashes, body)
        check_checkpoint(self.note, self.size, self.root, log)

    def check_hashes(self, body):
        """Raises Unfit where the hashes do not lead to the root hash."""
        leaf = hashlib.sha256(b"\0" + body).digest()
        need(root_hash(self.index, self.size, leaf, self.hashes) == self.root, "another root hash")


def hash_in(text):
    """The hash in a base64 text."""
    found = bytes_in(text)
    need(len(found) == 32, "a hash of another length")
    return found


def root_hash(index, size, leaf, hashes):
    """The root hash to which hashes lead from a leaf hash (RFC 6962, section 2.1.1)."""
    need(index < size, "an index past the tree")
    if size == 1:
        need(not hashes, "a hash too many")
        return leaf
    need(hashes, "a hash too few")
    half = 1 << (size - 1).bit_length() - 1
    *inner, last = hashes
    if index < half:
        return node_hash(root_hash(index, half, leaf, inner), last)
    return node_hash(last, root_hash(index - half, size - half, leaf, inner))


def node_hash(left, right):
    """The hash of a node of a tree."""
    return hashlib.sha256(b"\1" + left + right).digest()


def check_checkpoint(note, size, root, log):
    """Raises Unfit where a note is no checkpoint of this tree that a log signed."""
    told, found = saying("the checkpoint of its inclusion proof does not read", note_in, note)
    need(told[1:3] == [str(size), base64.b64encode(root).decode()],
         "the checkpoint of its inclusion proof is not of its root and size")
    hint = hashlib.sha256(log.info).digest()[:4]
    text = "".join(f"{line}\n" for line in told).encode()
    need(any(one[:4] == hint and is_valid(log.info, text, one[4:]) for one in found),
         "the log did not sign the checkpoint of its inclusion proof")


def note_in(note):
    """The lines of a signed note of a tree, and its signatures."""
    lines, blank, signatures = note.partition("\n\n")
    told = lines.split("\n")
    need(blank and all(told) and len(told) >= 3, "a checkpoint of another form")
    need(re.fullmatch("0|[1-9][0-9]{0,19}", told[1]) and int(told[1]) < 2**64, "no size")
    need(signatures.endswith("\n"), "a checkpoint of another form")
    found = [signature_in(line) for line in signatures[:-1].split("\n")]
    need(len(found) <= MOST_SIGNATURE_LINES, "too many signatures on a checkpoint")
    return told, found


def signature_in(line):
    """The bytes in a signature line of a note."""
    found = re.fullmatch("\u2014 ([^ ]+) (.*)", line, re.DOTALL)
    need(found, "a signature line of another form")
    sig = standard_bytes_in(found[2])
    need(len(sig) >= 5, "a signature line without a signature")
    return sig


class Entry:
    """An entry of a transparency log."""

    def __init__(self, value):
        self.log = bytes_at(object_at(value, "logId"), "keyId")
        self.index = number_at(value, "logIndex", missing=0)
        self.moment = number_at(value, "integratedTime")
        need(self.moment >= 1, "an entry without a moment")
        kind = object_at(value, "kindVersion")
        self.kind = text_at(kind, "kind"), text_at(kind, "version")
        self.promise = bytes_at(object_at(value, "inclusionPromise"), "signedEntryTimestamp")
        proof = member(value, "inclusionProof")
        self.proof = None if proof is None else Proof(of_type(proof, dict, "inclusionProof"))
        self.body = bytes_at(value, "canonicalizedBody")

    def check(self, signed, needs_proof, log):
        """Raises Unfit where it does not vouch, by a log, for what must be signed."""
        need(self.log == log.id, OF_NO_LOG)
        need(log.window.holds(self.moment * 10**9),
             "its entry is from a time at which its log was not trusted")
        need(self.kind in (DSSE, INTOTO),
             "its entry is of another kind than dsse 0.0.1 and intoto 0.0.2")
        self.check_body(signed)
        if self.proof is not None:
            self.proof.check(self.body, log)
        need(self.proof is not None or not needs_proof, "its entry has no inclusion proof")
        promised = (f'{{"body":"{base64.b64encode(self.body).decode()}",'
                    f'"integratedTime":{self.moment},"logID":"{self.log.hex()}",'
                    f'"logIndex":{self.index}}}')
        need(is_valid(log.info, promised.encode(), self.promise),
             "the log did not sign its entry's time")

    def check_body(self, signed):
        """Raises Unfit where its body does not agree with what must be signed."""
        hashed, envelope, one = saying("its entry's body does not read", self.body_parts)
        saying("its entry is not about its payload", check_hash, hashed, signed.payload)
        if envelope is not None:
            saying("its entry is not about its payload type", check_type, envelope, signed.kind)
        saying("its entry is not about its signature", self.check_signature, one, signed.sig)
        saying("its entry is not about its certificate", self.check_certificate, one,
               signed.certificate)

    def body_parts(self):
        """What its body says: the payload's hash, the envelope of some kinds, the signature."""
        whole = of_type(document(self.body), dict, "body")
        need((text_at(whole, "kind"), text_at(whole, "apiVersion")) == self.kind,
             "a body of another kind")
        spec = value_at(whole, "spec")
        if self.kind == DSSE:
            (one,) = only(list_at(spec, "signatures"))
            return value_at(spec, "payloadHash"), None, one
        content = value_at(spec, "content")
        envelope = value_at(content, "envelope")
        (one,) = only(list_at(envelope, "signatures"))
        return value_at(content, "payloadHash"), envelope, one

    def check_signature(self, one, wanted):
        """Raises Unfit where a signature in its body is another."""
        found = bytes_at(of_type(one, dict, "signature"), self.names()[0])
        found = bytes_in(utf8(found)) if self.kind == INTOTO else found
        need(found == wanted, "another signature")

    def check_certificate(self, one, wanted):
        """Raises Unfit where the certificate of a signature in its body is another."""
        need(certificate_in(utf8(bytes_at(one, self.names()[1]))) == wanted, "another certificate")

    def names(self):
        """The names of the members of a signature, and of its certificate."""
        return ("signature", "verifier") if self.kind == DSSE else ("sig", "publicKey")


def value_at(value, name):
    """The member of a value of this name."""
    found = member(of_type(value, dict, name), name)
    need(found is not None, f"no {name}")
    return found


def only(listed):
    """A list, which must have one element."""
    need(len(listed) == 1, "not one signature")
    return listed


def check_type(envelope, kind):
    """Raises Unfit where the envelope in a body has another payload type."""
    need(text_at(envelope, "payloadType") == kind, "another type")


def check_hash(value, payload):
    """Raises Unfit where a hash in a body is not that of the payload."""
    value = of_type(value, dict, "payloadHash")
    need(text_at(value, "algorithm") == "sha256"
         and text_at(value, "value") == hashlib.sha256(payload).hexdigest(), "another payload")


def certificate_in(text):
    """The bytes in a PEM text of a certificate."""
    lines = text.replace("\r\n", "\n").removesuffix("\n").split("\n")
    need(len(lines) >= 2 and lines[0] == "-----BEGIN CERTIFICATE-----"
         and lines[-1] == "-----END CERTIFICATE-----", "no PEM text of a certificate")
    need(all(1 <= len(line) <= 76 for line in lines[1:-1]), "a line of a PEM text is too long")
    return standard_bytes_in("".join(lines[1:-1]))
