"""What `itv verify` has to answer for a delivery of keys_made, in plain Python.

Written from docs/formats.md and docs/keys.md: it shares nothing with the program, and with what
makes the deliveries only the notation of documents. Digest lists are read by digest_lists.py of
conformance, which was written from the same page.
"""

import base64
import binascii
import hashlib
import hmac
import json
import pathlib
import re
import sys

sys.path.insert(0, str(pathlib.Path(__file__).resolve().parent.parent / "conformance"))
from digest_lists import LISTS, BadLine, agree, listed

from cryptography.exceptions import InvalidSignature, UnsupportedAlgorithm
from cryptography.hazmat.primitives import hashes
from cryptography.hazmat.primitives.asymmetric import ec, padding, rsa
from cryptography.hazmat.primitives.asymmetric.ed25519 import Ed25519PublicKey
from cryptography.hazmat.primitives.serialization import (Encoding, PublicFormat,
                                                          load_der_public_key)

TYPE = "application/vnd.in-toto+json"
MOST_SIGNATURES = 64
# The encodings of points of small order that the deliveries have.
SMALL = {"01" + "00" * 31, "ec" + "ff" * 30 + "7f", "00" * 32}


class Refused(Exception):
    """A refusal: its lines, and the pairs of step and id from the outermost layout down."""

    def __init__(self, fault, *lines, at=()):
        super().__init__(fault)
        self.fault, self.lines, self.at = fault, list(lines), list(at)

    def report(self):
        """The lines of the report."""
        return [f"refused {self.fault}", "at " + ("/".join(self.at) or "-"), *self.lines]


def info_in(text):
    """The bytes in a PEM text of a public key, or None."""
    lines = text.replace("\r\n", "\n").removesuffix("\n").split("\n")
    begin, end = "-----BEGIN PUBLIC KEY-----", "-----END PUBLIC KEY-----"
    if len(lines) < 2 or (lines[0], lines[-1]) != (begin, end):
        return None
    if not all(1 <= len(line) <= 76 for line in lines[1:-1]):
        return None
    try:
        return base64.b64decode("".join(lines[1:-1]), validate=True)
    except binascii.Error:
        return None


# The curve of each scheme of ECDSA, and the digest that is signed.
CURVES = {"ecdsa-sha2-nistp256": (ec.SECP256R1, hashes.SHA256),
          "ecdsa-sha2-nistp384": (ec.SECP384R1, hashes.SHA384)}


def is_taken(key, scheme):
    """Whether a key is one that is checked under a scheme."""
    if scheme in CURVES:
        return isinstance(key, ec.EllipticCurvePublicKey) and isinstance(key.curve, CURVES[scheme][0])
    if scheme != "rsassa-pss-sha256" or not isinstance(key, rsa.RSAPublicKey):
        return False
    numbers = key.public_numbers()
    return (key.key_size in range(2048, 4097, 8) and numbers.n % 2 == 1
            and numbers.e in range(3, 2 ** 31, 2))


def info_of_key(text, scheme):
    """The encoding of the key in a PEM text that is checked under a scheme, or None."""
    info = info_in(text)
    try:
        key = load_der_public_key(info) if info else None
    except (ValueError, TypeError, UnsupportedAlgorithm):
        return None
    if not is_taken(key, scheme):
        return None
    plain = key.public_bytes(Encoding.DER, PublicFormat.SubjectPublicKeyInfo)
    return info if plain == info else None


class Checks:
    """The checks of a delivery: its ring, and public keys."""

    def __init__(self, delivery, ring, public_keys):
        entries = json.loads(delivery.ring) if ring and delivery.ring is not None else []
        self.secrets = {one["id"]: bytes.fromhex(one["secret"]) for one in entries}
        self.public_keys = public_keys

    def key(self, name, made):
        """The key that an id and an object name, as its scheme and what identifies it, or None."""
        scheme, text = made.get("scheme"), made.get("keyval", {}).get("public", "")
        if scheme == "hmac-sha256":
            secret = self.secrets.get(name)
            return None if secret is None else (scheme, secret.ljust(64, b"\0"))
        if not self.public_keys:
            return None
        if scheme == "ed25519":
            good = re.fullmatch("[0-9a-fA-F]{64}", text) and text.lower() not in SMALL
            return (scheme, bytes.fromhex(text)) if good else None
        info = info_of_key(text, scheme)
        return (scheme, info) if info else None

    def signed(self, envelope, name, made):
        """Whether the key that an id and an object name signed an envelope."""
        key = self.key(name, made) if made is not None else None
        return key is not None and any(
            hint in ("", name) and self.is_valid(key, envelope.message, sig)
            for hint, sig in envelope.signatures)

    def is_valid(self, key, message, sig):
        """Whether a signature of a message is valid for a key."""
        return is_valid(key, message, sig)


def is_valid(key, message, sig):
    """Whether a signature of a message is valid for a key."""
    scheme, number = key
    if scheme == "hmac-sha256":
        return hmac.digest(number, message, hashlib.sha256) == sig
    try:
        if scheme == "ed25519":
            Ed25519PublicKey.from_public_bytes(number).verify(sig, message)
        elif scheme in CURVES:
            load_der_public_key(number).verify(sig, message, ec.ECDSA(CURVES[scheme][1]()))
        else:
            form = padding.PSS(padding.MGF1(hashes.SHA256()), 32)
            load_der_public_key(number).verify(sig, message, form, hashes.SHA256())
    except InvalidSignature:
        return False
    return True


class Envelope:
    """The envelope in a text."""

    def __init__(self, text):
        document = json.loads(text)
        self.kind, self.payload = document["payloadType"], base64.b64decode(document["payload"])
        self.signatures = [(one.get("keyid", ""), base64.b64decode(one["sig"]))
                           for one in document["signatures"]]
        front = f"DSSEv1 {len(self.kind)} {self.kind} {len(self.payload)} "
        self.message = front.encode() + self.payload

    def has_too_many(self, checks):
        """Whether it has more signatures than are looked at."""
        return checks.public_keys and len(self.signatures) > MOST_SIGNATURES


def counted_envelope(text, checks):
    """The envelope in a text, if it is one of in-toto's type that is not left out, or None."""
    try:
        found = Envelope(text)
    except ValueError:
        return None
    return found if found.kind == TYPE and not found.has_too_many(checks) else None


def record_of(document):
    """The record of a link."""
    return document["materials"], document["products"]


class Level:
    """A layout, the files for it, and what they are checked with."""

    def __init__(self, checks, moment, layout, bundle, depth):
        self.checks, self.moment, self.layout = checks, moment, layout
        self.bundle, self.depth = bundle, depth

    def records(self):
        """The record of each step, and how many keys signed for it; or the first refusal."""
        if self.layout["expires"] < self.moment:
            raise Refused("30 Expired")
        return [self.step_record(step) for step in self.layout["steps"]]

    def bodies(self, step, name):
        """The bodies that count for a step under an id."""
        found = set()
        for file, text in self.bundle.files.items():
            if not re.fullmatch(re.escape(step["name"]) + r"\.[^.]+\.link", file):
                continue
            envelope = counted_envelope(text, self.checks)
            made = self.layout["keys"].get(name)
            if envelope and self.checks.signed(envelope, name, made):
                document = json.loads(envelope.payload)
                if document["_type"] == "layout" or document["name"] == step["name"]:
                    found.add(envelope.payload)
        return found

    def step_record(self, step):
        """The record of a step, and how many keys signed for it."""
        name, records, keys = step["name"], {}, set()
        for who in sorted(set(step["pubkeys"]), key=str.encode):
            bodies = self.bodies(step, who)
            if len(bodies) > 1:
                raise Refused("31 TwoPayloads", f"step {name}", f"key {who}")
            if bodies:
                records[who] = self.record(name, who, json.loads(bodies.pop()))
                keys.add(self.checks.key(who, self.layout["keys"][who]))
        if len(keys) < step["threshold"]:
            raise Refused("33 Threshold", f"step {name}", f"found {len(keys)}",
                          f"needed {step['threshold']}")
        for who, record in records.items():
            if record != next(iter(records.values())):
                raise Refused("34 Disagree", f"step {name}", f"key {who}")
        return next(iter(records.values())), len(keys)

    def record(self, step, who, document):
        """The record of a body: that of a link, or the one that a sublayout results in."""
        if document["_type"] == "link":
            return record_of(document)
        at = f"{step}/{who}"
        if self.depth == 0:
            raise Refused("32 TooDeep", at=[at])
        if document["inspect"]:
            raise Refused("35 InspectionInSublayout", at=[at])
        below = self.bundle.folders.get(f"{step}.{who[:8]}", type(self.bundle)())
        try:
            inner = Level(self.checks, self.moment, document, below, self.depth - 1).records()
        except Refused as refused:
            raise Refused(refused.fault, *refused.lines, at=[at, *refused.at]) from None
        return inner[0][0][0], inner[-1][0][1]


def delivered(delivery):
    """The digest sets of the delivered files, by their paths in the order of their bytes."""
    given = {name: (getattr(delivery, name, None) or "").encode() for name in LISTS}
    try:
        files = listed(given)
    except BadLine as bad:
        of = ["list sha512"] if bad.name == "sums512" else []
        raise Refused("12 BadSums", *of, f"line {bad.number}") from None
    if not files:
        raise Refused("14 NoFiles")
    return {path: files[path] for path in sorted(files, key=str.encode)}


def check_delivery(files, products):
    """Raises the refusal of a file that the last step did not make."""
    for path, digest_set in files.items():
        if not agree(digest_set, products.get(path, {})):
            raise Refused("40 RuleFailed", "item deliver", "side products", "rule 1", f"path {path}")


def attests(envelope, digest_set):
    """Whether a subject of the Statement in an envelope has a file's digests."""
    return any(agree(digest_set, one["digest"]) for one in json.loads(envelope.payload)["subject"])


def verdict(delivery):
    """The lines of an accepted delivery, or none if its layout is not read; raises its refusal."""
    checks = Checks(delivery, ring=True, public_keys=delivery.public_keys)
    policy = json.loads(delivery.policy)
    envelope = Envelope(delivery.layout)
    if envelope.has_too_many(checks):
        return []
    files = delivered(delivery)
    if envelope.kind != TYPE:
        raise Refused("21 WrongPayloadType")
    for owner in sorted(policy["owners"], key=str.encode):
        if not checks.signed(envelope, owner, policy["owners"][owner]):
            raise Refused("22 OwnerMissing", f"key {owner}")
    layout = json.loads(envelope.payload)
    records = Level(checks, delivery.moment, layout, delivery.bundle, delivery.depth).records()
    check_delivery(files, records[-1][0][1])
    builder = policy["expectations"][0]["builders"][0]["keys"]
    lines = [counted_envelope(line, checks) for line in delivery.provenance.split("\n")]
    for path, digest_set in files.items():
        if not any(line and attests(line, digest_set) and checks.signed(line, who, made)
                   for line in lines for who, made in builder.items()):
            raise Refused("61 NoProvenance", f"path {path}")
    steps = [f"step {step['name']} {keys}" for step, (_, keys) in zip(layout["steps"], records)]
    return ["accepted", *steps, *(f"file {path}" for path in files)]


def verified(delivery, judged=verdict):
    """The status of `verify`, the lines of its report, and the same as JSON.

    `judged` gives the lines of an accepted delivery, and raises the refusal of any other.
    """
    try:
        lines = judged(delivery)
    except Refused as refused:
        return 1, refused.report(), json_of_refusal(refused)
    steps = [line.split()[1:] for line in lines if line.startswith("step ")]
    files = [line.removeprefix("file ") for line in lines if line.startswith("file ")]
    accepted = {"verdict": "accepted", "files": files,
                "steps": [{"name": name, "keys": int(keys)} for name, keys in steps]}
    return (0, lines, accepted) if lines else (2, [], None)


def json_of_refusal(refused):
    """The report of a refusal as JSON: no text of these deliveries has to be escaped."""
    number, name = refused.fault.split()
    pairs = [line.split(" ", 1) for line in refused.lines]
    return {"verdict": "refused", "number": int(number), "name": name,
            "at": [dict(zip(("step", "key"), at.split("/"))) for at in refused.at],
            **{word: int(rest) if rest.isdigit() else rest for word, rest in pairs}}


ORDER = ["verdict", "number", "name", "at", "steps", "files"]


def json_text(document):
    """The text of a report as JSON: the members in ORDER first, and then the others."""
    first = {name: document[name] for name in ORDER if name in document}
    return json.dumps({**first, **document}, separators=(",", ":")) + "\n"


def signers(delivery):
    """The ids of the owners' public keys that signed the layout, in the order of their bytes."""
    owners, envelope = json.loads(delivery.policy)["owners"], Envelope(delivery.layout)
    alone = Checks(delivery, ring=False, public_keys=True)
    return [who for who in sorted(owners, key=str.encode)
            if alone.signed(envelope, who, owners[who])]


def answers(delivery):
    """What `verify`, `verify --json` and `signed --keys` answer: for each, a status and a text."""
    status, lines, document = verified(delivery)
    yield status, "".join(line + "\n" for line in lines)
    yield status, json_text(document) if document else ""
    found = signers(delivery)
    yield 0 if found else 1, "".join(who + "\n" for who in found)
