"""What bundles, key objects of identities and trusted roots are, by docs/sigstore.md: another
reading of its tables, from which the rows of it_sigstore_values take their answers."""

import base64
import datetime
import json
import re

from curve_points import P256_CONSTANT, P256_PRIME

GREATEST = 2**53 - 1
VERSIONS = {"application/vnd.dev.sigstore.bundle+json;version=0.1": "V1",
            "application/vnd.dev.sigstore.bundle+json;version=0.2": "V2",
            "application/vnd.dev.sigstore.bundle+json;version=0.3": "V3",
            "application/vnd.dev.sigstore.bundle.v0.3+json": "V3"}
ROOT_TYPES = ["application/vnd.dev.sigstore.trustedroot+json;version=0.1",
              "application/vnd.dev.sigstore.trustedroot.v0.1+json"]
# What stands before a point of P-256 in its encoding.
INFO_PREFIX = bytes.fromhex("3059301306072a8648ce3d020106082a8648ce3d03010703420004")


def document(content):
    """The document that bytes are, or None."""
    try:
        return json.loads(content)
    except ValueError:
        return None


def at(value, *names):
    """What is at a member of a member, or None where one is missing or null."""
    for name in names:
        value = value.get(name) if isinstance(value, dict) else None
    return value


def text_at(value, *names):
    found = at(value, *names)
    return found if isinstance(found, str) else None


def bytes_at(value, *names):
    """The bytes of a base64 text with padding, in one of the two alphabets."""
    text = text_at(value, *names)
    if text is None:
        return None
    marks = b"-_" if re.search("[-_]", text) else b"+/"
    try:
        found = base64.b64decode(text.encode(), marks, validate=True)
    except ValueError:
        return None
    return found if base64.b64encode(found, marks).decode() == text else None


def number_at(value, name, missing=None):
    """A number: a text of decimal digits without a leading zero."""
    found = at(value, name)
    if found is None:
        return missing
    if not isinstance(found, str) or not re.fullmatch("0|[1-9][0-9]*", found, re.ASCII):
        return None
    return int(found) if int(found) <= GREATEST else None


def envelope(value):
    """The payload and the count of signatures of an envelope, or None."""
    payload, signatures = bytes_at(value, "payload"), at(value, "signatures")
    if payload is None or text_at(value, "payloadType") is None or not isinstance(signatures, list):
        return None
    for one in signatures:
        if bytes_at(one, "sig") is None or not isinstance(at(one, "keyid"), (str, type(None))):
            return None
    return payload, len(signatures)


def hash_of(value):
    found = bytes_at({"hash": value}, "hash")
    return found if found is not None and len(found) == 32 else None


def is_proof(value):
    hashes = at(value, "hashes")
    hashes = [] if hashes is None else hashes
    return (number_at(value, "logIndex", 0) is not None and number_at(value, "treeSize") is not None
            and hash_of(at(value, "rootHash")) is not None
            and isinstance(hashes, list) and len(hashes) <= 63
            and all(hash_of(one) is not None for one in hashes)
            and text_at(value, "checkpoint", "envelope") is not None)


def entry(value):
    """An entry in words, or `Unreadable`."""
    parts = [bytes_at(value, "logId", "keyId"), number_at(value, "logIndex", 0),
             number_at(value, "integratedTime"), text_at(value, "kindVersion", "kind"),
             text_at(value, "kindVersion", "version"), bytes_at(value, "canonicalizedBody")]
    proof = at(value, "inclusionProof")
    if (None in parts or parts[2] == 0
            or bytes_at(value, "inclusionPromise", "signedEntryTimestamp") is None
            or (proof is not None and not is_proof(proof))):
        return "Unreadable"
    words = [one.hex() if isinstance(one, bytes) else str(one) for one in parts]
    return " ".join([*words, "false" if proof is None else "true"])


def entries(value):
    listed = at(value, "tlogEntries")
    if not isinstance(listed, list) or not listed:
        return "Missing"
    return "TooMany" if len(listed) > 8 else "".join(entry(one) + ";" for one in listed)


def certificate(version, value):
    """The certificate's digits, or the first reason why there is none."""
    alone, chain = at(value, "certificate"), at(value, "x509CertificateChain")
    if at(value, "publicKey") is not None:
        return "PublicKey"
    if alone is None and chain is None:
        return "Missing"
    if alone is not None and chain is not None:
        return "TwoForms"
    if chain is not None and version == "V3":
        return "Chain"
    if chain is not None:
        listed = at(chain, "certificates")
        alone = listed[0] if isinstance(listed, list) and listed else None
    found = bytes_at(alone, "rawBytes")
    return "Unreadable" if found is None else found.hex()


def bundle(content):
    """A bundle in words, or `none`."""
    whole = document(content)
    version, held = VERSIONS.get(text_at(whole, "mediaType")), envelope(at(whole, "dsseEnvelope"))
    if version is None or held is None or envelope(whole) is not None:
        return "none"
    material = at(whole, "verificationMaterial")
    words = "none" if material is None else (
        f"certificate {certificate(version, material)} entries {entries(material)}")
    return f"{version} payload {held[0].hex()} signatures {held[1]} material {words}"


def identity(value):
    """The digits of the name and the issuer that a key object describes, or `none`."""
    texts = [text_at(value, "keyval", "identity"), text_at(value, "keyval", "issuer")]
    if text_at(value, "scheme") != "Fulcio" or None in texts:
        return "none"
    found = [one.encode() for one in texts]
    if not all(1 <= len(one) <= 512 for one in found):
        return "none"
    return " ".join(one.hex() for one in found)


def identity_name(name, issuer):
    """The digits of the name of an identity, or `none` where there is no such identity."""
    if not all(1 <= len(one) <= 512 for one in (name, issuer)):
        return "none"
    counts = len(name).to_bytes(2, "big") + len(issuer).to_bytes(2, "big")
    return (b"\4" + counts + name + issuer).ljust(1029, b"\0").hex()


def time_at(value, name):
    """The nanoseconds since 1970 of a time, or None."""
    found = re.fullmatch(r"(\d{4})-(\d\d)-(\d\d)T(\d\d):(\d\d):(\d\d)(?:\.(\d{1,9}))?Z",
                         text_at(value, name) or "", re.ASCII)
    if not found:
        return None
    *parts, fraction = found.groups()
    try:
        moment = datetime.datetime(*map(int, parts), tzinfo=datetime.timezone.utc)
    except ValueError:
        return None
    since = moment - datetime.datetime(1970, 1, 1, tzinfo=datetime.timezone.utc)
    return (since.days * 86400 + since.seconds) * 10**9 + int((fraction or "").ljust(9, "0"))


def window(value):
    """The window `validFor` in words, or None."""
    held = at(value, "validFor")
    start, end = time_at(held, "start"), at(held, "end")
    if start is None or (end is not None and time_at(held, "end") is None):
        return None
    return f"{start} {'none' if end is None else time_at(held, 'end')}"


def is_key(info):
    """Whether the bytes are a key of P-256."""
    if len(info) != 91 or not info.startswith(INFO_PREFIX):
        return False
    x, y = int.from_bytes(info[27:59], "big"), int.from_bytes(info[59:], "big")
    return x < P256_PRIME and y < P256_PRIME and (y * y - x**3 + 3 * x - P256_CONSTANT) % P256_PRIME == 0


def log(value):
    """A log in words, or None where it is none."""
    algorithm, key = text_at(value, "hashAlgorithm"), at(value, "publicKey")
    details, info, name = text_at(key, "keyDetails"), bytes_at(key, "rawBytes"), bytes_at(value, "logId", "keyId")
    if None in (algorithm, details, info, name, window(key)):
        return None
    if algorithm != "SHA2_256":
        return f"hashAlgorithm {algorithm}"
    if details != "PKIX_ECDSA_P256_SHA_256":
        return f"keyDetails {details}"
    if len(name) != 32:
        return f"keyId {len(name)}"
    return f"{name.hex()} {info.hex()} {window(key)}" if is_key(info) else None


def authority(value):
    """An authority in words, or None where it is none."""
    listed = at(value, "certChain", "certificates")
    if not isinstance(listed, list) or not 1 <= len(listed) <= 8 or window(value) is None:
        return None
    found = [bytes_at(one, "rawBytes") for one in listed]
    return None if None in found else "".join(one.hex() + " " for one in found) + window(value)


def bad(part):
    return f"BadRoot({part})"


def root(content):
    """A trusted root in words, or the first part of it that fails."""
    whole, told = document(content), []
    if not isinstance(whole, dict):
        return bad("Json")
    if at(whole, "mediaType") not in ROOT_TYPES:
        return bad("MediaType")
    for name, kind, read in (("tlogs", "Logs", log), ("certificateAuthorities", "Authorities", authority),
                             ("ctlogs", "CertificateLogs", log)):
        listed = at(whole, name)
        listed = [] if listed is None else listed
        if not isinstance(listed, list):
            return bad(f"In({kind}, Whole)")
        found = [read(one) for one in listed]
        if None in found:
            return bad(f"In({kind}, Element({found.index(None)}))")
        if len(found) > 64:
            return bad(f"In({kind}, Count)")
        told.append("".join(one + ";" for one in found))
    return "tlogs ({}) authorities ({}) ctlogs ({})".format(*told)
