"""Leaves of a private Sigstore, and timestamps of its certificate log in them (RFC 6962)."""

import hashlib

from byte_forms import der

from .certificates import Subject, certificate, serial_number, signed_part
from .values import (AUTHORITY_KEY, CODE_SIGNING, FULCIO, KEY_USAGE, NAMES, NEW_ISSUER,
                     OLD_ISSUER, PURPOSES, SUBJECT_KEY, TIMESTAMPS, TRIGGER, extension, identifier)

# How long leaves are valid, in seconds.
LIFE = 600
# The key usage of who may sign anything.
SIGNS = bytes.fromhex("03020780")


def counted(content, size=2):
    """Bytes after their number."""
    return len(content).to_bytes(size, "big") + content


def change(parts, changes):
    """Gives parts these values, and leaves out those that are to have none."""
    for name, value in changes.items():
        if value is None:
            parts.pop(name, None)
        else:
            parts[name] = value


def other_name(text, kind=FULCIO + "7", tag=0x0C):
    """A name of a kind that is told with it, which is Fulcio's own unless another is given."""
    return der(0xA0, identifier(kind), der(0xA0, der(tag, text)))


def name_of(made):
    """The identity as a name of its kind."""
    text = made.identity.encode()
    return {"uri": der(0x86, text), "email": der(0x81, text),
            "other": other_name(text)}[made.names]


def extensions(made):
    """The extensions of the leaf by their names, without timestamps."""
    options = made.options
    issuers = options.get("issuers", made.dice.choice(["old", "new", "both", "both"]))
    purposes = options.get("purposes", [CODE_SIGNING])
    names = der(0x30, options.get("name_values", name_of(made)))
    found = {
        "usage": extension(KEY_USAGE, options.get("usage", SIGNS), True),
        "purposes": extension(PURPOSES, der(0x30, *map(identifier, purposes))),
        "subject_key": extension(SUBJECT_KEY, der(4, made.leaf_key.id[:20])),
        "authority_key": extension(AUTHORITY_KEY, der(
            0x30, der(0x80, made.sigstore.issuer_key.id[:20]))),
        "names": extension(NAMES, names, options.get("names_critical", True)),
    }
    text = made.issuer.encode()
    if issuers in ("old", "both"):
        found["old"] = extension(OLD_ISSUER, options.get("old_issuer", text))
    if issuers in ("new", "both"):
        found["new"] = extension(NEW_ISSUER, options.get("new_issuer", der(0x0C, text)))
    found["trigger"] = extension(TRIGGER, der(0x0C, b"push"))
    change(found, options.get("extensions", {}))
    return found


def leaf(made):
    """The leaf of a bundle."""
    options, sigstore = made.options, made.sigstore
    values = list(extensions(made).values())
    place = made.dice.randrange(len(values) + 1)
    subject = Subject(options.get("leaf_info", made.leaf_key.info),
                      options.get("leaf_signer", sigstore.issuer_key),
                      options.get("leaf_issuer_name", sigstore.issuer_name), made.begin,
                      made.begin + LIFE, options.get("leaf_subject", der(0x30)))
    serial = serial_number(made.dice)

    def build(values):
        return certificate(subject, options.get("serial", serial), values,
                           **options.get("certificate", {}))

    if not options.get("unlogged"):
        value = timestamps(made, signed_part(build(values)))
        critical = options.get("timestamps_critical", False)
        values.insert(place, extension(TIMESTAMPS, value, critical))
    return build(values)


def timestamps(made, bare):
    """The value of the extension with the timestamps for the leaf without them."""
    options = made.options
    found = options.get("timestamps", lambda made, bare: [made.timestamp(bare)])(made, bare)
    listed = b"".join(map(counted, found))
    return options.get("timestamps_value", lambda content: der(4, content))(
        options.get("timestamps_content", counted)(listed))


def timestamp(made, bare, **options):
    """A timestamp for a leaf without timestamps."""
    key = options.get("key", made.sigstore.certificate_log)
    moment = options.get("moment", made.begin * 1000 + made.dice.randrange(1000))
    issuer = options.get("issuer_info", made.sigstore.issuer_key.info)
    further = counted(options.get("extensions", b""))
    signed = (b"\x00\x00" + moment.to_bytes(8, "big") + b"\x00\x01"
              + hashlib.sha256(issuer).digest() + counted(bare, 3) + further)
    signature = key.sign(options.get("signed", signed), options.get("another_hash"))
    return (options.get("version", b"\x00") + options.get("id", key.id)
            + options.get("written", moment).to_bytes(8, "big") + further
            + options.get("algorithm", b"\x04\x03")
            + counted(signature + options.get("after", b"")) + options.get("end", b""))
