"""Values in DER that certificates and signatures are made of."""

import datetime

from byte_forms import der, integer

# Extensions of certificates (RFC 5280, section 4.2.1, and RFC 6962, section 3.3).
SUBJECT_KEY, KEY_USAGE, NAMES, CONSTRAINTS = ("2.5.29.14", "2.5.29.15", "2.5.29.17", "2.5.29.19")
NAME_CONSTRAINTS, POLICIES, AUTHORITY_KEY = "2.5.29.30", "2.5.29.32", "2.5.29.35"
PURPOSES, TIMESTAMPS = "2.5.29.37", "1.3.6.1.4.1.11129.2.4.2"
# Where Fulcio's own extensions begin, three of them, and an extension that nobody knows.
FULCIO = "1.3.6.1.4.1.57264.1."
OLD_ISSUER, NEW_ISSUER, TRIGGER, UNKNOWN = FULCIO + "1", FULCIO + "8", FULCIO + "20", "1.2.3.4.5"
# Purposes of keys.
CODE_SIGNING, ANY, SERVER = "1.3.6.1.5.5.7.3.3", "2.5.29.37.0", "1.3.6.1.5.5.7.3.1"
YES = der(1, b"\xff")


def identifier(dotted):
    """An object identifier."""
    first, second, *rest = map(int, dotted.split("."))
    contents = [first * 40 + second]
    for number in rest:
        block = [number & 127]
        while number := number >> 7:
            block.insert(0, number & 127 | 128)
        contents += block
    return der(6, bytes(contents))


# The algorithms of signatures.
SHA256_ECDSA, SHA384_ECDSA, SHA512_ECDSA = (
    der(0x30, identifier(f"1.2.840.10045.4.3.{number}")) for number in (2, 3, 4))


def signature_value(first, second):
    """A signature of ECDSA, of its two numbers."""
    return der(0x30, integer(first), integer(second))


def written(seconds, form):
    """A moment as digits."""
    return datetime.datetime.fromtimestamp(seconds, datetime.timezone.utc).strftime(form).encode()


def utc_time(seconds):
    """A moment as certificates have it: a GeneralizedTime from 2050 on."""
    if int(written(seconds, "%Y")) >= 2050:
        return general_time(seconds)
    return der(0x17, written(seconds, "%y%m%d%H%M%SZ"))


def general_time(seconds):
    """A moment as a GeneralizedTime."""
    return der(0x18, written(seconds, "%Y%m%d%H%M%SZ"))


def attribute(kind, value, tag):
    """A part of a name."""
    return der(0x31, der(0x30, identifier(kind), der(tag, value.encode())))


def distinguished_name(common):
    """A name with this common name."""
    return der(0x30, attribute("2.5.4.10", "example.test", 0x13),
               attribute("2.5.4.3", common, 0x0C))


def extension(kind, value, critical=False, false_written=False):
    """An extension of a certificate; that it is not critical may be written out."""
    mark = YES if critical else der(1, b"\x00") if false_written else b""
    return der(0x30, identifier(kind), mark, der(4, value))
