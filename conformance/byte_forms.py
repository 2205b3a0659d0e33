"""The forms that bytes are written in: base64 as a text, PEM (RFC 7468), DER (X.690), and what a
signature of DSSE is of."""

import base64


def base64_text(content):
    """The base64 of bytes, as a text."""
    return base64.b64encode(content).decode()


def armoured(content, label, width=64):
    """Bytes in PEM, without a line feed at the end."""
    text = base64_text(content)
    inner = [text[at:at + width] for at in range(0, len(text), width)]
    return "\n".join([f"-----BEGIN {label}-----", *inner, f"-----END {label}-----"])


def der(tag, *parts):
    """A value in DER: its tag, its length, and its contents."""
    contents = b"".join(parts)
    size = len(contents)
    length = size.to_bytes((size.bit_length() + 7) // 8 or 1, "big")
    return bytes([tag, *([] if size < 128 else [128 + len(length)]), *length]) + contents


def integer(number):
    """A number in DER that is not negative."""
    return der(2, number.to_bytes(number.bit_length() // 8 + 1, "big"))


def pae(kind, payload):
    """What is signed of an envelope with a payload of a type: its pre-authentication encoding."""
    name = kind.encode()
    return b"DSSEv1 %d %s %d %s" % (len(name), name, len(payload), payload)
