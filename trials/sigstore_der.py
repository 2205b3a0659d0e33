"""Elements of DER as docs/sigstore.md has them, and keys and signatures of ECDSA by docs/keys.md.

The arithmetic of curves is that of the package `cryptography`.
"""

from typing import NamedTuple

from cryptography.exceptions import InvalidSignature
from cryptography.hazmat.primitives import hashes
from cryptography.hazmat.primitives.asymmetric import ec
from sigstore_forms import Unfit, need


class Element(NamedTuple):
    """An element: its tag, its content, and all its bytes."""

    tag: int
    content: bytes
    whole: bytes


def sizes(data):
    """How many bytes come before the content of the first element, and how many the content has."""
    need(len(data) >= 2, "an element is cut")
    first = data[1]
    if first < 0x80:
        return 2, first
    count = {0x81: 1, 0x82: 2}.get(first)
    need(count and len(data) >= 2 + count, "a length of another form")
    size = int.from_bytes(data[2:2 + count], "big")
    need(size >= (0x80 if count == 1 else 0x100), "a length that could be shorter")
    return 2 + count, size


def elements(data):
    """The elements that bytes are, one after another."""
    found = []
    while data:
        front, size = sizes(data)
        need(len(data) >= front + size, "an element is cut")
        found.append(Element(data[0], data[front:front + size], data[:front + size]))
        data = data[front + size:]
    return found


def content_of(data, tag):
    """The content of the one element, of this tag, that bytes are."""
    found = elements(data)
    need([one.tag for one in found] == [tag], f"not one element {tag:02x}")
    return found[0].content


def element(tag, content):
    """The bytes of an element."""
    size = len(content)
    if size < 0x80:
        return bytes([tag, size]) + content
    if size < 0x100:
        return bytes([tag, 0x81, size]) + content
    return bytes([tag, 0x82]) + size.to_bytes(2, "big") + content


def identifier(dotted):
    """The content of the element of an object identifier, such as `2.5.29.15`."""
    first, second, *rest = map(int, dotted.split("."))
    content = bytes([first * 40 + second])
    for number in rest:
        digits = [number & 0x7F]
        while number := number >> 7:
            digits.insert(0, number & 0x7F | 0x80)
        content += bytes(digits)
    return content


class Curve(NamedTuple):
    """A curve: what stands before a point in the encoding of a key, and what it is signed with."""

    prefix: bytes
    width: int
    prime: int
    order: int
    made: ec.EllipticCurve
    digest: hashes.HashAlgorithm


P256 = Curve(
    bytes.fromhex("3059301306072a8648ce3d020106082a8648ce3d03010703420004"), 32,
    2**256 - 2**224 + 2**192 + 2**96 - 1,
    0xFFFFFFFF00000000FFFFFFFFFFFFFFFFBCE6FAADA7179E84F3B9CAC2FC632551,
    ec.SECP256R1(), hashes.SHA256())
P384 = Curve(
    bytes.fromhex("3076301006072a8648ce3d020106052b8104002203620004"), 48,
    2**384 - 2**128 - 2**96 + 2**32 - 1,
    int("FFFFFFFFFFFFFFFFFFFFFFFFFFFFFFFFFFFFFFFFFFFFFFFF"
        "C7634D81F4372DDF581A0DB248B0A77AECEC196ACCC52973", 16),
    ec.SECP384R1(), hashes.SHA384())


def curve_of(info):
    """The curve of a key in its encoding, whose point may lie beside it."""
    for curve in (P256, P384):
        size = len(curve.prefix) + 2 * curve.width
        if info.startswith(curve.prefix) and len(info) == size:
            return curve
    raise Unfit("no key of P-256 or P-384")


def key_of(info):
    """The key of an encoding, whose point must lie on the curve."""
    curve = curve_of(info)
    point = info[len(curve.prefix):]
    x, y = (int.from_bytes(part, "big") for part in (point[:curve.width], point[curve.width:]))
    need(x < curve.prime and y < curve.prime, "a coordinate is not below the prime")
    try:
        return ec.EllipticCurvePublicNumbers(x, y, curve.made).public_key()
    except ValueError:
        raise Unfit("a point that is not on its curve") from None


def check_form(sig, order):
    """Raises Unfit where a signature is no ECDSA-Sig-Value in strict DER of two such numbers."""
    parts = elements(content_of(sig, 0x30))
    need([one.tag for one in parts] == [2, 2], "a signature of another form")
    for _, digits, _ in parts:
        need(digits and digits[0] < 0x80, "a number of a signature is none or negative")
        need(digits[0] or digits[1:] and digits[1] >= 0x80, "a number could be shorter, or is 0")
        need(1 <= int.from_bytes(digits, "big") < order, "a number of a signature is too great")


def is_valid(info, message, sig):
    """Whether a signature of a message is valid for the key of an encoding."""
    try:
        curve, key = curve_of(info), key_of(info)
        check_form(sig, curve.order)
        key.verify(sig, message, ec.ECDSA(curve.digest))
        return True
    except (Unfit, InvalidSignature):
        return False
