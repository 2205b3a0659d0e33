"""Certificates (RFC 5280), any part of which can be wrong."""

from typing import NamedTuple

from byte_forms import der

from .keys import Key
from .values import utc_time

VERSION_3 = bytes.fromhex("a003020102")


class Subject(NamedTuple):
    """What a certificate says, besides its serial number and its extensions."""

    info: bytes
    signer: Key
    issuer: bytes
    first: int
    last: int
    name: bytes


def serial_number(dice):
    """A serial number at random."""
    return der(2, bytes([dice.randrange(1, 127)]) + dice.randbytes(19))


def certificate(subject, serial, extensions, **wrong):
    """A certificate, with these parts in place of its own, or besides them."""
    algorithm = subject.signer.algorithm
    times = wrong.get("times") or der(0x30, utc_time(subject.first), utc_time(subject.last))
    parts = [wrong.get("version", VERSION_3), serial, wrong.get("inner", algorithm),
             subject.issuer, times, subject.name, subject.info, wrong.get("more", b""),
             der(0xA3, der(0x30, *extensions)), wrong.get("after", b"")]
    signed = long_sequence(*parts) if wrong.get("long_length") else der(0x30, *parts)
    signature = subject.signer.sign(signed, wrong.get("another_hash"))
    return der(0x30, signed, wrong.get("outer", algorithm), der(3, b"\x00", signature))


def long_sequence(*parts):
    """A sequence whose length has three bytes, however short it is."""
    contents = b"".join(parts)
    return b"\x30\x83" + len(contents).to_bytes(3, "big") + contents


def head(content, place):
    """How many bytes stand before the contents of the value at a place, and how many it has."""
    first = content[place + 1]
    if first < 128:
        return 2, first
    size = first & 127
    return 2 + size, int.from_bytes(content[place + 2:place + 2 + size], "big")


def signed_part(whole):
    """What is signed of a certificate, which has a good length of its own."""
    start, _ = head(whole, 0)
    before, size = head(whole, start)
    return whole[start:start + before + size]
