"""Certificates, leaves, authorities and timestamps of certificate logs, by docs/sigstore.md."""

import hashlib
import re
from typing import NamedTuple

from sigstore_der import (P256, P384, content_of, curve_of, element, elements, identifier,
                          is_valid)
from sigstore_forms import Unfit, need, saying, seconds_of

# The element of each algorithm, and the curve of the keys that sign by it.
ALGORITHMS = {bytes.fromhex("300a06082a8648ce3d040302"): P256,
              bytes.fromhex("300a06082a8648ce3d040303"): P384}
USAGE, NAME, BASIC, PURPOSES, NAME_CONSTRAINTS = map(
    identifier, ["2.5.29.15", "2.5.29.17", "2.5.29.19", "2.5.29.37", "2.5.29.30"])
TIMESTAMPS = identifier("1.3.6.1.4.1.11129.2.4.2")
OTHER_NAME, OLD_ISSUER, NEW_ISSUER = (
    identifier(f"1.3.6.1.4.1.57264.1.{last}") for last in (7, 1, 8))
CODE_SIGNING, ANY_PURPOSE = map(identifier, ["1.3.6.1.5.5.7.3.3", "2.5.29.37.0"])
SIGNS, SIGNS_CERTIFICATES = 0x80, 0x04
TRUE = bytes.fromhex("0101ff")
MOST_TIMESTAMPS = 8
# What is said of a certificate before what keeps it from being read.
UNREAD = "its certificate is not read: "


class Extension(NamedTuple):
    """An extension: its identifier, whether it is critical, its value, and all its bytes."""

    name: bytes
    is_critical: bool
    value: bytes
    whole: bytes


def extension(part):
    """The extension that an element is."""
    need(part.tag == 0x30, "an extension of another tag")
    parts = elements(part.content)
    need(len(parts) in (2, 3) and (parts[0].tag, parts[-1].tag) == (6, 4)
         and [one.whole for one in parts[1:-1]] in ([], [TRUE]), "an extension of another form")
    return Extension(parts[0].content, len(parts) == 3, parts[-1].content, part.whole)


def extensions(part):
    """The extensions that the last part of a certificate holds."""
    return [extension(one) for one in elements(content_of(part.content, 0x30))]


def check_extensions(found):
    """Refuses extensions that a certificate may not have."""
    names = [one.name for one in found]
    need(NAME_CONSTRAINTS not in names, UNREAD + "it constrains names")
    need(all(one.name in (USAGE, BASIC, PURPOSES, NAME) for one in found if one.is_critical),
         UNREAD + "a critical extension of it is not known")
    need(len(set(names)) == len(names), UNREAD + "it has an extension twice")


def usage_of(value):
    """The first byte of key usage."""
    content = content_of(value, 3)
    need(len(content) in (2, 3) and content[0] <= 7, "key usage of another form")
    lowest = 1 << content[0]
    need(content[-1] % (2 * lowest) == lowest, "key usage with unused bits or zeros at its end")
    return content[1]


class Basic(NamedTuple):
    """Basic constraints: whether they are an authority's, and the path length or None."""

    is_authority: bool
    path_length: int = None


def basic_of(value):
    """The basic constraints of their value."""
    content = content_of(value, 0x30)
    if content in (b"", TRUE):
        return Basic(content == TRUE, None)
    length = content_of(content.removeprefix(TRUE), 2) if content.startswith(TRUE) else b""
    need(len(length) == 1 and length[0] < 0x80, "basic constraints of another form")
    return Basic(True, length[0])


def purposes_of(value):
    """The purposes of extended key usage."""
    found = elements(content_of(value, 0x30))
    need(found and all(one.tag == 6 for one in found), "purposes of another form")
    return {one.content for one in found}


def time_of(part):
    """The seconds since 1970 of an element that is a time of a certificate."""
    if part.tag == 0x17:
        need(re.fullmatch(rb"[0-9]{12}Z", part.content), "a time of another form")
        year, rest = int(part.content[:2]), part.content[2:]
        year += 2000 if year < 50 else 1900
    else:
        need(part.tag == 0x18 and re.fullmatch(rb"[0-9]{14}Z", part.content),
             "a time of another form")
        year, rest = int(part.content[:4]), part.content[4:]
        need(year >= 2050, "a time of the longer form before 2050")
    return seconds_of(year, *(int(rest[at:at + 2]) for at in range(0, 10, 2)))


class Certificate:
    """A certificate: its parts, and what its extensions say. Where it is none, Unfit says what it
    misses first, in the words of docs/sigstore.md.
    """

    def __init__(self, content):
        algorithm, validity, last = saying(
            UNREAD + "it does not have the parts of one of version 3", self.read_parts, content)
        need(algorithm in ALGORITHMS, UNREAD + "its signature has another algorithm")
        self.curve_of_signer = ALGORITHMS[algorithm]
        saying(UNREAD + "its validity has another form", self.read_validity, validity)
        self.curve = saying(UNREAD + "its key is of another kind or form", curve_of, self.info)
        self.extensions = saying(UNREAD + "its extensions have another form", extensions, last)
        check_extensions(self.extensions)
        saying(UNREAD + "its usage, constraints or purposes have another form",
               self.read_extensions)

    def read_parts(self, content):
        """Reads the parts, and answers the algorithm, the validity and the last part."""
        parts = elements(content_of(content, 0x30))
        need([one.tag for one in parts] == [0x30, 0x30, 3], "a certificate of another form")
        signed, algorithm, sig = parts
        need(sig.content[:1] == b"\0", "a signature of unused bits")
        self.signed, self.sig = signed.whole, sig.content[1:]
        self.parts = elements(signed.content)
        need(len(self.parts) == 8, "not eight parts")
        version, serial, inner, issuer, validity, subject, key, last = self.parts
        need(version.whole == bytes.fromhex("a003020102"), "another version")
        need(serial.tag == 2 and serial.content, "no serial number")
        need(inner.whole == algorithm.whole, "two algorithms")
        need([one.tag for one in (issuer, validity, subject, key, last)]
             == [0x30, 0x30, 0x30, 0x30, 0xA3], "a part of another tag")
        self.issuer, self.subject, self.info = issuer.whole, subject.whole, key.whole
        return algorithm.whole, validity, last

    def read_validity(self, part):
        """Reads the two times of its validity."""
        times = elements(part.content)
        need(len(times) == 2, "not two times")
        self.first, self.last = map(time_of, times)

    def read_extensions(self):
        """Reads the extensions that every certificate may have."""
        self.values = {one.name: one.value for one in self.extensions}
        self.usage, self.basic, self.purposes = (
            read(self.values[name]) if name in self.values else None
            for name, read in ((USAGE, usage_of), (BASIC, basic_of), (PURPOSES, purposes_of)))

    def has_usage(self, bit):
        """Whether key usage has a bit."""
        return self.usage is not None and self.usage & bit != 0

    def is_authority(self):
        """Whether basic constraints are there, and those of an authority."""
        return self.basic is not None and self.basic.is_authority

    def is_signed_by(self, info):
        """Whether it is signed by a key."""
        return (curve_of(info) == self.curve_of_signer
                and is_valid(info, self.signed, self.sig))

    def is_valid_at(self, moment):
        """Whether a moment in seconds lies in its validity."""
        return self.first <= moment <= self.last


def name_in(value):
    """The bytes of the one name of a leaf."""
    names = elements(content_of(value, 0x30))
    need(len(names) == 1, "not one name")
    if names[0].tag in (0x86, 0x81):
        return names[0].content
    need(names[0].tag == 0xA0, "a name of another kind")
    parts = elements(names[0].content)
    need([one.tag for one in parts] == [6, 0xA0] and parts[0].content == OTHER_NAME,
         "a name of another kind")
    return content_of(parts[1].content, 0x0C)


def issuer_in(values):
    """The bytes of the issuer of a leaf, from the values of its extensions."""
    texts = {values[OLD_ISSUER]} if OLD_ISSUER in values else set()
    if NEW_ISSUER in values:
        texts.add(content_of(values[NEW_ISSUER], 0x0C))
    need(len(texts) == 1, "no issuer, or two that differ")
    return texts.pop()


class Leaf(Certificate):
    """A leaf, with the bytes of its name and of its issuer's. Where it is none, Unfit says what it
    misses first, in the words of docs/sigstore.md.
    """

    def __init__(self, content):
        super().__init__(content)
        need(self.curve == P256, "its certificate has a key of another curve")
        need(self.has_usage(SIGNS), "its certificate is not for signatures")
        need(CODE_SIGNING in (self.purposes or ()), "its certificate is not for code signing")
        need(not self.is_authority(), "its certificate is that of an authority")
        self.name = saying("its certificate does not have exactly one name of a URI, an address or "
                           "Fulcio's own kind", name_in, self.values.get(NAME, b""))
        self.who_says = saying("its certificate does not name one issuer", issuer_in, self.values)


def usable(contents):
    """The certificates of an authority, which can be used."""
    found = [Certificate(content) for content in contents]
    for place, one in enumerate(found):
        need(one.is_authority(), "a certificate of an authority that is no authority's")
        need(one.basic.path_length is None or one.basic.path_length >= place,
             "a path length that is too short")
        need(one.has_usage(SIGNS_CERTIFICATES), "an authority that may not sign certificates")
        need(one.purposes is None or one.purposes & {CODE_SIGNING, ANY_PURPOSE},
             "an authority for other purposes")
    for one, above in zip(found, found[1:]):
        need(one.issuer == above.subject and one.is_signed_by(above.info),
             "an authority whose certificates do not follow one another")
    return found


class Timestamp:
    """A timestamp of a certificate log, from an item of the list."""

    def __init__(self, item):
        need(len(item) >= 43 and item[0] == 0, "a timestamp of another form")
        self.log, self.moment = item[1:33], int.from_bytes(item[33:41], "big")
        self.extensions, rest = counted(item[41:])
        need(rest[:2] == b"\4\3", "a timestamp by another algorithm")
        self.sig, rest = counted(rest[2:])
        need(not rest, "bytes after a timestamp")

    def is_in_window(self, log):
        """Whether its moment lies in the window of a log."""
        return log.window.holds(self.moment * 10**6)


def counted(data):
    """The bytes after a length in two bytes, as many as it says, and those after them."""
    need(len(data) >= 2, "a length is cut")
    size = int.from_bytes(data[:2], "big")
    need(len(data) >= 2 + size, "less than a length says")
    return data[2:2 + size], data[2 + size:]


def items_in(value):
    """The items in the value of the extension of timestamps."""
    rest, after = counted(content_of(value, 4))
    need(not after, "bytes after the timestamps")
    found = []
    while rest:
        item, rest = counted(rest)
        need(item, "an empty timestamp")
        found.append(item)
    need(1 <= len(found) <= MOST_TIMESTAMPS, "no timestamp, or too many")
    return found


def signed_by_log(leaf, info, timestamp):
    """What a certificate log signs of a leaf, whose issuer has the key of this encoding."""
    kept = b"".join(one.whole for one in leaf.extensions if one.name != TIMESTAMPS)
    front = b"".join(one.whole for one in leaf.parts[:7])
    bare = element(0x30, front + element(0xA3, element(0x30, kept)))
    return (b"\0\0" + timestamp.moment.to_bytes(8, "big") + b"\0\1" + hashlib.sha256(info).digest()
            + len(bare).to_bytes(3, "big") + bare
            + len(timestamp.extensions).to_bytes(2, "big") + timestamp.extensions)


def timestamps_in(items):
    """The timestamps among items; one that is none says nothing of the others."""
    for item in items:
        try:
            yield Timestamp(item)
        except Unfit:
            continue


def check_logged(leaf, info, logs):
    """Raises Unfit where a leaf, whose issuer has the key of this encoding, is logged by none of the
    logs."""
    need(TIMESTAMPS in leaf.values, "the certificate has no timestamp of a certificate log")
    items = saying("its timestamps do not read", items_in, leaf.values[TIMESTAMPS])
    found = [(one, log) for one in timestamps_in(items) for log in logs if one.log == log.id]
    need(found, "none of its timestamps is of a log of the trusted root that is used")
    found = [(one, log) for one, log in found if one.is_in_window(log)]
    need(found, "its timestamp is from a time at which its log was not trusted")
    need(any(is_valid(log.info, signed_by_log(leaf, info, one), one.sig) for one, log in found),
         "its log did not sign the certificate's timestamp")
