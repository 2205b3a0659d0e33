"""Cases of certificates that do not read: their outer parts, their times, and the form of their
extensions."""

import hashlib

from byte_forms import der

from .bundles import Made
from .leaves import extensions as leaf_extensions
from .registry import BEGIN, case, simple
from .values import (CODE_SIGNING, NAMES, PURPOSES, SHA256_ECDSA, SHA512_ECDSA, TRIGGER, UNKNOWN,
                     extension, general_time, identifier, utc_time)

FORM = "certificate-form"
PUSH = der(0x0C, b"push")


def add():
    """Adds the cases that are not at edges."""
    of_outer_parts()
    of_times()


def add_edges():
    """Adds the cases at edges."""
    of_serial_numbers()
    of_edges_of_times()
    of_parts_of_extensions()
    of_lengths()


def of_outer_parts():
    """Parts of a certificate that are missing, more, or others."""
    def wrong(name, **options):
        simple(name, FORM, certificate=options)

    with_null = der(0x30, identifier("1.2.840.10045.4.3.3"), der(5))
    wrong("tbs-length-too-long", long_length=True)
    wrong("version-2", version=bytes.fromhex("a003020101"))
    wrong("version-missing", version=b"")
    wrong("version-4", version=bytes.fromhex("a003020103"))
    wrong("algorithms-differ", inner=SHA256_ECDSA)
    wrong("algorithm-with-null", inner=with_null, outer=with_null)
    wrong("algorithm-sha512", inner=SHA512_ECDSA, outer=SHA512_ECDSA, another_hash=hashlib.sha512)
    wrong("issuer-unique-id", more=der(0x81, b"\x00\x01"))
    wrong("after-extensions", after=der(5))

    def changed(name, **extensions):
        simple(name, FORM, extensions=extensions)

    changed("critical-false-written", trigger=extension(TRIGGER, PUSH, false_written=True))
    changed("extension-twice", again=extension(TRIGGER, PUSH))
    changed("san-twice", again=extension(NAMES, der(0x30, der(0x86, b"https://evil.test"))))


def times(name, tag, first, last, begin=BEGIN):
    """Adds the case of a certificate with these texts as its times."""
    simple(name, FORM, begin=begin,
           certificate={"times": der(0x30, der(tag, first), der(tag, last))})


def of_times():
    """Times of other forms, and times that are none."""
    simple("generalized-time-before-2050", FORM, begin=BEGIN, certificate={
        "times": der(0x30, general_time(BEGIN), general_time(BEGIN + 600))})
    times("utc-time-without-seconds", 0x17, b"2311142213Z", b"2311142223Z")
    times("generalized-time-with-fraction", 0x18, b"20231114221320.0Z", b"20231114222320.0Z")
    times("time-with-offset", 0x17, b"231114221320+0000", b"231114222320+0000")
    times("month-13", 0x17, b"231314221320Z", b"231414222320Z")
    times("february-29", 0x17, b"230229000000Z", b"230301000100Z", 1_677_628_800)
    times("leap-second", 0x17, b"231114221320Z", b"231114222360Z")


def of_serial_numbers():
    """Serial numbers that are none."""
    simple("serial-empty", FORM, serial=der(2))
    simple("serial-no-integer", FORM, serial=der(4, b"\x01"))


def of_edges_of_times():
    """Validities of other than two times, and times that nearly are some."""
    begin, end, later = map(utc_time, (BEGIN, BEGIN + 600, BEGIN + 700))
    simple("validity-of-three", FORM, begin=BEGIN,
           certificate={"times": der(0x30, begin, end, later)})
    simple("validity-of-one", FORM, begin=BEGIN, certificate={"times": der(0x30, begin)})
    times("hour-24", 0x17, b"231114221320Z", b"231114240000Z")
    times("minute-60", 0x17, b"231114221320Z", b"231114226000Z")
    times("day-0", 0x17, b"231100221320Z", b"231114222320Z")
    times("utc-time-of-14", 0x17, b"0231114221320Z", b"0231114222320Z")
    times("utc-time-with-letter", 0x17, b"23111422132OZ", b"231114222320Z")
    times("time-of-another-tag", 0x16, b"231114221320Z", b"231114222320Z")
    simple("good-leap-day", None, begin=1_709_164_800 + 3600, moment=1_709_164_800 + 3700)
    simple("good-1970", None, begin=1, moment=1)


def of_parts_of_extensions():
    """Extensions whose parts are others, or in another order."""
    def parts(name, *values, tag=0x30):
        simple(name, FORM, extensions={"trigger": der(tag, *values)})

    kind, value = identifier(TRIGGER), der(4, PUSH)
    parts("extension-of-another-tag", kind, value, tag=0x31)
    parts("extension-with-two-values", kind, value, value)
    parts("extension-in-other-order", value, kind)
    parts("extension-without-value", kind)
    parts("extension-critical-01", kind, der(1, b"\x01"), value)
    for size in (0, 127, 128, 255, 256, 5000):
        simple(f"good-extension-of-{size}", None,
               extensions={"more": extension(UNKNOWN, bytes(size))})


def purposes(name, value):
    """Adds the case of a leaf whose purposes are these bytes."""
    simple(name, FORM, extensions={"purposes": extension(PURPOSES, value)})


def of_lengths():
    """Lengths that are not those of what follows, or are not written in the shortest way."""
    purpose = identifier(CODE_SIGNING)
    purposes("purposes-length-in-two-bytes", b"\x30\x81\x0a" + purpose)
    purposes("purposes-length-in-three-bytes", b"\x30\x82\x00\x0a" + purpose)
    purposes("purposes-of-128-in-one-byte",
             b"\x30\x80" + purpose * 12 + identifier("1.2.3.4.5.6.7"))
    for size in (127, 128, 255, 256):
        case(f"good-bare-extensions-of-{size}", None, with_extensions_of(size))
    purposes("purposes-indefinite", b"\x30\x80" + purpose + b"\x00\x00")
    purposes("purposes-cut", b"\x30\x0b" + purpose)
    purposes("purposes-byte-after", der(0x30, purpose) + b"\x00")
    purposes("purposes-of-another-tag", der(0x30, der(4, b"x"), purpose))


def with_extensions_of(size):
    """What makes the case of a leaf whose extensions, without timestamps, have this size."""
    def bare(dice, sigstore=None, more=None, **options):
        taken_out = {"subject_key": None, "authority_key": None, "trigger": None}
        return Made(dice, sigstore, names="email", identity="a@b.c", issuers="old", issuer="h",
                    extensions={**taken_out, "more": more}, **options)

    def size_of(made):
        return sum(map(len, leaf_extensions(made).values()))

    def build(dice):
        made = bare(dice)
        rest = size - size_of(made)
        fillers = (der(0x30, identifier(UNKNOWN), der(4, bytes(n))) for n in range(rest))
        more = next(one for one in fillers if len(one) == rest)
        again = bare(dice, made.sigstore, more, begin=made.begin)
        assert size_of(again) == size
        return again.case()
    return build
