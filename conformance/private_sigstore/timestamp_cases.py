"""Cases of timestamps of the certificate log in leaves."""

import hashlib

from byte_forms import der

from .authority import SECOND, time_text
from .bundles import Made
from .certificates import signed_part
from .leaves import counted
from .registry import BEGIN, case, on_root, put, simple, stamped

FORM, SIGNATURE = "sct-form", "sct-signature"


def add():
    """Adds the cases that are not at edges."""
    of_lists()
    of_items()
    of_logs()
    of_signatures()


def add_edges():
    """Adds the cases at edges."""
    of_edges_of_lists()
    of_cut_timestamps()


def of_lists():
    """Lists of timestamps that are missing or do not read."""
    def listed(name, content):
        simple(name, FORM, timestamps_content=content)

    simple("no-timestamp", "sct-missing", unlogged=True)
    simple("timestamps-empty", FORM, timestamps=lambda made, bare: [])
    simple("timestamps-nine", FORM,
           timestamps=lambda made, bare: [made.timestamp(bare) for _ in range(9)])
    simple("timestamps-not-in-octets", FORM, timestamps_value=lambda content: content)
    listed("timestamps-length-too-long",
           lambda content: (len(content) + 1).to_bytes(2, "big") + content)
    listed("timestamps-byte-after", lambda content: counted(content) + b"\x00")
    listed("timestamps-item-cut", lambda content: counted(content[:-1]))


def of_items():
    """Timestamps that do not read."""
    simple("timestamp-version-1", FORM, **stamped(version=b"\x01"))
    simple("timestamp-byte-after", FORM, **stamped(end=b"\x00"))
    simple("timestamp-sha512", FORM,
           **stamped(algorithm=b"\x06\x03", another_hash=hashlib.sha512))
    simple("timestamp-rsa", FORM, **stamped(algorithm=b"\x04\x01"))


def of_logs():
    """Timestamps of logs that do not count."""
    def by(name, log):
        simple(name, "sct-log", timestamps=lambda made, bare: [
            made.timestamp(bare, key=getattr(made.sigstore, log))])

    def within(name, **window):
        simple(name, "sct-window", begin=BEGIN, root={"certificate_log_window": window},
               **stamped(moment=BEGIN * 1000 + 7))

    by("timestamp-of-unknown-log", "other")
    by("timestamp-of-the-transparency-log", "log")
    within("before-ct-window", start=time_text(BEGIN * SECOND + 7_000_001, 9))
    within("after-ct-window", start="2020-01-01T00:00:00Z",
           end=time_text(BEGIN * SECOND + 6_999_999, 9))


def of_signatures():
    """Timestamps of which the log signed something else."""
    def stamps(name, make):
        simple(name, SIGNATURE, timestamps=lambda made, bare: [make(made, bare)])

    stamps("timestamp-of-other-key", lambda made, bare: made.timestamp(
        bare, key=made.sigstore.other, id=made.sigstore.certificate_log.id))
    stamps("timestamp-of-other-moment", lambda made, bare: made.timestamp(
        bare, moment=made.begin * 1000, written=made.begin * 1000 + 1))
    stamps("timestamp-of-other-issuer", lambda made, bare: made.timestamp(
        bare, issuer_info=made.sigstore.root_key.info))
    stamps("timestamp-of-other-tbs", lambda made, bare: made.timestamp(
        bare[:-1] + bytes([bare[-1] ^ 1])))
    simple("timestamp-signature-byte-after", SIGNATURE, **stamped(after=b"\x00"))
    case("timestamp-of-another-certificate", SIGNATURE, of_another)
    stamps("timestamp-of-the-whole-tbs", lambda made, bare: made.timestamp(bare + b"\x00"))
    simple("no-ct-log", "sct-log", root=on_root(put(ctlogs=[])))


def of_another(dice):
    """The case of a leaf with a timestamp that is of another leaf as a whole."""
    other = Made(dice)
    return Made(dice, other.sigstore, begin=other.begin, timestamps=lambda made, bare: [
        other.timestamp(signed_part(other.leaf))]).case()


def of_edges_of_lists():
    """Lists of timestamps that nearly read."""
    simple("timestamps-of-one-byte", FORM, timestamps_content=lambda content: b"\x00")
    simple("timestamps-with-empty-item", FORM,
           timestamps=lambda made, bare: [b"", made.timestamp(bare)])
    simple("timestamps-with-cut-length", FORM, timestamps_content=lambda content: (
        (len(content) + 1).to_bytes(2, "big") + content + b"\x00"))
    simple("timestamps-octets-byte-after", FORM,
           timestamps_value=lambda content: der(4, content) + b"\x00")
    simple("good-eight-timestamps", None,
           timestamps=lambda made, bare: [made.timestamp(bare) for _ in range(8)])


def of_cut_timestamps():
    """Timestamps that are cut, or in which something was changed after they were signed."""
    def changed(name, condition, changing, **options):
        simple(name, condition, timestamps=lambda made, bare: [
            changing(made.timestamp(bare, **options))])

    def cut(size):
        return lambda stamp: stamp[:size]

    for size in (1, 42, 43, 44, 46, 47):
        changed(f"timestamp-cut-to-{size}", FORM, cut(size))
    changed("timestamp-signature-empty", SIGNATURE, lambda stamp: stamp[:45] + b"\x00\x00")
    changed("timestamp-extensions-too-long", FORM,
            lambda stamp: stamp[:41] + b"\xff\xff" + stamp[43:])
    changed("timestamp-extensions-changed", SIGNATURE,
            lambda stamp: stamp[:43] + b"xy" + stamp[45:], extensions=b"ab")
