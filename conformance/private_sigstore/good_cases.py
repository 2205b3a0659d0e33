"""Cases of bundles that meet all conditions."""

import copy

from byte_forms import base64_text, der

from .authority import SECOND, Sigstore, raw, time_text
from .bundles import OLDER, V3
from .keys import Key
from .registry import (BEGIN, on_bundle, on_material, on_payload, on_root, on_signature, proof, put,
                       simple, stamped)
from .values import (ANY, CODE_SIGNING, CONSTRAINTS, SERVER, UNKNOWN, distinguished_name,
                     extension)

LONG_AGO = {"start": "2020-01-01T00:00:00Z"}
ENDED = {**LONG_AGO, "end": "2021-01-01T00:00:00Z"}


def add():
    """Adds the cases."""
    of_forms()
    of_authorities()
    of_leaves()
    at_edges_of_windows()
    of_trees()
    of_several_entries()
    of_several_timestamps()
    of_trusted_roots()
    of_members()


def of_forms():
    """Bundles of each kind of name, version and body."""
    simple("good-uri", None, names="uri")
    simple("good-email", None, names="email")
    simple("good-other-name", None, names="other")
    simple("good-v1-promise-only", None, version=1, entry={"over": {"inclusionProof": None}})
    simple("good-v1-with-proof", None, version=1, entry={"keep_proof": True})
    simple("good-v1-single-certificate", None, version=1, form="certificate")
    simple("good-v2-chain", None, version=2, form="chain")
    simple("good-v2-certificate", None, version=2, form="certificate")
    simple("good-v3", None, version=3, media_type=V3)
    simple("good-v3-old-form", None, version=3, media_type=OLDER + "3")
    simple("good-dsse", None, kind="dsse")
    simple("good-intoto", None, kind="intoto")
    simple("good-intoto-pem-without-last-line-feed", None, kind="intoto", body={"pem_end": ""})
    simple("good-issuer-old-alone", None, issuers="old")
    simple("good-issuer-new-alone", None, issuers="new")
    simple("good-issuer-both", None, issuers="both")


def of_authorities():
    """Authorities of other lengths, curves and extensions."""
    simple("good-root-issues-leaf", None, authority={"chain": 1})
    simple("good-chain-of-three", None, authority={"chain": 3})
    simple("good-p256-intermediate", None, authority={"middle_curve": "p256"})
    simple("good-p256-authority", None,
           authority={"middle_curve": "p256", "root_curve": "p256"})
    simple("good-any-purpose-in-root", None, authority={"root_purposes": [ANY]})
    simple("good-no-purpose-in-intermediate", None, authority={"middle_purposes": []})
    simple("good-no-path-lengths", None, authority={"root_path": None, "middle_path": None})
    simple("good-path-lengths-exact", None,
           authority={"chain": 3, "middle_path": 1, "root_path": 2})


def of_leaves():
    """Extensions and names of leaves, and times of certificates."""
    simple("good-san-not-critical", None, names_critical=False)
    simple("good-usage-of-two-bytes", None, usage=bytes.fromhex("0303078080"))
    simple("good-more-purposes", None, purposes=[SERVER, CODE_SIGNING])
    simple("good-basic-not-authority", None,
           extensions={"basic": extension(CONSTRAINTS, der(0x30), True)})
    simple("good-unknown-extension", None,
           extensions={"more": extension(UNKNOWN, b"any bytes")})
    simple("good-generalized-time-from-2050", None,
           authority={"root_last": 2_600_000_000, "middle_last": 2_524_608_000})
    simple("good-utc-time-to-2049", None, authority={"root_last": 2_524_607_999})
    simple("good-subject-not-empty", None, leaf_subject=distinguished_name("leaf"))


def at_edges_of_windows():
    """Entries and timestamps at the first or the last moment at which they count."""
    moment = BEGIN + 5
    simple("good-at-first-second-of-leaf", None, begin=BEGIN, moment=BEGIN)
    simple("good-at-last-second-of-leaf", None, begin=BEGIN, moment=BEGIN + 600)
    simple("good-at-ends-of-authority-window", None, begin=BEGIN, moment=moment,
           root={"authority_window": {"start": time_text(moment * SECOND, 0),
                                      "end": time_text(moment * SECOND, 9)}})
    simple("good-at-ends-of-log-window", None, begin=BEGIN, moment=moment,
           root={"log_window": {"start": time_text(moment * SECOND, 0),
                                "end": time_text(moment * SECOND, 0)}})
    logged = BEGIN * SECOND + 7_000_000
    simple("good-at-ends-of-ct-window", None, begin=BEGIN, **stamped(moment=BEGIN * 1000 + 7),
           root={"certificate_log_window": {"start": time_text(logged),
                                            "end": time_text(logged, 9)}})
    simple("good-at-last-second-of-intermediate", None, begin=BEGIN, moment=BEGIN + 9,
           authority={"middle_last": BEGIN + 9})
    simple("good-at-first-second-of-root", None, begin=BEGIN, moment=BEGIN + 9,
           authority={"root_first": BEGIN + 9})


def of_trees():
    """Places in trees of several sizes, and in the log."""
    simple("good-tree-of-one", None, **proof(size=1))
    simple("good-tree-first", None, **proof(size=77, at=0))
    simple("good-tree-last", None, **proof(size=77, at=76))
    simple("good-tree-full", None, version=2, entry={"proof": {"size": 64, "at": 31}})
    simple("good-tree-first-index-left-out", None,
           **proof(size=5, at=0, over={"logIndex": None}))
    simple("good-tree-of-one-hashes-left-out", None, **proof(size=1, over={"hashes": None}))
    simple("good-log-index-0", None, entry={"index": 0})
    simple("good-log-index-left-out", None, entry={"index": 0, "over": {"logIndex": None}})
    simple("good-greatest-log-index", None, entry={"index": 2**53 - 1})


def of_several_entries():
    """Entries beside the one that counts."""
    simple("good-entry-of-unknown-log-besides", None, entries=lambda made: [
        made.make_entry(log=made.sigstore.other), made.make_entry()])
    simple("good-entry-with-wrong-promise-besides", None, entries=lambda made: [
        made.make_entry(promise_key=made.sigstore.other), made.make_entry()])
    simple("good-entry-with-wrong-proof-besides", None, version=2, entries=lambda made: [
        made.make_entry(proof={"said_root": b"\x07" * 32}), made.make_entry()])
    simple("good-entry-twice", None, entries=lambda made: [made.make_entry()] * 2)
    simple("good-eight-entries", None,
           entries=lambda made: [made.make_entry() for _ in range(8)])


def of_several_timestamps():
    """Timestamps beside the one that counts, and more lines and signatures of checkpoints."""
    simple("good-second-timestamp", None, timestamps=lambda made, bare: [
        made.timestamp(bare, key=made.sigstore.other), made.timestamp(bare)])
    simple("good-timestamp-wrong-besides", None, timestamps=lambda made, bare: [
        made.timestamp(bare, signed=b"x"), made.timestamp(bare)])
    simple("good-timestamp-of-other-version-besides", None, timestamps=lambda made, bare: [
        b"\x01abc", made.timestamp(bare)])
    simple("good-timestamp-with-extensions", None, **stamped(extensions=b"\x01\x02\x03"))
    witness = "\u2014 witness.test " + base64_text(b"abcd" + bytes(65)) + "\n"
    simple("good-checkpoint-cosigned", None, version=3, entry={"proof": {"checkpoint": {
        "marks": lambda mark: [witness, mark]}}})
    simple("good-checkpoint-more-lines", None,
           **proof(checkpoint={"more": ["one", "two three"]}))


def of_trusted_roots():
    """Authorities and logs beside those that count."""
    simple("good-second-authority", None, root=second_authority)
    simple("good-authority-twice-one-outside-its-window", None, root=on_root(ended_authority))
    simple("good-log-of-p384-besides", None, root=lambda made: on_root(
        lambda root: add_log(made, root, "p384", "PKIX_ECDSA_P384_SHA_384")))
    simple("good-log-of-unknown-kind-besides", None, root=lambda made: on_root(
        lambda root: add_log(made, root, "p256", "ML_DSA_65")))
    simple("good-log-id-twice", None, root=on_root(ended_log))
    simple("good-authority-that-does-not-read-besides", None, root=on_root(
        lambda root: root["certificateAuthorities"].insert(0, {
            "certChain": {"certificates": [raw(b"\x30\x03\x02\x01\x01")]},
            "validFor": LONG_AGO})))
    simple("good-root-of-newer-media-type", None, root=on_root(
        put(mediaType="application/vnd.dev.sigstore.trustedroot.v0.1+json")))
    simple("good-root-with-unknown-members", None, root=on_root(put(operator="somebody")))


def second_authority(made):
    """A trusted root with another authority of the same names before its own."""
    def edit(root):
        other = Sigstore(made.dice, made.begin)
        chain = {"certificates": [raw(one) for one in other.chain]}
        root["certificateAuthorities"].insert(
            0, {**root["certificateAuthorities"][0], "certChain": chain})
    return on_root(edit)


def ended_authority(root):
    """Puts the authority with a time that has passed before the one that counts."""
    root["certificateAuthorities"].insert(
        0, {**root["certificateAuthorities"][0], "validFor": ENDED})


def add_log(made, root, curve, details):
    """Puts a log with a key of a curve, of which this is said, before the one that counts."""
    key = Key(made.dice, curve)
    root["tlogs"].insert(0, made.sigstore.trusted_log(key, LONG_AGO, details))


def ended_log(root):
    """Puts the log with a time that has passed after the one that counts."""
    log = copy.deepcopy(root["tlogs"][0])
    log["publicKey"]["validFor"] = ENDED
    root["tlogs"].append(log)


def of_members():
    """Further members, and members of several forms."""
    simple("good-unknown-members", None, edit=on_bundle(lambda bundle: (
        bundle.update(more=1), bundle["verificationMaterial"].update(extra=[]))))
    simple("good-null-members", None, version=3, edit=on_material(
        lambda material: material.update(x509CertificateChain=None, publicKey=None)))
    simple("good-timestamps-of-any-form", None, edit=on_material(put(
        timestampVerificationData={"rfc3161Timestamps": [{"signedTimestamp": "AAAA"}]})))
    simple("good-url-base64", None, edit=on_payload(
        lambda text: text.replace("+", "-").replace("/", "_")))
    simple("good-keyid", None, edit=on_signature(put(keyid="some hint")))
    simple("good-other-payload-type", None, payload_type="application/octet-stream")
    simple("good-envelope-hash-left-out", None, kind="dsse",
           body={"edit": lambda body: body["spec"].pop("envelopeHash")})
    simple("good-uri-that-a-parser-changes", None, names="uri",
           identity="HTTPS://github.com/acme/tool/%7erelease yml")
    simple("good-low-and-high-s", None,
           sign_envelope=lambda made: made.leaf_key.sign_otherwise(made.message))
