"""What the scripts for runs on Sigstore bundles share: which of the bundles of private_sigstore
are tried and what is said of each, key objects of identities, bundles of a file, and files that are
no trusted root. Needs the package `cryptography`.
"""

import random
import sys

import lines
from private_sigstore import Made

sys.path.insert(0, str(lines.TOP / "bench"))
from deliveries import identity as named

# What bundles are made of that attest the file of `good` in cases.py.
APP = {"artifact": b"app"}
# Good bundles: of each version and kind of name, and with parts besides that count for nothing.
GOOD = """uri email other-name v1-promise-only v1-with-proof v2-chain v3 v3-old-form intoto
    issuer-both chain-of-three at-last-second-of-leaf entry-with-wrong-promise-besides
    authority-that-does-not-read-besides object-with-more-members""".split()
# Bad bundles, at least one for each condition: but for it, each would vouch for who is listed.
BAD = """media-type-parameter-space message-signature sig-not-base64 line-a-list
    second-signature-of-stranger material-is-a-list public-key-besides-certificate empty-chain
    certificate-and-chain chain-in-0.3 certificate-in-pem extension-twice leaf-key-p384
    critical-policies usage-zeros-at-the-end usage-of-authority purpose-any
    leaf-is-authority-path-0 email-and-uri
    issuers-differ-in-case identity-other-ref object-with-identity-outside-keyval only-rfc3161
    nine-entries time-as-number promise-empty kind-hashedrekord body-two-signatures
    root-log-of-p384-details after-log-window body-of-other-payload body-of-other-type
    body-of-malleated-signature body-of-other-certificate promise-of-other-time proof-missing-0.3
    proof-without-checkpoint-0.1 proof-leaf-as-node checkpoint-other-size
    checkpoint-two-empty-lines checkpoint-of-other-key-and-hint after-leaf root-path-too-short
    before-authority-window intermediate-ended authority-of-stranger-in-the-bundle no-timestamp
    timestamps-byte-after no-ct-log after-ct-window timestamp-of-another-certificate
    signed-payload-alone line-not-utf8 line-is-envelope-and-bundle""".split()
# What the note says of a bundle that misses one of these conditions.
MISSES = [
    ("material", "it has no verificationMaterial"),
    ("public-key", "it is signed by a public key, not by a certificate"),
    ("no-certificate", "it has no certificate"),
    ("two-forms", "it has both a certificate and a chain"),
    ("chain-in-0.3", "bundles of version 0.3 have one certificate, not a chain"),
    ("certificate-base64", "its certificate is empty, or not in base64"),
    ("no-entry", "it has no entry of a transparency log"),
    ("many-entries", "it has more than 8 entries"),
    ("leaf-key", "its certificate has a key of another curve"),
    ("leaf-usage", "its certificate is not for signatures"),
    ("leaf-purpose", "its certificate is not for code signing"),
    ("leaf-authority", "its certificate is that of an authority"),
    ("leaf-name", "its certificate does not have exactly one name of a URI, an address or "
     "Fulcio's own kind"),
    ("leaf-issuer", "its certificate does not name one issuer"),
    ("entry-form entry-promise proof-form",
     "its entry has a member that is missing or of another form"),
    ("entry-log", "its entry is of no log of the trusted root that is used"),
    ("entry-log-window", "its entry is from a time at which its log was not trusted"),
    ("entry-kind", "its entry is of another kind than dsse 0.0.1 and intoto 0.0.2"),
    ("body-form", "its entry's body does not read"),
    ("body-payload", "its entry is not about its payload"),
    ("body-type", "its entry is not about its payload type"),
    ("body-signature", "its entry is not about its signature"),
    ("body-certificate", "its entry is not about its certificate"),
    ("proof-missing", "its entry has no inclusion proof"),
    ("proof-root", "its inclusion proof does not lead to its root"),
    ("checkpoint-form", "the checkpoint of its inclusion proof does not read"),
    ("checkpoint-root", "the checkpoint of its inclusion proof is not of its root and size"),
    ("checkpoint-signature", "the log did not sign the checkpoint of its inclusion proof"),
    ("entry-timestamp", "the log did not sign its entry's time"),
    ("authority-name", "no authority that is used has the name of the certificate's issuer"),
    ("authority-window", "the certificate's issuer was not trusted at the time of its entry"),
    ("leaf-time", "the certificate was not valid at the time of its entry"),
    ("authority-time",
     "a certificate of the certificate's issuer was not valid at the time of its entry"),
    ("authority-signature",
     "the certificate is not signed by its issuer with the digest for the issuer's key"),
    ("sct-missing", "the certificate has no timestamp of a certificate log"),
    ("sct-form", "its timestamps do not read"),
    ("sct-log", "none of its timestamps is of a log of the trusted root that is used"),
    ("sct-window", "its timestamp is from a time at which its log was not trusted"),
    ("sct-signature", "its log did not sign the certificate's timestamp"),
    ("envelope-signature", "the certificate's key did not sign the envelope"),
]
# What it says of the cases of certificates that are not read.
UNREAD = {
    "it does not have the parts of one of version 3": """
        certificate-byte-after certificate-cut certificate-empty certificate-is-garbage
        tbs-length-too-long version-2 version-missing version-4 algorithms-differ issuer-unique-id
        after-extensions serial-empty serial-no-integer leaf-signature-of-unused-bits
        certificate-of-65536 signature-length-in-two-bytes""",
    "its signature has another algorithm": "algorithm-with-null algorithm-sha512",
    "its validity has another form": """
        generalized-time-before-2050 utc-time-without-seconds generalized-time-with-fraction
        time-with-offset month-13 february-29 leap-second validity-of-three validity-of-one hour-24
        minute-60 day-0 utc-time-of-14 utc-time-with-letter time-of-another-tag""",
    "its key is of another kind or form": """
        leaf-key-compressed leaf-key-ed25519 leaf-key-of-another-curve-name
        leaf-key-of-another-kind leaf-key-of-unused-bits leaf-key-hybrid-point""",
    "its extensions have another form": """
        critical-false-written extension-of-another-tag extension-with-two-values
        extension-in-other-order extension-without-value extension-critical-01""",
    "it constrains names": "name-constraints",
    "a critical extension of it is not known":
        "critical-unknown critical-issuer critical-timestamps critical-policies",
    "it has an extension twice": "extension-twice san-twice",
    "its usage, constraints or purposes have another form": """
        usage-unused-bits usage-empty usage-zeros-at-the-end usage-second-byte-of-zeros
        basic-false-written purposes-empty purposes-length-in-two-bytes
        purposes-length-in-three-bytes purposes-of-128-in-one-byte purposes-indefinite purposes-cut
        purposes-byte-after purposes-of-another-tag""",
}
# What it says of some cases: a list has no members, and a chain of none has no first certificate.
NO_IDENTITY = "its certificate's name or issuer is empty or has more than 512 bytes"
SAID = {"material-is-a-list": "it has no certificate",
        "empty-chain": "its certificate is empty, or not in base64",
        "name-empty": NO_IDENTITY, "issuer-empty": NO_IDENTITY}
# The type of a trusted root, and files that are none, with what is said of each.
TYPE = {"mediaType": "application/vnd.dev.sigstore.trustedroot+json;version=0.1"}
LOG = {"hashAlgorithm": "x", "logId": {"keyId": ""},
       "publicKey": {"keyDetails": "", "rawBytes": "",
                     "validFor": {"start": "1970-01-01T00:00:00Z"}}}
FORM = "a member is missing or of another form"
NO_ROOTS = [
    ([], "it is no JSON object"),
    ({}, "its mediaType is not that of a trusted root"),
    ({**TYPE, "tlogs": {}}, "the member tlogs is not a list"),
    ({**TYPE, "ctlogs": "x"}, "the member ctlogs is not a list"),
    ({**TYPE, "certificateAuthorities": 1}, "the member certificateAuthorities is not a list"),
    ({**TYPE, "tlogs": [LOG, {}]}, f"item 1 of tlogs is no log: {FORM}"),
    ({**TYPE, "ctlogs": [{}]}, f"item 0 of ctlogs is no log: {FORM}"),
    ({**TYPE, "certificateAuthorities": [{}]},
     f"item 0 of certificateAuthorities is no authority: {FORM}"),
    ({**TYPE, "tlogs": 65 * [LOG]}, "the member tlogs has more than 64 items"),
]


def misses(name, condition, bundle):
    """What the note says of the bundle of a case; `None` where it is no bundle, or vouches for
    another identity."""
    if name in SAID:
        return SAID[name]
    for said, names in UNREAD.items():
        if name in names.split():
            return f"its certificate is not read: {said}"
    if condition == "sct-form" and name.startswith("timestamp-"):
        condition = "sct-log"  # the list reads, and what is no timestamp is one of no log
    if condition == "one-signature":
        count = len(bundle["dsseEnvelope"]["signatures"])
        return f"its envelope has {count} signatures, and a bundle's must have one"
    return next((said for conditions, said in MISSES if condition in conditions.split()), None)


def who(made):
    """The key object of the identity that a bundle vouches for."""
    return named(made.identity, made.issuer)


def made_of(seed, beside=None, **options):
    """A bundle that attests `app`, of its own private Sigstore or of that of another bundle."""
    shared = {} if beside is None else {"sigstore": beside.sigstore, "begin": beside.begin}
    return Made(random.Random(f"run {seed}"), **shared, **{**APP, **options})


def plain(bundle, *signatures):
    """The envelope of a bundle with these signatures in place of its own."""
    return {**bundle["dsseEnvelope"], "signatures": list(signatures)}


def hinted(bundle, hint):
    """A bundle with this hint in its signature."""
    (one,) = bundle["dsseEnvelope"]["signatures"]
    return {**bundle, "dsseEnvelope": plain(bundle, {**one, "keyid": hint})}
