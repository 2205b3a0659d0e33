"""Where the rules of docs/sigstore.md are on purpose others than those of sigstore-go and cosign.

Each rule has the cases of private_sigstore that show it.
"""

from typing import NamedTuple


class Rule(NamedTuple):
    """What holds by docs/sigstore.md, what by the other verifiers, and why the former."""

    title: str
    here: str
    there: str
    why: str
    cases: list


# What is refused here and taken there.
STRICTER = [
    Rule("what an entry says",
         "the hash of the payload, and for `intoto` its type, are compared; there is one signature",
         "neither is compared; of several signatures the first counts",
         "an entry has to be about this payload by its own words too",
         "body-of-other-payload body-of-other-type body-without-payload-hash "
         "body-two-signatures".split()),
    Rule("the size of the tree",
         "the checkpoint has that of the proof, and its lines are written in one way",
         "only the root hash is compared; zeros before the size pass, and tabs for spaces",
         "what is shown is the entry's place in a tree that the log signed",
         "checkpoint-other-size checkpoint-size-with-leading-zero".split()),
    Rule("the time of an entry",
         "the log signed it",
         "not needed where an RFC 3161 authority gives a time",
         "no other time is read",
         []),
    Rule("what a leaf is for",
         "it has key usage for signatures and the purpose of code signing, and is no authority",
         "both may be missing, and any purpose passes; the bits of key usage are not looked at; "
         "it may be an authority",
         "Fulcio's profile asks for it, and an authority's key must not sign artifacts",
         "no-usage usage-of-authority usage-encipherment usage-empty no-purposes purposes-empty "
         "purpose-any leaf-is-authority leaf-is-authority-path-0".split()),
    Rule("one name",
         "a leaf has exactly one",
         "the first URI counts, or else the first address, or else a name of Fulcio's own kind",
         "a certificate is that of one identity",
         "two-uris uri-and-email".split()),
    Rule("one issuer",
         "the old and the new extension agree where both are there",
         "the later of the two counts",
         "a certificate is that of one identity",
         "issuers-differ issuers-differ-in-case".split()),
    Rule("kinds of strings",
         "the new issuer and a name of Fulcio's own kind are a UTF8String",
         "other kinds pass",
         "Fulcio's profile has this one",
         "issuer-printable other-name-ia5".split()),
    Rule("critical extensions",
         "others than the four that are read are refused, and name constraints always",
         "certificate policies pass; name constraints are tried on the kinds of names that are "
         "known",
         "nothing is half understood",
         "critical-policies name-constraints "
         "intermediate-name-constraints-of-another-kind".split()),
    Rule("the order of an authority",
         "its certificates stand in order, each with key usage for certificates",
         "any path passes that can be built; key usage may be missing",
         "the format has this order: the last certificate is the one that is trusted",
         "authority-in-other-order intermediate-without-usage root-without-usage".split()),
    Rule("path lengths",
         "one byte below 128",
         "any number passes, and negative ones",
         "no chain is longer",
         "intermediate-path-128 intermediate-path-negative".split()),
    Rule("strict DER",
         "no bytes left over in the parts of a certificate, no unique identifiers, no `FALSE` "
         "written out, no NULL beside an algorithm, no zeros at the end of key usage, years up to "
         "2049 in two digits",
         "these pass",
         "each part has one form, and RFC 5280 has no others",
         "issuer-unique-id basic-false-written algorithm-with-null "
         "intermediate-path-of-another-tag intermediate-constraints-of-three "
         "usage-zeros-at-the-end usage-second-byte-of-zeros".split()),
    Rule("kinds of keys",
         "leaves and logs of P-256; authorities of P-256 with SHA-256 or P-384 with SHA-384",
         "other curves, RSA and Ed25519 too, and each curve with other digests",
         "what is proved",
         "leaf-key-p384 leaf-sha256-of-p384 leaf-sha384-of-p256 algorithm-sha512 "
         "root-log-of-p384-details timestamp-sha512".split()),
    Rule("forms of signatures",
         "strict DER, and nothing after it",
         "for an envelope and a checkpoint two numbers without DER pass; for a timestamp, bytes "
         "after the signature",
         "each signature has one form",
         "timestamp-signature-byte-after signature-raw-numbers".split()),
    Rule("numbers and base64",
         "numbers are texts, at most 2 ^ 53 - 1; base64 has padding",
         "JSON numbers, exponents and greater numbers pass, and base64 without padding",
         "writers write so, and the digits of what a log signed are certain",
         "time-as-number time-with-exponent log-index-as-number proof-size-as-number "
         "log-index-2^53 payload-without-padding".split()),
    Rule("names of members",
         "those of the JSON form",
         "those of protobuf too (`dsse_envelope`)",
         "writers write so",
         ["members-by-protobuf-names"]),
    Rule("limits",
         "8 entries, timestamps and signature lines; 8 certificates of an authority, 64 logs; "
         "65,535 bytes of a certificate",
         "32 entries, and any number of the others",
         "they bound what strangers can cost",
         "nine-entries timestamps-nine checkpoint-nine-signatures certificate-of-65536 "
         "root-chain-of-nine root-65-logs".split()),
    Rule("times of a trusted root",
         "they end in `Z`, with a full stop before a fraction, and each window has a start",
         "offsets and commas pass, and an authority needs no window",
         "writers write so, and a window that was forgotten is no open one",
         "root-authority-start-missing root-time-with-offset root-start-with-comma".split()),
    Rule("media types",
         "the four that writers have",
         "any version of the newer form up to 0.3",
         "no writer has the others",
         "media-type-0.2-in-new-form media-type-0.3.1".split()),
    Rule("kinds of entries",
         "`dsse` 0.0.1 and `intoto` 0.0.2",
         "`hashedrekord` 0.0.1 too, around an envelope",
         "no writer of envelopes has it",
         ["kind-hashedrekord"]),
    Rule("the certificate in an entry",
         "a PEM text of the leaf, and nothing else",
         "text before and after it, empty lines, long lines and another label pass",
         "it reads in one way",
         "body-pem-with-text-before body-pem-of-two-certificates body-pem-of-other-label "
         "body-pem-with-empty-line body-pem-of-long-lines body-pem-with-line-after".split()),
]
# What is taken here and refused there.
WIDER = [
    Rule("one good entry",
         "it is enough, whatever the others are",
         "an entry of a known log that does not hold refuses the bundle, and so do two with one "
         "index",
         "who can add an entry can take one away too; what one shows, another does not undo",
         "good-entry-with-wrong-proof-besides good-entry-twice".split()),
    Rule("one good signature line",
         "it is enough, and a name in one may have any byte but a space",
         "each line has to be the log's",
         "witnesses may sign a checkpoint too",
         "good-checkpoint-cosigned good-checkpoint-signature-of-5-bytes-besides".split()),
    Rule("the index 0",
         "it is one",
         "it counts as missing",
         "a log has a first entry",
         "good-log-index-0 good-log-index-left-out".split()),
    Rule("members that are not read",
         "they may be anything, and may come twice",
         "unknown members, other types and members twice are refused",
         "as in all documents that `itv` reads: they have no part in the answer",
         "good-unknown-members good-root-with-unknown-members good-line-surrogate-pair "
         "good-line-nested-127 good-line-member-twice-last-counts "
         "good-entry-no-object-besides".split()),
    Rule("the hash of the envelope's text",
         "what an entry says of it is not read",
         "it has to be of its form",
         "it cannot be known again from the bundle",
         ["good-envelope-hash-left-out"]),
    Rule("other logs and authorities",
         "a trusted root may have logs of other kinds and authorities that do not read",
         "such a file is refused",
         "newer roots stay of use, and what is passed over vouches for nothing",
         "good-log-of-unknown-kind-besides good-authority-that-does-not-read-besides".split()),
    Rule("the type of a trusted root",
         "the newer media type too",
         "only the older",
         "the format has both",
         ["good-root-of-newer-media-type"]),
    Rule("any payload",
         "who signed is asked of any",
         "one that is no Statement, or has unknown members, is refused",
         "who signed is one question; what was signed is another, for the rules on provenance",
         ["good-other-payload-type"]),
    Rule("names as they stand",
         "they are compared byte for byte",
         "a URI is parsed and written anew before it is compared",
         "equal bytes need no parser",
         ["good-uri-that-a-parser-changes"]),
    Rule("the hint of a signature",
         "its `keyid` is one on the id in the policy",
         "it is empty, or made from the key",
         "as in all envelopes: a wrong hint narrows, and never adds",
         ["good-keyid"]),
    Rule("items that are no timestamp",
         "in the list of a leaf they are passed over",
         "they refuse the certificate",
         "the authority signed the list, and another timestamp holds",
         ["good-timestamp-of-other-version-besides"]),
    Rule("logs of one id",
         "a trusted root may have several, each with its window",
         "the last one counts",
         "the file is trusted, and nothing depends on its order",
         ["good-log-id-twice"]),
    Rule("starts of windows",
         "any time",
         "a log whose window starts with the year 1 is not used",
         "no time is special",
         ["good-root-start-in-year-1"]),
    Rule("what is compared as bytes",
         "the inside of names, identifiers and values that are ignored is not read",
         "it has to be of its form",
         "only an authority can write it",
         []),
]
# The rule that each case shows.
BY_CASE = {name: rule for rule in [*STRICTER, *WIDER] for name in rule.cases}


def is_taken_there(name, is_good):
    """Whether other verifiers accept a case, by these rules."""
    rule = BY_CASE.get(name)
    return is_good if rule is None else rule in STRICTER
