"""Cases of entries of the transparency log: their members, their bodies, and their promises."""

import base64
import hashlib
import json

from byte_forms import base64_text, der

from .authority import SECOND, time_text
from .bundles import Made
from .entries import compact
from .keys import pem
from .registry import (BEGIN, body_pem, on_envelope, on_material, on_payload, over, put, simple)


def add():
    """Adds the cases that are not at edges."""
    of_lists()
    of_members()
    of_kinds_and_logs()
    of_bodies()
    of_payloads()
    of_signatures()
    of_certificates()
    of_promises()


def add_edges():
    """Adds the cases at edges."""
    of_versions()
    of_pem()
    of_texts()
    of_objects()


def of_lists():
    """Bundles without entries, or with too many."""
    no_entry = "no-entry"
    simple("no-entries", no_entry, edit=on_material(put(tlogEntries=None)))
    simple("empty-entries", no_entry, edit=on_material(put(tlogEntries=[])))
    simple("only-rfc3161", no_entry, version=3, edit=on_material(put(
        tlogEntries=[],
        timestampVerificationData={"rfc3161Timestamps": [{"signedTimestamp": "MIIB"}]})))
    simple("nine-entries", "many-entries",
           entries=lambda made: [made.make_entry() for _ in range(9)])


def of_members():
    """Members of entries that are missing or of another form."""
    form, promise = "entry-form", "entry-promise"

    def time(name, value):
        simple(name, form, begin=BEGIN, moment=BEGIN + 100, **over(integratedTime=value))

    simple("log-id-missing", form, **over(logId=None))
    simple("time-missing", form, **over(integratedTime=None))
    simple("time-0", form, **over(integratedTime="0"))
    time("time-as-number", BEGIN + 100)
    time("time-with-leading-zero", "01700000100")
    time("time-with-plus", "+1700000100")
    time("time-with-exponent", "17000001e2")
    simple("time-negative", form, **over(integratedTime="-5"))
    simple("log-index-2^53", form, entry={"index": 2**53})
    simple("log-index-as-number", form, entry={"index": 12345, "over": {"logIndex": 12345}})
    simple("body-missing", form, **over(canonicalizedBody=None))
    simple("kind-version-missing", form, **over(kindVersion=None))
    simple("no-promise", promise, version=3, **over(inclusionPromise=None))
    simple("no-promise-0.2", promise, version=2, **over(inclusionPromise=None))
    simple("promise-empty", promise, version=3, **over(inclusionPromise={}))


def of_kinds_and_logs():
    """Entries of other kinds, and of logs that do not count."""
    kind, log, window = "entry-kind", "entry-log", "entry-log-window"
    simple("kind-hashedrekord", kind, kind="hashedrekord")
    simple("kind-dsse-0.0.2", kind, kind="dsse", body={"version": "0.0.2"})
    simple("kind-intoto-0.0.1", kind, kind="intoto", body={"version": "0.0.1"})
    simple("kind-of-another-name", kind, kind="dsse", body={"kind_text": "DSSE"})
    simple("kind-version-of-another-body", "body-form", kind="dsse",
           **over(kindVersion={"kind": "intoto", "version": "0.0.2"}))
    simple("unknown-log", log,
           entries=lambda made: [made.make_entry(log=made.sigstore.other)])
    simple("log-is-the-certificate-log", log,
           entries=lambda made: [made.make_entry(log=made.sigstore.certificate_log)])
    moment = (BEGIN + 5) * SECOND
    simple("before-log-window", window, begin=BEGIN, moment=BEGIN + 5,
           root={"log_window": {"start": time_text(moment + 1, 9)}})
    simple("after-log-window", window, begin=BEGIN, moment=BEGIN + 5,
           root={"log_window": {"start": "2020-01-01T00:00:00Z", "end": time_text(moment - 1, 9)}})


def of_bodies():
    """Bodies of another form."""
    form = "body-form"
    simple("body-not-json", form, entry={"body_bytes": b"{"})
    simple("body-without-spec", form, body={"edit": put(spec=None)})
    simple("body-two-signatures", form, body={"count": 2})
    simple("body-no-signature", form, body={"count": 0})
    simple("body-without-payload-hash", form, kind="intoto",
           body={"edit": lambda body: body["spec"]["content"].pop("payloadHash")})


def of_payloads():
    """Bodies about another payload, or about one of another type."""
    condition, of_type, payload = "body-payload", "body-type", b'{"x":1}'

    def hashed(name, algorithm, value):
        simple(name, condition, payload=payload,
               body={"payload_hash": {"algorithm": algorithm, "value": value}})

    def by_another(text):
        return base64_text(base64.b64decode(text).replace(b"acme", b"evil"))

    other_type = on_envelope(put(payloadType="application/vnd.in-toto.x+json"))
    simple("body-of-other-payload", condition, body={"payload": b"{}"})
    hashed("body-payload-hash-upper-case", "sha256", hashlib.sha256(payload).hexdigest().upper())
    hashed("body-payload-hash-sha512", "sha512", hashlib.sha512(payload).hexdigest())
    simple("payload-changed", condition, edit=on_payload(by_another))
    simple("body-of-other-type", of_type, kind="intoto", body={"payload_type": "text/plain"})
    simple("payload-type-changed-intoto", of_type, kind="intoto", edit=other_type)


def other_form(bundle, made):
    """Puts the other form of the signature into the envelope."""
    sig = made.leaf_key.sign_otherwise(made.message)
    bundle["dsseEnvelope"]["signatures"][0].update(sig=base64_text(sig))


def of_signatures():
    """Bodies about another signature, or in which it is written otherwise."""
    condition = "body-signature"

    def bodied(name, said, **options):
        simple(name, condition, entries=lambda made: [made.make_entry(body=said(made))],
               **options)

    bodied("body-of-other-signature",
           lambda made: {"signature": made.leaf_key.sign(b"another message")})
    simple("body-of-malleated-signature", condition, edit=other_form)
    bodied("body-signature-encoded-once",
           lambda made: {"signature_text": base64_text(made.signature)}, kind="intoto")
    bodied("body-signature-encoded-twice", lambda made: {
        "signature_text": base64_text(base64_text(made.signature).encode())}, kind="dsse")


def twin(made):
    """The PEM text of another leaf for the same key and identity."""
    other = Made(made.dice, made.sigstore, begin=made.begin, identity=made.identity,
                 names=made.names, issuer=made.issuer, leaf_key=made.leaf_key)
    return pem(other.leaf)


def other_pem(name, make):
    """Adds the case of a body with another text in place of the certificate."""
    simple(name, "body-certificate", **body_pem(make))


def of_certificates():
    """Bodies about another certificate, or in which it is written otherwise."""
    other_pem("body-of-other-certificate", twin)
    other_pem("body-pem-of-the-key-alone", lambda made: pem(made.leaf_key.info, "PUBLIC KEY"))
    other_pem("body-pem-with-text-before", lambda made: "subject=x\n" + pem(made.leaf))
    other_pem("body-pem-of-two-certificates",
              lambda made: pem(made.leaf) + pem(made.sigstore.chain[0]))
    other_pem("body-pem-of-other-label", lambda made: pem(made.leaf, "TRUSTED CERTIFICATE"))
    other_pem("body-pem-with-empty-line",
              lambda made: pem(made.leaf).replace("-----\n", "-----\n\n", 1))
    other_pem("body-pem-of-long-lines", lambda made: pem(made.leaf, width=77))
    simple("good-body-pem-of-76", None, **body_pem(lambda made: pem(made.leaf, width=76)))


def reversed_members(entry):
    """The text of an entry with its members in the opposite order."""
    return compact(dict(reversed(entry.items())))


def upper_case_id(entry):
    """The text of an entry with the log's id in other digits."""
    return compact({**entry, "logID": entry["logID"].upper()})


def on_promise(changing):
    """The edit that changes the bytes of the promise."""
    def edit(bundle, made):
        promise = bundle["verificationMaterial"]["tlogEntries"][0]["inclusionPromise"]
        changed = changing(base64.b64decode(promise["signedEntryTimestamp"]))
        promise["signedEntryTimestamp"] = base64_text(changed)
    return edit


def padded(sig):
    """A signature whose first number has a zero byte more at its front."""
    size = sig[3]
    return der(0x30, der(2, b"\x00" + sig[4:4 + size]), sig[4 + size:])


def of_promises():
    """Promises by another key, over something else, or of another form."""
    condition = "entry-timestamp"

    def promised(name, options):
        simple(name, condition, entries=lambda made: [made.make_entry(**options(made))])

    promised("promise-of-other-key", lambda made: {"promise_key": made.sigstore.other})
    promised("promise-of-the-certificate-log",
             lambda made: {"promise_key": made.sigstore.certificate_log})
    promised("promise-of-other-time", lambda made: {"signed_moment": made.moment + 1})
    simple("promise-of-other-index", condition, entry={"index": 5, "signed_index": 6})
    simple("promise-of-other-body", condition, entry={"signed_body": b"{}"})
    simple("promise-over-other-member-order", condition,
           entry={"promise_text": reversed_members})
    simple("promise-over-json-with-spaces", condition, entry={"promise_text": json.dumps})
    simple("promise-over-upper-case-id", condition, entry={"promise_text": upper_case_id})
    simple("promise-byte-after", condition, entry={"promise_after": b"\x00"})
    simple("promise-empty-signature", condition, version=2,
           **over(inclusionPromise={"signedEntryTimestamp": ""}))
    simple("promise-raw-numbers", condition, edit=on_promise(lambda sig: b"\x01" * 64))
    simple("promise-number-padded", condition, edit=on_promise(padded))


def of_versions():
    """Bodies of another version or kind than the entry says."""
    def said(name, **options):
        simple(name, "body-form", kind="dsse", body=options,
               **over(kindVersion={"kind": "dsse", "version": "0.0.1"}))

    said("body-of-other-version", version="0.0.2")
    said("body-of-other-kind", kind_text="intoto")


def in_url_alphabet(made):
    """The PEM text of the leaf in the other alphabet of base64, where that makes a difference."""
    text = pem(made.leaf)
    if not set(text[28:-27]) & set("+/"):
        return "x"
    return text.replace("+", "-").replace("/", "_").replace("_____", "-----")


def of_pem():
    """PEM texts that are cut, or have other first and last lines, or lines of other lengths."""
    def lines(made):
        return pem(made.leaf).split("\n")

    def marked(word):
        return lambda made: pem(made.leaf).replace(f"{word} CERTIFICATE",
                                                   f"{word} X509 CERTIFICATE")

    other_pem("body-pem-of-begin-alone", lambda made: "-----BEGIN CERTIFICATE-----\n")
    other_pem("body-pem-without-begin", lambda made: "\n".join(lines(made)[1:]))
    other_pem("body-pem-without-end", lambda made: "\n".join(lines(made)[:-2]) + "\n")
    other_pem("body-pem-of-other-begin", marked("BEGIN"))
    other_pem("body-pem-of-other-end", marked("END"))
    other_pem("body-pem-with-line-after", lambda made: pem(made.leaf) + "\n")
    other_pem("body-pem-in-url-alphabet", in_url_alphabet)
    simple("good-body-pem-with-carriage-returns", None,
           **body_pem(lambda made: pem(made.leaf).replace("\n", "\r\n")))
    simple("good-body-pem-of-one-character-lines", None,
           **body_pem(lambda made: pem(made.leaf, width=1)))


def rewritten(changing=put(), **form):
    """What makes the entry of a bundle with a change of its body, which is written anew."""
    def entries(made):
        body = json.loads(made.make_body()[0])
        changing(body)
        return [made.make_entry(body_bytes=json.dumps(body, **form).encode())]
    return entries


def verifier_not_utf8(body):
    """Puts a byte before the PEM text of a body of the kind `dsse` that makes it no text."""
    (one,) = body["spec"]["signatures"]
    one["verifier"] = base64_text(b"\xff" + base64.b64decode(one["verifier"]))


def signature_not_utf8(body):
    """Puts bytes that are no text in place of the signature of a body of the kind `intoto`."""
    (one,) = body["spec"]["content"]["envelope"]["signatures"]
    one["sig"] = base64_text(b"\xff\xff\xff\xff")


def of_texts():
    """Bodies with parts that are no texts, and a body with spaces."""
    simple("body-pem-not-utf8", "body-certificate", kind="dsse",
           entries=rewritten(verifier_not_utf8))
    simple("body-signature-not-utf8", "body-signature", kind="intoto",
           entries=rewritten(signature_not_utf8))
    simple("good-body-with-spaces", None, entries=rewritten(indent=1))


def of_objects():
    """Entries that are no objects, and a list of entries that is none."""
    simple("entry-no-object", "entry-form", edit=on_material(put(tlogEntries=[5])))
    simple("good-entry-no-object-besides", None, entries=lambda made: [7, made.make_entry()])
    simple("entries-no-list", "no-entry", edit=on_material(put(tlogEntries={})))
