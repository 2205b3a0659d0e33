"""Cases of lines that are no bundles, and of bundles without what they are made of."""

import base64
import hashlib
import json

from byte_forms import base64_text

from .authority import raw
from .bundles import OLDER, Made
from .keys import pem
from .registry import (Drawn, case, on_bundle, on_envelope, on_material, on_payload, on_signature,
                       put, simple)
from .statements import statement

# A payload whose base64 has both characters that the alphabets do not share.
OF_BOTH_ALPHABETS = '{"a":"\u07bf\ufbff \u00fe\u00ff>>>???"}'.encode() + b">>>???>>?>?>"


def add():
    """Adds the cases that are not at edges."""
    of_media_types()
    of_envelopes()
    of_material()
    of_certificates()


def add_edges():
    """Adds the cases at edges."""
    of_json()
    of_alphabets()
    of_signatures()


def of_media_types():
    """Media types that are none of a bundle."""
    name, newer = "media-type", "application/vnd.dev.sigstore.bundle.v0."
    simple("media-type-missing", name, edit=on_bundle(put(mediaType=None)))
    simple("media-type-0.4", name, media_type=newer + "4+json")
    simple("media-type-0.2-in-new-form", name, version=2, media_type=newer + "2+json")
    simple("media-type-0.3.1", name, version=3, media_type=newer + "3.1+json")
    simple("media-type-other-case", name, version=3,
           media_type="application/vnd.dev.sigstore.Bundle.v0.3+json")
    simple("media-type-parameter-space", name, version=1,
           media_type=OLDER.replace(";", "; ") + "1")


def of_envelopes():
    """Bundles without an envelope, and with more signatures or fewer than one."""
    simple("message-signature", "message-signature", edit=without_envelope)
    simple("payload-not-base64", "envelope", edit=on_envelope(put(payload="%%%%")))
    simple("payload-without-padding", "envelope", payload=Drawn(payload_with_padding),
           edit=on_payload(lambda text: text.rstrip("=")))
    simple("payload-type-missing", "envelope", edit=on_envelope(put(payloadType=None)))
    simple("signatures-missing", "envelope", edit=on_envelope(put(signatures=None)))
    simple("members-by-protobuf-names", "other", edit=on_bundle(
        lambda bundle: bundle.update(dsse_envelope=bundle.pop("dsseEnvelope"))))
    simple("two-signatures", "one-signature", edit=on_envelope(
        lambda envelope: envelope["signatures"].append(dict(envelope["signatures"][0]))))
    simple("second-signature-of-stranger", "one-signature", edit=strangers_signature_first)
    simple("no-signature", "one-signature", edit=on_envelope(put(signatures=[])))


def without_envelope(bundle, made):
    """Puts the signature of a message in place of the envelope."""
    del bundle["dsseEnvelope"]
    digest = base64_text(hashlib.sha256(made.payload).digest())
    bundle["messageSignature"] = {"messageDigest": {"algorithm": "SHA2_256", "digest": digest},
                                  "signature": base64_text(made.signature)}


def payload_with_padding(dice):
    """A Statement whose base64 ends with padding."""
    payload = statement(dice)
    return payload + b" " * (len(payload) % 3 == 0)


def strangers_signature_first(bundle, made):
    """Puts a stranger's signature before that of the leaf's key."""
    sig = made.sigstore.other.sign(made.message)
    bundle["dsseEnvelope"]["signatures"].insert(0, {"sig": base64_text(sig)})


def of_material():
    """Bundles without a certificate, or with another thing in its place."""
    simple("no-material", "material", edit=on_bundle(put(verificationMaterial=None)))
    simple("material-is-a-list", "material", edit=on_bundle(put(verificationMaterial=[])))
    no_certificate = {"certificate": None, "x509CertificateChain": None}
    simple("public-key", "public-key",
           edit=on_material(put(**no_certificate, publicKey={"hint": "x"})))
    simple("public-key-besides-certificate", "public-key",
           edit=on_material(put(publicKey={"hint": "x"})))
    simple("no-certificate", "no-certificate", edit=on_material(put(**no_certificate)))
    simple("empty-chain", "no-certificate", version=2, form="chain",
           edit=on_material(put(x509CertificateChain={"certificates": []})))
    simple("certificate-and-chain", "two-forms", version=2, form="both")
    simple("chain-in-0.3", "chain-in-0.3", version=3, form="chain")
    simple("certificate-not-base64", "certificate-base64", version=3,
           edit=on_material(put(certificate={"rawBytes": "MII*"})))
    simple("certificate-in-pem", "certificate-base64", version=3,
           edit=lambda bundle, made: bundle["verificationMaterial"].update(
               certificate={"rawBytes": pem(made.leaf)}))


def on_leaf(changing):
    """The edit that changes the bytes of the certificate, given the bundle that was made."""
    def edit(bundle, made):
        material = bundle["verificationMaterial"]
        held = (material["certificate"] if "certificate" in material
                else material["x509CertificateChain"]["certificates"][0])
        held.update(raw(changing(base64.b64decode(held["rawBytes"]), made)))
    return edit


def of_certificates():
    """Certificates that are none, or are not those of a leaf."""
    form = "certificate-form"
    simple("certificate-byte-after", form, edit=on_leaf(lambda leaf, made: leaf + b"\x00"))
    simple("certificate-cut", form, edit=on_leaf(lambda leaf, made: leaf[:-1]))
    simple("certificate-empty", form, edit=on_leaf(lambda leaf, made: b""))
    simple("certificate-is-garbage", form,
           edit=on_leaf(lambda leaf, made: b"\x30\x03\x02\x01\x01"))
    simple("intermediate-as-leaf", "leaf-key",
           edit=on_leaf(lambda leaf, made: made.sigstore.chain[0]))


def line(name, condition, changing):
    """Adds the case of a good bundle whose line is changed."""
    def build(dice):
        bundle, *others = Made(dice).case()
        return changing(json.dumps(bundle, separators=(",", ":")).encode()), *others
    case(name, condition, build)


def with_member(value):
    """The change of a line that adds a member with a value."""
    return lambda text: b'{"x":' + value + b"," + text[1:]


def of_json():
    """Lines that are no JSON, or no object, and lines that nearly are so."""
    line("line-not-utf8", "json", with_member(b'"\xff"'))
    line("line-with-byte-order-mark", "json", lambda text: b"\xef\xbb\xbf" + text)
    line("line-number-past-double", "json", with_member(b"1e999"))
    line("line-not-a-number", "json", with_member(b"NaN"))
    line("line-lone-surrogate", "json", with_member(b'"\\ud800"'))
    line("good-line-surrogate-pair", None, with_member(b'"\\ud83d\\ude00 \\ud7ff \\ue000"'))
    line("good-line-nested-127", None, with_member(b"[" * 126 + b"0" + b"]" * 126))
    line("line-nested-128", "json", with_member(b"[" * 127 + b"0" + b"]" * 127))
    line("line-cut", "json", lambda text: text[:-1])
    line("line-empty", "json", lambda text: b"")
    line("line-a-list", "other", lambda text: b"[" + text + b"]")
    line("good-line-member-twice-last-counts", None,
         lambda text: b'{"mediaType":"x",' + text[1:])
    line("line-member-twice-last-counts", "media-type",
         lambda text: text[:-1] + b',"mediaType":"x"}')


def with_run(run):
    """Statements in whose base64 one of the characters that the alphabets do not share stands,
    that of `>` or of `?`, or both."""
    def make(dice):
        document = json.loads(statement(dice))
        document["predicate"]["runDetails"]["metadata"]["invocationId"] = run * 12
        text = json.dumps(document, separators=(",", ":"), ensure_ascii=False).encode()
        wanted = {{">": "+", "?": "/"}[one] for one in run}
        assert len(run) > 1 or set(base64_text(text)) & set("+/") == wanted
        return text
    return Drawn(make)


def exchanged(one, other):
    """The edit that exchanges a character of the payload's base64."""
    return on_payload(lambda text: text.replace(one, other))


def of_alphabets():
    """Payloads in either alphabet of base64, and in both at once."""
    simple("payload-in-two-alphabets", "envelope", payload=OF_BOTH_ALPHABETS,
           edit=on_payload(lambda text: "+-" + text[2:]))
    simple("good-url-base64-of-dashes", None, payload=with_run(">"), edit=exchanged("+", "-"))
    simple("good-url-base64-of-underscores", None, payload=with_run("?"),
           edit=exchanged("/", "_"))
    simple("payload-of-dashes-and-slashes", "envelope", payload=with_run(">?"),
           edit=exchanged("+", "-"))
    simple("payload-of-pluses-and-underscores", "envelope", payload=with_run(">?"),
           edit=exchanged("/", "_"))


def of_signatures():
    """Members of the envelope that are of another form."""
    simple("payload-bits-left-over", "envelope",
           edit=on_payload(lambda text: text.rstrip("=")[:-1] + "AB=="))
    simple("keyid-is-a-number", "envelope", edit=on_signature(put(keyid=5)))
    simple("sig-not-base64", "envelope", edit=on_signature(put(sig="MEU*")))
    simple("sig-missing", "envelope", edit=on_signature(put(sig=None)))


def envelope_and_bundle(dice):
    """The case of a line that is an envelope, and has the members of its bundle too."""
    bundle, *others = Made(dice).case()
    members = {name: bundle[name] for name in ("mediaType", "verificationMaterial")}
    return {**bundle["dsseEnvelope"], **members, "dsseEnvelope": bundle["dsseEnvelope"]}, *others


def add_last():
    """Adds the case that comes last of all."""
    case("line-is-envelope-and-bundle", "plain-envelope", envelope_and_bundle)
