"""Cases of trusted roots that do not read, or have no log that counts."""

import base64
import json
import random

from byte_forms import base64_text

from .bundles import Made
from .keys import Key
from .registry import (case, on_authority, on_chain, on_log, on_log_key, on_root, put, simple)

START = "2020-01-01T00:00:00Z"


def add():
    """Adds the cases that are not at edges."""
    of_members()
    of_keys_and_logs()


def add_edges():
    """Adds the cases at edges."""
    of_json()
    of_sizes()
    of_forms()
    of_starts()


def rooted(name, changed, condition="root"):
    """Adds the case of a trusted root with a change."""
    simple(name, condition, root=changed)


def of_members():
    """Trusted roots of other types, without members, or with other times."""
    rooted("root-media-type-other", on_root(put(mediaType="application/json")))
    rooted("root-media-type-missing", on_root(put(mediaType=None)))
    rooted("root-tlogs-no-list", on_root(put(tlogs={})))
    rooted("root-window-missing", on_log_key(put(validFor=None)))
    rooted("root-start-missing",
           on_root(lambda root: root["ctlogs"][0]["publicKey"]["validFor"].pop("start")))
    rooted("root-authority-start-missing", on_authority(put(validFor={})))
    rooted("root-time-with-offset", started("2020-01-01T00:00:00+00:00"))
    rooted("root-time-with-ten-digits", started("2020-01-01T00:00:00.0000000000Z"))


def started(text):
    """The trusted root with this time as the start of its transparency log."""
    return on_log_key(put(validFor={"start": text}))


def with_byte_after(key):
    """Adds a byte to the key of a log."""
    content = base64.b64decode(key["rawBytes"])
    key["rawBytes"] = base64_text(content + b"\x00")


def of_keys_and_logs():
    """Trusted roots with keys that are none, and such as have no log that counts."""
    other = base64_text(Key(random.Random(3), "p384").info)
    rooted("root-key-of-another-curve", on_log_key(put(rawBytes=other)))
    rooted("root-key-byte-after", on_log_key(with_byte_after))
    rooted("root-empty-chain", on_chain(lambda chain: chain.clear()))
    rooted("root-log-id-missing", on_log(put(logId=None)))
    rooted("root-without-logs", on_root(put(tlogs=[])), "entry-log")
    rooted("root-log-of-sha512", on_log(put(hashAlgorithm="SHA2_512")), "entry-log")
    rooted("root-log-of-p384-details",
           on_log_key(put(keyDetails="PKIX_ECDSA_P384_SHA_384")), "entry-log")


def of_json():
    """Texts that are no JSON object."""
    def written(name, changing):
        def build(dice):
            bundle, root, *others = Made(dice).case()
            return bundle, changing(json.dumps(root).encode()), *others
        case(name, "root", build)

    written("root-not-json", lambda text: text[:-1])
    written("root-a-list", lambda text: b"[" + text + b"]")
    written("root-two-documents", lambda text: text + b"\n" + text)


def of_sizes():
    """Trusted roots with as many logs as there may be, and with one more."""
    def with_logs(count):
        def changed(made):
            log = made.sigstore.trusted_log(made.sigstore.other, {"start": START})
            return on_root(lambda root: root["tlogs"].extend([log] * (count - 1)))
        return changed

    rooted("good-root-64-logs", with_logs(64), None)
    rooted("root-65-logs", with_logs(65))


def of_forms():
    """Parts of a trusted root that are of another form."""
    rooted("root-log-no-object", on_root(lambda root: root["tlogs"].append("x")))
    rooted("root-authority-no-object",
           on_root(lambda root: root["certificateAuthorities"].append(1)))
    rooted("root-window-no-object", on_log_key(put(validFor="x")))
    rooted("root-end-no-time", on_log_key(lambda key: key["validFor"].update(end="never")))
    rooted("root-hash-algorithm-missing", on_log(put(hashAlgorithm=None)))
    rooted("root-key-details-missing", on_log_key(put(keyDetails=None)))
    rooted("root-key-missing", on_log_key(put(rawBytes=None)))
    rooted("root-certificate-not-base64", on_chain(lambda chain: chain[0].update(rawBytes="*")))
    rooted("root-log-id-of-31", on_log(put(logId={"keyId": base64_text(bytes(31))})),
           "entry-log")


def of_starts():
    """Times that are none, and some that are."""
    rooted("good-root-start-on-leap-day", started("2020-02-29T00:00:00Z"), None)
    rooted("root-start-on-no-leap-day", started("2021-02-29T00:00:00Z"))
    rooted("root-start-at-hour-24", started("2021-02-20T24:00:00Z"))
    rooted("root-start-at-second-60", started("2021-02-20T23:59:60Z"))
    rooted("root-start-lower-case", started("2021-02-20t00:00:00z"))
    rooted("root-start-with-comma", started("2021-02-20T00:00:00,5Z"))
    rooted("root-start-with-empty-fraction", started("2021-02-20T00:00:00.Z"))
    rooted("good-root-start-with-nine-digits", started("2021-02-20T00:00:00.123456789Z"), None)
    rooted("good-root-start-in-year-1", started("0001-01-01T00:00:00Z"), None)
