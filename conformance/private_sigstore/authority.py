"""An authority with its chain of certificates and two logs, and the trusted root of these."""

import datetime

from byte_forms import base64_text, der, integer

from .certificates import Subject, certificate, serial_number
from .keys import Key
from .values import (ANY, CODE_SIGNING, CONSTRAINTS, KEY_USAGE, PURPOSES, SUBJECT_KEY, YES,
                     distinguished_name, extension, identifier)

YEAR = 365 * 86_400
SECOND = 10**9  # in nanoseconds
# The key usage of who may sign certificates.
SIGNS_CERTIFICATES = bytes.fromhex("03020106")


def time_text(nanoseconds, digits=3):
    """A moment as a trusted root has it, with so many digits of its fraction."""
    whole, rest = divmod(nanoseconds, SECOND)
    moment = datetime.datetime.fromtimestamp(whole, datetime.timezone.utc)
    fraction = f".{rest:09d}"[:digits + 1] if digits else ""
    return moment.strftime("%Y-%m-%dT%H:%M:%S") + fraction + "Z"


def raw(content):
    """A certificate as trusted roots and bundles have it."""
    return {"rawBytes": base64_text(content)}


class Sigstore:
    """The keys of an authority and of its logs, and the authority's certificates.

    `knobs` turns one thing of it: how many certificates there are in the `chain`, or something of
    a certificate, by its name (`root`, `middle` or `low`) and a word; `wrong` are parts in place of
    its own.
    """

    def __init__(self, dice, begin, **knobs):
        self.dice, self.begin = dice, begin
        self.knobs = {"root_curve": "p384", "middle_curve": "p384", **knobs}
        self.root_key, self.middle_key = (Key(dice, self.knobs[f"{which}_curve"])
                                          for which in ("root", "middle"))
        self.low_key = Key(dice, "p384")
        self.certificate_log, self.log, self.other = Key(dice), Key(dice), Key(dice)
        self.first, self.last = begin - 2 * YEAR, begin + 6 * YEAR
        self.make_chain(self.knobs.get("chain", 2), self.anchor(1))

    def make_chain(self, count, anchor):
        """Makes the certificates below the anchor, and says which key issues leaves."""
        names = {which: distinguished_name(which) for which in ("root", "intermediate", "low")}
        if count == 1:
            self.chain, self.issuer_key, self.issuer_name = [anchor], self.root_key, names["root"]
            return
        middle = self.authority_certificate(
            "middle", names["intermediate"], names["root"], self.middle_key, self.root_key,
            self.knobs.get("middle_path", count - 2), [CODE_SIGNING] if count == 2 else [ANY])
        self.chain = [middle, anchor]
        self.issuer_key, self.issuer_name = self.middle_key, names["intermediate"]
        if count == 3:
            low = self.authority_certificate("low", names["low"], names["intermediate"],
                                             self.low_key, self.middle_key, 0, [CODE_SIGNING])
            self.chain = [low, middle, self.anchor(2)]
            self.issuer_key, self.issuer_name = self.low_key, names["low"]

    def anchor(self, path):
        """The certificate of the root, which allows for so many below it."""
        name = distinguished_name("root")
        return self.authority_certificate("root", name, name, self.root_key, self.root_key,
                                          self.knobs.get("root_path", path))

    def authority_certificate(self, which, name, issuer, key, signer, path, purposes=None):
        """A certificate of an authority; a path of `None` allows for any number below it."""
        def turned(word, usual):
            return self.knobs.get(f"{which}_{word}", usual)

        subject = Subject(turned("info", key.info), turned("signer", signer),
                          turned("issuer", issuer), turned("first", self.first),
                          turned("last", self.last), name)
        constraints = der(0x30, YES, *([] if path is None else [integer(path)]))
        usage, constraints = turned("usage", SIGNS_CERTIFICATES), turned("basic", constraints)
        purposes, extensions = turned("purposes", purposes), []
        if usage is not None:
            extensions.append(extension(KEY_USAGE, usage, True))
        if purposes:
            extensions.append(extension(PURPOSES, der(0x30, *map(identifier, purposes))))
        if constraints is not None:
            extensions.append(extension(CONSTRAINTS, constraints, True))
        extensions += [extension(SUBJECT_KEY, der(4, key.id[:20])), *turned("more", [])]
        return certificate(subject, serial_number(self.dice), extensions, **turned("wrong", {}))

    def trusted_log(self, key, window, details="PKIX_ECDSA_P256_SHA_256"):
        """A log as a trusted root has it."""
        return {"baseUrl": "https://log.example.test", "hashAlgorithm": "SHA2_256",
                "publicKey": {"rawBytes": base64_text(key.info), "keyDetails": details,
                              "validFor": window},
                "logId": {"keyId": base64_text(key.id)}}

    def trusted_root(self, edit=None, **windows):
        """The trusted root, with other times when its parts count, and then with an edit."""
        always = {"start": time_text((self.begin - 10**7) * SECOND)}
        authority = {"subject": {"organization": "example.test", "commonName": "root"},
                     "uri": "https://fulcio.example.test",
                     "certChain": {"certificates": [raw(one) for one in self.chain]},
                     "validFor": windows.get("authority_window", always)}
        log, certificate_log = (self.trusted_log(key, windows.get(f"{name}_window", always))
                                for name, key in (("log", self.log),
                                                  ("certificate_log", self.certificate_log)))
        root = {"mediaType": "application/vnd.dev.sigstore.trustedroot+json;version=0.1",
                "tlogs": [log], "certificateAuthorities": [authority],
                "ctlogs": [certificate_log], "timestampAuthorities": []}
        if edit:
            edit(root)
        return root
