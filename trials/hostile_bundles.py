"""Sigstore bundles and trusted roots for trials/hostile, which make a verification slow or large.

The bundles are those of a private Sigstore (conformance/private_sigstore) about the file of a
small delivery; a stranger may copy a public one, and change what nobody signed.
"""

import copy
import functools
import json
import os
import random
import sys

sys.path.insert(0, os.path.join(os.path.dirname(os.path.abspath(__file__)), "..", "conformance"))
import private_sigstore as private
from byte_forms import base64_text, der
from deliveries import compact, envelope, identity, statement

LIMIT = 8 * 1024 * 1024
# What is left for the other line of the provenance.
SPARE = 4096


@functools.cache
def public():
    """A good bundle that anybody may have, of version 3."""
    return private.Made(random.Random("hostile"), payload=compact(statement(["app"])), version=3,
                        kind="dsse", entry={"proof": {"size": 300}})


def line_of(bundle):
    """The line of a bundle."""
    return json.dumps(bundle, separators=(",", ":"))


def filling(line_at):
    """As many lines as a file may have, which a function makes from their numbers."""
    lines, room = [], LIMIT - SPARE
    while True:
        line = line_at(len(lines))
        room -= len(line.encode()) + 1
        if room < 0:
            return lines
        lines.append(line)


def trusting(delivery, **listed):
    """Has a delivery trust the private Sigstore, and a builder have these further keys."""
    delivery.write("trusted-root", line_of(public().sigstore.trusted_root()))
    with open(delivery.path("policy"), encoding="utf-8") as file:
        policy = json.load(file)
    policy["expectations"][0]["builders"][0]["keys"].update(listed)
    delivery.write("policy", compact(policy))


def signer():
    """The key object of the identity that the public bundle vouches for."""
    return identity(public().identity, public().issuer)


def flooded(line_at, count=None):
    """Puts lines in front of those of the provenance: so many, or as many as a file may have."""
    def change(delivery):
        trusting(delivery, release=signer())
        delivery.add_lines(filling(line_at) if count is None else list(map(line_at, range(count))))
    return change


def with_signature(bundle, sig):
    """A bundle with another signature, and an entry about it that no log promised."""
    entry, held = bundle["verificationMaterial"]["tlogEntries"][0], bundle["dsseEnvelope"]
    held["signatures"] = [{"sig": base64_text(sig)}]
    entry["canonicalizedBody"] = base64_text(public().make_body(signature=sig)[0])
    return bundle


def unsigned(number):
    """A bundle that nobody signed, whose entry has the log's id and is about its signature."""
    sig = public().signature[:-4] + number.to_bytes(4, "big")
    return line_of(with_signature(copy.deepcopy(public().bundle), sig))


def repeated(_):
    """The public bundle."""
    return line_of(public().bundle)


def respaced(number):
    """The public bundle, before blanks that no other number has."""
    return repeated(number) + format(number, "b").replace("0", " ").replace("1", "\t")


def falsely_witnessed(number):
    """The public bundle with eight entries, each with eight wrong signatures on its checkpoint.

    Each signature has the log's hint, and the rest of the entry is good.
    """
    return line_of(with_wrong_marks(public().bundle, "log.example.test",
                                    lambda place: wrong_signature(number * 64 + place)))


def with_wrong_marks(made, name, signature):
    """A bundle with eight entries, each with eight wrong signatures on its checkpoint.

    `signature` makes each of the 64 by its place.
    """
    bundle = copy.deepcopy(made)
    material, hint = bundle["verificationMaterial"], public().sigstore.log.id[:4]
    (entry,) = material["tlogEntries"]
    text = entry["inclusionProof"]["checkpoint"]["envelope"].partition("\n\n")[0]
    material["tlogEntries"] = entries = [copy.deepcopy(entry) for _ in range(8)]
    for place, one in enumerate(entries):
        marks = [base64_text(hint + signature(place * 8 + line)) for line in range(8)]
        one["inclusionProof"]["checkpoint"]["envelope"] = text + "\n\n" + "".join(
            f"\u2014 {name} {mark}\n" for mark in marks)
    return bundle


class Unsigned:
    """Who signs certificates with no signature."""

    algorithm = public().sigstore.issuer_key.algorithm

    @staticmethod
    def sign(*_):
        """No signature."""
        return b""


@functools.cache
def shortest():
    """About the shortest bundle of which a checkpoint's signatures are looked at.

    Its certificate is a leaf, its entry has the log's id and is about its signature, and its
    inclusion proof leads to its root. Numbers that are 0 and lists that are empty are left out.
    """
    left_out = dict.fromkeys(["subject_key", "authority_key", "trigger"])
    made = private.Made(
        random.Random("shortest"), public().sigstore, payload=b"{}", payload_type="a", version=3,
        kind="dsse", moment=public().moment, unlogged=True, leaf_signer=Unsigned,
        leaf_issuer_name=der(0x30), serial=der(2, b"\x01"), issuers="old", old_issuer=b"a",
        name_values=der(0x86, b"a"), names_critical=False, extensions=left_out,
        sign_envelope=lambda _: b"a",
        body={"edit": lambda body: body["spec"].pop("envelopeHash")},
        entry={"index": 0, "proof": {"size": 1, "checkpoint": {"origin": "a", "more": []}},
               "over": {"inclusionPromise": {"signedEntryTimestamp": "YQ=="}}})
    (entry,) = made.bundle["verificationMaterial"]["tlogEntries"]
    for part, name in ((entry, "logIndex"), (entry["inclusionProof"], "logIndex"),
                       (entry["inclusionProof"], "hashes")):
        del part[name]
    return made.bundle


def shortly_witnessed(number):
    """The shortest bundle with eight entries, each with eight wrong signatures on its checkpoint,
    of numbers of one byte, which take as long to check as large ones."""
    first, second = divmod(number, 127)
    line = line_of(with_wrong_marks(
        shortest(), "a", lambda place: private.signature_value(1 + first + place, 1 + second)))
    return line.replace("\\u2014", "\u2014")


def wrong_signature(number):
    """A signature by nobody, of the form that signatures of P-256 have."""
    return private.signature_value(2**254 + number, 2**253 + number)


def beside_bundles(signatures, bundles):
    """An envelope with the payload of the public bundle and so many signatures, and that bundle.

    The bundle stands there several times under a hint that nobody has, so that it counts for
    nothing but as what it vouches for. The last signature of the envelope is the one that it
    vouches for; the others differ from it in their last bytes.
    """
    def change(delivery):
        trusting(delivery, release=signer())
        sig, bundle = public().signature, copy.deepcopy(public().bundle)
        bundle["dsseEnvelope"]["signatures"][0]["keyid"] = "another"
        wrong = [{"sig": base64_text(sig[:-3] + number.to_bytes(3, "big"))}
                 for number in range(signatures - 1)]
        many = envelope(public().payload, [*wrong, {"sig": base64_text(sig)}])
        delivery.write("provenance", "".join(
            line + "\n" for line in [*[line_of(bundle)] * bundles, many]))
    return change


def chain(key, length, rest):
    """The certificates of an authority with the issuing key, whose others have these keys."""
    sigstore, keys = public().sigstore, [key, *rest[:length - 1]]
    names = [sigstore.issuer_name,
             *(private.distinguished_name(f"authority {n}") for n in range(1, length + 1))]
    return [sigstore.authority_certificate("hostile", names[n], names[n + 1], keys[n],
                                           keys[min(n + 1, length - 1)], None)
            for n in range(length)]


def many_logs(count):
    """A trusted root that has its log so many times, and 8 MiB of lines that each of these refuses."""
    def change(delivery):
        flooded(falsely_witnessed)(delivery)
        root = public().sigstore.trusted_root()
        root["tlogs"] *= count
        delivery.write("trusted-root", line_of(root))
    return change


def many_authorities(count, length):
    """A trusted root of so many authorities of this length: the last one issued the leaf.

    All have the name of that one, and the public bundle is the only line of provenance.
    """
    def change(delivery):
        trusting(delivery, release=signer())
        dice, sigstore = random.Random("authorities"), public().sigstore
        root = sigstore.trusted_root()
        rest = [private.Key(dice, "p384") for _ in range(length - 1)]
        keys = [*(private.Key(dice, "p384") for _ in range(count - 1)), sigstore.issuer_key]
        (one,) = root["certificateAuthorities"]
        root["certificateAuthorities"] = [
            {**one, "certChain": {"certificates": [{"rawBytes": base64_text(content)}
                                                   for content in chain(key, length, rest)]}}
            for key in keys]
        delivery.write("trusted-root", line_of(root))
        delivery.write("provenance", line_of(public().bundle) + "\n")
    return change


# Lines by strangers, and what else is tried: beside a line that counts, all must be accepted.
FLOODS = [
    ("8 MiB of bundles that nobody signed", flooded(unsigned)),
    ("8 MiB of bundles of 8 x 8 wrong log signatures", flooded(falsely_witnessed)),
]
INPUTS = [
    *FLOODS,
    ("312 of the shortest bundles of 8 x 8 wrong log signatures", flooded(shortly_witnessed, 312)),
    ("one good public bundle repeated to 8 MiB", flooded(repeated)),
    ("one good public bundle to 8 MiB, with other blanks each time", flooded(respaced)),
    ("an envelope of 50,000 signatures beside 400 bundles", beside_bundles(50_000, 400)),
    ("a trusted root of 64 authorities of 8 certificates", many_authorities(64, 8)),
]
# Past the bound of 20,000 checks for bundles there is no verdict.
PAST_BOUND = [
    ("313 of the shortest bundles of 8 x 8 wrong log signatures", flooded(shortly_witnessed, 313)),
    ("8 MiB of the shortest bundles of 8 x 8 wrong log signatures", flooded(shortly_witnessed)),
    ("8 MiB of 8 x 8 wrong log signatures, by 8 logs of one id", many_logs(8)),
]
