"""What `itv verify` and `itv signed` have to answer for a delivery of sigstore_made, in plain Python.

Written from docs/sigstore.md, docs/formats.md and docs/keys.md. The rings, the public keys and the
steps are those of keys_model.
"""

import functools
import json
import re
from typing import NamedTuple

import keys_model
from digest_lists import agree
from keys_model import MOST_SIGNATURES, TYPE, Refused
from sigstore_forms import (Unfit, document, list_at, member, need, object_at, of_type, text_at)
from sigstore_logs import Root
from sigstore_model import Vouched, identity_of, read_line, vouched_lines

# How many hexadecimal digits a digest has, by each algorithm that counts.
DIGITS = {"sha256": 64, "sha384": 96, "sha512": 128}
STATEMENT, PROVENANCE = "https://in-toto.io/Statement/v1", "https://slsa.dev/provenance/v1"


@functools.lru_cache(1)
def vouched_in(provenance, root):
    """What the lines of provenance vouch for by a trusted root, in their order."""
    return tuple(vouched_lines(provenance.split(b"\n"), Root(root)))


class Checks(keys_model.Checks):
    """The checks of a delivery: its ring, identities by its trusted root, and public keys."""

    def __init__(self, delivery):
        super().__init__(delivery, ring=True, public_keys=delivery.public_keys)
        self.has_root = delivery.root is not None
        self.vouched = vouched_in(delivery.provenance, delivery.root) if self.has_root else ()

    def key(self, name, made):
        """The key that an id and an object name, as its scheme and what identifies it, or None."""
        if made.get("scheme") != "Fulcio":
            return super().key(name, made)
        found = identity_of(made) if self.has_root else None
        return None if found is None else ("Fulcio", found)

    def is_valid(self, key, message, sig):
        """Whether a signature of a message is valid for a key."""
        if key[0] == "Fulcio":
            return Vouched(key[1], message, sig) in self.vouched
        return super().is_valid(key, message, sig)


class Provenance(NamedTuple):
    """What an envelope attests: the digest sets of its subjects, how they were built, and by whom."""

    digests: list
    build_type: str
    parameters: dict
    builder: str


def digest_set_of(subject):
    """The digest set of a subject, by the algorithms that count."""
    given, found = member(of_type(subject, dict, "subject"), "digest"), {}
    for name, digits in DIGITS.items() if given is not None else ():
        value = member(of_type(given, dict, "digest"), name)
        if value is not None:
            need(re.fullmatch(f"[0-9a-fA-F]{{{digits}}}", of_type(value, str, name)), name)
            found[name] = value.lower()
    return found


def provenance_in(envelope):
    """The provenance in an envelope."""
    need(envelope.kind == TYPE, "another payload type")
    whole = of_type(document(envelope.payload), dict, "payload")
    need((text_at(whole, "_type"), text_at(whole, "predicateType")) == (STATEMENT, PROVENANCE),
         "no provenance")
    digests = [digest_set_of(one) for one in list_at(whole, "subject")]
    predicate = object_at(whole, "predicate")
    build, run = object_at(predicate, "buildDefinition"), object_at(predicate, "runDetails")
    return Provenance(digests, text_at(build, "buildType"),
                      member(build, "externalParameters") or {},
                      text_at(object_at(run, "builder"), "id"))


def meets(found, digest_set, expectation):
    """Whether provenance meets an expectation for a file, but for its builder."""
    wanted, given = expectation.get("parameters", {}), found.parameters
    return (any(agree(digest_set, one) for one in found.digests)
            and found.build_type == expectation["buildType"]
            and all(name in given and given[name] == value for name, value in wanted.items())
            and all(name in wanted or name in expectation.get("ignore", []) for name in given))


def levels(envelopes, digest_set, expectation, checks):
    """The levels of the builders with which envelopes meet an expectation for a file."""
    for envelope in envelopes:
        try:
            found = provenance_in(envelope)
        except Unfit:
            continue
        if meets(found, digest_set, expectation):
            yield from (builder.get("level", 0) for builder in expectation["builders"]
                        if builder["id"] == found.builder
                        and any(checks.signed(envelope, who, made)
                                for who, made in builder["keys"].items()))


def check_provenance(path, digest_set, policy, envelopes, checks):
    """Raises the refusal of a file without provenance."""
    expectation = next(one for one in policy["expectations"] if one["files"] in (path, "*"))
    best = max(levels(envelopes, digest_set, expectation, checks), default=None)
    if best is None or best < expectation.get("level", 0):
        told = [] if best is None else [f"best {best}"]
        raise Refused("61 NoProvenance", f"path {path}", *told)


def signer_of(envelope, builders, checks):
    """The identity that signed an envelope for those of the builders that its provenance names, by
    the first line that vouches for this, or None."""
    keys = [(who, identity_of(made)) for builder in builders
            if builder["id"] == provenance_in(envelope).builder
            for who, made in sorted(builder["keys"].items(), key=lambda one: one[0].encode())]
    return next((one.identity for one in checks.vouched if one.message == envelope.message
                 for hint, sig in envelope.signatures if sig == one.sig
                 for who, found in keys if hint in ("", who) and found == one.identity), None)


def told_signers(delivery):
    """Who signed the provenance of each file of an accepted delivery, in their order."""
    checks, policy = Checks(delivery), json.loads(delivery.policy)
    envelopes = list(counted_lines(delivery))
    for path, digest_set in keys_model.delivered(delivery).items():
        expectation = next(one for one in policy["expectations"] if one["files"] in (path, "*"))
        line = next(one for one in envelopes if any(
            level >= expectation.get("level", 0)
            for level in levels([one], digest_set, expectation, checks)))
        yield signer_of(line, expectation["builders"], checks)


def counted_lines(delivery):
    """The envelopes of the provenance that are looked at."""
    for line in delivery.provenance.split(b"\n"):
        envelope, bundle = read_line(line)
        if (envelope and (bundle is None or delivery.root is not None)
                and not (delivery.public_keys and len(envelope.signatures) > MOST_SIGNATURES)):
            yield envelope


def layout_of(delivery, policy, checks):
    """The layout, which every owner signed."""
    envelope = keys_model.Envelope(delivery.layout)
    if envelope.kind != TYPE:
        raise Refused("21 WrongPayloadType")
    for owner in sorted(policy["owners"], key=str.encode):
        if not checks.signed(envelope, owner, policy["owners"][owner]):
            raise Refused("22 OwnerMissing", f"key {owner}")
    try:
        layout = of_type(document(envelope.payload), dict, "layout")
    except Unfit:
        raise Refused("23 BadLayout", "part json") from None
    if layout.get("_type") != "layout":
        raise Refused("23 BadLayout", "part type")
    return layout


def verdict(delivery):
    """The lines of an accepted delivery; raises its refusal, or Unfit where it is not read."""
    checks, policy = Checks(delivery), json.loads(delivery.policy)
    files = keys_model.delivered(delivery)
    layout = layout_of(delivery, policy, checks)
    records = keys_model.Level(checks, delivery.moment, layout, delivery.bundle,
                               delivery.depth).records()
    if records:
        keys_model.check_delivery(files, records[-1][0][1])
    envelopes = list(counted_lines(delivery))
    for path, digest_set in files.items():
        check_provenance(path, digest_set, policy, envelopes, checks)
    steps = [f"step {step['name']} {keys}" for step, (_, keys) in zip(layout["steps"], records)]
    return ["accepted", *steps, *(f"file {path}" for path in files)]


def answers(delivery):
    """What `verify` and `verify --json` answer: for each, a status and a text."""
    try:
        status, lines, told = keys_model.verified(delivery, verdict)
    except Unfit:
        return [(2, ""), (2, "")]
    return [(status, "".join(line + "\n" for line in lines)),
            (status, keys_model.json_text(told))]


class File(NamedTuple):
    """A file that may be a bundle, as the only line of a provenance."""

    provenance: bytes
    root: bytes
    ring: None = None
    public_keys: bool = True


def listed_keys(policy):
    """The key objects of all builders in a policy, under their ids."""
    return {who: made for expectation in json.loads(policy)["expectations"]
            for builder in expectation["builders"] for who, made in builder["keys"].items()}


def signers(line, keys, root):
    """What `signed --keys --trusted-root` answers for a line: a status and a text."""
    try:
        checks = Checks(File(line, root))
    except Unfit:
        return 2, ""
    envelope, _ = read_line(line)
    if envelope is None:
        return 1, "refused 20 BadEnvelope\nat -\n"
    found = [who for who in sorted(keys, key=str.encode)
             if checks.signed(envelope, who, keys[who])]
    return 0 if found else 1, "".join(f"{who}\n" for who in found)
