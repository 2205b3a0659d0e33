"""What the scripts for deliveries signed by public keys share.

A person is a key of `signing_keys`, under any id.
"""

import base64
import functools
import json

from byte_forms import base64_text, pae
from cases import DELIVER, MAKES, case, good
from deliveries import TYPE, compact, envelope, layout, policy, statement, step
from signing_keys import Ed25519Key, P256Key, P384Key, RsaKey, pem

KINDS = {Ed25519Key: ("ed25519", "ed25519"), P256Key: ("ecdsa", "ecdsa-sha2-nistp256"),
         P384Key: ("ecdsa", "ecdsa-sha2-nistp384"), RsaKey: ("rsa", "rsassa-pss-sha256")}

NO_BUILDER = "provenance line 1: none of the expected builders signed it"

ed25519, p256, p384, rsa = (functools.cache(kind) for kind in KINDS)


def public_text(made):
    """The public part of a key object: 64 digits, or a PEM text without its last line feed."""
    return made.digits if isinstance(made, Ed25519Key) else pem(made).rstrip("\n")


def key(made, text=None, **changed):
    """The object of a key, with `text` in place of its public part, if it is given."""
    keytype, scheme = KINDS[type(made)]
    public = public_text(made) if text is None else text
    return {"keytype": keytype, "scheme": scheme, "keyval": {"public": public}, **changed}


def message(body):
    """What is signed for a body of in-toto's type."""
    return pae(TYPE, body)


def hinted(sig, hint):
    """A signature with its hint."""
    return {"keyid": hint, "sig": base64_text(sig)}


def signed_by(document, *signers):
    """The envelope of a document with a signature for each pair of a hint and a key."""
    body = compact(document)
    return envelope(body, [hinted(made.sign(message(body)), hint) for hint, made in signers])


def changed_at(sig, place):
    """A signature with one byte changed."""
    made = bytearray(sig)
    made[place] ^= 1
    return bytes(made)


def with_byte_changed(text, place):
    """An envelope with one byte of its first signature changed."""
    document = json.loads(text)
    first = document["signatures"][0]
    first["sig"] = base64_text(changed_at(base64.b64decode(first["sig"]), place))
    return compact(document).decode()


def laid_out(keys, steps):
    """A layout with these key objects."""
    return {**layout([], steps), "keys": keys}


def believing(owners, builders):
    """The policy of these owners, which trusts a builder with these keys."""
    made = policy(DELIVER)
    made["owners"] = owners
    made["expectations"][0]["builders"][0]["keys"] = builders
    return compact(made).decode()


def delivery(name, report, notes, keys, ids, files, threshold=1, **changed):
    """A case whose step `build` has these key objects and ids, and these files."""
    owner, builder = ed25519("owner"), ed25519("builder")
    body = laid_out(keys, [step("build", ids, [], MAKES, threshold)])
    whole = {"policy": believing({"owner": key(owner)}, {"builder": key(builder)}),
             "layout": signed_by(body, ("owner", owner)),
             "links": {"files": [list(file) for file in files], "folders": []},
             "provenance": signed_by(statement(["app"]), ("builder", builder)) + "\n",
             "rings": [], "public_keys": True, **changed}
    return case(name, report, notes, **whole)


def rings():
    """The ring of all people."""
    return good()["rings"]


def refused(found, needed, name="build", at="-"):
    """The report where too few keys signed for a step."""
    return ["refused 33 Threshold", f"at {at}", f"step {name}", f"found {found}",
            f"needed {needed}"]


def owner_missing(owner):
    """The report where an owner did not sign the layout."""
    return ["refused 22 OwnerMissing", "at -", f"key {owner}"]


NO_PROVENANCE = ["refused 61 NoProvenance", "at -", "path app"]


def owner_notes(**signed):
    """The notes on owners: whether each of them signed the layout."""
    return [f"layout: owner {who} {'signed' if did else 'did not sign'} the layout"
            for who, did in signed.items()]


def counts(file, *ids):
    """The note on a file that counts for these ids."""
    return f"{file}: counts for {' '.join(ids)}"


def not_signed(file, *tried):
    """The notes on a file that no key of the step signed, and that is tried for these ids."""
    tries = f"signatures are tried for {' '.join(tried)}" if tried \
        else "no signature is tried for a key id of the step"
    return [f"{file}: signed by no key of the step", f"{file}: by keyid, {tries}"]


def without_key(who):
    """The notes on an id of the step `build` that has no key object: one here, one at the end."""
    return [f"{who}: the layout has no key of this id",
            f'layout: step "build" may be signed for by key "{who}", '
            "and keys has no key object of that id"]


def held_in(file, who):
    """The note on a sublayout of the step `build`: the file that holds it."""
    return f"layout: for key {who} of step build the sublayout is in file {file}"
