"""The cases under their names, and how bundles and trusted roots are changed for them."""

from typing import Callable, NamedTuple

from .bundles import Made
from .leaves import change

# For each name the condition that is not met, or None, and what makes the case at random.
CASES = {}
# When the leaf begins, where it matters.
BEGIN = 1_700_000_000


class Drawn(NamedTuple):
    """An option of a bundle that is made from its source of random numbers."""

    make: Callable


def case(name, condition, build):
    """Adds a case."""
    assert name not in CASES, name
    CASES[name] = condition, build


def simple(name, condition, root=None, asked=None, **options):
    """Adds the case of a bundle with options.

    `root` has options of the trusted root, or makes them of the bundle; `asked` gives the identity
    and the issuer that are asked for, where these are not the bundle's.
    """
    def build(dice):
        made = Made(dice, **{name: one.make(dice) if isinstance(one, Drawn) else one
                             for name, one in options.items()})
        changes = root(made) if callable(root) else root or {}
        return made.case(asked(made) if asked else None, **changes)
    case(name, condition, build)


def put(**members):
    """The change that gives members these values, and takes out those that are to have none."""
    return lambda document: change(document, members)


# Edits of a bundle: a change of a part of it.


def on_bundle(changing):
    """The edit that changes the bundle as a whole."""
    return lambda bundle, made: changing(bundle)


def on_material(changing):
    """The edit that changes the verification material."""
    return lambda bundle, made: changing(bundle["verificationMaterial"])


def on_envelope(changing):
    """The edit that changes the envelope."""
    return lambda bundle, made: changing(bundle["dsseEnvelope"])


def on_signature(changing):
    """The edit that changes the envelope's signature."""
    return on_envelope(lambda envelope: changing(envelope["signatures"][0]))


def on_payload(changing):
    """The edit that changes the text of the envelope's payload."""
    return on_envelope(lambda envelope: envelope.update(payload=changing(envelope["payload"])))


# Options of a trusted root: a change of a part of it.


def on_root(changing):
    """The trusted root with a change as a whole."""
    return {"edit": changing}


def on_log(changing):
    """The trusted root with a change of its transparency log."""
    return {"edit": lambda root: changing(root["tlogs"][0])}


def on_log_key(changing):
    """The trusted root with a change of what it says of that log's key."""
    return on_log(lambda log: changing(log["publicKey"]))


def on_authority(changing):
    """The trusted root with a change of its authority."""
    return {"edit": lambda root: changing(root["certificateAuthorities"][0])}


def on_chain(changing):
    """The trusted root with a change of the list of its authority's certificates."""
    return on_authority(lambda authority: changing(authority["certChain"]["certificates"]))


# Options of a bundle that several cases have.


def over(**members):
    """The entry has these members in place of its own, or lacks those that are `None`."""
    return {"entry": {"over": members}}


def proof(**options):
    """The entry has a proof with these options."""
    return {"version": 3, "entry": {"proof": options}}


def checkpoint(**options):
    """The proof has a checkpoint with these options."""
    return proof(size=9, at=4, checkpoint=options)


def body_pem(make):
    """The body of the entry has this PEM text, which is made of the bundle."""
    return {"entries": lambda made: [made.make_entry(body={"pem": make(made)})]}


def stamped(**options):
    """The leaf has a timestamp with these options."""
    return {"timestamps": lambda made, bare: [made.timestamp(bare, **options)]}
