"""Cases of envelopes that the leaf's key did not sign."""

import hashlib
import random

from byte_forms import base64_text, pae

from .keys import Key
from .registry import on_envelope, put, simple
from .values import signature_value

CONDITION = "envelope-signature"


def signed(name, sign):
    """Adds the case of an envelope with another signature, which is made of the bundle."""
    simple(name, CONDITION, sign_envelope=sign)


def raw_numbers(made):
    """The signature as its two numbers, each in 32 bytes."""
    return b"".join(one.to_bytes(32, "big") for one in made.leaf_key.numbers(made.message))


def with_order_added(made):
    """The signature with the order added to its first number."""
    first, second = made.leaf_key.numbers(made.message)
    return signature_value(first + made.leaf_key.order, second)


def add():
    """Adds the cases."""
    simple("signed-by-other-key", CONDITION, envelope_signer=Key(random.Random(5)))
    signed("signed-by-the-authority", lambda made: made.sigstore.other.sign(made.message))
    signed("signed-payload-alone", lambda made: made.leaf_key.sign(made.payload))
    signed("signed-payload-in-base64", lambda made: made.leaf_key.sign(
        pae(made.payload_type, base64_text(made.payload).encode())))
    signed("signed-other-payload",
           lambda made: made.leaf_key.sign(pae(made.payload_type, b"{}")))
    simple("payload-type-changed-dsse", CONDITION, kind="dsse",
           edit=on_envelope(put(payloadType="application/vnd.in-toto.x+json")))
    signed("signature-byte-after", lambda made: made.leaf_key.sign(made.message) + b"\x00")
    signed("signature-raw-numbers", raw_numbers)
    signed("signature-r-plus-order", with_order_added)
    signed("signature-zeros", lambda made: signature_value(0, 0))
    signed("signature-sha384",
           lambda made: made.leaf_key.sign(made.message, hashlib.sha384))
