"""Signatures of ECDSA over P-256 with chosen nonces, as no signer should make them.

The rules are those of FIPS 186-5 (section 6.4) and SP 800-186 (section 3.2.1). The secret of a key
is made from its holder's name.
"""

import hashlib

import curve_points
from byte_forms import base64_text, der, integer
from curve_points import P256_BASE as BASE
from curve_points import P256_CONSTANT as CONSTANT
from curve_points import P256_ORDER as ORDER
from curve_points import P256_PRIME as PRIME
from key_texts import point


def times(number, base):
    """A multiple of a point of the curve."""
    return curve_points.times(PRIME, number % ORDER, base)


def number_of(message):
    """The number that is signed for a message."""
    return int.from_bytes(hashlib.sha256(message).digest(), "big")


def secret_of(who):
    """The secret number of somebody's key."""
    return int.from_bytes(hashlib.sha256(who.encode()).digest(), "big") % (ORDER - 1) + 1


def public_of(who):
    """The point of somebody's key."""
    return times(secret_of(who), BASE)


def numbers(who, nonce, message):
    """The numbers r and s of somebody's signature of a message with this nonce."""
    r = times(nonce, BASE)[0] % ORDER
    return r, (number_of(message) + r * secret_of(who)) * pow(nonce, -1, ORDER) % ORDER


def accepting(pair, message):
    """The two keys that accept a signature of a message, of numbers r and s, with r below the prime.

    Each follows from one of the two points whose first coordinate is r.
    """
    r, s = pair
    y = pow(r * r * r - 3 * r + CONSTANT, (PRIME + 1) // 4, PRIME)
    back = pow(r, -1, ORDER)
    hashed = times(-number_of(message) * back, BASE)
    return [curve_points.add(PRIME, times(s * back, (r, one)), hashed) for one in (y, PRIME - y)]


def other_key(who, pair, message):
    """The key besides somebody's own that accepts a signature of a message."""
    own = public_of(who)
    first, second = accepting(pair, message)
    return second if first == own else first


def key(public):
    """The object of the key of a point."""
    text = point("04" + "".join(f"{coordinate:064x}" for coordinate in public))
    return {"keytype": "ecdsa", "scheme": "ecdsa-sha2-nistp256", "keyval": {"public": text}}


def encoded(pair):
    """A signature in DER and base64, as an envelope has it (RFC 3279, section 2.2.3)."""
    return base64_text(der(48, *map(integer, pair)))
