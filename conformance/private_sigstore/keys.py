"""Keys of ECDSA at random, whose signatures are the same each time."""

import hashlib
import hmac
import itertools

from cryptography.hazmat.primitives.asymmetric import ec
from cryptography.hazmat.primitives.serialization import Encoding, PublicFormat

from byte_forms import armoured
from curve_points import P256_ORDER, P384_ORDER

from .values import SHA256_ECDSA, SHA384_ECDSA, signature_value

# A curve, the order of its base point, and the hash and the algorithm of its signatures.
CURVES = {"p256": (ec.SECP256R1(), P256_ORDER, hashlib.sha256, SHA256_ECDSA),
          "p384": (ec.SECP384R1(), P384_ORDER, hashlib.sha384, SHA384_ECDSA)}


class Key:
    """A key of ECDSA."""

    def __init__(self, dice, curve="p256"):
        self.curve, self.order, self.hash, self.algorithm = CURVES[curve]
        self.secret = dice.randrange(1, self.order)
        self.private = ec.derive_private_key(self.secret, self.curve)
        self.info = self.private.public_key().public_bytes(Encoding.DER,
                                                           PublicFormat.SubjectPublicKeyInfo)
        self.id = hashlib.sha256(self.info).digest()

    def nonces(self, digest):
        """The nonces for a digest, of which the first that will do is taken."""
        secret = self.secret.to_bytes(48, "big")
        for count in itertools.count():
            seed = hmac.new(secret, digest + bytes([count]), hashlib.sha512).digest()
            yield int.from_bytes(seed, "big") % self.order

    def numbers(self, message, another_hash=None):
        """The two numbers of the signature of a message, by another hash if one is given."""
        digest = (another_hash or self.hash)(message).digest()
        further_bits = max(0, len(digest) * 8 - self.order.bit_length())
        hashed = int.from_bytes(digest, "big") >> further_bits
        for nonce in filter(None, self.nonces(digest)):
            point = ec.derive_private_key(nonce, self.curve).public_key().public_numbers()
            first = point.x % self.order
            second = pow(nonce, -1, self.order) * (hashed + first * self.secret) % self.order
            if first and second:
                return first, second

    def sign(self, message, another_hash=None):
        """The signature of a message."""
        return signature_value(*self.numbers(message, another_hash))

    def sign_otherwise(self, message):
        """The other signature that anybody can make of that one: the order less its second
        number."""
        first, second = self.numbers(message)
        return signature_value(first, self.order - second)


def pem(content, label="CERTIFICATE", width=64, end="\n"):
    """A certificate, or something else, in PEM."""
    return armoured(content, label, width) + end
