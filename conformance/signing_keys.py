"""Keys of four kinds from fixed seeds, whose signatures are the same each time.

The kinds are Ed25519, ECDSA over P-256 with SHA-256 and over P-384 with SHA-384, and RSASSA-PSS.
The seed of a key is its holder's name.
Needs the package `cryptography`, which signs by Ed25519 and by ECDSA (RFC 6979), and checks each
signature that is made here by RFC 8017.
"""

import hashlib

from cryptography.hazmat.primitives import hashes, serialization
from cryptography.hazmat.primitives.asymmetric import ec, padding, rsa, utils
from cryptography.hazmat.primitives.asymmetric.ed25519 import Ed25519PrivateKey

from curve_points import P256_ORDER, P384_ORDER


def stream(seed, size):
    """This many bytes from a seed: the mask generation function MGF1 (RFC 8017, section B.2.1)."""
    blocks = (hashlib.sha256(seed + n.to_bytes(4, "big")).digest() for n in range(size // 32 + 1))
    return b"".join(blocks)[:size]


def is_prime(n):
    """Whether a number passes the test of Miller and Rabin for the first primes."""
    odd, twos = n - 1, 0
    while odd % 2 == 0:
        odd, twos = odd // 2, twos + 1
    for base in (2, 3, 5, 7, 11, 13, 17, 19, 23, 29, 31, 37):
        power = pow(base, odd, n)
        if power in (1, n - 1):
            continue
        for _ in range(twos - 1):
            power = power * power % n
            if power == n - 1:
                break
        else:
            return False
    return True


def prime(seed):
    """A prime of 1,024 bits whose first two bits are set; it less 1 is no multiple of 3."""
    n = int.from_bytes(stream(seed, 128), "big") | 3 << 1022 | 1
    while n % 3 == 1 or any(n % p == 0 for p in (3, 5, 7, 11, 13)) or not is_prime(n):
        n += 2
    return n


def pem(key):
    """The public part of a key as a PEM text."""
    form = serialization.PublicFormat.SubjectPublicKeyInfo
    return key.public.public_bytes(serialization.Encoding.PEM, form).decode()


def order_less(sig, order=P256_ORDER):
    """The ECDSA signature with the order less its second number, which is valid too."""
    first, second = utils.decode_dss_signature(sig)
    return utils.encode_dss_signature(first, order - second)


class Ed25519Key:
    """A key of Ed25519."""

    def __init__(self, who):
        seed = hashlib.sha256(who.encode()).digest()
        self.private = Ed25519PrivateKey.from_private_bytes(seed)
        raw = serialization.Encoding.Raw, serialization.PublicFormat.Raw
        self.digits = self.private.public_key().public_bytes(*raw).hex()

    def sign(self, body):
        """The signature of a body by RFC 8032."""
        return self.private.sign(body)


class P256Key:
    """A key of ECDSA over P-256."""

    def __init__(self, who):
        number = int.from_bytes(hashlib.sha256(who.encode()).digest(), "big") % (P256_ORDER - 1) + 1
        self.private = ec.derive_private_key(number, ec.SECP256R1())
        self.public = self.private.public_key()

    def sign(self, body):
        """The signature of a body by RFC 6979."""
        return self.private.sign(body, ec.ECDSA(hashes.SHA256(), deterministic_signing=True))


class P384Key:
    """A key of ECDSA over P-384."""

    def __init__(self, who):
        number = int.from_bytes(hashlib.sha384(who.encode()).digest(), "big") % (P384_ORDER - 1) + 1
        self.private = ec.derive_private_key(number, ec.SECP384R1())
        self.public = self.private.public_key()

    def sign(self, body, digest=hashes.SHA384):
        """The signature of a body by RFC 6979, with SHA-384, or with another digest."""
        return self.private.sign(body, ec.ECDSA(digest(), deterministic_signing=True))


class RsaKey:
    """A key of RSASSA-PSS of 2,048 bits."""

    def __init__(self, who, exponent=65537):
        p, q = prime(who.encode() + b" p"), prime(who.encode() + b" q")
        self.modulus, self.power = p * q, pow(exponent, -1, (p - 1) * (q - 1))
        self.public = rsa.RSAPublicNumbers(exponent, self.modulus).public_key()

    def opened(self, em):
        """The signature of an encoded message (RFC 8017, section 5.2.1)."""
        return pow(int.from_bytes(em, "big"), self.power, self.modulus).to_bytes(256, "big")

    def sign(self, body, salt_size=32):
        """The signature of a body by RFC 8017, section 8.1.1, with a salt from the body."""
        digest, salt = hashlib.sha256(body).digest(), stream(b"salt" + body, salt_size)
        hash_ = hashlib.sha256(bytes(8) + digest + salt).digest()
        data = bytes(222 - salt_size) + b"\1" + salt
        masked = bytearray(a ^ b for a, b in zip(data, stream(hash_, 223)))
        masked[0] &= 0x7F
        sig = self.opened(bytes(masked) + hash_ + b"\xbc")
        form = padding.PSS(padding.MGF1(hashes.SHA256()), salt_size)
        self.public.verify(sig, body, form, hashes.SHA256())
        return sig

    def sign_older(self, body):
        """The signature of a body by RFC 8017, section 8.2.1, with the padding of PKCS #1 v1.5."""
        info = bytes.fromhex("3031300d060960864801650304020105000420")
        info += hashlib.sha256(body).digest()
        sig = self.opened(b"\0\1" + b"\xff" * (253 - len(info)) + b"\0" + info)
        self.public.verify(sig, body, padding.PKCS1v15(), hashes.SHA256())
        return sig
