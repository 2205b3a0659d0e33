"""Public keys as PEM texts, written by hand in DER, and what notes say of keys that are none."""

from byte_forms import armoured, der, integer
from curve_points import P256_BASE, P384_BASE

# The public key of RFC 8032, section 7.1, test 1, and the base points of P-256 and P-384, which are
# keys like any other points.
DIGITS = "d75a980182b10ab7d54bfed3c964073a0ee172f3daa62325af021a68f707511a"
X, Y = (f"{number:064x}" for number in P256_BASE)
X384, Y384 = (f"{number:096x}" for number in P384_BASE)

# The identifiers of keys in DER: of P-256, P-384 and P-521 (RFC 5480), of secp256k1 (SEC 2), of
# brainpoolP256r1 (RFC 5639), of RSA (RFC 3279), and of Ed25519 and X25519 (RFC 8410).
P256 = "301306072a8648ce3d020106082a8648ce3d030107"
P384 = "301006072a8648ce3d020106052b81040022"
P521 = "301006072a8648ce3d020106052b81040023"
SECP256K1 = "301006072a8648ce3d020106052b8104000a"
BRAINPOOL = "301406072a8648ce3d020106092b2403030208010107"
RSA = "300d06092a864886f70d0101010500"
ED25519 = "300506032b6570"
X25519 = "300506032b656e"

# What the notes say of key objects that are not known.
NO_SECRET = "no ring has the secret of it"
NOT_ASKED = "a public key, which is checked with --public-keys"
NO_DIGITS = "its public is not 64 hexadecimal digits"
NO_ED25519 = "its public is no Ed25519 key: no point, or one of small order"
NO_PEM = "its public does not read as a PEM text of a public key"
NO_P256 = "its PEM text is no P-256 key that is taken: an uncompressed point of the curve"
NO_P384 = "its PEM text is no P-384 key that is taken: an uncompressed point of the curve"
NO_RSA = "its PEM text is no RSA key that is taken: of 2,048 to 4,096 bits, in whole bytes"


def pem(algorithm, bits, label="PUBLIC KEY"):
    """The PEM text (RFC 7468) of a SubjectPublicKeyInfo, by its algorithm and its bit string."""
    return armoured(der(48, bytes.fromhex(algorithm), der(3, b"\0" + bits)), label)


def point(coordinates):
    """The PEM text of a key of P-256."""
    return pem(P256, bytes.fromhex(coordinates))


def point384(coordinates):
    """The PEM text of a key of P-384."""
    return pem(P384, bytes.fromhex(coordinates))


def modulus(bits, exponent=65537):
    """The PEM text of an RSA key whose modulus is this many bits, all ones."""
    return pem(RSA, der(48, integer(2 ** bits - 1), integer(exponent)))
