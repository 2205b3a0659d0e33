#!/usr/bin/env python3
"""Writes p256.jsonl or p384.jsonl: vectors of ECDSA over P-256 with SHA-256, or over P-384 with
SHA-384, always the same.

    conformance/ecdsa_vectors.py CURVE            writes the file of the curve, p256 or p384
    conformance/ecdsa_vectors.py CURVE --check    fails where it differs

The answers are those of the rules below, written from the standards: SEC 1 and RFC 5480 for keys,
X.690 for DER, FIPS 186-5 (section 6.4.2) for signatures. OpenSSL, called through the package
`cryptography`, must give the same, except where it reads what the rules do not: a name with `~`.
"""
import hashlib
import itertools
import sys
from dataclasses import dataclass

sys.dont_write_bytecode = True
from cryptography.exceptions import InvalidSignature
from cryptography.hazmat.primitives import hashes, serialization
from cryptography.hazmat.primitives.asymmetric import ec, ed25519, rsa, utils
from cryptography.hazmat.primitives.serialization import Encoding
import curve_points
from byte_forms import der, integer
from vectors import of_key, of_signature, write


@dataclass(frozen=True)
class Curve:
    """A curve y ^ 2 = x ^ 3 - 3 x + b (SP 800-186, section 3.2.1), and what goes with it."""

    name: str
    size: int  # bytes of a number
    prime: int
    order: int  # of the base point
    constant: int
    base: tuple
    identifier: bytes  # its object identifier in DER
    sibling: str  # the curve whose identifier ends with 1 instead
    of_openssl: type
    others: tuple
    digest: str
    lengths: tuple  # of messages


CURVES = {
    "p256": Curve(
        name="p256",
        size=32,
        prime=curve_points.P256_PRIME,
        order=curve_points.P256_ORDER,
        constant=curve_points.P256_CONSTANT,
        base=curve_points.P256_BASE,
        identifier=bytes.fromhex("06082a8648ce3d030107"),
        sibling="p192v1",
        of_openssl=ec.SECP256R1,
        others=(ec.SECP384R1, ec.SECP521R1, ec.SECP256K1, ec.SECP224R1, ec.BrainpoolP256R1),
        digest="sha256",
        lengths=(0, 1, 2, 31, 32, 55, 56, 63, 64, 65, 119, 120, 200),
    ),
    "p384": Curve(
        name="p384",
        size=48,
        prime=curve_points.P384_PRIME,
        order=curve_points.P384_ORDER,
        constant=curve_points.P384_CONSTANT,
        base=curve_points.P384_BASE,
        identifier=bytes.fromhex("06052b81040022"),
        sibling="sect163k1",
        of_openssl=ec.SECP384R1,
        others=(ec.SECP256R1, ec.SECP521R1, ec.SECP256K1, ec.SECP224R1, ec.BrainpoolP384R1),
        digest="sha384",
        lengths=(0, 1, 2, 47, 48, 111, 112, 127, 128, 129, 239, 240, 300),
    ),
}
CURVE = CURVES.get(sys.argv.pop(1) if len(sys.argv) > 1 else "")
if CURVE is None:
    sys.exit(f"ecdsa_vectors.py: which curve: {' or '.join(CURVES)}?")
PRIME, ORDER, CONSTANT, BASE = CURVE.prime, CURVE.order, CURVE.constant, CURVE.base
SIZE = CURVE.size
BITS = 8 * SIZE
HALF = 2 ** (BITS - 1)
KIND, DIGEST_KIND = CURVE.name, CURVE.name + "-digest"
KEY_IDENTIFIER = bytes.fromhex("06072a8648ce3d0201")


def wrapped(algorithm, point):
    """A SubjectPublicKeyInfo of an algorithm and the bytes of a point."""
    return der(48, der(48, algorithm), der(3, b"\0" + point))


def rewrapped(point):
    """A SubjectPublicKeyInfo of the curve and the bytes of a point."""
    return wrapped(KEY_IDENTIFIER + CURVE.identifier, point)


INFO_LENGTH = len(rewrapped(bytes(1 + 2 * SIZE)))
PREFIX = rewrapped(bytes(1 + 2 * SIZE))[: -1 - 2 * SIZE]


# The curve, as the textbook has it: None is infinity.


def is_on_curve(point):
    """Whether two coordinates are those of a point."""
    x, y = point
    return (y * y - x * x * x + 3 * x - CONSTANT) % PRIME == 0


def add(one, other):
    """The sum of two points of the curve; None is infinity."""
    return curve_points.add(PRIME, one, other)


def times(number, point):
    """A multiple of a point of the curve."""
    return curve_points.times(PRIME, number % ORDER, point)


def root(number):
    """A square root modulo the prime, which is 3 modulo 4, or None."""
    found = pow(number, (PRIME + 1) // 4, PRIME)
    return found if found * found % PRIME == number % PRIME else None


def first_point_from(x):
    """The point with the smallest first coordinate from x on."""
    while True:
        y = root((x * x * x - 3 * x + CONSTANT) % PRIME)
        if y is not None:
            return x, y
        x += 1


# The rules.


def key_of(info):
    """RFC 5480, section 2, and SEC 1, section 2.3.4, for uncompressed points alone."""
    if len(info) != INFO_LENGTH or info[: -2 * SIZE] != PREFIX + b"\x04":
        return None
    x, y = (int.from_bytes(half, "big") for half in (info[-2 * SIZE : -SIZE], info[-SIZE:]))
    if x >= PRIME or y >= PRIME or not is_on_curve((x, y)):
        return None
    return x, y


def integer_of(data):
    """The number of an INTEGER in DER that is not negative, and what follows it."""
    if len(data) < 3 or data[0] != 2 or not 1 <= data[1] < 128 or len(data) < 2 + data[1]:
        return None
    content, rest = data[2 : 2 + data[1]], data[2 + data[1] :]
    if content[0] >= 128 or (len(content) > 1 and content[0] == 0 and content[1] < 128):
        return None
    return int.from_bytes(content, "big"), rest


def numbers_of(signature):
    """ECDSA-Sig-Value in DER."""
    if len(signature) < 2 or signature[0] != 48 or not signature[1] < 128:
        return None
    if len(signature) != 2 + signature[1]:
        return None
    first = integer_of(signature[2:])
    second = first and integer_of(first[1])
    if not second or second[1]:
        return None
    return first[0], second[0]


def is_signed(key, digest, signature):
    """FIPS 186-5, section 6.4.2."""
    numbers = numbers_of(signature)
    if numbers is None:
        return False
    r, s = numbers
    if not (0 < r < ORDER and 0 < s < ORDER):
        return False
    inverse = pow(s, -1, ORDER)
    e = int.from_bytes(digest, "big")
    point = add(times(e * inverse, BASE), times(r * inverse, key))
    return point is not None and point[0] % ORDER == r


# Makers.


def sequence(*parts):
    """A SEQUENCE of these parts."""
    return der(48, *parts)


def sig_value(r, s):
    """The signature of two numbers."""
    return sequence(integer(r), integer(s))


def info_of(point):
    """The key of a point."""
    return PREFIX + b"\x04" + b"".join(number.to_bytes(SIZE, "big") for number in point)


def seeded(*words):
    """A number from 1 to N - 1 that the words determine."""
    text = " ".join(str(word) for word in words).encode()
    return int.from_bytes(hashlib.sha512(text).digest(), "big") % (ORDER - 1) + 1


def digest_of(message):
    """The digest of a message that is signed on this curve."""
    return hashlib.new(CURVE.digest, message).digest()


def signed(secret, digest, nonce):
    """FIPS 186-5, section 6.4.1."""
    r = times(nonce, BASE)[0] % ORDER
    s = pow(nonce, -1, ORDER) * (int.from_bytes(digest, "big") + r * secret) % ORDER
    return r, s


# What OpenSSL says.


HASHES = {"sha256": hashes.SHA256(), "sha384": hashes.SHA384()}


def openssl_key(info):
    """The key of the curve that OpenSSL reads, or None."""
    try:
        key = serialization.load_der_public_key(info)
    except Exception:
        return None
    if isinstance(key, ec.EllipticCurvePublicKey) and isinstance(key.curve, CURVE.of_openssl):
        return key
    return None


def openssl_answer(kind, info, signature, message):
    """What OpenSSL says of a signature: `yes`, `no`, or that there is no key."""
    key = openssl_key(info)
    if key is None:
        return "no-key"
    digest = message if kind == DIGEST_KIND else digest_of(message)
    try:
        key.verify(signature, digest, ec.ECDSA(utils.Prehashed(HASHES[CURVE.digest])))
    except InvalidSignature:
        return "no"
    return "yes"


VECTORS = []


def put(name, kind, info, signature, message, wanted=None):
    """A vector whose answer the rules give; where they refuse the key, of the key alone."""
    key = key_of(info)
    if key is None:
        answer = "no-key"
    else:
        digest = message if kind == DIGEST_KIND else digest_of(message)
        answer = "yes" if is_signed(key, digest, signature) else "no"
    if wanted is not None and answer != wanted:
        sys.exit(f"{name}: {answer} by the rules, and {wanted} was meant")
    if "~" not in name:
        other = openssl_answer(kind, info, signature, message)
        if other != answer:
            sys.exit(f"{name}: {answer} by the rules, {other} by OpenSSL")
    if key is None:
        VECTORS.append(of_key(name, kind, info, False))
    else:
        VECTORS.append(of_signature(name, kind, info, message, signature, answer == "yes"))


def plain_signatures():
    """Keys and messages of many lengths, and each with something changed."""
    lengths = CURVE.lengths
    for number in range(8):
        secret = seeded("key", number)
        info = info_of(times(secret, BASE))
        for length in lengths:
            message = hashlib.shake_128(f"{number} {length}".encode()).digest(length)
            r, s = signed(secret, digest_of(message), seeded("nonce", number, length))
            name = f"plain-{number}-{length}"
            put(name, KIND, info, sig_value(r, s), message, "yes")
            if length == lengths[number]:
                changed(name, info, sig_value(r, s), message)
                put(name + "-s-turned", KIND, info, sig_value(r, ORDER - s), message, "yes")
                put(name + "-r-turned", KIND, info, sig_value(ORDER - r, s), message, "no")
                put(name + "-swapped", KIND, info, sig_value(s, r), message, "no")
                other = info_of(times(seeded("key", number + 1), BASE))
                put(name + "-other-key", KIND, other, sig_value(r, s), message, "no")
                turned = info_of(times(ORDER - secret, BASE))
                put(name + "-turned-key", KIND, turned, sig_value(r, s), message, "no")


def changed(name, info, signature, message):
    """A good signature with one bit changed, and of another message."""
    for place in (4, len(signature) // 2 - 1, len(signature) - 1):
        other = bytearray(signature)
        other[place] ^= 1
        put(f"{name}-signature-{place}", KIND, info, bytes(other), message, "no")
    put(f"{name}-message-longer", KIND, info, signature, message + b"\0", "no")
    if message:
        put(f"{name}-message-shorter", KIND, info, signature, message[:-1], "no")


# Numbers at the ends of their ranges, by what they are called.
ENDS = {"0": 0, "1": 1, "n-1": ORDER - 1, "n": ORDER, "n+1": ORDER + 1, "p": PRIME,
        f"2^{BITS}-1": 2**BITS - 1}


def ranges():
    """Numbers at the ends of their ranges."""
    secret = seeded("ranges")
    info = info_of(times(secret, BASE))
    message = b"ranges"
    r, s = signed(secret, digest_of(message), seeded("ranges nonce"))
    for label, number in {**ENDS, f"2^{BITS}": 2**BITS}.items():
        put(f"r-is-{label}", KIND, info, sig_value(number, s), message, "no")
        put(f"s-is-{label}", KIND, info, sig_value(r, number), message, "no")
    for label in ("0", "1", "n-1", "n"):
        both = sig_value(ENDS[label], ENDS[label])
        put(f"both-are-{label}", KIND, info, both, message, "no")
    put("s-is-s+n", KIND, info, sig_value(r, s + ORDER), message, "no")
    put("r-is-r+n", KIND, info, sig_value(r + ORDER, s), message, "no")
    put(f"r-is-r+2^{BITS}", KIND, info, sig_value(r + 2**BITS, s), message, "no")
    given_numbers(message)


def given_numbers(message):
    """Good signatures whose s is given, each by the key that follows from it."""
    hashed = int.from_bytes(digest_of(message), "big")
    given = {"1": 1, "2": 2, "n-1": ORDER - 1, f"2^{BITS - 1}": HALF, "127": 127, "128": 128}
    for label, s in given.items():
        nonce = seeded("given s", label)
        r = times(nonce, BASE)[0] % ORDER
        info = info_of(times((s * nonce - hashed) * pow(r, -1, ORDER) % ORDER, BASE))
        put(f"good-s-is-{label}", KIND, info, sig_value(r, s), message, "yes")


def wide_points():
    """R with a first coordinate that is not below the order: r is what is left modulo the order."""
    for number in range(6):
        x, y = first_point_from(ORDER + seeded("wide", number) % (PRIME - ORDER - 1000))
        message = f"wide {number}".encode()
        e = int.from_bytes(digest_of(message), "big")
        s, r = seeded("wide s", number), x - ORDER
        inverse = pow(r, -1, ORDER)
        key = add(times(s * inverse, (x, y)), times(-e * inverse, BASE))
        put(f"x-above-n-{number}", KIND, info_of(key), sig_value(r, s), message, "yes")
        put(f"x-above-n-{number}-whole", KIND, info_of(key), sig_value(x, s), message, "no")


def digests():
    """Digests that no message is known to have."""
    secret = seeded("digests")
    info = info_of(times(secret, BASE))
    for label, number in ENDS.items():
        digest = number.to_bytes(SIZE, "big")
        r, s = signed(secret, digest, seeded("digest", label))
        put(f"digest-is-{label}", DIGEST_KIND, info, sig_value(r, s), digest, "yes")
        turned = sig_value(r, ORDER - s)
        put(f"digest-is-{label}-s-turned", DIGEST_KIND, info, turned, digest, "yes")
        other = ((number + 1) % 2**BITS).to_bytes(SIZE, "big")
        put(f"digest-is-{label}-changed", DIGEST_KIND, info, sig_value(r, s), other, "no")
    for number in (0, 1, ORDER - 1):
        r, s = signed(secret, number.to_bytes(SIZE, "big"), seeded("same", number))
        if number + ORDER < 2**BITS:
            other = (number + ORDER).to_bytes(SIZE, "big")
            put(f"digest-{number}-and-n-more", DIGEST_KIND, info, sig_value(r, s), other, "yes")


def special_sums():
    """Sums of a point and itself, of a point and its opposite, and small multiples."""
    for number in range(4):
        secret = seeded("sums", number)
        info = info_of(times(secret, BASE))
        nonce = seeded("sums nonce", number)
        r = times(nonce, BASE)[0] % ORDER
        hashed = r * secret % ORDER
        equal = sig_value(r, 2 * hashed * pow(nonce, -1, ORDER) % ORDER)
        put(f"equal-points-{number}", DIGEST_KIND, info, equal, hashed.to_bytes(SIZE, "big"), "yes")
        opposite = (ORDER - hashed).to_bytes(SIZE, "big")
        put(f"infinity-{number}", DIGEST_KIND, info, sig_value(r, seeded("any", number)), opposite,
            "no")
    sums_of_a_message()
    small_keys()


def sums_of_a_message():
    """Sums of a point and its opposite, for the digest of a message."""
    message = b"infinity"
    hashed = int.from_bytes(digest_of(message), "big")
    for number in range(4):
        secret = seeded("infinity", number)
        r = -hashed * pow(secret, -1, ORDER) % ORDER
        put(f"infinity-of-message-{number}", KIND, info_of(times(secret, BASE)),
            sig_value(r, seeded(number)), message, "no")


def small_keys():
    """Keys that are small multiples of the base point, with small nonces."""
    secrets = {"G": 1, "2G": 2, "3G": 3, "-G": ORDER - 1, "-2G": ORDER - 2,
               "half": (ORDER + 1) // 2}
    for label, secret in secrets.items():
        info = info_of(times(secret, BASE))
        for other, nonce in {"k1": 1, "k2": 2, "kn-1": ORDER - 1}.items():
            message = f"{label} {other}".encode()
            signature = sig_value(*signed(secret, digest_of(message), nonce))
            put(f"key-is-{label}-{other}", KIND, info, signature, message, "yes")


def short_numbers():
    """r and s that need fewer bytes than the order, or one more for the sign."""
    secret, short = seeded("short"), 2 ** (BITS - 8)
    info = info_of(times(secret, BASE))
    wanted = {f"r-{SIZE - 1}": lambda r, s: r < short, f"s-{SIZE - 1}": lambda r, s: s < short,
              "r-first-bit": lambda r, s: r >= HALF and s < HALF,
              "s-first-bit": lambda r, s: s >= HALF and r < HALF}
    number = 0
    while wanted:
        message = f"short {number}".encode()
        r, s = signed(secret, digest_of(message), seeded("short nonce", number))
        for label in [label for label, test in wanted.items() if test(r, s)]:
            put(f"short-{label}", KIND, info, sig_value(r, s), message, "yes")
            del wanted[label]
        number += 1


class Good:
    """A good signature whose r has a byte more for the sign, and whose s has none.

    `whole` is its encoding, and `first` and `second` are those of its numbers.
    """

    def __init__(self):
        secret = seeded("der")
        self.info = info_of(times(secret, BASE))
        for number in itertools.count():
            self.message = f"der {number}".encode()
            nonce = seeded("der nonce", number)
            self.r, self.s = signed(secret, digest_of(self.message), nonce)
            if self.r >= HALF and 2 ** (BITS - 8) <= self.s < HALF:
                break
        self.first, self.second = integer(self.r), integer(self.s)
        self.whole = sequence(self.first, self.second)
        self.bare = self.r.to_bytes(SIZE, "big") + self.s.to_bytes(SIZE, "big")


def encodings():
    """Encodings of a good signature that are not DER."""
    good = Good()
    put("der-good", KIND, good.info, good.whole, good.message, "yes")
    for maker in (odd_numbers, odd_lengths, odd_lengths_of_numbers, odd_parts, odd_tags, cut):
        for name, signature in maker(good):
            put("der-" + name, KIND, good.info, signature, good.message, "no")


def odd_numbers(good):
    """Encodings whose numbers are padded, negative or empty."""
    first, second = good.first, good.second
    padded_first = bytes([2, first[1] + 1, 0]) + first[2:]
    padded_second = bytes([2, second[1] + 1, 0]) + second[2:]
    yield "s-padded", sequence(first, padded_second)
    yield "s-padded-twice", sequence(first, bytes([2, second[1] + 2, 0, 0]) + second[2:])
    yield "r-padded", sequence(padded_first, second)
    yield "both-padded", sequence(padded_first, padded_second)
    yield "r-negative", sequence(bytes([2, SIZE]) + first[3:], second)
    yield "s-negative", sequence(first, bytes([2, SIZE + 1, 255]) + second[2:])
    yield "r-all-ones-before", sequence(bytes([2, SIZE + 1, 255]) + first[3:], second)
    yield "r-empty", sequence(b"\x02\x00", second)
    yield "s-empty", sequence(first, b"\x02\x00")
    yield "both-empty", sequence(b"\x02\x00", b"\x02\x00")
    yield "r-zero-byte", sequence(b"\x02\x01\x00", second)
    yield "r-zero-bytes", sequence(b"\x02\x02\x00\x00", second)


def odd_lengths(good):
    """Encodings whose lengths are written in more bytes, or not told, or wrong."""
    first, second, whole = good.first, good.second, good.whole
    yield "length-in-two-bytes", bytes([48, 129, len(whole) - 2]) + whole[2:]
    yield "length-in-three-bytes", bytes([48, 130, 0, len(whole) - 2]) + whole[2:]
    yield "length-not-told", b"\x30\x80" + whole[2:] + b"\0\0"
    yield "length-not-told-nor-ended", b"\x30\x80" + whole[2:]
    yield "r-length-in-two-bytes", sequence(bytes([2, 129, first[1]]) + first[2:], second)
    yield "s-length-in-two-bytes", sequence(first, bytes([2, 129, second[1]]) + second[2:])
    yield "s-length-in-five-bytes", sequence(
        first, bytes([2, 132, 0, 0, 0, second[1]]) + second[2:])
    yield "length-one-more", bytes([48, whole[1] + 1]) + whole[2:]
    yield "length-one-less", bytes([48, whole[1] - 1]) + whole[2:]
    yield "length-0", b"\x30\x00" + whole[2:]
    yield "length-127", b"\x30\x7f" + whole[2:]
    yield "length-255", b"\x30\xff" + whole[2:]


def odd_lengths_of_numbers(good):
    """Encodings in which a number has another length than is told."""
    first, second = good.first, good.second
    yield "r-length-one-more", sequence(bytes([2, first[1] + 1]) + first[2:], second)
    yield "r-length-one-less", sequence(bytes([2, first[1] - 1]) + first[2:], second)
    yield "s-length-one-more", sequence(first, bytes([2, second[1] + 1]) + second[2:])
    yield "s-length-one-less", sequence(first, bytes([2, second[1] - 1]) + second[2:])
    yield "r-length-of-all", sequence(bytes([2, first[1] + len(second)]) + first[2:], second)


def odd_parts(good):
    """Encodings with something more, or with other than two numbers."""
    first, second = good.first, good.second
    yield "after", good.whole + b"\0"
    yield "after-good", good.whole + good.whole
    yield "after-inside", sequence(first, second, b"\0")
    yield "null-inside", sequence(first, second, b"\x05\x00")
    yield "three-integers", sequence(first, second, second)
    yield "one-integer", sequence(first)
    yield "no-integer", sequence()


def odd_tags(good):
    """Encodings with other tags, or without any."""
    first, second, whole = good.first, good.second, good.whole
    yield "set", b"\x31" + whole[1:]
    yield "sequence-primitive", b"\x10" + whole[1:]
    yield "integer-constructed", sequence(b"\x22" + first[1:], second)
    yield "octets", sequence(b"\x04" + first[1:], second)
    yield "enumerated", sequence(first, b"\x0a" + second[1:])
    yield "class-of-context", sequence(b"\x82" + first[1:], second)
    yield "nested", sequence(whole)
    yield "bare", whole[2:]
    yield f"{2 * SIZE}-bytes", good.bare
    yield f"{2 * SIZE + 1}-bytes", b"\x04" + good.bare
    huge = bytes([2, 112 - SIZE, 1]) + bytes(111 - 2 * SIZE) + good.s.to_bytes(SIZE, "big")
    yield "huge-s", sequence(first, huge)


def cut(good):
    """Encodings that are cut."""
    size = len(good.whole)
    for count in [*range(7), *range(SIZE + 4, SIZE + 9), SIZE + 28, size - 2, size - 1]:
        yield f"cut-{count}", good.whole[:count]


def keys():
    """What is no key, or another key: a signature is no good one by it."""
    secret = seeded("keys")
    point = times(secret, BASE)
    message = b"keys"
    signature = sig_value(*signed(secret, digest_of(message), seeded("keys nonce")))
    put("key-good", KIND, info_of(point), signature, message, "yes")
    VECTORS.append(of_key("key-good-alone", KIND, info_of(point), True))
    for maker in (other_coordinates, other_points, other_infos, other_algorithms, other_kinds):
        for name, info, *wanted in maker(point, secret):
            answer = wanted[0] if wanted else "no-key"
            put("key-" + name, KIND, info, signature, message, answer)
            if wanted:
                VECTORS.append(of_key(f"key-{name}-alone", KIND, info, True))


def other_coordinates(point, _secret):
    """Keys of other coordinates, of which some are those of points."""
    x, y = point
    yield "opposite", info_of((x, PRIME - y)), "no"
    yield "swapped", info_of((y, x))
    yield "y-one-more", info_of((x, y + 1))
    yield "x-one-more", info_of((x + 1, y))
    yield "zeros", info_of((0, 0))
    yield "ones", info_of((2**BITS - 1, 2**BITS - 1))
    yield "x-is-p", info_of((PRIME, y))
    yield "y-is-p", info_of((x, PRIME))
    small, zero = first_point_from(1), first_point_from(0)
    yield "small-x", info_of(small), "no"
    yield "small-x-and-p-more", info_of((small[0] + PRIME, small[1]))
    yield "x-is-0", info_of(zero), "no"
    yield "x-is-p-for-0", info_of((PRIME, zero[1]))
    yield "last-x", info_of(first_point_from(PRIME - 20)), "no"


def coordinates(point):
    """The coordinates of a point as bytes."""
    return [number.to_bytes(SIZE, "big") for number in point]


def other_points(point, _secret):
    """Keys whose point is written in another form, or is not there."""
    x, y = coordinates(point)
    odd = point[1] % 2
    yield "compressed~", rewrapped(bytes([2 + odd]) + x)
    yield "compressed-other~", rewrapped(bytes([3 - odd]) + x)
    yield "hybrid~", rewrapped(bytes([6 + odd]) + x + y)
    yield "hybrid-other", rewrapped(bytes([7 - odd]) + x + y)
    yield "form-0", rewrapped(b"\0" + x + y)
    yield "form-5", rewrapped(b"\5" + x + y)
    yield "infinity", rewrapped(b"\0")
    yield "no-point", rewrapped(b"")
    yield "bare-point", b"\x04" + x + y
    yield "bare-coordinates", x + y
    yield "none", b""


def other_infos(point, _secret):
    """Keys that are cut, or are longer, or have other tags or lengths."""
    good = info_of(point)
    yield "cut", good[:-1]
    yield "after", good + b"\0"
    yield "length-in-two-bytes", bytes([48, 129, good[1]]) + good[2:]
    yield "unused-bits", PREFIX[:-1] + b"\x01" + good[len(PREFIX):]
    yield "octets", PREFIX[:-3] + b"\x04" + good[len(PREFIX) - 2:]
    yield "set", b"\x31" + good[1:]


def other_algorithms(point, _secret):
    """Keys that say that they are of another algorithm or curve, or of none."""
    good, bits = info_of(point), b"\x04" + b"".join(coordinates(point))
    named = good.index(CURVE.identifier)
    after = named + len(CURVE.identifier)
    yield f"{CURVE.sibling}-named", good[:after - 1] + b"\x01" + good[after:]
    yield "other-algorithm", good[:named - 1] + b"\x02" + good[named:]
    yield "curve-null", wrapped(KEY_IDENTIFIER + b"\x05\x00", bits)
    yield "curve-absent", wrapped(KEY_IDENTIFIER, bits)
    yield "curve-explicit~", wrapped(KEY_IDENTIFIER + explicit(), bits)


def other_kinds(_point, secret):
    """Keys of other curves and kinds, private keys, and a key in PEM."""
    for curve in CURVE.others:
        other = ec.derive_private_key(secret % 2**200, curve()).public_key()
        yield curve.name, public_info(other)
    other = ed25519.Ed25519PrivateKey.from_private_bytes(bytes(range(32))).public_key()
    yield "ed25519", public_info(other)
    modulus = int.from_bytes(hashlib.shake_128(b"modulus").digest(256), "big") | 2**2047 | 1
    yield "rsa", public_info(rsa.RSAPublicNumbers(65537, modulus).public_key())
    private = ec.derive_private_key(secret, CURVE.of_openssl())
    none, form = serialization.NoEncryption(), serialization.PrivateFormat
    yield "private", private.private_bytes(Encoding.DER, form.PKCS8, none)
    yield "private-sec1", private.private_bytes(Encoding.DER, form.TraditionalOpenSSL, none)
    yield "pem", private.public_key().public_bytes(
        Encoding.PEM, serialization.PublicFormat.SubjectPublicKeyInfo)


def public_info(key):
    """The SubjectPublicKeyInfo of a key."""
    return key.public_bytes(Encoding.DER, serialization.PublicFormat.SubjectPublicKeyInfo)


def explicit():
    """The parameters of the curve, written out (SEC 1, section C.2)."""
    field = der(48, bytes.fromhex("06072a8648ce3d0101"), integer(PRIME))
    curve = der(48, *(der(4, number.to_bytes(SIZE, "big")) for number in (PRIME - 3, CONSTANT)))
    base = der(4, b"\x04", *coordinates(BASE))
    return der(48, integer(1), field, curve, base, integer(ORDER), integer(1))


def main():
    """Writes the file."""
    makers = (plain_signatures, ranges, wide_points, digests, special_sums, short_numbers,
              encodings, keys)
    for maker in makers:
        maker()
    write(f"{CURVE.name}.jsonl", VECTORS)


if __name__ == "__main__":
    main()
