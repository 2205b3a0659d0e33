"""Points of the curves y^2 = x^3 - 3x + b over a prime, in plain Python (SEC 1, section 2.2.1)."""

# P-256 and P-384 (SP 800-186, sections 3.2.1.3 and 3.2.1.4): the prime, the order of the base
# point, the constant b, and the base point.
P256_PRIME = 2**256 - 2**224 + 2**192 + 2**96 - 1
P256_ORDER = 0xFFFFFFFF00000000FFFFFFFFFFFFFFFFBCE6FAADA7179E84F3B9CAC2FC632551
P256_CONSTANT = 0x5AC635D8AA3A93E7B3EBBD55769886BC651D06B0CC53B0F63BCE3C3E27D2604B
P256_BASE = (0x6B17D1F2E12C4247F8BCE6E563A440F277037D812DEB33A0F4A13945D898C296,
             0x4FE342E2FE1A7F9B8EE7EB4A7C0F9E162BCE33576B315ECECBB6406837BF51F5)
P384_PRIME = 2**384 - 2**128 - 2**96 + 2**32 - 1
P384_ORDER = int("FFFFFFFFFFFFFFFFFFFFFFFFFFFFFFFFFFFFFFFFFFFFFFFF"
                 "C7634D81F4372DDF581A0DB248B0A77AECEC196ACCC52973", 16)
P384_CONSTANT = int("B3312FA7E23EE7E4988E056BE3F82D19181D9C6EFE814112"
                    "0314088F5013875AC656398D8A2ED19D2A85C8EDD3EC2AEF", 16)
P384_BASE = (int("AA87CA22BE8B05378EB1C71EF320AD746E1D3B628BA79B98"
                 "59F741E082542A385502F25DBF55296C3A545E3872760AB7", 16),
             int("3617DE4A96262C6F5D9E98BF9292DC29F8F41DBD289A147C"
                 "E9DA3113B5F0B8C00A60B1CE1D7E819D7A431D7C90EA0E5F", 16))


def add(prime, one, other):
    """The sum of two points; None is infinity."""
    if one is None or other is None:
        return one or other
    (x, y), (z, t) = one, other
    if x == z and (y + t) % prime == 0:
        return None
    if x == z:
        slope = (3 * x * x - 3) * pow(2 * y, -1, prime)
    else:
        slope = (t - y) * pow(z - x, -1, prime)
    third = (slope * slope - x - z) % prime
    return third, (slope * (x - third) - y) % prime


def times(prime, number, point):
    """A multiple of a point."""
    total = None
    for bit in bin(number)[2:]:
        total = add(prime, total, total)
        if bit == "1":
            total = add(prime, total, point)
    return total
