"""Polynomials over GF(2) and the field of POLYVAL: RFC 8452 section 3, and the R/F formulas of document 01.

A polynomial is an int whose bit i is the coefficient of x^i. An element has 16 bytes, little-endian."""

from functools import lru_cache

MODULUS = 1 << 128 | 1 << 127 | 1 << 126 | 1 << 121 | 1
X_TO_MINUS_128 = 1 << 127 | 1 << 124 | 1 << 121 | 1 << 114 | 1

# Document 01, "Modules", 5: x^63 + x^62 + x^57.
P1 = 0xC200000000000000
WORD = (1 << 64) - 1


def element(data):
    """RFC 8452 section 3: bit 0 of byte 0 is the coefficient of 1."""
    return int.from_bytes(data, "little")


def to_bytes(a):
    return a.to_bytes(16, "little")


def reverse(a):
    """The bytes in the opposite order, which GHASH by way of POLYVAL needs."""
    return int.from_bytes(to_bytes(a), "big")


# ---- products

HEX_DIGITS = "0123456789abcdef"


@lru_cache(maxsize=256)
def multiples(b):
    """The products of b with each polynomial of degree under 4, by hexadecimal digit. A hash uses those
    of its key again for each block, so they are kept."""
    rows = [0, b]
    for half in range(1, 8):
        rows += [rows[half] << 1, rows[half] << 1 ^ b]
    return dict(zip(HEX_DIGITS, rows))


def carryless(a, b):
    """The product of a and b as polynomials, not reduced: a's digits from the highest, four bits at a time."""
    rows = multiples(b)
    product = 0
    for digit in f"{a:x}":
        product = product << 4 ^ rows[digit]
    return product


def mulx(a):
    """RFC 8452 appendix A: a times x, reduced."""
    doubled = a << 1
    return doubled ^ MODULUS if doubled >> 128 else doubled


def fold_tables():
    """For each byte of a 256-bit product, what every value of it gives once multiplied by x^-128 and reduced.
    Both steps are additive, so that the bytes' shares only have to be added."""
    tables = []
    share = X_TO_MINUS_128
    for _ in range(32):
        table = [0]
        for _ in range(8):
            table += [entry ^ share for entry in table]
            share = mulx(share)
        tables.append(table)
    return tables


FOLDS = fold_tables()


def dot(a, b):
    """RFC 8452 section 3: a times b times x^-128, reduced by the modulus."""
    result = 0
    for table, byte in zip(FOLDS, carryless(a, b).to_bytes(32, "little")):
        result ^= table[byte]
    return result


# ---- the R/F route: document 01, port order 5

def words(a):
    """The low and the high word of an element: M0 and M1 in the formulas."""
    return a & WORD, a >> 64


def companion(h):
    """D = swap(H) + H0·P1."""
    h0, h1 = words(h)
    return (h0 << 64 | h1) ^ carryless(h0, P1)


def rf_unreduced(m, h, d):
    """R = M0·D1 + M1·H1 and F = M0·D0 + M1·H0, of whatever values are stored for H and D."""
    m0, m1 = words(m)
    h0, h1 = words(h)
    d0, d1 = words(d)
    r = carryless(m0, d1) ^ carryless(m1, h1)
    f = carryless(m0, d0) ^ carryless(m1, h0)
    return r, f


def rf_reduce(r, f):
    """R + F1 + x^64·F0 + P1·F0."""
    f0, f1 = words(f)
    return r ^ f1 ^ f0 << 64 ^ carryless(f0, P1)


def rf_product(m, h, d):
    return rf_reduce(*rf_unreduced(m, h, d))
