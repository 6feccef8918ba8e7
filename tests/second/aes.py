"""AES encryption of one block: FIPS 197. Keys of 16 bytes (10 rounds) and of 32 bytes (14 rounds).

A column of the state is a word of 32 bits with row 0 in its highest byte, as FIPS 197 writes a word."""

from functools import lru_cache


# ---- GF(2^8) and the S-box: FIPS 197 sections 4 and 5.1.1

def xtimes(a):
    """Section 4.2.1: times x, modulo x^8 + x^4 + x^3 + x + 1."""
    return a << 1 ^ 0x11B if a & 0x80 else a << 1


def times(a, b):
    product = 0
    while b:
        if b & 1:
            product ^= a
        a, b = xtimes(a), b >> 1
    return product


def inverse(a):
    """Zero for zero. For any other a it is a^254, since a^255 is 1; and 254 is 2 + 4 + .. + 128."""
    result, square = 1, a
    for _ in range(7):
        square = times(square, square)
        result = times(result, square)
    return result


def affine(b):
    """Section 5.1.1: bit i is b(i) + b(i+4) + b(i+5) + b(i+6) + b(i+7) + c(i), indices modulo 8, c = 0x63."""
    twice = b | b << 8
    return (twice ^ twice >> 4 ^ twice >> 5 ^ twice >> 6 ^ twice >> 7 ^ 0x63) & 0xFF


SBOX = [affine(inverse(a)) for a in range(256)]


# ---- the key schedule: section 5.2

def sub_word(w):
    return int.from_bytes(bytes(SBOX[b] for b in w.to_bytes(4, "big")), "big")


def rot_word(w):
    return (w << 8 | w >> 24) & 0xFFFFFFFF


@lru_cache(maxsize=64)
def round_keys(key):
    """The words w of section 5.2, four to a round."""
    nk = len(key) // 4
    w = [int.from_bytes(key[4 * i:4 * i + 4], "big") for i in range(nk)]
    rcon = 1
    for i in range(nk, 4 * (nk + 7)):
        temp = w[-1]
        if i % nk == 0:
            temp = sub_word(rot_word(temp)) ^ rcon << 24
            rcon = xtimes(rcon)
        elif nk > 6 and i % nk == 4:
            temp = sub_word(temp)
        w.append(w[-nk] ^ temp)
    return [w[i:i + 4] for i in range(0, len(w), 4)]


# ---- the rounds: section 5.1

def mixed_columns():
    """For each row, what a byte of it adds to its column through the S-box and the matrix of section 5.1.3,
    whose first column is 2, 1, 1, 3 and whose others are that one turned."""
    turns = [bytes([2, 1, 1, 3]), bytes([3, 2, 1, 1]), bytes([1, 3, 2, 1]), bytes([1, 1, 3, 2])]
    return [[int.from_bytes(bytes(times(s, m) for m in turn), "big") for s in SBOX] for turn in turns]


MIXED = mixed_columns()


def full_round(state, key):
    """SubBytes, ShiftRows, MixColumns, AddRoundKey. ShiftRows takes row r of column c from column c + r."""
    t0, t1, t2, t3 = MIXED
    return [t0[state[c] >> 24]
            ^ t1[state[(c + 1) % 4] >> 16 & 0xFF]
            ^ t2[state[(c + 2) % 4] >> 8 & 0xFF]
            ^ t3[state[(c + 3) % 4] & 0xFF]
            ^ key[c] for c in range(4)]


def last_round(state, key):
    """The last round has no MixColumns."""
    return [(SBOX[state[c] >> 24] << 24
             | SBOX[state[(c + 1) % 4] >> 16 & 0xFF] << 16
             | SBOX[state[(c + 2) % 4] >> 8 & 0xFF] << 8
             | SBOX[state[(c + 3) % 4] & 0xFF])
            ^ key[c] for c in range(4)]


def encrypt(key, block):
    """Section 5.1, algorithm CIPHER."""
    keys = round_keys(key)
    state = [int.from_bytes(block[4 * c:4 * c + 4], "big") ^ keys[0][c] for c in range(4)]
    for key_of_round in keys[1:-1]:
        state = full_round(state, key_of_round)
    return b"".join(column.to_bytes(4, "big") for column in last_round(state, keys[-1]))
