"""Values that requests are made of: edges first, random ones beside them. A group of requests is a name,
its edges (all of them, always tried) and a way to draw one more at random."""

from collections import namedtuple
from itertools import combinations

import field
import hashing

Group = namedtuple("Group", "name edges draw")

ROUTES = ("wide", "narrow", "rf")

# Blocks of a hash are taken by 16 bytes and by four, so that every remainder shows within 65 bytes.
SHORT_LENGTHS = range(66)

ZERO = bytes(16)
ONE = (1).to_bytes(16, "little")
ONES = b"\xff" * 16
UNIT = field.to_bytes(field.MODULUS ^ 1 << 128)
X_MINUS_128 = field.to_bytes(field.X_TO_MINUS_128)
TOP_BIT = field.to_bytes(1 << 127)

SPECIAL_ELEMENTS = (ZERO, ONE, UNIT, ONES, X_MINUS_128, TOP_BIT)
SINGLE_BITS = tuple(field.to_bytes(1 << i) for i in range(128))

HUGE_COUNTS = (255, 256, 65535, 1 << 31, 1 << 32, (1 << 32) + 5, 1 << 63, (1 << 64) - 16, (1 << 64) - 1)
PENDING_COUNTS = (*range(21), *HUGE_COUNTS)


def hexed(data):
    return data.hex() or "-"


def line(*words):
    """A request: byte strings in hex, numbers in decimal, words as they are."""
    return " ".join(hexed(word) if isinstance(word, bytes) else str(word) for word in words)


def flipped(data, at, bit=0):
    """The same bytes with one bit of byte `at` changed."""
    return data[:at] + bytes([data[at] ^ 1 << bit]) + data[at + 1:]


def damaged_everywhere(data, rng):
    """The bytes damaged in each place, one at a time."""
    return [flipped(data, at, rng.randrange(8)) for at in range(len(data))]


def subsets(names):
    """Every set of faults, so that each pair of them meets and the order of their answers shows."""
    return [set(some) for size in range(len(names) + 1) for some in combinations(names, size)]


def some_element(rng):
    return rng.choice([rng.choice(SPECIAL_ELEMENTS), rng.choice(SINGLE_BITS), rng.randbytes(16), rng.randbytes(16)])


def some_length(rng, longest):
    """Mostly short, at times of any length up to the longest."""
    return rng.randrange(66) if rng.random() < 0.8 else rng.randrange(longest + 1)


def some_bytes(rng, longest=320):
    return rng.randbytes(some_length(rng, longest))


# ---- stored keys and records

def key_bytes(h):
    """The 128 bytes of the key expanded from h."""
    return b"".join(field.to_bytes(p.h) + field.to_bytes(p.d) for p in hashing.expand(field.element(h)))


def record(key, acc=ZERO, pending=ZERO, count=0):
    return f"{hexed(key)}:{hexed(acc)}:{hexed(pending)}:{count}"


def altered_keys(h, rng):
    """A right key with each stored element damaged, replaced by zero, and exchanged with the next."""
    key = key_bytes(h)
    parts = [key[at:at + 16] for at in range(0, len(key), 16)]
    for i, part in enumerate(parts):
        for other in (flipped(part, rng.randrange(16), rng.randrange(8)), ZERO, parts[i - 1]):
            yield b"".join(parts[:i] + [other] + parts[i + 1:])


def some_key(rng):
    """A right key, an altered one, or bytes that never were a key."""
    chance = rng.random()
    if chance < 0.5:
        return key_bytes(some_element(rng))
    if chance < 0.75:
        return rng.choice(list(altered_keys(some_element(rng), rng)))
    return rng.randbytes(len(key_bytes(ZERO)))


def some_count(rng):
    chance = rng.random()
    if chance < 0.5:
        return 0
    if chance < 0.9:
        return rng.randrange(1, 16)
    return rng.choice(PENDING_COUNTS)


def some_record(rng):
    return record(some_key(rng), some_element(rng), rng.randbytes(16), some_count(rng))
