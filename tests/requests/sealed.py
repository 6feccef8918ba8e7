"""Requests to seal and to open."""

from functools import lru_cache

import limits
import longest
import sealing
from values import Group, SHORT_LENGTHS, damaged_everywhere, flipped, line, some_bytes, some_length, subsets

# RFC 8452 appendix C.3: the two tags from which the counter wraps within the text.
COUNTER_WRAPS = [
    ("000000000000000000000000000000004db923dc793ee6497c76dcc03a98e108",
     "f3f80f2cf0cb2dd9c5984fcda908456cc537703b5ba70324a6793a7bf218d3eaffffffff000000000000000000000000"),
    ("eb3640277c7ffd1303c7a542d02d3e4c0000000000000000",
     "18ce4f0b8cb4d0cac65fea8f79257b20888e53e72299e56dffffffff000000000000000000000000"),
]

WRONG_KEY_LENGTHS = (0, 1, 15, 17, 24, 31, 33, 64)
WRONG_NONCE_LENGTHS = (0, 1, 11, 13, 16)


def some_cipher_key(rng):
    return rng.randbytes(rng.choice(limits.SEALING_KEYS))


def seal_line(key, nonce, data, plaintext, room):
    return line("seal", key, nonce, data, plaintext, room)


def open_line(key, nonce, data, sealed, room):
    return line("open", key, nonce, data, sealed, room)


@lru_cache(maxsize=8)
def sealed_part(key, nonce, data, plaintext):
    """What sealing gives where no limit of ours stands in the way, so that parts over a limit can be made too."""
    hash_key, cipher_key = sealing.derive(key, nonce)
    tag = sealing.tag_of(hash_key, cipher_key, nonce, data, plaintext)
    return sealing.counter_mode(cipher_key, tag, plaintext) + tag


def around(*numbers):
    return [n + step for n in numbers for step in (-1, 0, 1)]


def text_lengths():
    """The long ones: around 16 and 256 blocks, where a count of blocks needs another digit or byte, and around the limit."""
    return [*SHORT_LENGTHS, *around(256, 4096, limits.MAX_PLAINTEXT)]


def data_lengths():
    return [*SHORT_LENGTHS, *around(256, limits.MAX_AD)]


def some_text(rng):
    """Mostly short; a few of any length that can be sealed."""
    return some_bytes(rng, limits.MAX_PLAINTEXT if rng.random() < 0.05 else 400)


def seal_edges(rng):
    nonce = rng.randbytes(12)
    for size in limits.SEALING_KEYS:
        key = rng.randbytes(size)
        for n in text_lengths():
            yield seal_line(key, nonce, rng.randbytes(n % 20), rng.randbytes(n), n + 16 + n % 3)
        for n in data_lengths():
            yield seal_line(key, nonce, rng.randbytes(n), rng.randbytes(n % 20), 40)
        for n in (0, 1, 16, 20):
            for room in (0, n, *around(n + 16), 70_000):
                yield seal_line(key, nonce, b"", rng.randbytes(n), room)
    yield seal_line(bytes(16), bytes(12), b"", bytes(limits.MAX_PLAINTEXT + 1), 0)
    for n in range(67):
        yield seal_line(rng.randbytes(n), nonce, b"", b"", 16)
        yield seal_line(rng.randbytes(16), rng.randbytes(n), b"", b"", 16)
    yield from seal_refusals(rng)
    for text, _ in COUNTER_WRAPS:
        yield seal_line(bytes(32), bytes(12), b"", bytes.fromhex(text), 64)
    for vector in longest.vectors():
        yield seal_line(vector.key, vector.nonce, vector.data, vector.text, len(vector.text) + 16)


def seal_refusals(rng):
    """Every set of faults at once: 1, 2, 4, 5, 7."""
    for faults in subsets(("key", "nonce", "data", "text", "room")):
        plaintext = rng.randbytes(limits.MAX_PLAINTEXT + 1 if "text" in faults else rng.randrange(1, 40))
        yield seal_line(
            rng.randbytes(rng.choice(WRONG_KEY_LENGTHS)) if "key" in faults else some_cipher_key(rng),
            rng.randbytes(rng.choice(WRONG_NONCE_LENGTHS)) if "nonce" in faults else rng.randbytes(12),
            rng.randbytes(limits.MAX_AD + 1) if "data" in faults else rng.randbytes(3),
            plaintext,
            len(plaintext) + (15 if "room" in faults else 16))


def seal_draw(rng):
    plaintext = some_text(rng)
    data = rng.randbytes(some_length(rng, limits.MAX_AD + 4))
    room = rng.choice([len(plaintext) + 16, len(plaintext) + 16 + rng.randrange(40), rng.randrange(200)])
    return seal_line(some_cipher_key(rng), rng.randbytes(12), data, plaintext, room)


def open_edges(rng):
    for size in limits.SEALING_KEYS:
        key, nonce = rng.randbytes(size), rng.randbytes(12)
        for n in text_lengths():
            data = rng.randbytes(n % 20)
            yield open_line(key, nonce, data, sealed_part(key, nonce, data, rng.randbytes(n)), n + n % 3)
        yield from damaged_openings(key, nonce, rng)
        for n in (0, 1, 16, 20):
            part = sealed_part(key, nonce, b"", rng.randbytes(n))
            for room in (*range(n), n, n + 1, 70_000):
                yield open_line(key, nonce, b"", part, room)
        for n in data_lengths():
            data = rng.randbytes(n)
            yield open_line(key, nonce, data, sealed_part(key, nonce, data, b"seen"), 4)
    yield open_line(bytes(16), bytes(12), b"", bytes(limits.MAX_SEALED + 1), 0)
    yield from open_refusals(rng)
    for _, sealed in COUNTER_WRAPS:
        yield open_line(bytes(32), bytes(12), b"", bytes.fromhex(sealed), 40)
    for vector in longest.vectors():
        part = sealed_part(vector.key, vector.nonce, vector.data, vector.text)
        yield open_line(vector.key, vector.nonce, vector.data, part, len(vector.text))


def damaged_openings(key, nonce, rng):
    """Every byte of all that goes in damaged, and the sealed part cut and prolonged everywhere."""
    data, plaintext = rng.randbytes(9), rng.randbytes(37)
    part = sealed_part(key, nonce, data, plaintext)
    room = len(plaintext)
    for bad in damaged_everywhere(part, rng):
        yield open_line(key, nonce, data, bad, room)
    for bad in damaged_everywhere(data, rng):
        yield open_line(key, nonce, bad, part, room)
    for bad in damaged_everywhere(nonce, rng):
        yield open_line(key, bad, data, part, room)
    for bad in damaged_everywhere(key, rng):
        yield open_line(bad, nonce, data, part, room)
    for n in range(len(part)):
        yield open_line(key, nonce, data, part[:n], room)
    yield open_line(key, nonce, data, part + b"\0", room + 1)
    yield open_line(key, nonce, data + b"\0", part, room)


def open_refusals(rng):
    """Every set of faults at once: 1, 2, 4, 6, 5, 7, 8. A part cannot be too short and too long."""
    key, nonce = some_cipher_key(rng), rng.randbytes(12)
    few, too_many = rng.randbytes(3), rng.randbytes(limits.MAX_AD + 1)
    short, too_long = rng.randbytes(5), rng.randbytes(limits.MAX_PLAINTEXT + 1)
    for faults in subsets(("key", "nonce", "data", "short", "long", "room", "tag")):
        if {"short", "long"} <= faults:
            continue
        data = too_many if "data" in faults else few
        part = sealed_part(key, nonce, data, too_long if "long" in faults else short)
        if "tag" in faults:
            part = part[:-1] + bytes([part[-1] ^ 1])
        if "short" in faults:
            part = part[:15]
        yield open_line(
            rng.randbytes(rng.choice(WRONG_KEY_LENGTHS)) if "key" in faults else key,
            rng.randbytes(rng.choice(WRONG_NONCE_LENGTHS)) if "nonce" in faults else nonce,
            data,
            part,
            max(0, len(part) - (17 if "room" in faults else 16)))


def open_draw(rng):
    key, nonce, data = some_cipher_key(rng), rng.randbytes(12), rng.randbytes(some_length(rng, limits.MAX_AD))
    part = sealed_part(key, nonce, data, some_text(rng))
    if rng.random() < 0.3:
        part = flipped(part, rng.randrange(len(part)), rng.randrange(8))
    room = len(part) - 16 + (rng.randrange(-3, 40) if rng.random() < 0.3 else 0)
    return open_line(key, nonce, data, part, max(0, room))


GROUPS = [
    Group("seal", seal_edges, seal_draw),
    Group("open", open_edges, open_draw),
]
