"""Requests to write, read and scan frames."""

import frames
import limits
from sealed import WRONG_KEY_LENGTHS, WRONG_NONCE_LENGTHS, around, sealed_part, some_cipher_key
from values import Group, damaged_everywhere, line, subsets

TAG = 16
OVERHEAD = frames.HEADER + TAG
TEXT_LEAST, TEXT_MOST = frames.PLAINTEXT[frames.TEXT]
NO_KINDS = (0, max(frames.PLAINTEXT) + 1, 255)
FIELDS = (frames.LATITUDE, frames.LONGITUDE, frames.ALTITUDE)
INT_LEAST, INT_GREATEST = -(1 << 31), (1 << 31) - 1
TIMES = (0, 1, (1 << 31) - 1, 1 << 31, (1 << 32) - 1)


# ---- plaintexts

def position(lat=0, lon=0, alt=0, time=0):
    return b"".join(value.to_bytes(4, "little", signed=value < 0) for value in (lat, lon, alt, time))


def some_position(rng):
    return position(*(rng.randint(*bounds) for bounds in FIELDS), rng.getrandbits(32))


def bad_position(rng):
    at = rng.randrange(len(FIELDS))
    values = [rng.randint(*bounds) for bounds in FIELDS]
    values[at] = rng.choice([INT_LEAST, FIELDS[at][0] - 1, FIELDS[at][1] + 1, INT_GREATEST])
    return position(*values, rng.getrandbits(32))


def edge_positions():
    """Each field at both ends of its range and of its word, one step to each side; then all ends together."""
    for at, (least, greatest) in enumerate(FIELDS):
        for value in (INT_LEAST, INT_GREATEST, -1, 0, 1, *around(least, greatest)):
            values = [0, 0, 0]
            values[at] = value
            yield position(*values)
    for time in TIMES:
        yield position(time=time)
    for ends in subsets(range(len(FIELDS))):
        values = [bounds[at in ends] for at, bounds in enumerate(FIELDS)]
        yield position(*values, 7)
        # more than one field out of range at once
        yield position(*(value + (1 if value > 0 else -1) if at in ends else 0 for at, value in enumerate(values)))


def some_plaintext(kind, rng):
    if kind == frames.POSITION:
        return some_position(rng)
    if kind == frames.TEXT:
        return rng.randbytes(rng.choice([TEXT_LEAST, TEXT_LEAST + 1, 15, 16, 17, TEXT_MOST - 1, TEXT_MOST, rng.randint(TEXT_LEAST, TEXT_MOST)]))
    return b""


# ---- whole frames, made here so that frames that writing refuses can be made too

def frame(kind, key, nonce, plaintext):
    associated = bytes([frames.MARK, kind]) + (len(plaintext) + TAG).to_bytes(2, "little")
    return associated + nonce + sealed_part(key, nonce, associated, plaintext)


def some_frame(rng, kind=None):
    kind = kind or rng.choice(list(frames.PLAINTEXT))
    return frame(kind, some_cipher_key(rng), rng.randbytes(12), some_plaintext(kind, rng))


def with_length(data, length):
    return data[:2] + length.to_bytes(2, "little") + data[4:]


# around the ends of every kind's lengths, and around what their low bytes alone could be taken for
KIND_ENDS = sorted({end + TAG for ends in frames.PLAINTEXT.values() for end in ends})
SEALED_LENGTHS = (0, 1, *around(*KIND_ENDS, 256, 336, 512), 32 + 256, 16 + 32768, 65535)


def broken_fronts(rng):
    """Frames wrong in their first four bytes: every first byte, every kind, lengths around each edge, with bytes
    missing besides or not."""
    key, nonce = rng.randbytes(16), rng.randbytes(12)
    for kind in frames.PLAINTEXT:
        whole = frame(kind, key, nonce, some_plaintext(kind, rng))
        for length in SEALED_LENGTHS:
            yield key, with_length(whole, length)
            yield key, with_length(whole + bytes(400), length)
            yield key, with_length(whole, length)[:4]
    for byte in range(256):
        yield key, bytes([byte]) + whole[1:]
        yield key, bytes([frames.MARK, byte]) + whole[2:]


# ---- write

def write_line(kind, key, nonce, plaintext, room):
    return line("write", kind, key, nonce, plaintext, room)


def write_edges(rng):
    key, nonce = rng.randbytes(16), rng.randbytes(12)
    for kind in range(256):
        yield write_line(kind, key, nonce, rng.randbytes(kind % 3), 40)
    for kind in frames.PLAINTEXT:
        for n in (*range(18), 32, *around(TEXT_MOST, TEXT_MOST + TAG), *around(limits.MAX_PLAINTEXT)[1:]):
            plaintext = some_position(rng)[:n].ljust(n, b"\0") if kind == frames.POSITION else rng.randbytes(n)
            yield write_line(kind, some_cipher_key(rng), nonce, plaintext, n + OVERHEAD)
        plaintext = some_plaintext(kind, rng)
        for room in (0, 16, len(plaintext) + TAG, *around(len(plaintext) + OVERHEAD), 70_000):
            yield write_line(kind, key, nonce, plaintext, room)
    for plaintext in edge_positions():
        yield write_line(frames.POSITION, key, nonce, plaintext, len(plaintext) + OVERHEAD)
    for n in range(67):
        yield write_line(frames.CHECK_IN, rng.randbytes(n), nonce, b"", OVERHEAD)
        yield write_line(frames.CHECK_IN, key, rng.randbytes(n), b"", OVERHEAD)
    yield from write_refusals(rng)


def write_refusals(rng):
    """Every set of faults at once: 10, 11, 13, 1, 2, 7."""
    for faults in subsets(("kind", "length", "range", "key", "nonce", "room")):
        for kind in frames.PLAINTEXT:
            plaintext = some_plaintext(kind, rng)
            if "range" in faults and kind == frames.POSITION:
                plaintext = bad_position(rng)
            if "length" in faults:
                plaintext = rng.randbytes(rng.choice([17, 170])) if kind != frames.TEXT else rng.randbytes(TEXT_MOST + 1)
            yield write_line(
                rng.choice(NO_KINDS) if "kind" in faults else kind,
                rng.randbytes(rng.choice(WRONG_KEY_LENGTHS)) if "key" in faults else some_cipher_key(rng),
                rng.randbytes(rng.choice(WRONG_NONCE_LENGTHS)) if "nonce" in faults else rng.randbytes(12),
                plaintext,
                len(plaintext) + OVERHEAD - ("room" in faults))


def write_draw(rng):
    kind = rng.choice(list(frames.PLAINTEXT))
    plaintext = bad_position(rng) if kind == frames.POSITION and rng.random() < 0.3 else some_plaintext(kind, rng)
    room = len(plaintext) + OVERHEAD + (rng.randrange(-3, 30) if rng.random() < 0.3 else 0)
    return write_line(kind, some_cipher_key(rng), rng.randbytes(12), plaintext, room)


# ---- read

def read_line(key, data, room):
    return line("read", key, data, room)


def read_edges(rng):
    for kind in frames.PLAINTEXT:
        for size in limits.SEALING_KEYS:
            key, nonce = rng.randbytes(size), rng.randbytes(12)
            plaintext = some_plaintext(kind, rng)[:21]
            whole = frame(kind, key, nonce, plaintext)
            yield from damaged_readings(key, whole, len(plaintext), rng)
            for room in (*range(len(plaintext)), len(plaintext), len(plaintext) + 1, 200):
                yield read_line(key, whole, room)
    key = rng.randbytes(32)
    for plaintext in edge_positions():
        yield read_line(key, frame(frames.POSITION, key, rng.randbytes(12), plaintext), 16)
    for n in range(TEXT_LEAST, TEXT_MOST + 1):
        yield read_line(key, frame(frames.TEXT, key, rng.randbytes(12), rng.randbytes(n)), n + n % 2)
    for key, broken in broken_fronts(rng):
        yield read_line(key, broken, 400)
    whole = some_frame(rng, frames.CHECK_IN)
    for n in range(67):
        yield read_line(rng.randbytes(n), whole, 0)
    yield from read_refusals(rng)


def damaged_readings(key, whole, room, rng):
    """Cut at every byte, damaged in every byte, and followed by more."""
    for n in range(len(whole)):
        yield read_line(key, whole[:n], room)
    for bad in damaged_everywhere(whole, rng):
        yield read_line(key, bad, room)
    for after in (b"\0", b"K", whole, rng.randbytes(30)):
        yield read_line(key, whole + after, room)


def read_refusals(rng):
    """Every set of faults at once: 9, 10, 11, 12, 1, 7, 8, 13."""
    for faults in subsets(("mark", "kind", "length", "cut", "key", "room", "tag", "range")):
        key = some_cipher_key(rng)
        plaintext = bad_position(rng) if "range" in faults else some_position(rng)
        data = frame(frames.POSITION, key, rng.randbytes(12), plaintext)
        if "tag" in faults:
            data = data[:-1] + bytes([data[-1] ^ 1])
        if "length" in faults:
            data = with_length(data, rng.choice([TAG, 31, 33, TEXT_MOST + TAG]))
        if "kind" in faults:
            data = data[:1] + bytes([rng.choice(NO_KINDS)]) + data[2:]
        if "mark" in faults:
            data = bytes([rng.choice([0, 0x4A, 0x6B])]) + data[1:]
        if "cut" in faults:
            data = data[:rng.randrange(len(data))]
        wrong = rng.randbytes(rng.choice(WRONG_KEY_LENGTHS))
        yield read_line(wrong if "key" in faults else key, data, 15 if "room" in faults else 16)


def read_draw(rng):
    kind = rng.choice(list(frames.PLAINTEXT))
    key = some_cipher_key(rng)
    plaintext = bad_position(rng) if kind == frames.POSITION and rng.random() < 0.2 else some_plaintext(kind, rng)
    data = frame(kind, key, rng.randbytes(12), plaintext)
    chance = rng.random()
    if chance < 0.2:
        data = rng.choice(damaged_everywhere(data, rng))
    elif chance < 0.4:
        data = data[:rng.randrange(len(data))]
    elif chance < 0.5:
        data += rng.randbytes(rng.randrange(40))
    room = len(plaintext) + (rng.randrange(-3, 30) if rng.random() < 0.3 else 0)
    return read_line(key, data, max(0, room))


# ---- scan

def log_of(count, rng):
    return b"".join(some_frame(rng) for _ in range(count))


def scan_edges(rng):
    yield line("scan", b"")
    for kind in frames.PLAINTEXT:
        whole = some_frame(rng, kind)[:60 if kind == frames.TEXT else None]
        before = log_of(rng.randrange(3), rng)
        for n in range(len(whole) + 1):
            yield line("scan", before + whole[:n])
    for _, broken in broken_fronts(rng):
        yield line("scan", log_of(rng.randrange(2), rng) + broken)
    log = some_frame(rng, frames.CHECK_IN) + some_frame(rng, frames.POSITION) + some_frame(rng, frames.CHECK_IN)
    for bad in damaged_everywhere(log, rng):
        yield line("scan", bad)
    for n in range(1, 13):
        yield line("scan", log_of(n, rng))
    yield line("scan", b"".join([some_frame(rng, frames.CHECK_IN)] * 4600))


def scan_draw(rng):
    log = log_of(rng.randrange(6), rng)
    chance = rng.random()
    if log and chance < 0.4:
        log = log[:rng.randrange(len(log))]
    elif log and chance < 0.6:
        log = rng.choice(damaged_everywhere(log, rng))
    elif chance < 0.8:
        log += rng.choice([b"K", b"K\x01", b"K\x02\x20", b"K\x03\x10\x00", b"K\x04", b"J", b"\0"])
    return line("scan", log)


GROUPS = [
    Group("write", write_edges, write_draw),
    Group("read", read_edges, read_draw),
    Group("scan", scan_edges, scan_draw),
]
