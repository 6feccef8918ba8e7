"""Requests on hash records: start, feeds, finish, reset, join; and GHASH."""

from values import (Group, ONES, PENDING_COUNTS, ROUTES, SHORT_LENGTHS, SPECIAL_ELEMENTS, UNIT, ZERO, altered_keys,
                    damaged_everywhere, flipped, key_bytes, line, record, some_bytes, some_count, some_element,
                    some_key, some_record)


def start_edges(rng):
    lengths = [rng.randbytes(n) for n in SHORT_LENGTHS]
    return [line("start", key) for key in (*lengths, *SPECIAL_ELEMENTS)]


def start_draw(rng):
    return line("start", some_element(rng) if rng.random() < 0.8 else some_bytes(rng))


def altered_records(rng):
    """A record altered in each field: each stored element, the accumulator, the pending bytes."""
    h = rng.randbytes(16)
    yield from (record(key, rng.randbytes(16)) for key in altered_keys(h, rng))
    for acc in SPECIAL_ELEMENTS:
        yield record(key_bytes(h), acc)
    for pending in (ZERO, ONES, rng.randbytes(16)):
        yield record(key_bytes(h), rng.randbytes(16), pending)


def feed_group(name):
    def edges(rng):
        for route in ROUTES:
            for n in (*SHORT_LENGTHS, *range(80, 336, 16)):
                right = record(key_bytes(rng.randbytes(16)), rng.randbytes(16), rng.randbytes(16))
                yield line(name, route, right, rng.randbytes(n))
            for count in PENDING_COUNTS:
                pending = record(some_key(rng), rng.randbytes(16), rng.randbytes(16), count)
                for n in (0, 16 - count % 16, rng.choice([1, 15, 17, 33]), 64):
                    yield line(name, route, pending, rng.randbytes(n))
            for altered in altered_records(rng):
                yield line(name, route, altered, rng.randbytes(16 * rng.randrange(10)))
            for h in SPECIAL_ELEMENTS:
                yield line(name, route, record(key_bytes(h)), rng.randbytes(16 * rng.randrange(1, 10)))

    def draw(rng):
        """Half on the route that has groups of four; mostly with nothing pending, which two of the feeds refuse."""
        route = rng.choice([*ROUTES, "rf"])
        count = 0 if name != "piece" and rng.random() < 0.9 else some_count(rng)
        stored = record(some_key(rng), some_element(rng), rng.randbytes(16), count)
        data = rng.randbytes(16 * rng.randrange(20)) if rng.random() < 0.7 else some_bytes(rng, 640)
        return line(name, route, stored, data)
    return Group(name, edges, draw)


def finish_edges(rng):
    for route in ROUTES:
        for count in PENDING_COUNTS:
            yield line("finish", route, record(some_key(rng), rng.randbytes(16), rng.randbytes(16), count))
        for altered in altered_records(rng):
            yield line("finish", route, altered)


def finish_draw(rng):
    return line("finish", rng.choice(ROUTES), some_record(rng))


def reset_edges(rng):
    for count in PENDING_COUNTS:
        yield line("reset", record(some_key(rng), rng.randbytes(16), rng.randbytes(16), count))


def block_counts():
    """Around every power of two, where a step of the halving more or less shows."""
    return sorted({n for i in range(65) for n in ((1 << i) - 1, 1 << i, (1 << i) + 1) if n < 1 << 64})


def join_edges(rng):
    h = rng.randbytes(16)
    key = key_bytes(h)

    def joined(first, second, n):
        return line("join", first, second, n)

    def part(stored, count=0):
        return record(stored, rng.randbytes(16), rng.randbytes(16), count)
    for n in block_counts():
        yield joined(part(key), part(key), n)
    for special in SPECIAL_ELEMENTS:
        yield joined(part(key_bytes(special)), part(key_bytes(special)), rng.getrandbits(64))
    for count in PENDING_COUNTS:
        yield joined(part(key, count), part(key), 3)
        yield joined(part(key), part(key, count), 3)
        yield joined(part(key, count), part(key, 1), 3)
    # unlike keys differ in one byte of H; a difference elsewhere in the stored key does not matter
    for other in damaged_everywhere(h, rng):
        yield joined(part(key), part(key_bytes(other)), 2)
        yield joined(part(key, 7), part(key_bytes(other)), 2)
    for altered in altered_keys(h, rng):
        yield joined(part(altered), part(key), 5)
        yield joined(part(key), part(altered), 5)


def join_draw(rng):
    n = rng.getrandbits(rng.randrange(1, 65))
    if rng.random() < 0.2:
        return line("join", some_record(rng), some_record(rng), n)
    h = some_element(rng)
    key = key_bytes(h)
    other = h + rng.randbytes(len(key) - 16) if rng.random() < 0.3 else key
    return line("join", record(key, some_element(rng), rng.randbytes(16)), record(other, some_element(rng)), n)


def ghash_edges(rng):
    for n in SHORT_LENGTHS:
        yield line("ghash", rng.randbytes(16), rng.randbytes(n))
        yield line("ghash", rng.randbytes(n), rng.randbytes(16 * (n % 3)))
        yield line("ghash", rng.randbytes(n), rng.randbytes(17))
    for key in SPECIAL_ELEMENTS:
        for block in SPECIAL_ELEMENTS:
            yield line("ghash", key, block)


def ghash_draw(rng):
    return line("ghash", some_element(rng), rng.randbytes(16 * rng.randrange(12)))


GROUPS = [
    Group("start", start_edges, start_draw),
    feed_group("blocks"),
    feed_group("padded"),
    feed_group("piece"),
    Group("finish", finish_edges, finish_draw),
    Group("reset", reset_edges, lambda rng: line("reset", some_record(rng))),
    Group("join", join_edges, join_draw),
    Group("ghash", ghash_edges, ghash_draw),
]
