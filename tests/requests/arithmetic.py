"""Requests on words and field elements, expanded keys and AES blocks."""

from values import (Group, ONES, SINGLE_BITS, SPECIAL_ELEMENTS, UNIT, ZERO, altered_keys, damaged_everywhere,
                    key_bytes, line, some_element, some_key)


def special_words(bits):
    """Zero, one, all ones, the top bit, the masks with holes of document 01's word product, and P1's upper digits."""
    ones = (1 << bits) - 1
    holes = [ones // 15 << shift & ones for shift in range(4)]
    return [0, 1, ones, 1 << bits - 1, ones // 3, ones // 3 << 1 & ones, 0xC2 << bits - 8, *holes]


def words_group(name, bits, arity):
    def shown(x):
        return f"{x:0{bits // 4}x}"

    def edges(rng):
        special = special_words(bits)
        single = [1 << i for i in range(bits)]
        if arity == 1:
            return [line(name, shown(x)) for x in special + single]
        pairs = [(x, y) for x in special for y in special]
        pairs += [(x, y) for x in single for y in (special[2], 1 << rng.randrange(bits), rng.getrandbits(bits))]
        return [line(name, shown(x), shown(y)) for x, y in pairs]

    def draw(rng):
        return line(name, *(shown(rng.getrandbits(bits) & rng.choice([-1, rng.getrandbits(bits)])) for _ in range(arity)))
    return Group(name, edges, draw)


def elements_group(name, arity):
    def edges(rng):
        if arity == 1:
            return [line(name, a) for a in SPECIAL_ELEMENTS + SINGLE_BITS]
        pairs = [(a, b) for a in SPECIAL_ELEMENTS for b in SPECIAL_ELEMENTS]
        pairs += [(a, b) for a in SINGLE_BITS for b in (UNIT, ONES, rng.randbytes(16))]
        return [line(name, a, b) for a, b in pairs]

    def draw(rng):
        return line(name, *(some_element(rng) for _ in range(arity)))
    return Group(name, edges, draw)


def check_edges(rng):
    right = [key_bytes(h) for h in SPECIAL_ELEMENTS + (rng.randbytes(16),)]
    wrong = [key for h in (ZERO, UNIT, rng.randbytes(16)) for key in altered_keys(h, rng)]
    damaged = damaged_everywhere(right[-1], rng)
    return [line("check", key) for key in right + wrong + damaged]


def aes_edges(rng):
    """Each single bit of the key and of the block."""
    for size in (16, 32):
        yield from (line("aes", key, ZERO) for key in damaged_everywhere(bytes(size), rng))
        yield from (line("aes", bytes(size), block) for block in (ZERO, ONES) + SINGLE_BITS[::8])


def aes_draw(rng):
    return line("aes", rng.randbytes(rng.choice([16, 32])), some_element(rng))


GROUPS = [
    words_group("product64", 64, 2),
    words_group("bmul32", 32, 2),
    words_group("reverse64", 64, 1),
    words_group("reverse32", 32, 1),
    elements_group("add", 2),
    elements_group("dot", 2),
    elements_group("dot32", 2),
    elements_group("rf", 2),
    elements_group("mulx", 1),
    elements_group("reverse", 1),
    elements_group("expand", 1),
    Group("check", check_edges, lambda rng: line("check", some_key(rng))),
    Group("aes", aes_edges, aes_draw),
]
