"""POLYVAL with its record, the feeds, joining and GHASH: RFC 8452 section 3 and appendix A, SP 800-38D
section 6.4, and document 01, "Feeding and joining" and "Cost".

A call answers (answer, record or tag, count). On a refusal whatever it returns is zero."""

from collections import namedtuple

import field
import limits

POWERS = 4
BLOCK = 16

# Document 01, "Cost": counted multiplies of the R/F route.
COST_OF_EXPANSION = 19
COST_OF_LONE_BLOCK = 5
COST_OF_GROUP = 17

Power = namedtuple("Power", "h d")
Record = namedtuple("Record", "key acc pending count")

ZERO_BLOCK = bytes(BLOCK)
ZERO_RECORD = Record((Power(0, 0),) * POWERS, 0, ZERO_BLOCK, 0)


def cut(data):
    """The blocks of a string as elements, the last short one filled with zeros; none for an empty string."""
    filled = data + bytes(-len(data) % BLOCK)
    return [field.element(filled[at:at + BLOCK]) for at in range(0, len(filled), BLOCK)]


def polyval(h, blocks):
    """RFC 8452 section 3: S starts at zero; for each block X, S becomes dot(S + X, H)."""
    s = 0
    for x in blocks:
        s = field.dot(s ^ x, h)
    return s


# ---- keys

def expand(h):
    """The powers H, H^2, .. taken by dot, each with its D value."""
    powers = [h]
    while len(powers) < POWERS:
        powers.append(field.dot(powers[-1], h))
    return tuple(Power(p, field.companion(p)) for p in powers)


def check(key):
    """Yes exactly when every stored power and D value belongs to the first power, which is H."""
    return key == expand(key[0].h)


# ---- blocks on a route

def lone_block(route, key, acc, x):
    """One step. The R/F route computes on the stored values; the others read H alone."""
    h, d = key[0]
    if route == "rf":
        return field.rf_product(acc ^ x, h, d)
    return field.dot(acc ^ x, h)


def group(key, acc, blocks):
    """A group of four on the R/F route: the accumulator joins the first block, which meets the highest
    power, and the sums of R and F are reduced once."""
    r = f = 0
    for x, power in zip([acc ^ blocks[0], *blocks[1:]], reversed(key)):
        r_part, f_part = field.rf_unreduced(x, *power)
        r ^= r_part
        f ^= f_part
    return field.rf_reduce(r, f)


def lone_blocks(route, key, acc, blocks):
    for x in blocks:
        acc = lone_block(route, key, acc, x)
    return acc, COST_OF_LONE_BLOCK * len(blocks) if route == "rf" else 0


def whole_call(route, key, acc, blocks):
    """All blocks of one whole-block or padded call: groups from the front, then lone blocks."""
    grouped = len(blocks) // POWERS * POWERS if route == "rf" else 0
    for at in range(0, grouped, POWERS):
        acc = group(key, acc, blocks[at:at + POWERS])
    acc, cost = lone_blocks(route, key, acc, blocks[grouped:])
    return acc, cost + COST_OF_GROUP * (grouped // POWERS)


# ---- the calls of document 01; their refusals in its order: 1, 14, 3

def refused(answer):
    return answer, ZERO_RECORD, 0


def start(key):
    if len(key) != limits.HASH_KEY:
        return refused(limits.KEY_LENGTH)
    return limits.DONE, Record(expand(field.element(key)), 0, ZERO_BLOCK, 0), COST_OF_EXPANSION


def feed_whole(route, record, data):
    """What whole-block and padded feeds share once they are not refused."""
    acc, cost = whole_call(route, record.key, record.acc, cut(data))
    return limits.DONE, Record(record.key, acc, ZERO_BLOCK, 0), cost


def feed_blocks(route, record, data):
    if record.count != 0:
        return refused(limits.BAD_RECORD)
    if len(data) % BLOCK != 0:
        return refused(limits.NOT_WHOLE_BLOCKS)
    return feed_whole(route, record, data)


def feed_padded(route, record, data):
    if record.count != 0:
        return refused(limits.BAD_RECORD)
    return feed_whole(route, record, data)


def feed_piece(route, record, data):
    """Takes lone blocks as they are completed and keeps up to 15 bytes for the next call."""
    if record.count >= BLOCK:
        return refused(limits.BAD_RECORD)
    held = record.pending[:record.count] + data
    completed = len(held) // BLOCK * BLOCK
    acc, cost = lone_blocks(route, record.key, record.acc, cut(held[:completed]))
    rest = held[completed:]
    return limits.DONE, Record(record.key, acc, rest.ljust(BLOCK, b"\0"), len(rest)), cost


def finish(route, record):
    """The hash: pending bytes are filled with zeros to a last lone block."""
    if record.count >= BLOCK:
        return limits.BAD_RECORD, 0, 0
    last = cut(record.pending[:record.count])
    return limits.DONE, *lone_blocks(route, record.key, record.acc, last)


def reset(record):
    if record.count >= BLOCK:
        return limits.BAD_RECORD, ZERO_RECORD
    return limits.DONE, Record(record.key, 0, ZERO_BLOCK, 0)


def join(first, second, n):
    """A·H^n + B through dot. Document 01 bounds the dots by 128; halving n, with a square only where a bit
    is left that needs it, spends one for each set bit of n and one for each bit after the first."""
    if first.count != 0 or second.count != 0 or first.key[0].h != second.key[0].h:
        return refused(limits.BAD_RECORD)
    acc, power, dots = first.acc, first.key[0].h, 0
    while n:
        if n & 1:
            acc = field.dot(acc, power)
            dots += 1
        n >>= 1
        if n:
            power = field.dot(power, power)
            dots += 1
    return limits.DONE, Record(first.key, acc ^ second.acc, ZERO_BLOCK, 0), dots


# ---- GHASH: SP 800-38D

GHASH_R = 0xE1 << 120


def ghash_product(x, y):
    """SP 800-38D section 6.3, algorithm 1: bit 0 is the leftmost bit of the block."""
    z, v = 0, y
    for i in range(127, -1, -1):
        if x >> i & 1:
            z ^= v
        v = v >> 1 ^ GHASH_R if v & 1 else v >> 1
    return z


def ghash_by_definition(key, data):
    """SP 800-38D section 6.4, algorithm 2."""
    h = int.from_bytes(key, "big")
    y = 0
    for at in range(0, len(data), BLOCK):
        y = ghash_product(y ^ int.from_bytes(data[at:at + BLOCK], "big"), h)
    return y.to_bytes(BLOCK, "big")


def ghash_refusal(key, data):
    if len(key) != limits.HASH_KEY:
        return limits.KEY_LENGTH
    if len(data) % BLOCK != 0:
        return limits.NOT_WHOLE_BLOCKS
    return limits.DONE


def ghash(key, data):
    """The tag by SP 800-38D's own definition: that it is POLYVAL with reversed bytes (RFC 8452 appendix A)
    is then tested by every comparison, not assumed."""
    answer = ghash_refusal(key, data)
    return answer, ZERO_BLOCK if answer else ghash_by_definition(key, data)
