"""The line protocol: words to values, the call, values to words. A line that is no request answers `?`."""

import re

import aes
import field
import frames
import hashing
import sealing

LONGEST_LINE = 300_000
LARGEST_ROOM = 70_000
UNTOUCHED = 0xA5


class BadLine(Exception):
    """A word that is not of the form its place asks for."""


# ---- reading words

BYTES = re.compile(r"(?:[0-9a-f]{2})+")


def as_data(word):
    """Bytes of any length: lower-case hex, `-` for none."""
    if word == "-":
        return b""
    if not BYTES.fullmatch(word):
        raise BadLine
    return bytes.fromhex(word)


def fixed(*lengths):
    def parse(word):
        value = as_data(word)
        if len(value) not in lengths:
            raise BadLine
        return value
    return parse


def number(largest):
    """A decimal number. Zeros in front do not make it large, however many they are."""
    def parse(word):
        digits = word.lstrip("0") or "0"
        if not re.fullmatch("[0-9]+", word) or len(digits) > 20 or int(digits) > largest:
            raise BadLine
        return int(digits)
    return parse


def product_word(digits):
    """A word of the carryless product: hex with all its digits, highest first."""
    def parse(word):
        if len(word) != digits or not BYTES.fullmatch(word):
            raise BadLine
        return int(word, 16)
    return parse


def as_route(word):
    if word not in ("wide", "narrow", "rf"):
        raise BadLine
    return word


as_block = fixed(16)
as_cipher_key = fixed(16, 32)
as_word64 = product_word(16)
as_word32 = product_word(8)
as_room = number(LARGEST_ROOM)
as_count = number((1 << 64) - 1)
as_kind = number(255)


def as_element(word):
    return field.element(as_block(word))


def as_key(word):
    """The stored key: each power of H and its D value."""
    stored = fixed(32 * hashing.POWERS)(word)
    values = [field.element(stored[at:at + 16]) for at in range(0, len(stored), 16)]
    return tuple(hashing.Power(h, d) for h, d in zip(values[::2], values[1::2]))


def as_record(word):
    parts = word.split(":")
    if len(parts) != 4:
        raise BadLine
    key, acc, pending, count = parts
    return hashing.Record(as_key(key), as_element(acc), as_block(pending), as_count(count))


# ---- writing words

def show(value):
    return value.hex() or "-"


def show_element(a):
    return show(field.to_bytes(a))


def show_word(digits, value):
    return f"{value:0{digits}x}"


def show_key(value):
    return "".join(show_element(power.h) + show_element(power.d) for power in value)


def show_record(value):
    return f"{show_key(value.key)}:{show_element(value.acc)}:{show(value.pending)}:{value.count}"


def show_buffer(size, written):
    """All of the output buffer after a call that wrote these bytes at its front."""
    return show(written + bytes([UNTOUCHED]) * (size - len(written)))


# ---- the requests: each answers its words

def product64(x, y):
    low, high = field.words(field.carryless(x, y))
    return show_word(16, low), show_word(16, high)


def bmul32(x, y):
    return (show_word(8, field.carryless(x, y) % (1 << 32)),)


def reversal(digits):
    def answer(x):
        return (show_word(digits, int(f"{x:0{4 * digits}b}"[::-1], 2)),)
    return answer


def on_elements(function):
    def answer(*elements):
        return (show_element(function(*elements)),)
    return answer


def rf(a, b):
    return field.rf_product(a, b, field.companion(b))


def expand(h):
    return show_key(hashing.expand(h)), hashing.COST_OF_EXPANSION


def check(key):
    return (int(hashing.check(key)),)


def with_record(function):
    def answer(*arguments):
        number, record, *count = function(*arguments)
        return number, show_record(record), *count
    return answer


def finish(route, record):
    answer, tag, count = hashing.finish(route, record)
    return answer, show_element(tag), count


def ghash(key, blocks):
    answer, tag = hashing.ghash(key, blocks)
    return answer, show(tag)


def encrypt(key, block):
    return (show(aes.encrypt(key, block)),)


def with_buffer(function):
    """A call whose last argument is the room of its output, of which it gives the front."""
    def answer(*arguments):
        number, written = function(*arguments)
        return number, show_buffer(arguments[-1], written)
    return answer


def write(*arguments):
    answer, frame = frames.write(*arguments)
    return answer, len(frame), show_buffer(arguments[-1], frame)


def read(key, data, room):
    message = frames.read(key, data, room)
    out = show_buffer(room, message.plaintext)
    if message.answer:
        return "refused", message.answer, out
    if message.kind == frames.POSITION:
        return "position", *frames.position_of(message.plaintext), message.taken, out
    if message.kind == frames.TEXT:
        return "text", len(message.plaintext), message.taken, out
    return "check-in", message.taken, out


def scan(log):
    prefix, count, stop = frames.scan(log)
    return show(prefix), count, stop


# Each request's function, then what its words are.
REQUESTS = {
    "product64": (product64, as_word64, as_word64),
    "bmul32": (bmul32, as_word32, as_word32),
    "reverse64": (reversal(16), as_word64),
    "reverse32": (reversal(8), as_word32),
    "add": (on_elements(lambda a, b: a ^ b), as_element, as_element),
    "dot": (on_elements(field.dot), as_element, as_element),
    "dot32": (on_elements(field.dot), as_element, as_element),
    "rf": (on_elements(rf), as_element, as_element),
    "mulx": (on_elements(field.mulx), as_element),
    "reverse": (on_elements(field.reverse), as_element),
    "expand": (expand, as_element),
    "check": (check, as_key),
    "start": (with_record(hashing.start), as_data),
    "blocks": (with_record(hashing.feed_blocks), as_route, as_record, as_data),
    "padded": (with_record(hashing.feed_padded), as_route, as_record, as_data),
    "piece": (with_record(hashing.feed_piece), as_route, as_record, as_data),
    "finish": (finish, as_route, as_record),
    "reset": (with_record(hashing.reset), as_record),
    "join": (with_record(hashing.join), as_record, as_record, as_count),
    "ghash": (ghash, as_data, as_data),
    "aes": (encrypt, as_cipher_key, as_block),
    "seal": (with_buffer(sealing.seal), as_data, as_data, as_data, as_data, as_room),
    "open": (with_buffer(sealing.open_sealed), as_data, as_data, as_data, as_data, as_room),
    "write": (write, as_kind, as_data, as_data, as_data, as_room),
    "read": (read, as_data, as_data, as_room),
    "scan": (scan, as_data),
}


def answer_line(line):
    """The answer to one line, given as bytes without its end."""
    if len(line) > LONGEST_LINE or not line.isascii():
        return "?"
    name, *words = line.decode("ascii").split(" ")
    if name not in REQUESTS:
        return "?"
    function, *parsers = REQUESTS[name]
    if len(words) != len(parsers):
        return "?"
    try:
        values = [parse(word) for parse, word in zip(parsers, words)]
    except BadLine:
        return "?"
    return " ".join(str(word) for word in function(*values))
