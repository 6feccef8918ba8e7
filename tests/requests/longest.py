"""The vectors of tests/long, whose texts are too long to be stored: all of a text but its first block, and the associated data, come out of
SHAKE128 (FIPS 202), which shares nothing with what is tested."""

import hashlib
from collections import namedtuple
from pathlib import Path

Vector = namedtuple("Vector", "key nonce data text tag digest")


def text_of(first, length):
    return first + hashlib.shake_128(b"a text").digest(length - len(first))


def data_of(length):
    return hashlib.shake_128(b"associated data").digest(length)


def read_row(row):
    request, answer = row.split(" = ")
    key, nonce, data, length, first = request.split(" ")
    tag, digest = answer.split(" ")
    return Vector(bytes.fromhex(key), bytes.fromhex(nonce), data_of(int(data)), text_of(bytes.fromhex(first), int(length)), bytes.fromhex(tag), digest)


def vectors():
    rows = (Path(__file__).resolve().parents[1] / "long/vectors").read_text().splitlines()
    return [read_row(row) for row in rows if not row.startswith("#")]


def first_count(vector):
    """RFC 8452 section 4, AES_CTR: the tag's first four bytes are where the counter starts."""
    return int.from_bytes(vector.tag[:4], "little")


def block_count(vector):
    return -(-len(vector.text) // 16)
