"""Frames: document 01, "Frame (ours)", "Answers" and "Cases"."""

from collections import namedtuple

import limits
import sealing

MARK = 0x4B
HEADER = 16
ASSOCIATED = 4

POSITION = 1
TEXT = 2
CHECK_IN = 3

# Least and greatest plaintext of each kind.
PLAINTEXT = {POSITION: (16, 16), TEXT: (1, 160), CHECK_IN: (0, 0)}

LATITUDE = (-900_000_000, 900_000_000)
LONGITUDE = (-1_800_000_000, 1_800_000_000)
ALTITUDE = (-50_000, 1_000_000)

Position = namedtuple("Position", "lat lon alt time")

# What was read: the refusal, or DONE with the kind, the plaintext and the bytes taken.
Message = namedtuple("Message", "answer kind plaintext taken")


def position_of(plaintext):
    """Four little-endian fields of 32 bits; all but the time are signed."""
    def signed(at):
        return int.from_bytes(plaintext[at:at + 4], "little", signed=True)
    return Position(signed(0), signed(4), signed(8), int.from_bytes(plaintext[12:16], "little"))


def in_range(position):
    ranges = zip(position, (LATITUDE, LONGITUDE, ALTITUDE))
    return all(least <= value <= greatest for value, (least, greatest) in ranges)


def bad_position(kind, plaintext):
    return kind == POSITION and not in_range(position_of(plaintext))


def length_allowed(kind, length):
    least, greatest = PLAINTEXT[kind]
    return least <= length <= greatest


def front(data):
    """(answer, sealed length) of the frame that data begins with: 9, 10, 11, 12 in this order, and 12 at
    any check whose byte is missing."""
    if len(data) < 1:
        return limits.CUT_SHORT, 0
    if data[0] != MARK:
        return limits.NOT_A_FRAME, 0
    if len(data) < 2:
        return limits.CUT_SHORT, 0
    if data[1] not in PLAINTEXT:
        return limits.UNKNOWN_KIND, 0
    if len(data) < 4:
        return limits.CUT_SHORT, 0
    sealed = int.from_bytes(data[2:4], "little")
    if not length_allowed(data[1], sealed - 16):
        return limits.LENGTH_FOR_KIND, 0
    if len(data) < HEADER + sealed:
        return limits.CUT_SHORT, 0
    return limits.DONE, sealed


def write(kind, key, nonce, plaintext, room):
    """(answer, frame). Order: 10, 11, 13, then sealing's; the frame needs 32 bytes besides the plaintext,
    and less is 7 at sealing's place."""
    if kind not in PLAINTEXT:
        return limits.UNKNOWN_KIND, b""
    if not length_allowed(kind, len(plaintext)):
        return limits.LENGTH_FOR_KIND, b""
    if bad_position(kind, plaintext):
        return limits.OUT_OF_RANGE, b""
    associated = bytes([MARK, kind]) + (len(plaintext) + 16).to_bytes(2, "little")
    answer, sealed = sealing.seal(key, nonce, associated, plaintext, room - HEADER)
    return answer, associated + nonce + sealed if answer == limits.DONE else b""


def read(key, data, room):
    """The first frame of data. Order: 9, 10, 11, 12, then opening's, then 13."""
    def refused(answer):
        return Message(answer, 0, b"", 0)
    answer, length = front(data)
    if answer:
        return refused(answer)
    nonce, sealed = data[ASSOCIATED:HEADER], data[HEADER:HEADER + length]
    answer, plaintext = sealing.open_sealed(key, nonce, data[:ASSOCIATED], sealed, room)
    if answer:
        return refused(answer)
    if bad_position(data[1], plaintext):
        return refused(limits.OUT_OF_RANGE)
    return Message(limits.DONE, data[1], plaintext, HEADER + length)


def scan(log):
    """(the longest prefix made of whole frames, how many, why it stopped)."""
    at = frames = 0
    while at < len(log):
        stop, length = front(log[at:])
        if stop:
            return log[:at], frames, stop
        at += HEADER + length
        frames += 1
    return log, frames, limits.DONE
