"""AES-GCM-SIV: RFC 8452 sections 4 and 5, with the limits and answers of document 01.

`seal` and `open_sealed` answer (answer, bytes to write); where they refuse there is nothing to write."""

import aes
import field
import hashing
import limits


def derive(key, nonce):
    """Section 4: the hash key and the cipher key. Of each encrypted counter block the first 8 bytes are kept."""
    count = 4 if len(key) == 16 else 6
    halves = [aes.encrypt(key, i.to_bytes(4, "little") + nonce)[:8] for i in range(count)]
    return b"".join(halves[:2]), b"".join(halves[2:])


def tag_of(hash_key, cipher_key, nonce, data, plaintext):
    """Section 4: each part is padded by itself, then comes the block of both bit lengths."""
    lengths = (8 * len(data)).to_bytes(8, "little") + (8 * len(plaintext)).to_bytes(8, "little")
    blocks = hashing.cut(data) + hashing.cut(plaintext) + hashing.cut(lengths)
    s = field.to_bytes(hashing.polyval(field.element(hash_key), blocks))
    masked = bytearray(a ^ b for a, b in zip(s, nonce + bytes(4)))
    masked[15] &= 0x7F
    return aes.encrypt(cipher_key, bytes(masked))


def counter_mode(cipher_key, tag, text):
    """Section 4, AES_CTR: the first 4 bytes of the counter block count, little-endian, and wrap at 2^32."""
    block = bytearray(tag)
    block[15] |= 0x80
    first, rest = int.from_bytes(block[:4], "little"), bytes(block[4:])
    out = bytearray()
    for i, at in enumerate(range(0, len(text), 16)):
        counter = (first + i) % (1 << 32)
        stream = aes.encrypt(cipher_key, counter.to_bytes(4, "little") + rest)
        out += bytes(a ^ b for a, b in zip(text[at:at + 16], stream))
    return bytes(out)


def refusal_of_inputs(key, nonce, data):
    """What sealing and opening refuse alike, in document 01's order: 1, 2, 4."""
    if len(key) not in limits.SEALING_KEYS:
        return limits.KEY_LENGTH
    if len(nonce) != limits.NONCE:
        return limits.NONCE_LENGTH
    if len(data) > limits.MAX_AD:
        return limits.AD_TOO_LONG
    return limits.DONE


def seal(key, nonce, data, plaintext, room):
    """Section 4. Order of refusals: 1, 2, 4, 5, 7."""
    answer = refusal_of_inputs(key, nonce, data)
    if answer:
        return answer, b""
    if len(plaintext) > limits.MAX_PLAINTEXT:
        return limits.TEXT_TOO_LONG, b""
    if room < len(plaintext) + 16:
        return limits.NO_ROOM, b""
    hash_key, cipher_key = derive(key, nonce)
    tag = tag_of(hash_key, cipher_key, nonce, data, plaintext)
    return limits.DONE, counter_mode(cipher_key, tag, plaintext) + tag


def open_sealed(key, nonce, data, sealed, room):
    """Section 5. Order of refusals: 1, 2, 4, 6, 5, 7, 8."""
    answer = refusal_of_inputs(key, nonce, data)
    if answer:
        return answer, b""
    if len(sealed) < 16:
        return limits.SEALED_TOO_SHORT, b""
    if len(sealed) > limits.MAX_SEALED:
        return limits.TEXT_TOO_LONG, b""
    if room < len(sealed) - 16:
        return limits.NO_ROOM, b""
    hash_key, cipher_key = derive(key, nonce)
    ciphertext, tag = sealed[:-16], sealed[-16:]
    plaintext = counter_mode(cipher_key, tag, ciphertext)
    if tag_of(hash_key, cipher_key, nonce, data, plaintext) != tag:
        return limits.TAG_DIFFERS, b""
    return limits.DONE, plaintext
