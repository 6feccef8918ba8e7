/* Khumbuseal for C and C++: hashing (POLYVAL, GHASH), sealing (AES-GCM-SIV, RFC 8452), message frames.

   Link with libkhumbuseal.a (`rt lib` in crates/khumbuseal), which is made for x86-64 Linux. It calls nothing but C's
   memcpy and memset, allocates nothing and keeps nothing between calls: two threads may call it at once on different memory.
   docs/BENCH.md says how much stack each call needs, about 5 KiB at the most. Each function is proved to meet a contract that
   fixes its result and every byte it may write (crates/khumbuseal/README.md); that this header declares the same
   functions is not proved (docs/TRUST.md).

   ANSWERS. Where a function answers, its result is 0 (done) or the number of the first reason to refuse, in the
   order that its comment gives. On a refusal every buffer and record that was lent is as it was before the call,
   and every result cell (a tag, a count, a length, a field) is zero.

   WHAT A CALLER MUST NOT DO. The functions answer for any bytes and any lengths, but they believe their pointers:
   - no null pointer with a length other than 0, and never a null record, tag or result cell. With length 0 the
     pointer is not read: null is fine.
   - no pointer to fewer bytes than its length says, or than the size in brackets says.
   - no overlap: memory that a call writes may not overlap anything else that is lent to the same call, result
     cells included. Buffers that are only read may overlap each other.
   - result cells are aligned as C aligns their type. Byte pointers need no alignment.
   - after a refused start, no going on with that record: the call has not made one.

   LENGTHS are in bytes, and each stands right after its pointer. */
#ifndef KHUMBUSEAL_H
#define KHUMBUSEAL_H

#include <stddef.h>
#include <stdint.h>

#ifdef __cplusplus
extern "C" {
#endif

/* The answers. */
#define KHUMBUSEAL_DONE 0             /* the call did what it was asked */
#define KHUMBUSEAL_KEY_LENGTH 1       /* hash key not 16 bytes, or sealing key not 16 or 32 */
#define KHUMBUSEAL_NONCE_LENGTH 2     /* nonce not 12 bytes */
#define KHUMBUSEAL_NOT_WHOLE_BLOCKS 3 /* length not a multiple of 16 */
#define KHUMBUSEAL_AD_TOO_LONG 4      /* associated data over KHUMBUSEAL_MAX_AD */
#define KHUMBUSEAL_TEXT_TOO_LONG 5    /* plaintext over KHUMBUSEAL_MAX_PLAINTEXT, or sealed part over KHUMBUSEAL_MAX_SEALED */
#define KHUMBUSEAL_SEALED_TOO_SHORT 6 /* sealed part under 16 bytes */
#define KHUMBUSEAL_NO_ROOM 7          /* output too small */
#define KHUMBUSEAL_TAG_DIFFERS 8      /* not what was sealed: key, nonce, associated data or a byte differs */
#define KHUMBUSEAL_NOT_A_FRAME 9      /* first byte not KHUMBUSEAL_MARK */
#define KHUMBUSEAL_UNKNOWN_KIND 10    /* no such kind of frame */
#define KHUMBUSEAL_LENGTH_FOR_KIND 11 /* length not allowed for the kind */
#define KHUMBUSEAL_CUT_SHORT 12       /* the frame is cut short */
#define KHUMBUSEAL_OUT_OF_RANGE 13    /* position out of range */
#define KHUMBUSEAL_BAD_RECORD 14      /* more than 15 pending bytes claimed, pending bytes where none may be, or unlike keys */

/* Sizes and limits. */
#define KHUMBUSEAL_RECORD_SIZE 168         /* a hash record */
#define KHUMBUSEAL_STORED_KEY_SIZE 128     /* the stored key, at the front of a hash record */
#define KHUMBUSEAL_GHASH_RECORD_SIZE 32    /* a GHASH record */
#define KHUMBUSEAL_HASH_KEY_SIZE 16        /* a key of hashing; a key of sealing has 16 or 32 bytes */
#define KHUMBUSEAL_TAG_SIZE 16             /* a hash or a tag */
#define KHUMBUSEAL_NONCE_SIZE 12
#define KHUMBUSEAL_MAX_AD 1024
#define KHUMBUSEAL_MAX_PLAINTEXT 65536
#define KHUMBUSEAL_MAX_SEALED 65552        /* KHUMBUSEAL_MAX_PLAINTEXT and the tag */
#define KHUMBUSEAL_POSITION_SIZE 16        /* the plaintext of a position frame */
#define KHUMBUSEAL_FRAME_OVERHEAD 32       /* what a frame has besides its plaintext: 16 in front and the tag */
#define KHUMBUSEAL_MAX_FRAME_PLAINTEXT 160 /* of any kind */
#define KHUMBUSEAL_MAX_FRAME 192           /* the longest frame of any kind */

/* The routes of hashing. They differ in time alone: where khumbuseal_hash_key_belongs says 1, the answers are the
   same. Any other number is the wide route. */
#define KHUMBUSEAL_WIDE 0   /* 64-bit limbs */
#define KHUMBUSEAL_NARROW 1 /* 32-bit limbs */
#define KHUMBUSEAL_RF 2     /* the stored powers of H with their D values; counts its multiplies */

/* The kinds of frame, and the byte that each begins with. */
#define KHUMBUSEAL_MARK 0x4B
#define KHUMBUSEAL_POSITION 1 /* plaintext of exactly 16 bytes */
#define KHUMBUSEAL_TEXT 2     /* plaintext of 1 to 160 bytes */
#define KHUMBUSEAL_CHECK_IN 3 /* no plaintext */

/* The ranges of a position, both ends included: latitude and longitude in 10^-7 degree, altitude in cm. */
#define KHUMBUSEAL_LAT_MIN (-900000000)
#define KHUMBUSEAL_LAT_MAX 900000000
#define KHUMBUSEAL_LON_MIN (-1800000000)
#define KHUMBUSEAL_LON_MAX 1800000000
#define KHUMBUSEAL_ALT_MIN (-50000)
#define KHUMBUSEAL_ALT_MAX 1000000

/* HASHING: POLYVAL over a message in parts.

   A hash record is KHUMBUSEAL_RECORD_SIZE bytes, which a caller stores, copies and sends as it likes; any bytes are
   a record, and every call answers for it. It holds, little-endian: the first four powers of H, each followed by its
   D value (16 bytes each), the sum (16 bytes), the pending store (16 bytes), the count of pending bytes (8 bytes).
   A record holds its key in the clear.

   A call that changes a record rewrites its bytes on answer 0 only; on any other answer they are as they were, so that
   the record still stands for what was fed before. *multiplies is the number of 64 by 64 bit carryless products spent:
   0 on every route but R/F, and 0 on a refusal. */

/* Makes a record under a key of 16 bytes, with nothing fed. Reads key; writes record (all of it, on answer 0) and
   *multiplies (19). record needs no values before the call. Answers 0 or 1. */
uint8_t khumbuseal_hash_start(uint8_t record[KHUMBUSEAL_RECORD_SIZE], const uint8_t *key, size_t key_len,
                              uint64_t *multiplies);

/* Feeds whole blocks. Reads record and data; writes record and *multiplies. Answers 0, 14 (bytes are pending),
   3 (data_len is not a multiple of 16). */
uint8_t khumbuseal_hash_feed_blocks(uint8_t record[KHUMBUSEAL_RECORD_SIZE], uint8_t route, const uint8_t *data,
                                    size_t data_len, uint64_t *multiplies);

/* Feeds blocks of which the last may be short: it is filled with zeros. Length 0 adds no block. Reads record and
   data; writes record and *multiplies. Answers 0 or 14 (bytes are pending). */
uint8_t khumbuseal_hash_feed_padded(uint8_t record[KHUMBUSEAL_RECORD_SIZE], uint8_t route, const uint8_t *data,
                                    size_t data_len, uint64_t *multiplies);

/* Feeds any bytes: up to 15 that do not fill a block wait in the record for the next piece. Reads record and data;
   writes record and *multiplies. Answers 0 or 14 (the record claims more than 15 pending bytes). */
uint8_t khumbuseal_hash_feed_piece(uint8_t record[KHUMBUSEAL_RECORD_SIZE], uint8_t route, const uint8_t *data,
                                   size_t data_len, uint64_t *multiplies);

/* The hash of all that was fed, pending bytes filled with zeros to a block. Reads record and leaves it as it is: more
   may be fed afterwards. Writes tag and *multiplies. Answers 0 or 14 (more than 15 pending bytes claimed), with a tag
   of zeros. */
uint8_t khumbuseal_hash_finish(const uint8_t record[KHUMBUSEAL_RECORD_SIZE], uint8_t route,
                               uint8_t tag[KHUMBUSEAL_TAG_SIZE], uint64_t *multiplies);

/* Keeps the key and forgets what was fed. Reads and writes record. Answers 0 or 14 (more than 15 pending bytes
   claimed). */
uint8_t khumbuseal_hash_reset(uint8_t record[KHUMBUSEAL_RECORD_SIZE]);

/* Joins two parts of a message: first becomes the record of the first part with the second behind it, where blocks is
   the number of blocks of the second. Reads first and second; writes first and *dots (the dots spent, at most 127;
   0 on a refusal). Answers 0 or 14 (either has pending bytes, or their H differ). */
uint8_t khumbuseal_hash_join(uint8_t first[KHUMBUSEAL_RECORD_SIZE], const uint8_t second[KHUMBUSEAL_RECORD_SIZE],
                             uint64_t blocks, uint64_t *dots);

/* Not an answer but a yes or no: 1 where every stored power and D value belongs to the stored H, else 0. Reads record.
   Every record that start made passes, and every call keeps the stored key. A record of zeros passes too. */
uint8_t khumbuseal_hash_key_belongs(const uint8_t record[KHUMBUSEAL_RECORD_SIZE]);

/* GHASH (NIST SP 800-38D).

   A GHASH record is KHUMBUSEAL_GHASH_RECORD_SIZE bytes: POLYVAL's key for GHASH's, and the sum, 16 bytes each,
   little-endian. Any bytes are one. */

/* The GHASH of whole blocks in one call. Reads key and data; writes tag. Answers 0, 1 (key not 16 bytes), 3 (data_len
   is not a multiple of 16), the latter two with a tag of zeros. */
uint8_t khumbuseal_ghash(const uint8_t *key, size_t key_len, const uint8_t *data, size_t data_len,
                         uint8_t tag[KHUMBUSEAL_TAG_SIZE]);

/* Makes a GHASH record under a key of 16 bytes. Reads key; writes record on answer 0. Answers 0 or 1. */
uint8_t khumbuseal_ghash_start(uint8_t record[KHUMBUSEAL_GHASH_RECORD_SIZE], const uint8_t *key, size_t key_len);

/* Feeds blocks of which the last may be short: it is filled with zeros. Length 0 adds no block. Reads record and
   data; writes record. Never refuses. */
void khumbuseal_ghash_feed_padded(uint8_t record[KHUMBUSEAL_GHASH_RECORD_SIZE], const uint8_t *data, size_t data_len);

/* The GHASH of all that was fed. Reads record, which stays as it is; writes tag. Never refuses. */
void khumbuseal_ghash_finish(const uint8_t record[KHUMBUSEAL_GHASH_RECORD_SIZE], uint8_t tag[KHUMBUSEAL_TAG_SIZE]);

/* SEALING: AES-GCM-SIV with a key of 16 or 32 bytes and a nonce of 12. Use a fresh nonce for each message under a key. */

/* Seals: out gets the ciphertext, then the tag: plaintext_len + 16 bytes; bytes behind them keep their values. Reads
   key, nonce, ad and plaintext; writes out on answer 0. Answers 0, 1, 2, 4, 5, 7. */
uint8_t khumbuseal_seal(const uint8_t *key, size_t key_len, const uint8_t *nonce, size_t nonce_len, const uint8_t *ad,
                        size_t ad_len, const uint8_t *plaintext, size_t plaintext_len, uint8_t *out, size_t out_len);

/* Opens: out gets the plaintext, sealed_len - 16 bytes, once the tag has agreed; bytes behind them keep their values.
   Reads key, nonce, ad and sealed; writes out on answer 0. Answers 0, 1, 2, 4, 6, 5, 7, 8. */
uint8_t khumbuseal_open(const uint8_t *key, size_t key_len, const uint8_t *nonce, size_t nonce_len, const uint8_t *ad,
                        size_t ad_len, const uint8_t *sealed, size_t sealed_len, uint8_t *out, size_t out_len);

/* FRAMES. Byte 0: KHUMBUSEAL_MARK. Byte 1: kind. Bytes 2-3: little-endian length of the sealed part. Bytes 4-15: nonce. Then the
   sealed part, whose associated data is bytes 0-3. */

/* Writes a frame: out gets plaintext_len + 32 bytes; bytes behind them keep their values. Reads key, nonce and
   plaintext; writes out on answer 0, and *written (the bytes of the frame). Answers 0, 10, 11, 13, 1, 2, 7. */
uint8_t khumbuseal_frame_write(uint8_t kind, const uint8_t *key, size_t key_len, const uint8_t *nonce, size_t nonce_len,
                               const uint8_t *plaintext, size_t plaintext_len, uint8_t *out, size_t out_len,
                               size_t *written);

/* Reads the first frame of data and ignores what follows it. The plaintext of every kind goes to the front of out, once
   the tag has agreed; bytes behind it keep their values. KHUMBUSEAL_MAX_FRAME_PLAINTEXT bytes of out are always enough.
   Reads key and data; writes out on answer 0, and always the seven cells:
   *kind; *len, the length of a text; *taken, the bytes of data that the frame took; *lat and *lon (10^-7 degree), *alt
   (cm) and *time (seconds) of a position. A cell that the kind does not have is zero, and so are all on a refusal.
   Answers 0, 9, 10, 11, 12, 1, 7, 8, 13. */
uint8_t khumbuseal_frame_read(const uint8_t *key, size_t key_len, const uint8_t *data, size_t data_len, uint8_t *out,
                              size_t out_len, uint8_t *kind, size_t *len, size_t *taken, int32_t *lat, int32_t *lon,
                              int32_t *alt, uint32_t *time);

/* What stands at the front of data, without a key: *kind and *taken (its bytes) of a whole frame, or why there is none.
   That it is whole does not say that it opens. Reads data; writes *kind and *taken. Answers 0, 9, 10, 11, 12. */
uint8_t khumbuseal_frame_front(const uint8_t *data, size_t data_len, uint8_t *kind, size_t *taken);

/* The longest prefix of log that is made of whole frames: the result is its length, from the start of log on. Writes
   *frames (how many they are) and *stop (0 at the exact end of log, else why no frame follows: 9 to 12). A stop reason
   is no refusal: the frames before it stand and are counted. Reads log. Needs no key, and does not say that they open. */
size_t khumbuseal_scan(const uint8_t *log, size_t log_len, uint64_t *frames, uint8_t *stop);

/* POSITIONS: latitude and longitude in 10^-7 degree, altitude in cm, time in seconds. */

/* The 16 bytes of a position, in range or not: the plaintext of a position frame. Writes bytes. Never refuses. */
void khumbuseal_position_to_bytes(int32_t lat, int32_t lon, int32_t alt, uint32_t time,
                                  uint8_t bytes[KHUMBUSEAL_POSITION_SIZE]);

/* The position that 16 bytes spell, in range or not. Reads bytes; writes the four cells. Never refuses. */
void khumbuseal_position_from_bytes(const uint8_t bytes[KHUMBUSEAL_POSITION_SIZE], int32_t *lat, int32_t *lon,
                                    int32_t *alt, uint32_t *time);

/* Not an answer but a yes or no: 1 where a frame may hold this position, else 0: latitude, longitude and altitude in
   their ranges above; time may be any. */
uint8_t khumbuseal_position_is_in_range(int32_t lat, int32_t lon, int32_t alt);

#ifdef __cplusplus
}
#endif

#endif
