/* POLYVAL and GHASH through the C face: RFC 8452 appendix A, document 01's "Field", "Feeding and joining" and "Cost",
   and values that tests/second computed. */
#include <string.h>

#include "expect.h"
#include "khumbuseal.h"

/* RFC 8452 appendix A */
#define H "25629347589242761d31f826ba4b757b"
#define X "4f4f95668c83dfb6401762bb2d01a262d1a24ddd2721d006bbe45f20d3c9f362"
#define POLYVAL_OF_X "f7a3b47b846119fae5b7866cf5e5b77e"
#define GHASH_OF_X "bd9b3997046731fb96251b91f9c99d7a"

#define UNIT "010000000000000000000000000000c2"
#define ZERO "00000000000000000000000000000000"

/* Where a record has its sum, its pending bytes and their count. */
#define BLOCK 16
#define SUM KHUMBUSEAL_STORED_KEY_SIZE
#define PENDING (SUM + BLOCK)
#define COUNT (PENDING + BLOCK)

static const uint8_t routes[] = {KHUMBUSEAL_WIDE, KHUMBUSEAL_NARROW, KHUMBUSEAL_RF, 3, 255};
#define ROUTES (sizeof routes)

static uint8_t record[KHUMBUSEAL_RECORD_SIZE], tag[KHUMBUSEAL_TAG_SIZE];
static uint64_t spent;

typedef uint8_t feed(uint8_t *, uint8_t, const uint8_t *, size_t, uint64_t *);

static void start(const char *hex)
{
    uint8_t key[KHUMBUSEAL_HASH_KEY_SIZE];
    memset(record, UNTOUCHED, sizeof record);
    spent = 77;
    EXPECT("bytes of a key", unhex(hex, key), sizeof key);
    EXPECT("hash_start", khumbuseal_hash_start(record, key, sizeof key, &spent), KHUMBUSEAL_DONE);
    EXPECT("hash_start: multiplies", spent, 19);
}

/* The hash under a route, which must leave the record as it is. */
static void finish(uint8_t route, const char *wanted, uint64_t multiplies)
{
    uint8_t before[KHUMBUSEAL_RECORD_SIZE];
    memcpy(before, record, sizeof record);
    memset(tag, UNTOUCHED, sizeof tag);
    spent = 77;
    EXPECT("hash_finish", khumbuseal_hash_finish(record, route, tag, &spent), KHUMBUSEAL_DONE);
    EXPECT_HEX("hash_finish: tag", tag, wanted);
    EXPECT("hash_finish: multiplies", spent, multiplies);
    EXPECT_BYTES("hash_finish: record", record, before, sizeof record);
}

static void feed_one(feed *call, uint8_t route, const uint8_t *data, size_t size, uint64_t multiplies)
{
    spent = 77;
    EXPECT("a feed", call(record, route, data, size, &spent), KHUMBUSEAL_DONE);
    EXPECT("a feed: multiplies", spent, route == KHUMBUSEAL_RF ? multiplies : 0);
}

/* A call that must refuse and leave the record alone. */
static void feed_refused(feed *call, uint8_t route, const uint8_t *data, size_t size, uint8_t answer)
{
    uint8_t before[KHUMBUSEAL_RECORD_SIZE];
    memcpy(before, record, sizeof record);
    spent = 77;
    EXPECT("a feed, refused", call(record, route, data, size, &spent), answer);
    EXPECT("a feed, refused: multiplies", spent, 0);
    EXPECT_BYTES("a feed, refused: record", record, before, sizeof record);
}

/* ---- start */

static void test_start(void)
{
    uint8_t key[40], answer;
    size_t n;
    count_up(key, sizeof key, 1);
    for (n = 0; n <= sizeof key; n++) {
        if (n == KHUMBUSEAL_HASH_KEY_SIZE)
            continue;
        memset(record, UNTOUCHED, sizeof record);
        spent = 77;
        answer = khumbuseal_hash_start(record, key, n, &spent);
        EXPECT("hash_start: length of the key", answer, KHUMBUSEAL_KEY_LENGTH);
        EXPECT("hash_start, refused: multiplies", spent, 0);
        EXPECT_ALL("hash_start, refused: record", record, sizeof record, UNTOUCHED);
    }
    start("000102030405060708090a0b0c0d0e0f"); /* the powers of H and their D values: tests/second */
    EXPECT_HEX("hash_start: key", record,
               "000102030405060708090a0b0c0d0e0f08090a0b0c0d0e0fc285450acd8a4a05"
               "40c2400843ca43204ce24c284fea4f004ce24c284fea4f80741260c8665a3238"
               "e15539ddc203b3f333032387276301003303238727630102c2d85181d42461b7"
               "7004a338708c30ce738493f2730c0807738493f2730c08e75c01abca4c88389b");
    EXPECT_ALL("hash_start: nothing fed", record + SUM, sizeof record - SUM, 0);
}

/* ---- feeds on every route */

static void test_appendix_a(uint8_t route)
{
    uint8_t x[32];
    size_t n;
    unhex(X, x);
    start(H);
    finish(route, ZERO, 0);
    feed_one(khumbuseal_hash_feed_blocks, route, x, 32, 10);
    finish(route, POLYVAL_OF_X, 0);
    EXPECT("hash_reset", khumbuseal_hash_reset(record), KHUMBUSEAL_DONE);
    EXPECT_ALL("hash_reset: nothing fed", record + SUM, sizeof record - SUM, 0);
    feed_one(khumbuseal_hash_feed_padded, route, x, 32, 10);
    finish(route, POLYVAL_OF_X, 0);
    for (n = 0; n <= 32; n++) { /* cut in two anywhere; an empty piece is a piece */
        start(H);
        feed_one(khumbuseal_hash_feed_piece, route, x, n, 5 * (n / 16));
        EXPECT("pending", record[COUNT], n % 16);
        EXPECT_BYTES("pending bytes", record + PENDING, x + n / 16 * 16, n % 16);
        EXPECT_ALL("behind them", record + PENDING + n % 16, 16 - n % 16, 0);
        feed_one(khumbuseal_hash_feed_piece, route, x + n, 32 - n, 10 - 5 * (n / 16));
        finish(route, POLYVAL_OF_X, 0);
    }
}

/* One block under the unit of dot hashes to itself, and all under zero to zero. */
static void test_simple_keys(uint8_t route)
{
    uint8_t x[32];
    unhex(X, x);
    start(UNIT);
    feed_one(khumbuseal_hash_feed_blocks, route, x, 16, 5);
    finish(route, "4f4f95668c83dfb6401762bb2d01a262", 0);
    start(UNIT);
    feed_one(khumbuseal_hash_feed_piece, route, x, 3, 0);
    finish(route, "4f4f9500000000000000000000000000", route == KHUMBUSEAL_RF ? 5 : 0);
    start(ZERO);
    feed_one(khumbuseal_hash_feed_padded, route, x, 17, 10);
    finish(route, ZERO, 0);
}

/* 17 for a group of four, 5 for a lone block, the filled one included; nothing for no block. */
static void test_cost(uint8_t route)
{
    uint8_t data[176];
    size_t blocks;
    count_up(data, sizeof data, 3);
    for (blocks = 0; blocks <= 11; blocks++) {
        uint64_t cost = 17 * (blocks / 4) + 5 * (blocks % 4);
        start(H);
        feed_one(khumbuseal_hash_feed_blocks, route, data, 16 * blocks, cost);
        feed_one(khumbuseal_hash_feed_padded, route, data, blocks ? 16 * blocks - 1 : 0, cost);
        feed_one(khumbuseal_hash_feed_piece, route, data, 16 * blocks, 5 * blocks);
    }
    finish(route, "a7e1864cd2cd6ab3cbf1a724d6fdeacf", 0); /* tests/second */
}

/* ---- refusals: 14 before 3 */

static void test_refusals(uint8_t route)
{
    uint8_t data[32];
    int claimed;
    count_up(data, sizeof data, 3);
    start(H);
    feed_refused(khumbuseal_hash_feed_blocks, route, data, 15, KHUMBUSEAL_NOT_WHOLE_BLOCKS);
    feed_one(khumbuseal_hash_feed_piece, route, data, 15, 0);
    feed_refused(khumbuseal_hash_feed_blocks, route, data, 16, KHUMBUSEAL_BAD_RECORD);
    feed_refused(khumbuseal_hash_feed_blocks, route, data, 15, KHUMBUSEAL_BAD_RECORD);
    feed_refused(khumbuseal_hash_feed_blocks, route, NULL, 0, KHUMBUSEAL_BAD_RECORD);
    feed_refused(khumbuseal_hash_feed_padded, route, data, 16, KHUMBUSEAL_BAD_RECORD);
    for (claimed = 0; claimed < 8; claimed++) { /* 16, 256 and more: a count that no call has made */
        uint8_t before[KHUMBUSEAL_RECORD_SIZE];
        start(H);
        record[COUNT + claimed] = claimed == 0 ? 16 : 1;
        memcpy(before, record, sizeof record);
        feed_refused(khumbuseal_hash_feed_blocks, route, data, 16, KHUMBUSEAL_BAD_RECORD);
        feed_refused(khumbuseal_hash_feed_padded, route, data, 16, KHUMBUSEAL_BAD_RECORD);
        feed_refused(khumbuseal_hash_feed_piece, route, data, 16, KHUMBUSEAL_BAD_RECORD);
        spent = 77;
        memset(tag, UNTOUCHED, sizeof tag);
        EXPECT("hash_finish, refused", khumbuseal_hash_finish(record, route, tag, &spent), KHUMBUSEAL_BAD_RECORD);
        EXPECT("hash_finish, refused: multiplies", spent, 0);
        EXPECT_ALL("hash_finish, refused: tag", tag, sizeof tag, 0);
        EXPECT("hash_reset, refused", khumbuseal_hash_reset(record), KHUMBUSEAL_BAD_RECORD);
        EXPECT_BYTES("refused: record", record, before, sizeof record);
    }
}

/* ---- the check, and joining */

static void test_key_belongs(void)
{
    size_t at;
    start(H);
    EXPECT("key_belongs", khumbuseal_hash_key_belongs(record), 1);
    for (at = 0; at < sizeof record; at++) {
        record[at] ^= 4;
        EXPECT("key_belongs, altered", khumbuseal_hash_key_belongs(record), at >= SUM);
        record[at] ^= 4;
    }
    memset(record, 0, sizeof record);
    EXPECT("key_belongs, a record of zeros", khumbuseal_hash_key_belongs(record), 1);
}

static void join(const uint8_t *second, uint64_t blocks, uint8_t answer, uint64_t dots)
{
    uint8_t first[KHUMBUSEAL_RECORD_SIZE];
    uint64_t dots_got = 77;
    memcpy(first, record, sizeof first);
    EXPECT("hash_join", khumbuseal_hash_join(record, second, blocks, &dots_got), answer);
    EXPECT("hash_join: dots", dots_got, dots);
    if (answer)
        EXPECT_BYTES("hash_join, refused: record", record, first, sizeof first);
}

static void test_join(void)
{
    uint8_t x[32], second[KHUMBUSEAL_RECORD_SIZE];
    unhex(X, x);
    start(H);
    feed_one(khumbuseal_hash_feed_blocks, KHUMBUSEAL_WIDE, x + 16, 16, 0);
    memcpy(second, record, sizeof second);
    start(H);
    feed_one(khumbuseal_hash_feed_blocks, KHUMBUSEAL_WIDE, x, 16, 0);
    join(second, 1, KHUMBUSEAL_DONE, 1);
    finish(KHUMBUSEAL_WIDE, POLYVAL_OF_X, 0);
    EXPECT_ALL("hash_join: nothing pending", record + PENDING, sizeof record - PENDING, 0);
    join(second, 0xFFFFFFFFFFFFFFFFu, KHUMBUSEAL_DONE, 127);
    second[COUNT] = 1;
    join(second, 1, KHUMBUSEAL_BAD_RECORD, 0);
    second[COUNT] = 0;
    second[0] ^= 1; /* another H */
    join(second, 1, KHUMBUSEAL_BAD_RECORD, 0);
    second[0] ^= 1;
    record[COUNT + 7] = 128;
    join(second, 1, KHUMBUSEAL_BAD_RECORD, 0);
}

/* Byte pointers need no alignment: every record, key, message and tag at each offset from an aligned address. */
static void test_unaligned(size_t offset, uint8_t route)
{
    static uint64_t aligned[4][KHUMBUSEAL_RECORD_SIZE / 8 + 2];
    uint8_t *first = (uint8_t *)aligned[0] + offset, *second = (uint8_t *)aligned[1] + offset;
    uint8_t *data = (uint8_t *)aligned[2] + offset, *given = (uint8_t *)aligned[3] + offset;
    unhex(H, given);
    unhex(X, data);
    EXPECT("unaligned: start", khumbuseal_hash_start(first, given, KHUMBUSEAL_HASH_KEY_SIZE, &spent), KHUMBUSEAL_DONE);
    memcpy(second, first, KHUMBUSEAL_RECORD_SIZE);
    EXPECT("unaligned: blocks", khumbuseal_hash_feed_blocks(first, route, data, 16, &spent), KHUMBUSEAL_DONE);
    EXPECT("unaligned: piece", khumbuseal_hash_feed_piece(second, route, data + 16, 5, &spent), KHUMBUSEAL_DONE);
    EXPECT("unaligned: piece", khumbuseal_hash_feed_piece(second, route, data + 21, 11, &spent), KHUMBUSEAL_DONE);
    EXPECT("unaligned: join", khumbuseal_hash_join(first, second, 1, &spent), KHUMBUSEAL_DONE);
    EXPECT("unaligned: finish", khumbuseal_hash_finish(first, route, given, &spent), KHUMBUSEAL_DONE);
    EXPECT_HEX("unaligned: tag", given, POLYVAL_OF_X);
    EXPECT("unaligned: reset", khumbuseal_hash_reset(first), KHUMBUSEAL_DONE);
    EXPECT("unaligned: padded", khumbuseal_hash_feed_padded(first, route, data, 32, &spent), KHUMBUSEAL_DONE);
    EXPECT("unaligned: finish", khumbuseal_hash_finish(first, route, given, &spent), KHUMBUSEAL_DONE);
    EXPECT_HEX("unaligned: tag", given, POLYVAL_OF_X);
    EXPECT("unaligned: key_belongs", khumbuseal_hash_key_belongs(first), 1);
    unhex(H, given);
    EXPECT("unaligned: ghash_start", khumbuseal_ghash_start(first, given, KHUMBUSEAL_HASH_KEY_SIZE), KHUMBUSEAL_DONE);
    khumbuseal_ghash_feed_padded(first, data, 32);
    khumbuseal_ghash_finish(first, second);
    EXPECT_HEX("unaligned: ghash", second, GHASH_OF_X);
    EXPECT("unaligned: ghash", khumbuseal_ghash(given, KHUMBUSEAL_HASH_KEY_SIZE, data, 32, second), KHUMBUSEAL_DONE);
    EXPECT_HEX("unaligned: ghash", second, GHASH_OF_X);
}

void test_hashing(void)
{
    size_t i, offset;
    test_start();
    for (i = 0; i < ROUTES; i++) {
        test_appendix_a(routes[i]);
        test_simple_keys(routes[i]);
        test_cost(routes[i]);
        test_refusals(routes[i]);
        for (offset = 0; offset < 8; offset++)
            test_unaligned(offset, routes[i]);
    }
    test_key_belongs();
    test_join();
}

/* ---- GHASH */

static void ghash(size_t key_len, size_t size, uint8_t answer, const char *wanted)
{
    uint8_t key[20] = {0}, x[40] = {0};
    unhex(H, key);
    unhex(X, x);
    memset(tag, UNTOUCHED, sizeof tag);
    EXPECT("ghash", khumbuseal_ghash(key, key_len, x, size, tag), answer);
    EXPECT_HEX("ghash: tag", tag, wanted);
}

/* The same in parts, of which all but the last are whole blocks. */
static void ghash_in_parts(size_t first, size_t size, const char *wanted)
{
    uint8_t key[KHUMBUSEAL_HASH_KEY_SIZE], x[32], state[KHUMBUSEAL_GHASH_RECORD_SIZE], before[KHUMBUSEAL_GHASH_RECORD_SIZE];
    unhex(H, key);
    unhex(X, x);
    memset(state, UNTOUCHED, sizeof state);
    EXPECT("ghash_start", khumbuseal_ghash_start(state, key, sizeof key), KHUMBUSEAL_DONE);
    khumbuseal_ghash_feed_padded(state, x, first);
    khumbuseal_ghash_feed_padded(state, x + first, size - first);
    memcpy(before, state, sizeof state);
    memset(tag, UNTOUCHED, sizeof tag);
    khumbuseal_ghash_finish(state, tag);
    EXPECT_HEX("ghash_finish: tag", tag, wanted);
    EXPECT_BYTES("ghash_finish: record", state, before, sizeof state);
}

void test_ghash(void)
{
    uint8_t state[KHUMBUSEAL_GHASH_RECORD_SIZE], key[KHUMBUSEAL_HASH_KEY_SIZE + 1] = {0};
    ghash(KHUMBUSEAL_HASH_KEY_SIZE, 32, KHUMBUSEAL_DONE, GHASH_OF_X);
    ghash(KHUMBUSEAL_HASH_KEY_SIZE, 0, KHUMBUSEAL_DONE, ZERO);
    ghash(KHUMBUSEAL_HASH_KEY_SIZE - 1, 32, KHUMBUSEAL_KEY_LENGTH, ZERO);
    ghash(KHUMBUSEAL_HASH_KEY_SIZE + 1, 31, KHUMBUSEAL_KEY_LENGTH, ZERO);
    ghash(KHUMBUSEAL_HASH_KEY_SIZE, 31, KHUMBUSEAL_NOT_WHOLE_BLOCKS, ZERO);
    ghash_in_parts(0, 32, GHASH_OF_X);
    ghash_in_parts(16, 32, GHASH_OF_X);
    ghash_in_parts(32, 32, GHASH_OF_X);
    ghash_in_parts(16, 20, "ec194718e178c185bacc9a68e09ee55f"); /* tests/second, the last block filled with zeros */
    memset(state, UNTOUCHED, sizeof state);
    EXPECT("ghash_start: length of the key", khumbuseal_ghash_start(state, key, sizeof key), KHUMBUSEAL_KEY_LENGTH);
    EXPECT_ALL("ghash_start, refused: record", state, sizeof state, UNTOUCHED);
}
