/* The header's numbers, each by its literal: document 01's answers, limits, kinds and ranges, and the sizes of RFC 8452.
   The other tests use the names alone: two numbers exchanged in the header are seen here, and one that the library does
   not go by is seen there. */
#include "expect.h"
#include "khumbuseal.h"

#define IS(name, wanted) {#name, KHUMBUSEAL_##name, wanted}

static const struct {
    const char *name;
    long long got, wanted;
} numbers[] = {
    IS(DONE, 0),
    IS(KEY_LENGTH, 1),
    IS(NONCE_LENGTH, 2),
    IS(NOT_WHOLE_BLOCKS, 3),
    IS(AD_TOO_LONG, 4),
    IS(TEXT_TOO_LONG, 5),
    IS(SEALED_TOO_SHORT, 6),
    IS(NO_ROOM, 7),
    IS(TAG_DIFFERS, 8),
    IS(NOT_A_FRAME, 9),
    IS(UNKNOWN_KIND, 10),
    IS(LENGTH_FOR_KIND, 11),
    IS(CUT_SHORT, 12),
    IS(OUT_OF_RANGE, 13),
    IS(BAD_RECORD, 14),
    IS(RECORD_SIZE, 168),
    IS(STORED_KEY_SIZE, 128),
    IS(GHASH_RECORD_SIZE, 32),
    IS(HASH_KEY_SIZE, 16),
    IS(TAG_SIZE, 16),
    IS(NONCE_SIZE, 12),
    IS(MAX_AD, 1024),
    IS(MAX_PLAINTEXT, 65536),
    IS(MAX_SEALED, 65552),
    IS(POSITION_SIZE, 16),
    IS(FRAME_OVERHEAD, 32),
    IS(MAX_FRAME_PLAINTEXT, 160),
    IS(MAX_FRAME, 192),
    IS(WIDE, 0),
    IS(NARROW, 1),
    IS(RF, 2),
    IS(MARK, 0x4B),
    IS(POSITION, 1),
    IS(TEXT, 2),
    IS(CHECK_IN, 3),
    IS(LAT_MIN, -900000000),
    IS(LAT_MAX, 900000000),
    IS(LON_MIN, -1800000000),
    IS(LON_MAX, 1800000000),
    IS(ALT_MIN, -50000),
    IS(ALT_MAX, 1000000),
};

void test_numbers(void)
{
    size_t i;
    for (i = 0; i < sizeof numbers / sizeof numbers[0]; i++)
        EXPECT(numbers[i].name, numbers[i].got, numbers[i].wanted);
}
