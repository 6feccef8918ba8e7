/* Frames, the scan and positions through the C face: document 01, "Frame (ours)" and "Cases". The frames written out
   here were made by tests/second. */
#include <string.h>

#include "expect.h"
#include "khumbuseal.h"

#define ROOM (2 * KHUMBUSEAL_MAX_FRAME + 16)

/* The key lengths that sealing takes; what a frame has in front of its sealed part; the frames of fixed length. */
#define SHORT_KEY 16
#define LONG_KEY 32
#define FRONT (KHUMBUSEAL_FRAME_OVERHEAD - KHUMBUSEAL_TAG_SIZE)
#define POSITION_FRAME (KHUMBUSEAL_POSITION_SIZE + KHUMBUSEAL_FRAME_OVERHEAD)
#define CHECK_IN_FRAME KHUMBUSEAL_FRAME_OVERHEAD

/* No kind of frame: the number after the last. */
#define NO_KIND (KHUMBUSEAL_CHECK_IN + 1)

/* key is 00 01 .. 1f, or its first half; nonce 10 11 .. 1b */
static uint8_t key[LONG_KEY], nonce[KHUMBUSEAL_NONCE_SIZE], plain[KHUMBUSEAL_MAX_FRAME_PLAINTEXT + 40], out[ROOM];

static const char position_frame[] = /* 27.9881 N, 0.9999999 W, -500 m, under the 16-byte key */
    "4b012000101112131415161718191a1bd99a57be4dc87c7ad298cf8afe7d48f23b7968b2b2a1e1e60161fe1e1a545a9d";
static const char text_frame[] = /* 'Namche', under the 32-byte key */
    "4b021600101112131415161718191a1bc549a50a20b42efee04207704ac0a2dc5c52af5b9ce0";
static const char check_in_frame[] = /* under the 16-byte key */
    "4b031000101112131415161718191a1b004abc394f9e3c43dab740b192c466c5";

static void begin(void)
{
    size_t at;
    for (at = 0; at < sizeof key; at++)
        key[at] = (uint8_t)at;
    for (at = 0; at < sizeof nonce; at++)
        nonce[at] = (uint8_t)(16 + at);
    count_up(plain, sizeof plain, 4);
    memset(out, UNTOUCHED, ROOM);
}

/* ---- positions */

static void spell(int32_t lat, int32_t lon, int32_t alt, uint32_t time, const char *wanted)
{
    uint8_t bytes[KHUMBUSEAL_POSITION_SIZE];
    int32_t lat_back = 1, lon_back = 1, alt_back = 1;
    uint32_t time_back = 1;
    khumbuseal_position_to_bytes(lat, lon, alt, time, bytes);
    EXPECT_HEX("position_to_bytes", bytes, wanted);
    unhex(wanted, bytes);
    khumbuseal_position_from_bytes(bytes, &lat_back, &lon_back, &alt_back, &time_back);
    EXPECT("position_from_bytes: latitude", lat_back, lat);
    EXPECT("position_from_bytes: longitude", lon_back, lon);
    EXPECT("position_from_bytes: altitude", alt_back, alt);
    EXPECT("position_from_bytes: time", time_back, time);
}

static void test_ranges(void)
{
    static const int32_t ends[3][2] = {{KHUMBUSEAL_LAT_MIN, KHUMBUSEAL_LAT_MAX},
                                       {KHUMBUSEAL_LON_MIN, KHUMBUSEAL_LON_MAX},
                                       {KHUMBUSEAL_ALT_MIN, KHUMBUSEAL_ALT_MAX}};
    int field, step;
    for (field = 0; field < 3; field++)
        for (step = -1; step <= 1; step++) {
            int32_t low[3] = {0, 0, 0}, high[3] = {0, 0, 0};
            low[field] = ends[field][0] + step;
            high[field] = ends[field][1] + step;
            EXPECT("in range, at the low end", khumbuseal_position_is_in_range(low[0], low[1], low[2]), step >= 0);
            EXPECT("in range, at the high end", khumbuseal_position_is_in_range(high[0], high[1], high[2]), step <= 0);
        }
    EXPECT("in range: least", khumbuseal_position_is_in_range(INT32_MIN, 0, 0), 0);
    EXPECT("in range: greatest", khumbuseal_position_is_in_range(0, INT32_MAX, 0), 0);
    EXPECT("in range: all ends", khumbuseal_position_is_in_range(KHUMBUSEAL_LAT_MIN, KHUMBUSEAL_LON_MAX, KHUMBUSEAL_ALT_MIN), 1);
}

void test_positions(void)
{
    spell(0, 0, 0, 0, "00000000000000000000000000000000");
    spell(-1, -1, -1, 1, "ffffffffffffffffffffffff01000000");
    spell(-9999999, 9999999, -9999999, 9999999, "816967ff7f969800816967ff7f969800");
    spell(-900000000, -1800000000, -50000, UINT32_MAX, "00175bca002eb694b03cffffffffffff");
    spell(900000000, 1800000000, 1000000, 0, "00e9a43500d2496b40420f0000000000");
    spell(INT32_MIN, INT32_MAX, INT32_MIN, 2147483648u, "00000080ffffff7f0000008000000080");
    test_ranges();
}

/* ---- writing */

static void write_one(uint8_t kind, size_t key_len, size_t plain_len, const char *wanted)
{
    size_t written = 77, size = plain_len + KHUMBUSEAL_FRAME_OVERHEAD;
    memset(out, UNTOUCHED, ROOM);
    EXPECT("frame_write", khumbuseal_frame_write(kind, key, key_len, nonce, sizeof nonce, plain, plain_len, out, size, &written),
           KHUMBUSEAL_DONE);
    EXPECT("frame_write: written", written, size);
    EXPECT_HEX("frame_write: the frame", out, wanted);
    EXPECT_ALL("frame_write: bytes behind", out + size, ROOM - size, UNTOUCHED);
}

/* Every set of faults at once: the first of 10, 11, 13, 1, 2, 7 that applies. */
static void test_write_refusals(void)
{
    static const uint8_t order[] = {KHUMBUSEAL_UNKNOWN_KIND, KHUMBUSEAL_LENGTH_FOR_KIND, KHUMBUSEAL_OUT_OF_RANGE,
                                    KHUMBUSEAL_KEY_LENGTH,   KHUMBUSEAL_NONCE_LENGTH,    KHUMBUSEAL_NO_ROOM};
    int faults, i;
    for (faults = 0; faults < 64; faults++) {
        uint8_t kind = faults & 1 ? NO_KIND : KHUMBUSEAL_POSITION, wanted = KHUMBUSEAL_DONE, answer;
        size_t plain_len = KHUMBUSEAL_POSITION_SIZE + (faults & 2 ? 1 : 0), written = 77;
        begin();
        khumbuseal_position_to_bytes(KHUMBUSEAL_LAT_MAX + (faults & 4 ? 1 : 0), 0, 0, 0, plain);
        for (i = 5; i >= 0; i--)
            if (faults >> i & 1)
                wanted = order[i];
        answer = khumbuseal_frame_write(kind, key, SHORT_KEY + (faults & 8 ? 1 : 0), nonce, faults & 16 ? 0 : sizeof nonce, plain,
                                        plain_len, out, plain_len + KHUMBUSEAL_FRAME_OVERHEAD - (faults & 32 ? 1 : 0),
                                        &written);
        EXPECT("frame_write: order of refusals", answer, wanted);
        EXPECT("frame_write: written", written, wanted ? 0 : POSITION_FRAME);
        if (wanted)
            EXPECT_ALL("frame_write: refused", out, ROOM, UNTOUCHED);
    }
}

static void test_write_lengths(void)
{
    static const struct {
        uint8_t kind;
        size_t len;
        uint8_t answer;
    } cases[] = {
        {KHUMBUSEAL_POSITION, KHUMBUSEAL_POSITION_SIZE - 1, KHUMBUSEAL_LENGTH_FOR_KIND},
        {KHUMBUSEAL_POSITION, KHUMBUSEAL_POSITION_SIZE + 1, KHUMBUSEAL_LENGTH_FOR_KIND},
        {KHUMBUSEAL_POSITION, 0, KHUMBUSEAL_LENGTH_FOR_KIND},
        {KHUMBUSEAL_TEXT, 0, KHUMBUSEAL_LENGTH_FOR_KIND},
        {KHUMBUSEAL_TEXT, 1, KHUMBUSEAL_DONE},
        {KHUMBUSEAL_TEXT, KHUMBUSEAL_MAX_FRAME_PLAINTEXT, KHUMBUSEAL_DONE},
        {KHUMBUSEAL_TEXT, KHUMBUSEAL_MAX_FRAME_PLAINTEXT + 1, KHUMBUSEAL_LENGTH_FOR_KIND},
        {KHUMBUSEAL_CHECK_IN, 0, KHUMBUSEAL_DONE},
        {KHUMBUSEAL_CHECK_IN, 1, KHUMBUSEAL_LENGTH_FOR_KIND},
        {0, 0, KHUMBUSEAL_UNKNOWN_KIND},
        {NO_KIND, 0, KHUMBUSEAL_UNKNOWN_KIND},
        {255, 0, KHUMBUSEAL_UNKNOWN_KIND},
    };
    size_t i, written;
    for (i = 0; i < sizeof cases / sizeof cases[0]; i++) {
        written = 77;
        begin();
        EXPECT("frame_write: lengths of a kind",
               khumbuseal_frame_write(cases[i].kind, key, SHORT_KEY, nonce, sizeof nonce, plain, cases[i].len, out, ROOM, &written),
               cases[i].answer);
        EXPECT("frame_write: written", written, cases[i].answer ? 0 : cases[i].len + KHUMBUSEAL_FRAME_OVERHEAD);
    }
}

/* ---- reading */

struct cells {
    uint8_t answer, kind;
    size_t len, taken;
    int32_t lat, lon, alt;
    uint32_t time;
};

static struct cells read_one(size_t key_len, const uint8_t *data, size_t data_len, size_t out_len)
{
    struct cells c = {9, 9, 9, 9, 9, 9, 9, 9};
    memset(out, UNTOUCHED, ROOM);
    c.answer = khumbuseal_frame_read(key, key_len, data, data_len, out, out_len, &c.kind, &c.len, &c.taken, &c.lat,
                                     &c.lon, &c.alt, &c.time);
    return c;
}

static void expect_cells(const char *what, struct cells got, struct cells wanted)
{
    EXPECT(what, got.answer, wanted.answer);
    EXPECT(what, got.kind, wanted.kind);
    EXPECT(what, got.len, wanted.len);
    EXPECT(what, got.taken, wanted.taken);
    EXPECT(what, got.lat, wanted.lat);
    EXPECT(what, got.lon, wanted.lon);
    EXPECT(what, got.alt, wanted.alt);
    EXPECT(what, got.time, wanted.time);
}

static void expect_refused(const char *what, struct cells got, uint8_t answer)
{
    const struct cells none = {answer, 0, 0, 0, 0, 0, 0, 0};
    expect_cells(what, got, none);
    EXPECT_ALL(what, out, ROOM, UNTOUCHED);
}

static void test_read_kinds(void)
{
    const struct cells position = {KHUMBUSEAL_DONE, KHUMBUSEAL_POSITION, 0, POSITION_FRAME, 279881000, -9999999, -50000, 1700000000};
    const struct cells text = {KHUMBUSEAL_DONE, KHUMBUSEAL_TEXT, 6, 6 + KHUMBUSEAL_FRAME_OVERHEAD, 0, 0, 0, 0};
    const struct cells check_in = {KHUMBUSEAL_DONE, KHUMBUSEAL_CHECK_IN, 0, CHECK_IN_FRAME, 0, 0, 0, 0};
    const size_t room = KHUMBUSEAL_POSITION_SIZE;
    uint8_t frame[ROOM];
    size_t size, n;
    begin();
    size = unhex(position_frame, frame);
    expect_cells("read a position", read_one(SHORT_KEY, frame, size, room), position);
    EXPECT_HEX("its plaintext", out, "28a5ae10816967ffb03cffff00f15365");
    EXPECT_ALL("read a position: bytes behind", out + room, ROOM - room, UNTOUCHED);
    expect_cells("read a position, more behind it", read_one(SHORT_KEY, frame, ROOM, KHUMBUSEAL_MAX_FRAME_PLAINTEXT), position);
    for (n = 0; n < size; n++)
        expect_refused("read a cut position", read_one(SHORT_KEY, frame, n, room), KHUMBUSEAL_CUT_SHORT);
    expect_refused("read a position, no room", read_one(SHORT_KEY, frame, size, room - 1), KHUMBUSEAL_NO_ROOM);
    expect_refused("read a position, another key", read_one(LONG_KEY, frame, size, room), KHUMBUSEAL_TAG_DIFFERS);
    size = unhex(text_frame, frame);
    expect_cells("read a text", read_one(LONG_KEY, frame, size, 6), text);
    EXPECT_BYTES("its bytes", out, (const uint8_t *)"Namche", 6);
    EXPECT_ALL("read a text: bytes behind", out + 6, ROOM - 6, UNTOUCHED);
    size = unhex(check_in_frame, frame);
    expect_cells("read a check-in", read_one(SHORT_KEY, frame, size, 0), check_in);
    EXPECT_ALL("read a check-in: out", out, ROOM, UNTOUCHED);
    for (n = 4; n < size; n++) {
        frame[n] ^= 128;
        expect_refused("read a damaged check-in", read_one(SHORT_KEY, frame, size, 0), KHUMBUSEAL_TAG_DIFFERS);
        frame[n] ^= 128;
    }
}

/* A position frame of any fields, sealed by hand: writing refuses those out of range. */
static void seal_position(uint8_t *frame, int32_t alt)
{
    uint8_t bytes[KHUMBUSEAL_POSITION_SIZE];
    const uint8_t front[4] = {KHUMBUSEAL_MARK, KHUMBUSEAL_POSITION, KHUMBUSEAL_POSITION_SIZE + KHUMBUSEAL_TAG_SIZE, 0};
    khumbuseal_position_to_bytes(0, 0, alt, 0, bytes);
    memcpy(frame, front, sizeof front);
    memcpy(frame + sizeof front, nonce, sizeof nonce);
    EXPECT("seal a position",
           khumbuseal_seal(key, SHORT_KEY, nonce, sizeof nonce, front, sizeof front, bytes, sizeof bytes, frame + FRONT,
                           POSITION_FRAME - FRONT),
           KHUMBUSEAL_DONE);
}

/* Every set of faults at once: the first of 9, 10, 11, 12, 1, 7, 8, 13 that applies. */
static void test_read_refusals(void)
{
    static const uint8_t order[] = {KHUMBUSEAL_NOT_A_FRAME, KHUMBUSEAL_UNKNOWN_KIND, KHUMBUSEAL_LENGTH_FOR_KIND,
                                    KHUMBUSEAL_CUT_SHORT,   KHUMBUSEAL_KEY_LENGTH,   KHUMBUSEAL_NO_ROOM,
                                    KHUMBUSEAL_TAG_DIFFERS, KHUMBUSEAL_OUT_OF_RANGE};
    const struct cells whole = {KHUMBUSEAL_DONE, KHUMBUSEAL_POSITION, 0, POSITION_FRAME, 0, 0, KHUMBUSEAL_ALT_MAX, 0};
    uint8_t frame[POSITION_FRAME], wanted;
    int faults, i;
    begin();
    for (faults = 0; faults < 256; faults++) {
        struct cells got;
        seal_position(frame, KHUMBUSEAL_ALT_MAX + (faults & 128 ? 1 : 0));
        if (faults & 1)
            frame[0]--;
        if (faults & 2)
            frame[1] = 0;
        if (faults & 4)
            frame[2]++;
        if (faults & 64)
            frame[POSITION_FRAME - 1] ^= 1;
        wanted = KHUMBUSEAL_DONE;
        for (i = 7; i >= 0; i--)
            if (faults >> i & 1)
                wanted = order[i];
        got = read_one(faults & 16 ? 0 : SHORT_KEY, frame, sizeof frame - (faults & 8 ? 1 : 0),
                       faults & 32 ? 0 : KHUMBUSEAL_POSITION_SIZE);
        if (wanted)
            expect_refused("frame_read: order of refusals", got, wanted);
        else
            expect_cells("frame_read: the greatest altitude", got, whole);
    }
}

/* Byte pointers need no alignment. */
static void test_unaligned(size_t offset)
{
    static uint64_t aligned[3][KHUMBUSEAL_MAX_FRAME / 8 + 2];
    uint8_t *where = (uint8_t *)aligned[0] + offset, *frame = (uint8_t *)aligned[1] + offset;
    uint8_t *secret = (uint8_t *)aligned[2] + offset;
    struct cells c;
    size_t written;
    begin();
    memcpy(secret, key, SHORT_KEY);
    memcpy(secret + SHORT_KEY, nonce, sizeof nonce);
    khumbuseal_position_to_bytes(279881000, -9999999, -50000, 1700000000, where);
    EXPECT("unaligned: write",
           khumbuseal_frame_write(KHUMBUSEAL_POSITION, secret, SHORT_KEY, secret + SHORT_KEY, sizeof nonce, where,
                                  KHUMBUSEAL_POSITION_SIZE, frame, POSITION_FRAME, &written),
           KHUMBUSEAL_DONE);
    EXPECT_HEX("unaligned: frame", frame, position_frame);
    EXPECT("unaligned: read",
           khumbuseal_frame_read(secret, SHORT_KEY, frame, POSITION_FRAME, where, KHUMBUSEAL_POSITION_SIZE, &c.kind, &c.len,
                                 &c.taken, &c.lat, &c.lon, &c.alt, &c.time),
           KHUMBUSEAL_DONE);
    khumbuseal_position_from_bytes(where, &c.lat, &c.lon, &c.alt, &c.time);
    EXPECT("unaligned: latitude", c.lat, 279881000);
    EXPECT("unaligned: longitude", c.lon, -9999999);
}

void test_frames(void)
{
    size_t offset;
    for (offset = 0; offset < 8; offset++)
        test_unaligned(offset);
    begin();
    unhex("28a5ae10816967ffb03cffff00f15365", plain);
    write_one(KHUMBUSEAL_POSITION, SHORT_KEY, KHUMBUSEAL_POSITION_SIZE, position_frame);
    memcpy(plain, "Namche", 6);
    write_one(KHUMBUSEAL_TEXT, LONG_KEY, 6, text_frame);
    write_one(KHUMBUSEAL_CHECK_IN, SHORT_KEY, 0, check_in_frame);
    test_write_refusals();
    test_write_lengths();
    test_read_kinds();
    test_read_refusals();
}

/* ---- what stands at the front, and the scan */

static void front(const char *hex, size_t size, uint8_t answer, uint8_t kind, size_t taken)
{
    uint8_t data[ROOM] = {0}, kind_got = 77;
    size_t taken_got = 77;
    unhex(hex, data);
    EXPECT("frame_front", khumbuseal_frame_front(data, size, &kind_got, &taken_got), answer);
    EXPECT("frame_front: kind", kind_got, kind);
    EXPECT("frame_front: taken", taken_got, taken);
}

static void scan(const uint8_t *log, size_t size, size_t prefix, uint64_t frames, uint8_t stop)
{
    uint64_t frames_got = 77;
    uint8_t stop_got = 77;
    EXPECT("scan", khumbuseal_scan(log, size, &frames_got, &stop_got), prefix);
    EXPECT("scan: frames", frames_got, frames);
    EXPECT("scan: stop", stop_got, stop);
}

static void test_log(void)
{
    uint8_t log[ROOM];
    size_t first = unhex(position_frame, log), second = first + unhex(text_frame, log + first), n;
    size_t size = second + unhex(check_in_frame, log + second);
    for (n = 0; n <= size; n++) {
        size_t prefix = n < first ? 0 : n < second ? first : n < size ? second : size;
        uint64_t frames = n < first ? 0 : n < second ? 1 : n < size ? 2 : 3;
        scan(log, n, prefix, frames, n == prefix ? KHUMBUSEAL_DONE : KHUMBUSEAL_CUT_SHORT);
    }
    log[size] = KHUMBUSEAL_MARK - 1;
    scan(log, size + 1, size, 3, KHUMBUSEAL_NOT_A_FRAME);
    log[second] = 0;
    scan(log, size, second, 2, KHUMBUSEAL_NOT_A_FRAME);
    log[first + 1] = NO_KIND;
    scan(log, size, first, 1, KHUMBUSEAL_UNKNOWN_KIND);
    log[2]--;
    scan(log, size, 0, 0, KHUMBUSEAL_LENGTH_FOR_KIND);
}

void test_scan(void)
{
    scan(NULL, 0, 0, 0, KHUMBUSEAL_DONE);
    front("", 0, KHUMBUSEAL_CUT_SHORT, 0, 0);
    front("4a", 1, KHUMBUSEAL_NOT_A_FRAME, 0, 0);
    front("4b", 1, KHUMBUSEAL_CUT_SHORT, 0, 0);
    front("4b04", 2, KHUMBUSEAL_UNKNOWN_KIND, 0, 0);
    front("4b02b1", 3, KHUMBUSEAL_CUT_SHORT, 0, 0);
    front("4b02b100", 4, KHUMBUSEAL_LENGTH_FOR_KIND, 0, 0);
    front("4b02b000", KHUMBUSEAL_MAX_FRAME - 1, KHUMBUSEAL_CUT_SHORT, 0, 0);
    front("4b02b000", KHUMBUSEAL_MAX_FRAME, KHUMBUSEAL_DONE, KHUMBUSEAL_TEXT, KHUMBUSEAL_MAX_FRAME);
    front("4b021000", 300, KHUMBUSEAL_LENGTH_FOR_KIND, 0, 0);
    front("4b021100", 300, KHUMBUSEAL_DONE, KHUMBUSEAL_TEXT, KHUMBUSEAL_FRAME_OVERHEAD + 1);
    front("4b012000", POSITION_FRAME - 1, KHUMBUSEAL_CUT_SHORT, 0, 0);
    front("4b012000", POSITION_FRAME, KHUMBUSEAL_DONE, KHUMBUSEAL_POSITION, POSITION_FRAME);
    front("4b031000", CHECK_IN_FRAME, KHUMBUSEAL_DONE, KHUMBUSEAL_CHECK_IN, CHECK_IN_FRAME);
    front("4b031001", 300, KHUMBUSEAL_LENGTH_FOR_KIND, 0, 0);
    test_log();
}
