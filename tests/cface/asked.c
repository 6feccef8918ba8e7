/* Answers the line protocol through the C face, so that tests/differential can hold it against the judges: a request a
   line on standard input, an answer a line. What the protocol does not ask for is looked at besides: that a refused call
   left its record alone, and that calls which say the same thing agree. Where they do not the answer is '!'. */
#include <stdio.h>
#include <string.h>

#include "khumbuseal.h"

#define LONGEST_LINE 300000
#define LARGEST_ROOM 70000
#define MOST_WORDS 7
#define UNTOUCHED 0xA5

/* Where a record has its sum, its pending bytes and their count. */
#define BLOCK 16
#define SUM KHUMBUSEAL_STORED_KEY_SIZE
#define PENDING (SUM + BLOCK)
#define COUNT (PENDING + BLOCK)

struct bytes {
    uint8_t *at;
    size_t len;
};

static char line[LONGEST_LINE + 1];
static char *words[MOST_WORDS];
static uint8_t out[LARGEST_ROOM];

/* ---- reading words. Each answers 0 where the word is not of the form that its place asks for */

static int digit(char c)
{
    if (c >= '0' && c <= '9')
        return c - '0';
    return c >= 'a' && c <= 'f' ? c - 'a' + 10 : -1;
}

/* The bytes are written over the digits. */
static int as_data(char *word, struct bytes *data)
{
    size_t digits = strlen(word), i;
    data->at = (uint8_t *)word;
    data->len = digits / 2;
    if (strcmp(word, "-") == 0)
        return 1;
    for (i = 0; i < digits; i++)
        if (digit(word[i]) < 0)
            return 0;
    for (i = 0; i < digits / 2; i++)
        data->at[i] = (uint8_t)(16 * digit(word[2 * i]) + digit(word[2 * i + 1]));
    return digits > 0 && digits % 2 == 0;
}

static int as_bytes(char *word, uint8_t *bytes, size_t len)
{
    struct bytes data;
    if (!as_data(word, &data) || data.len != len)
        return 0;
    memcpy(bytes, data.at, len);
    return 1;
}

static int as_number(const char *word, uint64_t largest, uint64_t *value)
{
    *value = 0;
    if (*word == 0)
        return 0;
    for (; *word; word++) {
        uint64_t d = (uint64_t)digit(*word);
        if (*word < '0' || *word > '9' || *value > (largest - d) / 10 || d > largest)
            return 0;
        *value = 10 * *value + d;
    }
    return 1;
}

static int as_route(const char *word, uint8_t *route)
{
    static const struct {
        const char *name;
        uint8_t route;
    } routes[] = {{"wide", KHUMBUSEAL_WIDE}, {"narrow", KHUMBUSEAL_NARROW}, {"rf", KHUMBUSEAL_RF}};
    size_t i;
    for (i = 0; i < sizeof routes / sizeof routes[0]; i++)
        if (strcmp(word, routes[i].name) == 0) {
            *route = routes[i].route;
            return 1;
        }
    return 0;
}

/* key:sum:pending:count */
static int as_record(char *word, uint8_t *record)
{
    char *parts[4];
    uint64_t count;
    int n = 0, i;
    parts[n++] = word;
    for (; *word; word++)
        if (*word == ':') {
            *word = 0;
            if (n == 4)
                return 0;
            parts[n++] = word + 1;
        }
    if (n != 4 || !as_bytes(parts[0], record, SUM) || !as_bytes(parts[1], record + SUM, BLOCK) ||
        !as_bytes(parts[2], record + PENDING, BLOCK) || !as_number(parts[3], ~(uint64_t)0, &count))
        return 0;
    for (i = 0; i < 8; i++)
        record[COUNT + i] = (uint8_t)(count >> 8 * i);
    return 1;
}

/* ---- writing words */

static void put_bytes(const uint8_t *bytes, size_t len)
{
    size_t i;
    if (len == 0)
        putchar('-');
    for (i = 0; i < len; i++) {
        putchar("0123456789abcdef"[bytes[i] >> 4]);
        putchar("0123456789abcdef"[bytes[i] & 15]);
    }
}

static void put_number(uint64_t value)
{
    printf("%llu", (unsigned long long)value);
}

static void put_record(const uint8_t *record)
{
    uint64_t count = 0;
    int i;
    for (i = 7; i >= 0; i--)
        count = count << 8 | record[COUNT + i];
    put_bytes(record, SUM);
    putchar(':');
    put_bytes(record + SUM, BLOCK);
    putchar(':');
    put_bytes(record + PENDING, BLOCK);
    putchar(':');
    put_number(count);
}

/* An answer with a record, which the protocol shows as zero on a refusal; a C call then leaves its own as it was. */
static void put_changed(uint8_t answer, const uint8_t *record, const uint8_t *before)
{
    static const uint8_t zero[KHUMBUSEAL_RECORD_SIZE];
    if (answer && memcmp(record, before, KHUMBUSEAL_RECORD_SIZE) != 0)
        putchar('!');
    put_number(answer);
    putchar(' ');
    put_record(answer ? zero : record);
}

static void put_last(uint64_t value)
{
    putchar(' ');
    put_number(value);
}

/* ---- the requests. Each answers 0, and has written nothing, where a word is not of its form */

static int start(void)
{
    struct bytes key;
    uint8_t record[KHUMBUSEAL_RECORD_SIZE], before[KHUMBUSEAL_RECORD_SIZE];
    uint64_t multiplies = 77;
    uint8_t answer;
    if (!as_data(words[1], &key))
        return 0;
    memset(record, UNTOUCHED, sizeof record);
    memcpy(before, record, sizeof before);
    answer = khumbuseal_hash_start(record, key.at, key.len, &multiplies);
    put_changed(answer, record, before);
    put_last(multiplies);
    return 1;
}

static int feed(uint8_t (*call)(uint8_t *, uint8_t, const uint8_t *, size_t, uint64_t *))
{
    struct bytes data;
    uint8_t route, answer, record[KHUMBUSEAL_RECORD_SIZE], before[KHUMBUSEAL_RECORD_SIZE];
    uint64_t multiplies = 77;
    if (!as_route(words[1], &route) || !as_record(words[2], record) || !as_data(words[3], &data))
        return 0;
    memcpy(before, record, sizeof before);
    answer = call(record, route, data.at, data.len, &multiplies);
    put_changed(answer, record, before);
    put_last(multiplies);
    return 1;
}

static int blocks(void)
{
    return feed(khumbuseal_hash_feed_blocks);
}

static int padded(void)
{
    return feed(khumbuseal_hash_feed_padded);
}

static int piece(void)
{
    return feed(khumbuseal_hash_feed_piece);
}

static int finish(void)
{
    uint8_t route, answer, record[KHUMBUSEAL_RECORD_SIZE], before[KHUMBUSEAL_RECORD_SIZE], tag[KHUMBUSEAL_TAG_SIZE];
    uint64_t multiplies = 77;
    if (!as_route(words[1], &route) || !as_record(words[2], record))
        return 0;
    memcpy(before, record, sizeof before);
    memset(tag, UNTOUCHED, sizeof tag);
    answer = khumbuseal_hash_finish(record, route, tag, &multiplies);
    if (memcmp(record, before, sizeof record) != 0)
        putchar('!');
    put_number(answer);
    putchar(' ');
    put_bytes(tag, sizeof tag);
    put_last(multiplies);
    return 1;
}

static int reset(void)
{
    uint8_t answer, record[KHUMBUSEAL_RECORD_SIZE], before[KHUMBUSEAL_RECORD_SIZE];
    if (!as_record(words[1], record))
        return 0;
    memcpy(before, record, sizeof before);
    answer = khumbuseal_hash_reset(record);
    put_changed(answer, record, before);
    return 1;
}

static int join(void)
{
    uint8_t answer, first[KHUMBUSEAL_RECORD_SIZE], second[KHUMBUSEAL_RECORD_SIZE], before[KHUMBUSEAL_RECORD_SIZE];
    uint64_t n, dots = 77;
    if (!as_record(words[1], first) || !as_record(words[2], second) || !as_number(words[3], ~(uint64_t)0, &n))
        return 0;
    memcpy(before, first, sizeof before);
    answer = khumbuseal_hash_join(first, second, n, &dots);
    put_changed(answer, first, before);
    put_last(dots);
    return 1;
}

static int check(void)
{
    uint8_t record[KHUMBUSEAL_RECORD_SIZE];
    memset(record, UNTOUCHED, sizeof record); /* the sum and what is pending do not matter */
    if (!as_bytes(words[1], record, SUM))
        return 0;
    put_number(khumbuseal_hash_key_belongs(record));
    return 1;
}

static int ghash(void)
{
    struct bytes key, data;
    uint8_t tag[KHUMBUSEAL_TAG_SIZE], again[KHUMBUSEAL_TAG_SIZE], record[KHUMBUSEAL_GHASH_RECORD_SIZE], answer;
    if (!as_data(words[1], &key) || !as_data(words[2], &data))
        return 0;
    memset(tag, UNTOUCHED, sizeof tag);
    answer = khumbuseal_ghash(key.at, key.len, data.at, data.len, tag);
    if (khumbuseal_ghash_start(record, key.at, key.len) != (answer == KHUMBUSEAL_KEY_LENGTH ? answer : KHUMBUSEAL_DONE))
        putchar('!');
    if (answer == KHUMBUSEAL_DONE) { /* the same in two parts, of which the first is half of the blocks */
        size_t half = data.len / 32 * 16;
        khumbuseal_ghash_feed_padded(record, data.at, half);
        khumbuseal_ghash_feed_padded(record, data.at + half, data.len - half);
        khumbuseal_ghash_finish(record, again);
        if (memcmp(tag, again, sizeof tag) != 0)
            putchar('!');
    }
    put_number(answer);
    putchar(' ');
    put_bytes(tag, sizeof tag);
    return 1;
}

typedef uint8_t sealing(const uint8_t *, size_t, const uint8_t *, size_t, const uint8_t *, size_t, const uint8_t *,
                        size_t, uint8_t *, size_t);

static int seal_or_open(sealing *call)
{
    struct bytes key, nonce, ad, text;
    uint64_t room;
    if (!as_data(words[1], &key) || !as_data(words[2], &nonce) || !as_data(words[3], &ad) || !as_data(words[4], &text) ||
        !as_number(words[5], LARGEST_ROOM, &room))
        return 0;
    memset(out, UNTOUCHED, room);
    put_number(call(key.at, key.len, nonce.at, nonce.len, ad.at, ad.len, text.at, text.len, out, room));
    putchar(' ');
    put_bytes(out, room);
    return 1;
}

static int seal(void)
{
    return seal_or_open(khumbuseal_seal);
}

static int open(void)
{
    return seal_or_open(khumbuseal_open);
}

/* That the calls on positions agree with each other on these bytes, and with writing on whether they are in range. */
static int positions_agree(const uint8_t *bytes, uint8_t answer)
{
    uint8_t again[KHUMBUSEAL_POSITION_SIZE];
    int32_t lat, lon, alt;
    uint32_t time;
    khumbuseal_position_from_bytes(bytes, &lat, &lon, &alt, &time);
    khumbuseal_position_to_bytes(lat, lon, alt, time, again);
    return memcmp(bytes, again, sizeof again) == 0 &&
           khumbuseal_position_is_in_range(lat, lon, alt) == (answer != KHUMBUSEAL_OUT_OF_RANGE);
}

static int write(void)
{
    struct bytes key, nonce, text;
    uint64_t kind, room;
    size_t written = 77;
    uint8_t answer;
    if (!as_number(words[1], 255, &kind) || !as_data(words[2], &key) || !as_data(words[3], &nonce) ||
        !as_data(words[4], &text) || !as_number(words[5], LARGEST_ROOM, &room))
        return 0;
    memset(out, UNTOUCHED, room);
    answer = khumbuseal_frame_write((uint8_t)kind, key.at, key.len, nonce.at, nonce.len, text.at, text.len, out, room, &written);
    if (kind == KHUMBUSEAL_POSITION && text.len == KHUMBUSEAL_POSITION_SIZE && !positions_agree(text.at, answer))
        putchar('!');
    printf("%d %llu ", answer, (unsigned long long)written);
    put_bytes(out, room);
    return 1;
}

/* Whether an answer is about the front of a frame, which needs no key. */
static int is_of_the_front(uint8_t answer)
{
    return answer == KHUMBUSEAL_NOT_A_FRAME || answer == KHUMBUSEAL_UNKNOWN_KIND || answer == KHUMBUSEAL_LENGTH_FOR_KIND ||
           answer == KHUMBUSEAL_CUT_SHORT;
}

static int read(void)
{
    struct bytes key, data;
    uint64_t room;
    uint8_t answer, kind = 77, front_kind = 77;
    size_t len = 77, taken = 77, front_taken = 77;
    int32_t lat = 77, lon = 77, alt = 77;
    uint32_t time = 77;
    if (!as_data(words[1], &key) || !as_data(words[2], &data) || !as_number(words[3], LARGEST_ROOM, &room))
        return 0;
    memset(out, UNTOUCHED, room);
    answer = khumbuseal_frame_read(key.at, key.len, data.at, data.len, out, room, &kind, &len, &taken, &lat, &lon, &alt, &time);
    if (khumbuseal_frame_front(data.at, data.len, &front_kind, &front_taken) != (is_of_the_front(answer) ? answer : KHUMBUSEAL_DONE))
        putchar('!');
    if (answer == KHUMBUSEAL_DONE ? kind != front_kind || taken != front_taken : kind || len || taken || lat || lon || alt || time)
        putchar('!');
    if (answer)
        printf("refused %d ", answer);
    else if (kind == KHUMBUSEAL_POSITION)
        printf("position %d %d %d %u %llu ", (int)lat, (int)lon, (int)alt, (unsigned)time, (unsigned long long)taken);
    else if (kind == KHUMBUSEAL_TEXT)
        printf("text %llu %llu ", (unsigned long long)len, (unsigned long long)taken);
    else
        printf("check-in %llu ", (unsigned long long)taken);
    put_bytes(out, room);
    return 1;
}

static int scan(void)
{
    struct bytes log;
    uint64_t frames = 77;
    uint8_t stop = 77;
    size_t taken;
    if (!as_data(words[1], &log))
        return 0;
    taken = khumbuseal_scan(log.at, log.len, &frames, &stop);
    put_bytes(log.at, taken);
    put_last(frames);
    put_last(stop);
    return 1;
}

/* ---- lines */

static const struct {
    const char *name;
    int words;
    int (*answer)(void);
} requests[] = {
    {"start", 2, start},   {"blocks", 4, blocks}, {"padded", 4, padded}, {"piece", 4, piece}, {"finish", 3, finish},
    {"reset", 2, reset},   {"join", 4, join},     {"check", 2, check},   {"ghash", 3, ghash}, {"seal", 6, seal},
    {"open", 6, open},     {"write", 6, write},   {"read", 4, read},     {"scan", 2, scan},
};

/* Cuts the line at its spaces; answers how many words there are, 0 where they are too many. */
static int split(void)
{
    int n = 0;
    char *at;
    words[n++] = line;
    for (at = line; *at; at++)
        if (*at == ' ') {
            *at = 0;
            if (n == MOST_WORDS)
                return 0;
            words[n++] = at + 1;
        }
    return n;
}

static int answer_line(void)
{
    int n = split();
    size_t i;
    for (i = 0; i < sizeof requests / sizeof requests[0]; i++)
        if (n == requests[i].words && strcmp(words[0], requests[i].name) == 0)
            return requests[i].answer();
    return 0;
}

/* Reads a line; answers 0 at the end of the input, 1 for a line, 2 for one that is too long or has a zero byte. */
static int read_line(void)
{
    int c = getchar(), found = 1;
    size_t n = 0;
    if (c == EOF)
        return 0;
    for (; c != '\n' && c != EOF; c = getchar()) {
        if (n == LONGEST_LINE || c == 0)
            found = 2;
        else
            line[n++] = (char)c;
    }
    line[n] = 0;
    return found;
}

int main(void)
{
    int found;
    while ((found = read_line()) != 0) {
        if (found == 2 || !answer_line())
            putchar('?');
        putchar('\n');
    }
    return 0;
}
