/* Sealing and opening through the C face: the limits, and every set of refusals in document 01's order. */
#include <string.h>

#include "expect.h"
#include "khumbuseal.h"

#define ROOM (KHUMBUSEAL_MAX_SEALED + 88)

/* The key lengths that sealing takes. */
#define SHORT_KEY 16
#define LONG_KEY 32

static uint8_t out[ROOM];
static uint8_t text[ROOM];
static uint8_t sealed[ROOM];

static void untouch(void)
{
    memset(out, UNTOUCHED, ROOM);
}

/* The lengths that a call of seal is given, in the order in which document 01 looks at them. */
struct lengths {
    size_t key, nonce, ad, text, out;
};

/* The most that sealing takes, and the room for it. */
static struct lengths longest_of(size_t key)
{
    const struct lengths n = {key, KHUMBUSEAL_NONCE_SIZE, KHUMBUSEAL_MAX_AD, KHUMBUSEAL_MAX_PLAINTEXT, KHUMBUSEAL_MAX_SEALED};
    return n;
}

static uint8_t seal_of(struct lengths n)
{
    static uint8_t key[LONG_KEY + 8], nonce[KHUMBUSEAL_NONCE_SIZE + 8], ad[KHUMBUSEAL_MAX_AD + 44];
    count_up(key, sizeof key, 1);
    count_up(nonce, sizeof nonce, 2);
    count_up(ad, sizeof ad, 3);
    count_up(text, ROOM, 4);
    untouch();
    return khumbuseal_seal(key, n.key, nonce, n.nonce, ad, n.ad, text, n.text, out, n.out);
}

static uint8_t open_of(struct lengths n)
{
    static uint8_t key[LONG_KEY + 8], nonce[KHUMBUSEAL_NONCE_SIZE + 8], ad[KHUMBUSEAL_MAX_AD + 44];
    count_up(key, sizeof key, 1);
    count_up(nonce, sizeof nonce, 2);
    count_up(ad, sizeof ad, 3);
    untouch();
    return khumbuseal_open(key, n.key, nonce, n.nonce, ad, n.ad, sealed, n.text, out, n.out);
}

/* Every set of faults at once: the first of 1, 2, 4, 5, 7 that applies is the answer. */
static void test_seal_refusals(void)
{
    static const uint8_t order[] = {KHUMBUSEAL_KEY_LENGTH, KHUMBUSEAL_NONCE_LENGTH, KHUMBUSEAL_AD_TOO_LONG,
                                    KHUMBUSEAL_TEXT_TOO_LONG, KHUMBUSEAL_NO_ROOM};
    int faults, i;
    for (faults = 0; faults < 32; faults++) {
        struct lengths n = longest_of(SHORT_KEY);
        uint8_t wanted = KHUMBUSEAL_DONE, answer;
        if (faults & 1)
            n.key--;
        if (faults & 2)
            n.nonce++;
        if (faults & 4)
            n.ad++;
        if (faults & 8)
            n.text++;
        n.out = n.text + KHUMBUSEAL_TAG_SIZE - (faults & 16 ? 1 : 0);
        for (i = 4; i >= 0; i--)
            if (faults >> i & 1)
                wanted = order[i];
        answer = seal_of(n);
        EXPECT("seal: order of refusals", answer, wanted);
        if (wanted)
            EXPECT_ALL("seal: refused", out, ROOM, UNTOUCHED);
    }
}

/* The first of 1, 2, 4, 6, 5, 7, 8 that applies; a part cannot be too short and too long at once. */
static void test_open_refusals(void)
{
    static const uint8_t order[] = {KHUMBUSEAL_KEY_LENGTH,       KHUMBUSEAL_NONCE_LENGTH,  KHUMBUSEAL_AD_TOO_LONG,
                                    KHUMBUSEAL_SEALED_TOO_SHORT, KHUMBUSEAL_TEXT_TOO_LONG, KHUMBUSEAL_NO_ROOM,
                                    KHUMBUSEAL_TAG_DIFFERS};
    int faults, i;
    EXPECT("seal, to be opened", seal_of(longest_of(LONG_KEY)), KHUMBUSEAL_DONE);
    memcpy(sealed, out, ROOM);
    for (faults = 0; faults < 128; faults++) {
        struct lengths n = longest_of(LONG_KEY);
        uint8_t wanted = KHUMBUSEAL_DONE, answer;
        size_t short_by = faults & 32 ? 1 : 0;
        uint8_t damage = faults & 64 ? 1 : 0;
        if ((faults & 24) == 24)
            continue;
        n.text = KHUMBUSEAL_MAX_SEALED;
        if (faults & 1)
            n.key = 24;
        if (faults & 2)
            n.nonce--;
        if (faults & 4)
            n.ad++;
        if (faults & 8)
            n.text = KHUMBUSEAL_TAG_SIZE - 1;
        if (faults & 16)
            n.text++;
        n.out = n.text < KHUMBUSEAL_TAG_SIZE + short_by ? 0 : n.text - KHUMBUSEAL_TAG_SIZE - short_by;
        for (i = 6; i >= 0; i--)
            if (faults >> i & 1)
                wanted = order[i];
        sealed[KHUMBUSEAL_MAX_SEALED - 1] ^= damage;
        answer = open_of(n);
        sealed[KHUMBUSEAL_MAX_SEALED - 1] ^= damage;
        EXPECT("open: order of refusals", answer, wanted);
        if (wanted)
            EXPECT_ALL("open: refused", out, ROOM, UNTOUCHED);
        else
            EXPECT_BYTES("open: the longest text", out, text, KHUMBUSEAL_MAX_PLAINTEXT);
    }
}

/* Each byte of a sealed part damaged in turn: none opens, and nothing of it is written. */
static void test_damage(void)
{
    enum { TEXT = 37, SEALED = TEXT + KHUMBUSEAL_TAG_SIZE, AD = 3 };
    const struct lengths sealing = {SHORT_KEY, KHUMBUSEAL_NONCE_SIZE, AD, TEXT, SEALED};
    struct lengths n = {SHORT_KEY, KHUMBUSEAL_NONCE_SIZE, AD, SEALED, TEXT};
    size_t at;
    EXPECT("seal, to be damaged", seal_of(sealing), KHUMBUSEAL_DONE);
    memcpy(sealed, out, ROOM);
    for (at = 0; at < SEALED; at++) {
        sealed[at] ^= (uint8_t)(1 << at % 8);
        EXPECT("open: damaged", open_of(n), KHUMBUSEAL_TAG_DIFFERS);
        EXPECT_ALL("open: damaged, refused", out, ROOM, UNTOUCHED);
        sealed[at] ^= (uint8_t)(1 << at % 8);
    }
    EXPECT("open: made good again", open_of(n), KHUMBUSEAL_DONE);
    n.ad--;
    EXPECT("open: less associated data", open_of(n), KHUMBUSEAL_TAG_DIFFERS);
    n.ad++;
    n.out = 100;
    EXPECT("open: more room than needed", open_of(n), KHUMBUSEAL_DONE);
    EXPECT_ALL("open: bytes behind", out + TEXT, ROOM - TEXT, UNTOUCHED);
    n.text = KHUMBUSEAL_TAG_SIZE;
    EXPECT("open: a part that is a tag alone is tried", open_of(n), KHUMBUSEAL_TAG_DIFFERS);
}

/* With length 0 a pointer is not read. */
static void test_null(void)
{
    /* RFC 8452 appendix C.1, its first line */
    uint8_t key[SHORT_KEY] = {1}, nonce[KHUMBUSEAL_NONCE_SIZE] = {3};
    const size_t n = sizeof nonce, tag = KHUMBUSEAL_TAG_SIZE;
    untouch();
    EXPECT("seal nothing", khumbuseal_seal(key, sizeof key, nonce, n, NULL, 0, NULL, 0, out, tag), KHUMBUSEAL_DONE);
    EXPECT_HEX("sealed nothing", out, "dc20e2d83f25705bb49e439eca56de25");
    EXPECT("open nothing", khumbuseal_open(key, sizeof key, nonce, n, NULL, 0, out, tag, NULL, 0), KHUMBUSEAL_DONE);
    EXPECT("no key", khumbuseal_seal(NULL, 0, nonce, n, NULL, 0, NULL, 0, out, tag), KHUMBUSEAL_KEY_LENGTH);
    EXPECT("no nonce", khumbuseal_seal(key, sizeof key, NULL, 0, NULL, 0, NULL, 0, out, tag), KHUMBUSEAL_NONCE_LENGTH);
    EXPECT("no room", khumbuseal_seal(key, sizeof key, nonce, n, NULL, 0, NULL, 0, NULL, 0), KHUMBUSEAL_NO_ROOM);
}

void test_sealing(void)
{
    test_seal_refusals();
    test_open_refusals();
    test_damage();
    test_null();
}
