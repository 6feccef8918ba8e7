/* Times the encryption of 256 blocks, which is the text of a 4 KiB sealing, with the key's expansion: ours, and a plain C version of
   the same method, one table of words turned to each row. Each takes its turn in every round. Prints a row for each: what, who, and
   the median, least and greatest time in nanoseconds, parted by tabs. tables.h has SBOX and WORDS, taken from crates/aes_tables. */
#include <stdint.h>
#include <stdio.h>
#include <stdlib.h>
#include <string.h>
#include <time.h>
#include "tables.h"

enum { ROUNDS = 21, CALLS = 16, TEXT = 4096 };

/* How the compiler passes a slice: two registers, as C passes this. */
struct slice {
    const uint8_t *at;
    size_t len;
};

typedef void blocks(struct slice key, struct slice text, struct slice out);
extern blocks rt_blocks128, rt_blocks256;

static uint32_t load(const uint8_t *p)
{
    uint32_t x;
    memcpy(&x, p, 4);
    return x;
}

static void store(uint8_t *p, uint32_t x) { memcpy(p, &x, 4); }
static uint32_t left(uint32_t x, int n) { return x << n | x >> (32 - n); }

static uint32_t sub(uint32_t a, uint32_t b, uint32_t c, uint32_t d)
{
    return SBOX[a & 255] | SBOX[b >> 8 & 255] << 8 | SBOX[c >> 16 & 255] << 16 | (uint32_t)SBOX[d >> 24] << 24;
}

static uint32_t column(uint32_t a, uint32_t b, uint32_t c, uint32_t d)
{
    return WORDS[a & 255] ^ left(WORDS[b >> 8 & 255], 8) ^ left(WORDS[c >> 16 & 255], 16) ^ left(WORDS[d >> 24], 24);
}

static void expand(const uint8_t *key, int nk, int rounds, uint32_t *w)
{
    uint32_t rcon = 1;
    for (int i = 0; i < nk; i++)
        w[i] = load(key + 4 * i);
    for (int i = nk; i < 4 * rounds + 4; i++) {
        uint32_t t = w[i - 1];
        if (i % nk == 0) {
            t = left(t, 24);
            t = sub(t, t, t, t) ^ rcon;
            rcon = rcon << 1 ^ (rcon >> 7) * 0x11b;
        } else if (nk > 6 && i % nk == 4)
            t = sub(t, t, t, t);
        w[i] = w[i - nk] ^ t;
    }
}

static void encrypt(const uint32_t *w, int rounds, const uint8_t *in, uint8_t *out)
{
    uint32_t a = load(in) ^ w[0], b = load(in + 4) ^ w[1], c = load(in + 8) ^ w[2], d = load(in + 12) ^ w[3];
    for (int r = 1; r < rounds; r++) {
        uint32_t p = column(a, b, c, d) ^ w[4 * r], q = column(b, c, d, a) ^ w[4 * r + 1];
        uint32_t s = column(c, d, a, b) ^ w[4 * r + 2], t = column(d, a, b, c) ^ w[4 * r + 3];
        a = p, b = q, c = s, d = t;
    }
    w += 4 * rounds;
    store(out, sub(a, b, c, d) ^ w[0]);
    store(out + 4, sub(b, c, d, a) ^ w[1]);
    store(out + 8, sub(c, d, a, b) ^ w[2]);
    store(out + 12, sub(d, a, b, c) ^ w[3]);
}

static void plain(int nk, int rounds, struct slice key, struct slice text, struct slice out)
{
    uint32_t w[60];
    expand(key.at, nk, rounds, w);
    for (size_t i = 0; i + 16 <= text.len; i += 16)
        encrypt(w, rounds, text.at + i, (uint8_t *)out.at + i);
}

static void plain128(struct slice key, struct slice text, struct slice out) { plain(4, 10, key, text, out); }
static void plain256(struct slice key, struct slice text, struct slice out) { plain(8, 14, key, text, out); }

static double now(void)
{
    struct timespec t;
    clock_gettime(CLOCK_MONOTONIC, &t);
    return t.tv_sec * 1e9 + t.tv_nsec;
}

static int order(const void *x, const void *y)
{
    double a = *(const double *)x, b = *(const double *)y;
    return (a > b) - (a < b);
}

static void compare(const char *what, blocks *c, blocks *ours)
{
    static uint8_t key[32], text[TEXT], out[2][TEXT];
    blocks *who[2] = {c, ours};
    const char *name[2] = {"plain C, the same method", "ours"};
    double times[2][ROUNDS];
    for (int i = 0; i < 32; i++)
        key[i] = i;
    for (int i = 0; i < TEXT; i++)
        text[i] = 7 * i;
    for (int r = 0; r < ROUNDS; r++)
        for (int v = 0; v < 2; v++) {
            struct slice k = {key, c == plain128 ? 16 : 32}, t = {text, TEXT}, o = {out[v], TEXT};
            double start = now();
            for (int n = 0; n < CALLS; n++)
                who[v](k, t, o);
            times[v][r] = (now() - start) / CALLS;
        }
    if (memcmp(out[0], out[1], TEXT)) {
        fprintf(stderr, "%s: the ciphertexts differ\n", what);
        exit(1);
    }
    for (int v = 0; v < 2; v++) {
        qsort(times[v], ROUNDS, sizeof(double), order);
        printf("%s\t%s\t%.0f\t%.0f\t%.0f\n", what, name[v], times[v][ROUNDS / 2], times[v][0], times[v][ROUNDS - 1]);
    }
}

int main(void)
{
    compare("AES-128, 256 blocks", plain128, rt_blocks128);
    compare("AES-256, 256 blocks", plain256, rt_blocks256);
}
