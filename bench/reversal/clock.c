/* Times one build of reversal.rt.txt on this machine. Prints a line for each: its name, and the nanoseconds of a call. A reversal is
   called over words that stand ready, and then on its own last answer; a hash is of 1 MiB. bench/reversal/run takes the medians of many runs. */
#include <stdint.h>
#include <stdio.h>
#include <time.h>

enum { WORDS = 1 << 10, PASSES = 1 << 7, TEXT = 1 << 20 };

/* How the compiler passes a slice: two registers, as C passes this. */
struct slice {
    const uint8_t *at;
    size_t len;
};

typedef void hash(struct slice key, struct slice text, struct slice out);
extern hash rt_wide, rt_narrow, rt_products;
extern uint64_t rt_reverse64(uint64_t);
extern uint32_t rt_reverse32(uint32_t);

static uint64_t words[WORDS];
static uint8_t text[TEXT], key[16], tag[16];
static volatile uint64_t seen; /* so that no call is left out */

static double now(void)
{
    struct timespec t;
    clock_gettime(CLOCK_THREAD_CPUTIME_ID, &t);
    return t.tv_sec * 1e9 + t.tv_nsec;
}

static void say(const char *what, double start, double calls) { printf("%s\t%.4f\n", what, (now() - start) / calls); }

#define TIME(what, call)                                                                                                                    \
    do {                                                                                                                                    \
        double start = now();                                                                                                               \
        for (int pass = 0; pass < PASSES; pass++)                                                                                           \
            for (int i = 0; i < WORDS; i++)                                                                                                 \
                call;                                                                                                                       \
        say(what, start, (double)PASSES * WORDS);                                                                                           \
    } while (0)

static void time_hash(const char *what, hash *call)
{
    const struct slice k = {key, sizeof key}, t = {text, sizeof text}, o = {tag, sizeof tag};
    double start = now();
    call(k, t, o);
    say(what, start, 1);
    seen += tag[0];
}

int main(void)
{
    uint64_t state = 1, x = 0;
    for (int i = 0; i < TEXT; i++) {
        state = state * 6364136223846793005u + 1442695040888963407u;
        text[i] = state >> 56;
        words[i % WORDS] = state ^ state >> 29;
    }
    for (int i = 0; i < 16; i++)
        key[i] = text[i];
    TIME("64, ready", x ^= rt_reverse64(words[i]));
    TIME("64, chained", x = rt_reverse64(x ^ words[i]));
    TIME("32, ready", x ^= rt_reverse32((uint32_t)words[i]));
    TIME("32, chained", x = rt_reverse32((uint32_t)(x ^ words[i])));
    seen = x;
    time_hash("wide", rt_wide);
    time_hash("narrow", rt_narrow);
    time_hash("R/F", rt_products);
    return 0;
}
