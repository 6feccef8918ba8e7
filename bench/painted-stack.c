/* The stack that calls of the C face use, measured: each runs on a stack of its own that was painted before, and the deepest byte that
   lost its paint is told. Beside the call's own need that counts the arguments that do not fit into registers. bench/painted-stack runs it. */
#include "khumbuseal.h"
#include <stdio.h>
#include <string.h>

static unsigned char stack[4 * KHUMBUSEAL_MAX_SEALED] __attribute__((aligned(16)));
static unsigned char *before; /* the stack pointer before the call */

static uint8_t key[32], nonce[KHUMBUSEAL_NONCE_SIZE], ad[KHUMBUSEAL_MAX_AD], text[KHUMBUSEAL_MAX_PLAINTEXT], sealed[KHUMBUSEAL_MAX_SEALED], out[KHUMBUSEAL_MAX_SEALED];
static uint8_t frame[KHUMBUSEAL_MAX_FRAME], first[KHUMBUSEAL_RECORD_SIZE], second[KHUMBUSEAL_RECORD_SIZE], third[KHUMBUSEAL_RECORD_SIZE];
static uint8_t ghash[KHUMBUSEAL_GHASH_RECORD_SIZE], tag[KHUMBUSEAL_TAG_SIZE];
static uint64_t count;
static size_t frame_len, len, taken;
static uint8_t kind;
static int32_t lat, lon, alt;
static uint32_t time_of;

/* A function that notes the stack pointer and makes one call. What follows the call keeps it from becoming a jump. */
#define CALL(name, call) \
    static void name(void) { \
        __asm__ volatile("mov %%rsp, %0" : "=m"(before)); \
        call; \
        __asm__ volatile("" ::: "memory"); \
    }
CALL(seal, khumbuseal_seal(key, sizeof key, nonce, sizeof nonce, ad, sizeof ad, text, sizeof text, sealed, sizeof sealed))
CALL(open, khumbuseal_open(key, sizeof key, nonce, sizeof nonce, ad, sizeof ad, sealed, sizeof sealed, out, sizeof out))
CALL(frame_write, khumbuseal_frame_write(KHUMBUSEAL_TEXT, key, sizeof key, nonce, sizeof nonce, text, KHUMBUSEAL_MAX_FRAME_PLAINTEXT, frame, sizeof frame, &frame_len))
CALL(frame_read, khumbuseal_frame_read(key, sizeof key, frame, frame_len, out, sizeof out, &kind, &len, &taken, &lat, &lon, &alt, &time_of))
CALL(hash_start, khumbuseal_hash_start(first, key, KHUMBUSEAL_HASH_KEY_SIZE, &count))
CALL(hash_feed_blocks, khumbuseal_hash_feed_blocks(first, KHUMBUSEAL_RF, text, sizeof text, &count))
CALL(hash_feed_padded, khumbuseal_hash_feed_padded(first, KHUMBUSEAL_RF, text, sizeof text - 1, &count))
CALL(hash_feed_piece, khumbuseal_hash_feed_piece(second, KHUMBUSEAL_RF, text, sizeof text - 1, &count))
CALL(hash_finish, khumbuseal_hash_finish(second, KHUMBUSEAL_RF, tag, &count))
CALL(hash_join, khumbuseal_hash_join(first, third, ~(uint64_t)0, &count))
CALL(hash_key_belongs, khumbuseal_hash_key_belongs(first))
CALL(ghash_feed_padded, khumbuseal_ghash_feed_padded(ghash, text, sizeof text - 1))

static void measure(const char *name, void (*call)(void)) {
    size_t i = 0;
    void *top = stack + sizeof stack;
    memset(stack, 0xA5, sizeof stack);
    __asm__ volatile("mov %%rsp, %%rbx; mov %0, %%rsp; call *%1; mov %%rbx, %%rsp"
                     :
                     : "r"(top), "r"(call)
                     : "rbx", "rax", "rcx", "rdx", "rsi", "rdi", "r8", "r9", "r10", "r11", "memory", "cc");
    while (i < sizeof stack && stack[i] == 0xA5) i++;
    printf("khumbuseal_%s %lu\n", name, (unsigned long)(before - (stack + i)));
}

#define MEASURE(name) measure(#name, name)
int main(void) {
    hash_start();
    khumbuseal_hash_start(second, key, KHUMBUSEAL_HASH_KEY_SIZE, &count);
    khumbuseal_hash_start(third, key, KHUMBUSEAL_HASH_KEY_SIZE, &count);
    khumbuseal_ghash_start(ghash, key, KHUMBUSEAL_HASH_KEY_SIZE);
    seal();
    frame_write();
    MEASURE(seal);
    MEASURE(open);
    MEASURE(frame_write);
    MEASURE(frame_read);
    MEASURE(hash_start);
    MEASURE(hash_feed_blocks);
    MEASURE(hash_feed_padded);
    MEASURE(hash_feed_piece);
    MEASURE(hash_finish);
    MEASURE(hash_join);
    MEASURE(hash_key_belongs);
    MEASURE(ghash_feed_padded);
    return 0;
}
