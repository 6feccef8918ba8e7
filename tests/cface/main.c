/* Tests of the C face: the cases that are written here. The last line that it prints is 'N passed, M failed'. */
#include <stdio.h>

#include "expect.h"
#include "khumbuseal.h"

#define LONGEST_WORD 1024

static int passed, failed;

static void count(int good, const char *file, int line, const char *what)
{
    if (good) {
        passed++;
        return;
    }
    failed++;
    printf("FAILED %s:%d: %s", file, line, what);
}

void expect_number(const char *file, int line, const char *what, long long got, long long wanted)
{
    count(got == wanted, file, line, what);
    if (got != wanted)
        printf(": %lld, and not %lld\n", got, wanted);
}

void expect_bytes(const char *file, int line, const char *what, const uint8_t *got, const uint8_t *wanted, size_t n)
{
    size_t at = 0;
    while (at < n && got[at] == wanted[at])
        at++;
    count(at == n, file, line, what);
    if (at < n)
        printf(": byte %d is %02x, and not %02x\n", (int)at, got[at], wanted[at]);
}

void expect_hex(const char *file, int line, const char *what, const uint8_t *got, const char *wanted)
{
    uint8_t bytes[LONGEST_WORD / 2];
    expect_bytes(file, line, what, got, bytes, unhex(wanted, bytes));
}

void expect_all(const char *file, int line, const char *what, const uint8_t *bytes, size_t n, uint8_t value)
{
    size_t at = 0;
    while (at < n && bytes[at] == value)
        at++;
    count(at == n, file, line, what);
    if (at < n)
        printf(": byte %d is %02x, and not %02x\n", (int)at, bytes[at], value);
}

static int digit(char c)
{
    if (c >= '0' && c <= '9')
        return c - '0';
    if (c >= 'a' && c <= 'f')
        return c - 'a' + 10;
    return -1;
}

size_t unhex(const char *digits, uint8_t *bytes)
{
    size_t n = 0;
    while (digit(digits[2 * n]) >= 0 && digit(digits[2 * n + 1]) >= 0) {
        bytes[n] = (uint8_t)(16 * digit(digits[2 * n]) + digit(digits[2 * n + 1]));
        n++;
    }
    return n;
}

void count_up(uint8_t *bytes, size_t n, uint8_t seed)
{
    size_t at;
    for (at = 0; at < n; at++)
        bytes[at] = (uint8_t)(7 * at + seed);
}

int main(void)
{
    test_numbers();
    test_hashing();
    test_ghash();
    test_sealing();
    test_frames();
    test_scan();
    test_positions();
    printf("%d passed, %d failed\n", passed, failed);
    return failed != 0;
}
