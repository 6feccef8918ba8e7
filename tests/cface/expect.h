/* What the tests of the C face share: counting what was expected and what came, and bytes written as hex. */
#ifndef EXPECT_H
#define EXPECT_H

#include <stddef.h>
#include <stdint.h>

/* Buffers that a call may write are filled with this byte first, so that a byte it should have left alone shows. */
#define UNTOUCHED 0xA5

/* A number, or bytes, that a call gave, and what a document or another program says. */
#define EXPECT(what, got, wanted) expect_number(__FILE__, __LINE__, what, (long long)(got), (long long)(wanted))
#define EXPECT_BYTES(what, got, wanted, count) expect_bytes(__FILE__, __LINE__, what, got, wanted, count)
#define EXPECT_HEX(what, got, wanted) expect_hex(__FILE__, __LINE__, what, got, wanted)
/* That all bytes from here on have this value. */
#define EXPECT_ALL(what, bytes, count, value) expect_all(__FILE__, __LINE__, what, bytes, count, value)

void expect_number(const char *file, int line, const char *what, long long got, long long wanted);
void expect_bytes(const char *file, int line, const char *what, const uint8_t *got, const uint8_t *wanted, size_t count);
void expect_hex(const char *file, int line, const char *what, const uint8_t *got, const char *wanted);
void expect_all(const char *file, int line, const char *what, const uint8_t *bytes, size_t count, uint8_t value);

/* The bytes that hex digits spell, and how many they are; '-' spells none. Stops at any other character. */
size_t unhex(const char *digits, uint8_t *bytes);

/* Bytes that are not all alike: byte i is 7 i + seed. */
void count_up(uint8_t *bytes, size_t count, uint8_t seed);

/* The tests, a group in each file. */
void test_numbers(void);
void test_hashing(void);
void test_ghash(void);
void test_sealing(void);
void test_frames(void);
void test_scan(void);
void test_positions(void);

#endif
