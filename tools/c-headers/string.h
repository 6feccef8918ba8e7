/* The part of C's string.h that is needed here; the functions are those of the kit's C library. */
#ifndef STRING_H
#define STRING_H
#include <stddef.h>
int memcmp(const void *first, const void *second, size_t count);
void *memcpy(void *to, const void *from, size_t count);
void *memset(void *to, int byte, size_t count);
int strcmp(const char *first, const char *second);
size_t strlen(const char *text);
#endif
