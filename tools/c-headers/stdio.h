/* The part of C's stdio.h that is needed here; the functions are those of the kit's C library. */
#ifndef STDIO_H
#define STDIO_H
#define EOF (-1)
int printf(const char *format, ...);
int getchar(void);
int putchar(int character);
int puts(const char *text);
#endif
