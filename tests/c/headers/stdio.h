/* What tests/c and tools/bench use of <stdio.h>, as glibc has it on x86-64. */
#ifndef STDIO_H
#define STDIO_H
#include <stddef.h>
typedef struct _IO_FILE FILE;
extern FILE *stdout;
#define _IOLBF 1
#define EOF (-1)
int getchar(void);
int printf(const char *format, ...) __attribute__((format(printf, 1, 2)));
int puts(const char *text);
int snprintf(char *restrict to, size_t size, const char *restrict format, ...) __attribute__((format(printf, 3, 4)));
int setvbuf(FILE *stream, char *buffer, int mode, size_t size);
#endif
