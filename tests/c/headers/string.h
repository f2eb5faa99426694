/* What tests/c and tools/bench use of <string.h>. */
#ifndef STRING_H
#define STRING_H
#include <stddef.h>
int memcmp(const void *one, const void *other, size_t count);
void *memcpy(void *restrict to, const void *restrict from, size_t count);
void *memmove(void *to, const void *from, size_t count);
void *memset(void *to, int byte, size_t count);
int strcmp(const char *one, const char *other);
size_t strlen(const char *text);
#endif
