/* Lent buffers for the C tests: each has guard bytes around it, and every byte of it is compared after a call. */
#ifndef BUFFERS_H
#define BUFFERS_H

#include <stddef.h>
#include <stdint.h>
#include <stdio.h>
#include <stdlib.h>
#include <string.h>

#include "drunquill.h"

enum { ROOM = 70000, GUARD = 64, GUARD_BYTE = 0xEE };

struct buffer {
    uint8_t all[GUARD + ROOM + GUARD];
    size_t len;
};

/* the image or line being put together */
struct bytes {
    uint8_t at[ROOM];
    size_t len;
};

static inline void add(struct bytes *b, const void *from, size_t len) {
    memcpy(b->at + b->len, from, len);
    b->len += len;
}

static inline void add_string(struct bytes *b, const char *s) { add(b, s, strlen(s)); }

static inline void repeat(struct bytes *b, const char *s, int times) {
    while (times-- > 0) add_string(b, s);
}

static inline void empty_image(struct bytes *b) {
    b->len = 1;
    b->at[0] = 1;
}

static inline void add_text_of(struct bytes *b, const void *from, size_t len) {
    b->at[b->len++] = (uint8_t)(len >> 8);
    b->at[b->len++] = (uint8_t)len;
    add(b, from, len);
}

static inline void add_text(struct bytes *b, const char *s) { add_text_of(b, s, strlen(s)); }

/* An image of the texts up to the null. */
static inline void image(struct bytes *b, const char *const *texts) {
    empty_image(b);
    while (*texts) add_text(b, *texts++);
}

static inline uint8_t *lent(struct buffer *b) { return b->all + GUARD; }

/* A buffer of `len` bytes that begins with `from` and is junk behind it. */
static inline void lend(struct buffer *b, size_t len, const struct bytes *from, unsigned seed) {
    memset(b->all, GUARD_BYTE, sizeof b->all);
    b->len = len;
    for (size_t i = 0; i < len; i++) lent(b)[i] = (uint8_t)((seed + 31u * (unsigned)i) % 251u + 3u);
    if (from) memcpy(lent(b), from->at, from->len < len ? from->len : len);
}

/* Are all bytes, the guards too, as in the other buffer? */
static inline int same(const struct buffer *a, const struct buffer *b) { return a->len == b->len && memcmp(a->all, b->all, sizeof a->all) == 0; }

#endif
