/* What patterns cost: pairs counted, what refuses a call and in which order, every byte of the work area, written out here from E13 of
 * docs/02-change-requests.md; and short patterns without brackets held against a plain search for the pairs that can be reached. */
#include "buffers.h"

static struct bytes pattern, text, junk;
static struct buffer work;
static size_t work_len;
static int count;

static void fail(const char *what) {
    printf("tests/built/c: %.*s with %.*s: %s\n", (int)pattern.len, (char *)pattern.at, (int)text.len, (char *)text.at, what);
    exit(1);
}

static void set(const char *p, const char *t) {
    pattern.len = text.len = 0;
    add_string(&pattern, p);
    add_string(&text, t);
    work_len = DRUNQUILL_WORK_LEAST;
}

/* The call in a work area of junk: after it the area is zero throughout, and nothing around it is touched. */
static void call(unsigned number, size_t pairs) {
    junk.len = 0;
    repeat(&junk, "*[a-z]?", 100);
    lend(&work, work_len, &junk, 7);
    struct drunquill_costed a = drunquill_cost(pattern.at, pattern.len, text.at, text.len, lent(&work), work_len);
    if (a.number != number) fail("number");
    if (a.place != 0) fail("place");
    if (a.pairs != pairs) fail("pairs");
    struct buffer zero = work;
    memset(lent(&zero), 0, work_len);
    if (!same(&work, &zero)) fail("work area");
    count++;
}

static void costs(const char *p, const char *t, size_t pairs) {
    set(p, t);
    call(0, pairs);
}

static void counts(void) {
    costs("", "", 1);
    costs("", "ab", 1);
    costs("*", "", 2);
    costs("*", "ab", 6);
    costs("abc", "abd", 3);
    costs("?", "", 1);
    costs("*a*[!b]", "aab", 15);
    costs("[[:digit:]", "[7:", 2);
    costs("[[:digit:]][[:alpha:]]", "7b", 3);
    costs("[", "[", 2);
    set("", "");
    add(&pattern, "\0*", 2);
    add(&text, "\0\xff", 2);
    call(0, 5);
}

/* 1, then 19, then 14; each of 14's limits alone, and what is just within. */
static void in_order(void) {
    set("*[[.", "");
    repeat(&text, "a", 300);
    work_len--;
    call(DRUNQUILL_WORK_TOO_SMALL, 0);
    work_len = 0;
    call(DRUNQUILL_WORK_TOO_SMALL, 0);
    work_len = DRUNQUILL_WORK_LEAST;
    call(DRUNQUILL_BRACKET_CLASS, 0);
    set("", "");
    repeat(&pattern, "*", 70);
    add_string(&pattern, "[[:x:]]");
    call(DRUNQUILL_BRACKET_CLASS, 0);
    set("", "");
    repeat(&pattern, "*", DRUNQUILL_ELEMENTS_MAX + 1);
    call(DRUNQUILL_TOO_MANY_UNITS, 0);
    set("a", "");
    repeat(&text, "a", DRUNQUILL_COMPARED_MAX + 1);
    call(DRUNQUILL_TOO_MANY_UNITS, 0);
    set("", "");
    repeat(&pattern, "*", DRUNQUILL_ELEMENTS_MAX);
    repeat(&text, "a", DRUNQUILL_COMPARED_MAX);
    call(0, (DRUNQUILL_ELEMENTS_MAX + 1) * (DRUNQUILL_COMPARED_MAX + 1));
}

/* One bracket may have more members than the work area has bytes, and a work area more than it needs. */
static void long_ones(void) {
    set("*[", "zb");
    repeat(&pattern, "abc", 22000);
    add_string(&pattern, "]");
    work_len = ROOM;
    call(0, 7);
}

/* The pairs that can be reached, found by going on until nothing comes new. */
static size_t reached(void) {
    static char seen[16][16];
    size_t sum = 1, old;
    memset(seen, 0, sizeof seen);
    seen[0][0] = 1;
    do {
        old = sum;
        for (size_t i = 0; i < pattern.len; i++) {
            for (size_t j = 0; j <= text.len; j++) {
                if (!seen[i][j]) continue;
                uint8_t e = pattern.at[i];
                if (e == '*') {
                    seen[i + 1][j] = 1;
                    if (j < text.len) seen[i][j + 1] = 1;
                } else if (j < text.len && (e == '?' || e == text.at[j])) {
                    seen[i + 1][j + 1] = 1;
                }
            }
        }
        sum = 0;
        for (size_t i = 0; i <= pattern.len; i++)
            for (size_t j = 0; j <= text.len; j++) sum += seen[i][j];
    } while (sum != old);
    return sum;
}

static void short_ones(void) {
    unsigned state = 1;
    for (int n = 0; n < 5000; n++) {
        set("", "");
        for (int i = (state >> 8) % 12; i > 0; i--) {
            state = state * 1103515245 + 12345;
            add(&pattern, &"**?aab"[(state >> 16) % 6], 1);
        }
        for (int i = (state >> 12) % 12; i > 0; i--) {
            state = state * 1103515245 + 12345;
            add(&text, &"ab"[(state >> 16) % 2], 1);
        }
        state = state * 1103515245 + 12345;
        call(0, reached());
    }
}

int main(void) {
    counts();
    in_order();
    long_ones();
    short_ones();
    printf("c: %d calls that price a pattern, every byte of the work area\n", count);
}
