/* A call of a job that takes a line, for the C tests: what it is lent, what it must answer, and every byte of every buffer compared. */
#ifndef JOBS_H
#define JOBS_H

#include "buffers.h"

static struct bytes line, vars_image, homes_image, params_image, paths_image, want_out, want_vars, want_message;
static struct buffer vars, work, out, message, vars_before, work_before, out_before, message_before;
static int count;

/* the sizes of the next call's buffers, and the used length; reset by `set` */
static size_t vars_len, used, work_len, out_len, message_len;

/* whether unset names shout in the calls that follow */
static bool shouts;

typedef struct drunquill_answer job(const uint8_t *, size_t, uint8_t *, size_t, size_t, bool, const uint8_t *, size_t, const uint8_t *, size_t,
                                    const uint8_t *, size_t, uint8_t *, size_t, uint8_t *, size_t, uint8_t *, size_t);

static inline void fail(const char *name, const char *what) {
    printf("tests/built/c: %s: %s\n", name, what);
    exit(1);
}

/* The variables and paths of the spoiled recipes, no parameters, and a line. */
static inline void set(const char *text) {
    image(&vars_image, (const char *const[]){"HOME", "/home/crew", "job", "north field", "note", "", NULL});
    image(&homes_image, (const char *const[]){NULL});
    image(&params_image, (const char *const[]){NULL});
    image(&paths_image, (const char *const[]){".hid.raw", "a b.raw", "n/p1.raw", "p1.raw", "p2.raw", NULL});
    line.len = 0;
    add_string(&line, text);
    vars_len = 300;
    used = vars_image.len;
    work_len = DRUNQUILL_WORK_LEAST;
    out_len = 200;
    message_len = 40;
    want_out.len = 0;
    want_vars.len = 0;
    want_message.len = 0;
}

/* The buffers after the call: new images and the message in front, junk as before after them, but behind the variables' new image zeros up to the used length
 * given; and the work area zero. */
static inline void compare_buffers(const char *name) {
    if (want_vars.len && want_vars.len < used) memset(lent(&vars_before), 0, used);
    memcpy(lent(&vars_before), want_vars.at, want_vars.len);
    memcpy(lent(&out_before), want_out.at, want_out.len);
    memcpy(lent(&message_before), want_message.at, want_message.len);
    memset(lent(&work_before), 0, work_before.len);
    if (!same(&vars, &vars_before)) fail(name, "variables");
    if (!same(&work, &work_before)) fail(name, "work area");
    if (!same(&out, &out_before)) fail(name, "output");
    if (!same(&message, &message_before)) fail(name, "message");
}

/* Lends the buffers that a job writes to: the variables, and junk. */
static inline void lend_all(void) {
    lend(&vars, vars_len, &vars_image, 5);
    lend(&work, work_len, NULL, 77);
    lend(&out, out_len, NULL, 141);
    lend(&message, message_len, NULL, 23);
    vars_before = vars;
    work_before = work;
    out_before = out;
    message_before = message;
}

static inline void compare(const char *name, struct drunquill_answer a, unsigned number, size_t place) {
    if (a.number != number) {
        printf("tests/built/c: %s: number %u, not %u\n", name, a.number, number);
        exit(1);
    }
    if (a.place != place) fail(name, "place");
    if (a.out_len != want_out.len) fail(name, "output length");
    if (a.vars_used != (number == 0 && want_vars.len ? want_vars.len : used)) fail(name, "used length");
    if (a.message_len != want_message.len) fail(name, "message length");
    compare_buffers(name);
    count++;
}

static inline void call(const char *name, job *f, unsigned number, size_t place) {
    lend_all();
    compare(name,
            f(line.at, line.len, lent(&vars), vars_len, used, shouts, homes_image.at, homes_image.len, params_image.at, params_image.len, paths_image.at,
              paths_image.len, lent(&work), work_len, lent(&out), out_len, lent(&message), message_len),
            number, place);
}

/* A call of the assigner with the sizes and tables that are set. */
static inline void assign(const char *name, unsigned number, size_t place) {
    lend_all();
    compare(name,
            drunquill_assign(line.at, line.len, lent(&vars), vars_len, used, shouts, homes_image.at, homes_image.len, params_image.at, params_image.len,
                             lent(&work), work_len, lent(&message), message_len),
            number, place);
}

/* A line is refused by both jobs that take one, with the sizes and tables that are set. */
static inline void refused(const char *name, unsigned number, size_t place) {
    call(name, drunquill_expand, number, place);
    call(name, drunquill_normalise, number, place);
}

static inline void refuses(const char *text, unsigned number, size_t place) {
    set(text);
    refused(text, number, place);
}

#endif
