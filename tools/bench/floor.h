/* The floor of a call: what its buffers cost before a byte of the line is looked at, as plain C has it. The work area is cleared by memset, and each table
   is checked by document 01's rules, byte by byte in loops: the version, the length, texts that end within the image and hold no zero byte, names and logins
   of their bytes alone, keys in strictly rising order. It answers what a call answers on the empty line: 0, or the number of the first table that is
   malformed or too long. */
#ifndef FLOOR_H
#define FLOOR_H
#include "drunquill.h"
#include <string.h>

enum kind { VARIABLES, HOMES, PATHS, FIELDS };

/* What is lent to a call beside its line, its output and its message; the work area has DRUNQUILL_WORK_LEAST bytes. */
struct tables {
  uint8_t *vars;
  size_t vars_len, vars_used;
  const uint8_t *homes, *params, *paths;
  size_t homes_len, params_len, paths_len;
};

struct text {
  const uint8_t *bytes;
  size_t n;
};

static inline bool is_name_byte(uint8_t b) { return (b >= 'a' && b <= 'z') || (b >= 'A' && b <= 'Z') || (b >= '0' && b <= '9') || b == '_'; }

static inline bool is_name(struct text t) {
  if (t.n == 0 || (t.bytes[0] >= '0' && t.bytes[0] <= '9')) return false;
  for (size_t i = 0; i < t.n; i++)
    if (!is_name_byte(t.bytes[i])) return false;
  return true;
}

static inline bool is_login(struct text t) {
  for (size_t i = 0; i < t.n; i++)
    if (!is_name_byte(t.bytes[i]) && t.bytes[i] != '.' && t.bytes[i] != '-') return false;
  return t.n > 0;
}

static inline bool has_no_zero(struct text t) {
  for (size_t i = 0; i < t.n; i++)
    if (t.bytes[i] == 0) return false;
  return true;
}

/* The first text comes before the second one by unsigned bytes, a prefix first. */
static inline bool comes_before(struct text a, struct text b) {
  size_t i = 0;
  while (i < a.n && i < b.n && a.bytes[i] == b.bytes[i]) i++;
  return i < b.n && (i == a.n || a.bytes[i] < b.bytes[i]);
}

/* The text at a place of an image; whether it ends within the image. */
static inline bool take_text(const uint8_t *image, size_t length, size_t *at, struct text *t) {
  if (length - *at < 2) return false;
  t->n = (size_t)image[*at] * 256 + image[*at + 1], t->bytes = image + *at + 2;
  if (t->n > length - *at - 2) return false;
  *at += 2 + t->n;
  return true;
}

/* For each kind by itself. */
static inline __attribute__((always_inline)) bool is_well_formed(enum kind kind, const uint8_t *image, size_t length) {
  if (length == 0 || length > (kind == PATHS ? DRUNQUILL_PATHS_MAX : DRUNQUILL_IMAGE_MAX) || image[0] != 1) return false;
  struct text last = {image, 0}, key, value;
  for (size_t at = 1; at < length; last = key) {
    if (!take_text(image, length, &at, &key)) return false;
    if (kind == VARIABLES ? !is_name(key) : kind == HOMES ? !is_login(key) : !has_no_zero(key)) return false;
    if (kind != FIELDS && !comes_before(last, key)) return false;
    if ((kind == VARIABLES || kind == HOMES) && (!take_text(image, length, &at, &value) || !has_no_zero(value))) return false;
  }
  return true;
}

static __attribute__((noinline)) unsigned check_tables(const struct tables *t) {
  if (t->vars_used > t->vars_len || !is_well_formed(VARIABLES, t->vars, t->vars_used)) return DRUNQUILL_BAD_VARIABLES;
  if (!is_well_formed(HOMES, t->homes, t->homes_len)) return DRUNQUILL_BAD_HOMES;
  if (!is_well_formed(PATHS, t->paths, t->paths_len)) return DRUNQUILL_BAD_PATHS;
  if (!is_well_formed(FIELDS, t->params, t->params_len)) return DRUNQUILL_BAD_PARAMETERS;
  return DRUNQUILL_ACCEPTED;
}

/* The compiler does not see what happens to memory here: so it leaves out neither the clearing nor the check of what it has checked before. */
static inline void look(void) { __asm__ volatile("" ::: "memory"); }

static inline unsigned floor_of(const struct tables *t, uint8_t *work) {
  memset(work, 0, DRUNQUILL_WORK_LEAST);
  look();
  return check_tables(t);
}
#endif
