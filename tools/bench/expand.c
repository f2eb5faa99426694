/* Times whole calls by the length of what they are given, of the line or of a value: a cost that grows with it shows as the same time for each byte, and as
   growth by 2 from one length to the next, what the empty line takes taken off. Lines that end in a quote are read and then refused, which shows reading
   alone; the others show what comes on top of it, expanding, splitting, and quoting, by the normaliser. Run by tools/measure. */
#define _GNU_SOURCE
#include "drunquill.h"
#include <stdio.h>
#include <stdlib.h>
#include <string.h>
#include <time.h>

enum { LENGTHS = 5 };
static const size_t lengths[LENGTHS] = {0, 256, 512, 1024, 2048};
static unsigned char vars[8192], work[65536], out[8192], line[2048], message[2048];
static const unsigned char none[1] = {1};
static size_t vars_used;

static double now(void) {
  struct timespec t;
  clock_gettime(CLOCK_PROCESS_CPUTIME_ID, &t);
  return (double)t.tv_sec + (double)t.tv_nsec * 1e-9;
}

/* A piece again and again, up to n bytes: how many there are. */
static size_t repeat(unsigned char *to, const char *piece, size_t n) {
  size_t p = strlen(piece), used = 0;
  while (p > 0 && used + p <= n) memcpy(to + used, piece, p), used += p;
  return used;
}

/* The variable v has this value, of a piece again and again up to n bytes. */
static void set_value(const char *piece, size_t n) {
  vars[0] = 1, vars[1] = 0, vars[2] = 1, vars[3] = 'v';
  size_t length = repeat(vars + 6, piece, n);
  vars[4] = (unsigned char)(length / 256), vars[5] = (unsigned char)(length % 256);
  vars_used = 6 + length;
}

/* What is as long as is said: the line, of a piece again and again with its end behind it, while v has one value; or the value of v, while the line stays. */
static const struct {
  const char *name, *line, *end, *value;
  bool is_value, is_normaliser;
} kinds[] = {
    {"reading words", "abc ", "'", "", false, false},
    {"reading quoted words", "'a b' ", "'", "", false, false},
    {"reading parameters", "\"$v\" ", "'", "", false, false},
    {"reading arithmetic", "$((1+2)) ", "'", "", false, false},
    {"plain bytes", "a", "", "", false, false},
    {"words of three bytes", "abc ", "", "", false, false},
    {"quoted words", "'a b' ", "", "", false, false},
    {"unset parameters", "$u ", "", "", false, false},
    {"parameters", "\"$v\" ", "", "abc", false, false},
    {"arithmetic", "$((1+2)) ", "", "", false, false},
    {"a value", "$v", "", "abcd", true, false},
    {"splitting in four", "$v ", "", "a b c d", false, false},
    {"splitting a value", "$v", "", "a b ", true, false},
    {"quoting plain words", "abc ", "", "", false, true},
    {"quoting quoted words", "'a b' ", "", "", false, true},
};

enum { KINDS = sizeof kinds / sizeof *kinds };
static const double turn = 5e-4; /* seconds of a turn */

/* The line and the value of v at such a length, or the empty line; how long the line is. */
static size_t make(int k, size_t n) {
  bool is_line = !kinds[k].is_value;
  set_value(kinds[k].value, is_line ? strlen(kinds[k].value) : n);
  if (n == 0) return 0;
  size_t used = repeat(line, kinds[k].line, is_line ? n - strlen(kinds[k].end) : strlen(kinds[k].line));
  return used + repeat(line + used, kinds[k].end, strlen(kinds[k].end));
}

/* The time of so many calls on the line. */
static double calls(int k, size_t n, int count, unsigned *number) {
  double a = now();
  for (int i = 0; i < count; i++)
    *number = (kinds[k].is_normaliser ? drunquill_normalise : drunquill_expand)(line, n, vars, sizeof vars, vars_used, false, none, 1, none, 1, none, 1, work,
                                                                                sizeof work, out, sizeof out, message, sizeof message)
                  .number;
  return now() - a;
}

/* The least time of a call at each length, the empty line first, in turn; the number at the last one. */
static unsigned measure(int k, double seconds, double *least) {
  unsigned number = 0;
  int count[LENGTHS];
  for (int i = 0; i < LENGTHS; i++) count[i] = 1 + (int)(turn / (calls(k, make(k, lengths[i]), 50, &number) / 50)), least[i] = 1e9;
  for (double spent = 0; spent < seconds;)
    for (int i = 0; i < LENGTHS; i++) {
      double took = calls(k, make(k, lengths[i]), count[i], &number);
      spent += took;
      if (took / count[i] < least[i]) least[i] = took / count[i];
    }
  return number;
}

int main(int argc, char **argv) {
  double seconds = (argc > 1 ? atof(argv[1]) : 12) / KINDS;
  for (int k = 0; k < KINDS; k++) {
    double least[LENGTHS];
    unsigned number = measure(k, seconds, least);
    printf("%-20s  empty line: %.2f us", kinds[k].name, least[0] * 1e6);
    for (int i = 1; i < LENGTHS; i++) {
      double more = least[i] - least[0];
      printf("  %4zu bytes: %5.1f us more, %4.1f ns a byte", lengths[i], more * 1e6, more * 1e9 / (double)lengths[i]);
      if (i > 1) printf(", by %.2f", more / (least[i - 1] - least[0]));
    }
    printf("  number %u\n", number);
  }
  return 0;
}
