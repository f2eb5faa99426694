/* Times the insertion and the deletion of a path against the same bytes moved by memmove, on a card that is full and on parts of it: each of 1,000 paths in
   turn is the one that is missing. Before each call the card is laid anew, and what that takes is taken off. Run by tools/measure. */
#define _GNU_SOURCE
#include "drunquill.h"
#include <stdio.h>
#include <stdlib.h>
#include <string.h>
#include <time.h>

enum { TEXT = 29, RECORD = TEXT + 2, MOST = (DRUNQUILL_PATHS_MAX - 1) / RECORD, ROUNDS = 1000 };

static unsigned char full[DRUNQUILL_PATHS_MAX], card[DRUNQUILL_PATHS_MAX];
static size_t size; /* of the full image */
static int paths;
static unsigned refused;

static double now(void) {
  struct timespec t;
  clock_gettime(CLOCK_PROCESS_CPUTIME_ID, &t);
  return (double)t.tv_sec + (double)t.tv_nsec * 1e-9;
}

/* An image of so many paths. */
static void fill(int n) {
  paths = n, size = 1, full[0] = 1;
  for (int i = 0; i < n; i++) {
    char text[TEXT + 1];
    snprintf(text, sizeof text, "jobs/north7/0704/obs-%04d.raw", i);
    full[size] = 0, full[size + 1] = TEXT;
    memcpy(full + size + 2, text, TEXT);
    size += RECORD;
  }
}

/* The bytes before the k-th path, those of all paths in turn, spread over the card. */
static size_t place(int k) { return 1 + (size_t)(k * 389L % paths) * RECORD; }

/* The full card without that path, or all of it. */
static void lay_without(size_t at) {
  memcpy(card, full, at);
  memcpy(card + at, full + at + RECORD, size - at - RECORD);
}

static void lay(size_t at) { (void)at, memcpy(card, full, size); }

static void nothing(size_t at) { (void)at; }

static void insert(size_t at) { refused |= drunquill_insert_path(card, sizeof card, size - RECORD, full + at + 2, TEXT).number; }

static void insert_by_move(size_t at) {
  memmove(card + at + RECORD, card + at, size - RECORD - at);
  memcpy(card + at, full + at, RECORD);
}

static void delete(size_t at) { refused |= drunquill_delete_path(card, sizeof card, size, full + at + 2, TEXT).number; }

static void delete_by_move(size_t at) {
  memmove(card + at, card + at + RECORD, size - at - RECORD);
  memset(card + size - RECORD, 0, RECORD);
}

/* Refused with 4 for its path, once the image has been checked. */
static void check(size_t at) { (void)at, drunquill_delete_path(card, sizeof card, size, full, 0); }

typedef void step(size_t);

/* The seconds of one round of a step, behind the laying of its card. */
static double round_of(step *laid, step *f) {
  double a = now();
  for (int k = 0; k < ROUNDS; k++) {
    laid(place(k));
    f(place(k));
    __asm__ volatile("" : : "r"(card) : "memory");
  }
  return now() - a;
}

/* The microseconds of a step, and of its peer: rounds of both in turn, and of the laying alone. */
static void times(step *laid, step *f, step *peer, double seconds, double *one, double *other) {
  double spent[3] = {0, 0, 0};
  long rounds = 0;
  for (; spent[0] + spent[1] + spent[2] < seconds; rounds++) {
    spent[0] += round_of(laid, nothing);
    spent[1] += round_of(laid, f);
    spent[2] += round_of(laid, peer);
  }
  *one = (spent[1] - spent[0]) * 1e6 / ROUNDS / (double)rounds;
  *other = (spent[2] - spent[0]) * 1e6 / ROUNDS / (double)rounds;
}

static void measure(const char *what, step *laid, step *f, step *peer, double seconds) {
  double one, other, checked;
  times(laid, f, peer, seconds, &one, &other);
  times(lay, check, nothing, seconds, &checked, &(double){0});
  printf("%-9s a path, %4d paths, %5zu bytes: %6.2f us, %4.2f ns a byte, of it the image's check %6.2f us; memmove %5.2f us, ratio %5.1f\n", what, paths,
         size, one, one * 1e3 / (double)size, checked, other, one / other);
}

int main(int argc, char **argv) {
  double seconds = (argc > 1 ? atof(argv[1]) : 12) / 16;
  for (int part = 8; part > 0; part /= 2) {
    fill(MOST / part);
    measure("inserting", lay_without, insert, insert_by_move, seconds);
    if (memcmp(card, full, size)) return puts("tools/bench/updates: another image"), 1;
    measure("deleting", lay, delete, delete_by_move, seconds);
  }
  if (refused) return puts("tools/bench/updates: a path was refused"), 1;
  return 0;
}
