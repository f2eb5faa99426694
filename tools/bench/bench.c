/* Times proved functions against peers in one run and prints ratios: below 1 the proved function is the faster one. Each pair takes
   turns on the same input, by processor time, for about SECONDS in all (default 12). Build and run: tools/measure [SECONDS]. */
#define _GNU_SOURCE
#include <fnmatch.h>
#include <stdint.h>
#include <stdio.h>
#include <stdlib.h>
#include <string.h>
#include <time.h>

_Bool measured_paths_formed(const uint8_t *image, size_t length);
size_t measured_matching(const uint8_t *pattern, size_t pattern_length, const uint8_t *paths, size_t length);
uint8_t measured_read(const uint8_t *line, size_t length);

static double seconds = 12;
static volatile uint32_t sink;

static double now(void) {
  struct timespec t;
  clock_gettime(CLOCK_PROCESS_CPUTIME_ID, &t);
  return (double)t.tv_sec + (double)t.tv_nsec * 1e-9;
}

/* The walk over an image of paths as a C programmer writes it. */
__attribute__((noinline)) static uint32_t paths_formed(const uint8_t *image, size_t length) {
  if (length > 32768 || length < 1 || image[0] != 1) return 0;
  size_t at = 1, from = 0, to = 0;
  while (at < length) {
    if (length - at < 2) return 0;
    size_t n = (size_t)image[at] * 256 + image[at + 1], start = at + 2;
    if (n > length - start || n == 0) return 0;
    for (size_t i = 0; i < n; i++)
      if (image[start + i] == 0) return 0;
    size_t old = to - from, least = old < n ? old : n, i = 0;
    while (i < least && image[from + i] == image[start + i]) i++;
    if (i < least ? image[from + i] >= image[start + i] : old >= n) return 0;
    from = start, to = start + n, at = to;
  }
  return 1;
}

/* Paths in rising order, as many as fit 32 KiB: their image, and each with a zero byte behind it, as fnmatch takes it. */
struct card {
  uint8_t image[32768];
  size_t length;
  char names[1500][24];
  int count;
};
static struct card season, many_a;

static void add_path(struct card *card, const char *path) {
  size_t n = strlen(path);
  if (card->length == 0) card->image[card->length++] = 1;
  if (card->length + 2 + n > sizeof card->image) return;
  uint8_t *at = card->image + card->length;
  at[0] = (uint8_t)(n / 256), at[1] = (uint8_t)(n % 256);
  memcpy(at + 2, path, n), memcpy(card->names[card->count], path, n + 1);
  card->length += 2 + n, card->count++;
}

/* A season's card, and one of paths on which many stars fail. */
static void make_cards(void) {
  static const char *const jobs[] = {"north-abc", "base", "aabbaabb", "rover-c", "field"};
  char path[24];
  for (int i = 0; i < 1500; i++) {
    snprintf(path, sizeof path, "p%04d-25-%s%s", i, jobs[i % 5], i % 3 ? ".raw" : ".obs");
    add_path(&season, path);
    snprintf(path, sizeof path, "aaaaaaaaaaaaaaa%04d", i);
    add_path(&many_a, path);
  }
}

static void check_paths(void) {
  const uint8_t *image = season.image;
  size_t image_length = season.length;
  double ours = 0, peer = 0, share = seconds / 6;
  long rounds = 0;
  if (!measured_paths_formed(image, image_length) || !paths_formed(image, image_length)) {
    puts("the card is not well formed");
    exit(1);
  }
  while (ours + peer < 2 * share) {
    double a = now();
    for (int i = 0; i < 50; i++) sink += measured_paths_formed(image, image_length);
    double b = now();
    for (int i = 0; i < 50; i++) {
      sink += paths_formed(image, image_length);
      __asm__ volatile("" ::: "memory"); /* so that no compiler works it out once for all rounds */
    }
    double c = now();
    ours += b - a, peer += c - b, rounds += 50;
  }
  printf("check of %zu bytes of paths: %.1f us, C %.1f us, ratio %.2f\n", image_length, ours / (double)rounds * 1e6,
         peer / (double)rounds * 1e6, ours / peer);
}

static void match(const char *pattern, const char *of, const struct card *card) {
  uint8_t units[256];
  size_t n = strlen(pattern);
  for (size_t i = 0; i < n; i++) units[2 * i] = (uint8_t)pattern[i], units[2 * i + 1] = 1;
  double ours = 0, peer = 0, share = seconds / 6;
  long rounds = 0, found = 0, known = 0;
  while (ours + peer < 2 * share) {
    double a = now();
    found += (long)measured_matching(units, 2 * n, card->image, card->length);
    double b = now();
    for (int i = 0; i < card->count; i++) known += fnmatch(pattern, card->names[i], FNM_PATHNAME | FNM_PERIOD) == 0;
    double c = now();
    ours += b - a, peer += c - b, rounds++;
  }
  if (found != known) {
    printf("%s: %ld found, fnmatch %ld\n", pattern, found, known);
    exit(1);
  }
  printf("%-16s over %d paths%s: %.1f us, fnmatch %.1f us, ratio %.2f, %ld match\n", pattern, card->count, of, ours / (double)rounds * 1e6,
         peer / (double)rounds * 1e6, ours / peer, found / rounds);
}

/* A line of at most 2,048 bytes that repeats a piece behind a head and closes with a tail. */
static void read_line(const char *what, const char *head, const char *piece, const char *tail) {
  uint8_t line[2048];
  size_t h = strlen(head), p = strlen(piece), t = strlen(tail), n = h;
  memcpy(line, head, h);
  while (n + p + t <= sizeof line) memcpy(line + n, piece, p), n += p;
  memcpy(line + n, tail, t), n += t;
  double spent = 0;
  long rounds = 0;
  uint32_t number = measured_read(line, n);
  while (spent < seconds / 20) {
    double a = now();
    for (int i = 0; i < 20; i++) sink += measured_read(line, n);
    spent += now() - a, rounds += 20;
  }
  printf("reading %4zu bytes, %-34s number %2u: %.1f us, %.1f ns a byte\n", n, what, number, spent / (double)rounds * 1e6,
         spent / (double)rounds * 1e9 / (double)n);
}

int main(int argc, char **argv) {
  if (argc > 1) seconds = atof(argv[1]);
  make_cards();
  check_paths();
  match("*.raw", "", &season);
  match("p[0-9]*.raw", "", &season);
  match("*a*b*c*", "", &season);
  match("*a*a*a*a*b", " of 15 a", &many_a);
  read_line("plain bytes", "", "a", "");
  read_line("words of one byte", "", "a ", "");
  read_line("quoted bytes", "\"", "a", "\"");
  read_line("quotes of one byte", "", "'a'", "");
  read_line("names", "", "$ab", "");
  read_line("operands, eight deep", "${a-${a-${a-${a-${a-${a-${a-${a-", "x", "}}}}}}}}");
  read_line("operands side by side", "", "${a-b}", "");
  read_line("arithmetic", "$((", "1+(2)*3-", "1))");
  read_line("one long name", "${", "a", "}");
  read_line("a quote that never ends", "'", "a", "");
  read_line("the ninth expansion", "", "${a-", "");
  return 0;
}
