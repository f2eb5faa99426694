/* Calls of the archive's expander beside glibc's wordexp, dash and the floor (floor.h), on sets of lines and tables, in turn in one run, by processor time;
   then the bars that the ratios are held to, and what a call spends on clearing the work area and checking the tables. Each line must give the same fields in
   all three, and floor and library must judge every image alike, or the run fails. Expander, floor and wordexp are called again and again in this process,
   each in many short turns, the least of which counts; dash is one process that reads a script of many lines `: LINE`, and what a script without lines takes
   is taken off. The peers have the set's variables as their environment. Patterns go over a table of paths and, for the peers, over a folder of as many files
   with these names. One set has a thousand different lines, in turn, so that a processor cannot foresee what comes; every other has one line. peers DASH
   FOLDER SECONDS; run by tools/measure in the folder, which is empty. */
#define _GNU_SOURCE
#include "floor.h"
#include <fcntl.h>
#include <gnu/libc-version.h>
#include <stdio.h>
#include <stdlib.h>
#include <sys/resource.h>
#include <sys/wait.h>
#include <time.h>
#include <unistd.h>
#include <wordexp.h>

enum { PATHS_COUNT = 1500, FEW_PATHS = 28, LONG_LINE = 2000, MANY = 1000, MANY_ROOM = 400, SCRIPT = 1 << 22, ROUNDS = 20 };
static const double turn = 3e-4; /* seconds of a short turn */

static const char *const variables[][2] = {
    {"HOME", "/home/crew"}, {"axis", "axis 4, left,,right"}, {"base", "base 07.dat"}, {"client", "O'Hara & Sons"}, {"count", "12"},
    {"crew", "Anna Berg"}, {"export", "out/north field.csv"}, {"face", "west face east face"}, {"grade", "3"}, {"height", "31"},
    {"job", "north field"}, {"lane", "lane 7"}, {"list", "p1.raw p2.raw  p3.raw p10.raw p11.raw"}, {"note", ""}, {"offset", "7"},
    {"owner", "Muller"}, {"peg", "peg 17"}, {"rods", "3"}, {"rover", "rover 1.raw"}, {"zone", "33"},
};

/* What is held to a bar: the call to its floor, the call less its floor to wordexp's call, the whole call to wordexp's, or nothing. */
enum held { TO_THE_FLOOR, ABOVE_THE_FLOOR, WHOLE, NOTHING };
struct set {
  const char *name, *line; /* no line: the many different ones, in turn */
  enum held held;
  double most;
  struct tables tables;
};
enum { ONE_BYTE, PLAIN, QUOTED, PARAMETER, ARITHMETIC, SPLITTING, GLOBBING, LONG_PLAIN, LONG_MIXED, FULL, DIFFERENT, SETS };
static char long_plain[LONG_LINE + 1], long_mixed[LONG_LINE + 1], many[MANY][MANY_ROOM];
static struct set sets[SETS] = {
    {"1 byte", "x", TO_THE_FLOOR, 1.3, {0}},
    {"plain", "load base07.dat rover.raw out/north.csv peg17 zone33 lane7 end", ABOVE_THE_FLOOR, 1.0, {0}},
    {"quoted", "load 'base 07.dat' \"rover's log.raw\" \"north field\".csv peg\\ 17", ABOVE_THE_FLOOR, 1.0, {0}},
    {"parameter", "load \"$base\" \"${rover%.raw}\" \"${export##*/}\" ${tilt:-none} $zone", ABOVE_THE_FLOOR, 1.0, {0}},
    {"arithmetic", "height $(($height * 10)) $(($zone + 7 * 12)) $(($count / 5 - 3))", ABOVE_THE_FLOOR, 1.0, {0}},
    {"splitting", "load $list $face $axis $job x$list", ABOVE_THE_FLOOR, 1.0, {0}},
    {"globbing", "load p00[0-4]?-*.raw", NOTHING, 0, {0}},
    {"2,000 bytes plain", long_plain, WHOLE, 1.0, {0}},
    {"2,000 bytes mixed", long_mixed, WHOLE, 1.0, {0}},
    {"full tables", "load base07.dat rover.raw out/north.csv peg17 zone33 lane7 end", TO_THE_FLOOR, 1.3, {0}},
    {"1,000 lines", NULL, NOTHING, 0, {0}},
};
enum { VARIABLES_COUNT = sizeof variables / sizeof *variables };

static struct {
  char what[80];
  double most, measured;
} bars[SETS + 1];
static int bars_count;

static uint8_t vars[DRUNQUILL_IMAGE_MAX], work[DRUNQUILL_WORK_LEAST], out[DRUNQUILL_IMAGE_MAX], message[DRUNQUILL_MESSAGE_MAX];
static uint8_t card[DRUNQUILL_PATHS_MAX], few[DRUNQUILL_PATHS_MAX], full_homes[DRUNQUILL_IMAGE_MAX], full_vars[DRUNQUILL_IMAGE_MAX];
static uint8_t empty_vars[DRUNQUILL_IMAGE_MAX] = {1}, tried[DRUNQUILL_PATHS_MAX + 1];
static const uint8_t none[1] = {1};
static const struct tables no_records = {empty_vars, sizeof empty_vars, 1, none, none, none, 1, 1, 1};
static size_t vars_len, card_len, few_len;
static char script[SCRIPT];
static const char *dash;
static volatile size_t sink;

static void die(const char *what, const char *which) {
  printf("peers: %s: %s\n", which, what);
  exit(1);
}

static double now(void) {
  struct timespec t;
  clock_gettime(CLOCK_PROCESS_CPUTIME_ID, &t);
  return (double)t.tv_sec + (double)t.tv_nsec * 1e-9;
}

static size_t add_text(uint8_t *image, size_t at, const char *text, size_t n) {
  image[at] = (uint8_t)(n / 256), image[at + 1] = (uint8_t)(n % 256);
  memcpy(image + at + 2, text, n);
  return at + 2 + n;
}

/* An image of so many bytes: pairs of a name and a value, or single texts, in rising order. */
static void fill(uint8_t *image, size_t size, bool pairs) {
  image[0] = 1;
  for (size_t at = 1, i = 0; at < size; i++) {
    char text[72];
    memset(text, 'x', sizeof text);
    size_t n = (size_t)snprintf(text, 8, pairs ? "v%03zu" : "v%04zu", i), rest = size - at - n - (pairs ? 4 : 2), more = rest < 60 ? rest : 20;
    text[n] = 'x';
    if (pairs)
      at = add_text(image, add_text(image, at, text, n), text + 8, more);
    else
      at = add_text(image, at, text, n + more);
  }
}

/* The tables: twenty variables, a card of 1,500 paths with a file for each, the first 28 of them, and the longest images of variables and homes. */
static void make_tables(void) {
  vars[0] = card[0] = few[0] = 1;
  vars_len = card_len = 1;
  for (size_t i = 0; i < VARIABLES_COUNT; i++) {
    vars_len = add_text(vars, vars_len, variables[i][0], strlen(variables[i][0]));
    vars_len = add_text(vars, vars_len, variables[i][1], strlen(variables[i][1]));
  }
  static const char *const jobs[] = {"north-abc", "base", "aabbaabb", "rover-c", "field"};
  for (int i = 0; i < PATHS_COUNT; i++) {
    char name[32];
    int n = snprintf(name, sizeof name, "p%04d-25-%s%s", i, jobs[i % 5], i % 3 ? ".raw" : ".obs");
    card_len = add_text(card, card_len, name, (size_t)n);
    if (i < FEW_PATHS) memcpy(few, card, few_len = card_len);
    int file = open(name, O_CREAT | O_WRONLY, 0600);
    if (file < 0) die("cannot be made", name);
    close(file);
  }
  fill(full_vars, sizeof full_vars, true), fill(full_homes, sizeof full_homes, true);
}

/* A number below n, the same ones in every run. */
static unsigned draw(unsigned n) {
  static uint32_t state = 7;
  state = state * 1103515245 + 12345;
  return (state >> 16) % n;
}

/* Lines of eight words, of 3 to 12 bytes that need no quotes, or of two or three such words in quotes, with an apostrophe in double ones. */
static void make_many(void) {
  static const char bytes[] = "abcdefghijklmnopqrstuvwxyzabcdefghijklmnopqrstuvwxyz0123456789._-/";
  for (int i = 0; i < MANY; i++) {
    char *to = many[i];
    for (int word = 0; word < 8; word++) {
      unsigned kind = draw(10), parts = kind < 6 ? 1 : kind < 8 ? 2 : 3;
      if (word) *to++ = ' ';
      if (parts > 1) *to++ = parts == 2 ? '\'' : '"';
      for (unsigned part = 0; part < parts; part++) {
        if (part) to += sprintf(to, "%s", part == 2 ? "'s " : " ");
        for (unsigned left = 3 + draw(10); left; left--) *to++ = bytes[draw(sizeof bytes - 1)];
      }
      if (parts > 1) *to++ = parts == 2 ? '\'' : '"';
    }
    *to = 0;
  }
}

/* The line of a set that is called for at its i-th turn. */
static const char *line_at(const struct set *s, int i) { return s->line ? s->line : many[i % MANY]; }

/* The long lines: the plain line's words again and again; and the five lines behind each other, again and again, as far as whole ones fit. */
static void make_sets(void) {
  make_many();
  const char *words = sets[PLAIN].line;
  size_t length = strlen(words), used = 0;
  for (size_t at = 0; at < LONG_LINE; at++) long_plain[at] = at % (length + 1) < length ? words[at % (length + 1)] : ' ';
  for (int kind = PLAIN; used + 1 + strlen(sets[kind].line) <= LONG_LINE; kind = kind == SPLITTING ? PLAIN : kind + 1)
    used += (size_t)sprintf(long_mixed + used, "%s%s", used ? " " : "", sets[kind].line);
  for (int i = 0; i < SETS; i++)
    sets[i].tables = (struct tables){vars, sizeof vars, vars_len, none, none, i == GLOBBING ? card : few, 1, 1, i == GLOBBING ? card_len : few_len};
  sets[FULL].tables = (struct tables){full_vars, sizeof full_vars, sizeof full_vars, full_homes, none, card, sizeof full_homes, 1, card_len};
}

static struct drunquill_answer call(const char *line, size_t n, const struct tables *t, size_t work_len) {
  return drunquill_expand((const uint8_t *)line, n, t->vars, t->vars_len, t->vars_used, false, t->homes, t->homes_len, t->params, t->params_len, t->paths,
                          t->paths_len, work, work_len, out, sizeof out, message, sizeof message);
}

/* FLOOR AND LIBRARY */

#define IMAGE(bytes) {bytes, sizeof bytes - 1}
static const struct {
  const char *bytes;
  size_t n;
} images[] = {
    IMAGE(""), IMAGE("\0"), IMAGE("\2"), IMAGE("\1"),                                                   /* no version byte, a wrong one; no records */
    IMAGE("\1\0"), IMAGE("\1\0\2a"), IMAGE("\1\1\1a"), IMAGE("\1\0\1a\0"), IMAGE("\1\0\1a\0\3xy"),      /* texts that the image ends in */
    IMAGE("\1\0\1a"), IMAGE("\1\0\1a\0\1x\0\1b"), IMAGE("\1\0\0"), IMAGE("\1\0\0\0\1x"),                /* a key without a value, an empty one */
    IMAGE("\1\0\1a\0\0"), IMAGE("\1\0\1a\0\1x"), IMAGE("\1\0\1a\0\1x\0\1b\0\1y"),                       /* pairs in order */
    IMAGE("\1\0\1b\0\1x\0\1b\0\1y"), IMAGE("\1\0\1b\0\1x\0\1a\0\1y"), IMAGE("\1\0\2ab\0\1x\0\1a\0\1y"), /* pairs out of order */
    IMAGE("\1\0\1a\0\1b\0\2ba\0\1c"), IMAGE("\1\0\1a\0\1b\0\1b"), IMAGE("\1\0\1b\0\1a"),                /* texts in order and out of it */
    IMAGE("\1\0\2a\0\0\1x"), IMAGE("\1\0\2\0a\0\1x"), IMAGE("\1\0\1a\0\2x\0"), IMAGE("\1\0\1a\0\1\0"),  /* zero bytes */
    IMAGE("\1\0\2a1\0\1x"), IMAGE("\1\0\2_A\0\1x"), IMAGE("\1\0\1Z\0\1x"),                              /* names */
    IMAGE("\1\0\2" "1a\0\1x"), IMAGE("\1\0\2a-\0\1x"), IMAGE("\1\0\2.a\0\1x"),                          /* logins that are no names */
    IMAGE("\1\0\2a/\0\1x"), IMAGE("\1\0\1\377\0\1x"), IMAGE("\1\0\1@\0\1x"), IMAGE("\1\0\1[\0\1x"),     /* neither */
};
static const unsigned refused_by[] = {DRUNQUILL_BAD_VARIABLES, DRUNQUILL_BAD_HOMES, DRUNQUILL_BAD_PATHS, DRUNQUILL_BAD_PARAMETERS};

/* The library's number on the empty line, which must be the floor's. */
static unsigned judged(const struct tables *t, const char *what) {
  unsigned number = call("", 0, t, sizeof work).number;
  if (number != floor_of(t, work)) die("floor and library differ", what);
  return number;
}

/* The first n bytes of `tried` as a table of this kind, the others without records. */
static bool is_taken(enum kind kind, size_t n, const char *what) {
  struct tables t = no_records;
  if (kind == VARIABLES) t.vars = tried, t.vars_len = sizeof tried, t.vars_used = n;
  if (kind == HOMES) t.homes = tried, t.homes_len = n;
  if (kind == PATHS) t.paths = tried, t.paths_len = n;
  if (kind == FIELDS) t.params = tried, t.params_len = n;
  unsigned number = judged(&t, what);
  if (number != DRUNQUILL_ACCEPTED && number != refused_by[kind]) die("another number", what);
  return number == DRUNQUILL_ACCEPTED;
}

/* Floor and library judge alike: the images of the run, which are well formed, and short, broken and long ones as each of the four kinds. How many. */
static int judge_all(void) {
  static const char *const names[] = {"variables", "homes", "paths", "parameters"};
  int count = 0;
  for (int i = 0; i < SETS; i++)
    if (judged(&sets[i].tables, sets[i].name) != DRUNQUILL_ACCEPTED) die("its tables are refused", sets[i].name);
  struct tables beyond = no_records;
  beyond.vars_len = 1, beyond.vars_used = 2;
  if (judged(&beyond, "a used length beyond the buffer") != DRUNQUILL_BAD_VARIABLES) die("taken", "a used length beyond the buffer");
  for (int kind = VARIABLES; kind <= FIELDS; kind++) {
    size_t most = kind == PATHS ? DRUNQUILL_PATHS_MAX : DRUNQUILL_IMAGE_MAX, taken = 0, all = sizeof images / sizeof *images;
    for (size_t i = 0; i < all; i++) {
      memcpy(tried, images[i].bytes, images[i].n);
      taken += is_taken((enum kind)kind, images[i].n, names[kind]);
    }
    if (taken == 0 || taken == all) die("no short image of them is taken, or none is refused", names[kind]);
    fill(tried, most, kind == VARIABLES || kind == HOMES);
    if (!is_taken((enum kind)kind, most, names[kind])) die("the longest image of them is refused", names[kind]);
    fill(tried, most + 1, kind == VARIABLES || kind == HOMES);
    if (is_taken((enum kind)kind, most + 1, names[kind])) die("a longer image of them is taken", names[kind]);
    count += (int)all + 2;
  }
  return count;
}

/* THE SETS */

static double ours(const struct set *s, int n) {
  static size_t lengths[MANY];
  for (int i = 0; i < MANY; i++) lengths[i] = strlen(line_at(s, i));
  double a = now();
  for (int i = 0; i < n; i++) sink += call(line_at(s, i), lengths[i % MANY], &s->tables, sizeof work).out_len;
  return now() - a;
}

static double floors(const struct set *s, int n) {
  double a = now();
  for (int i = 0; i < n; i++) sink += floor_of(&s->tables, work);
  return now() - a;
}

static double wordexps(const struct set *s, int n) {
  double a = now();
  for (int i = 0; i < n; i++) {
    wordexp_t fields;
    if (wordexp(line_at(s, i), &fields, WRDE_NOCMD)) die("wordexp refuses it", s->name);
    sink += fields.we_wordc;
    wordfree(&fields);
  }
  return now() - a;
}

/* The environment has the variables of an image and nothing else. */
static void set_environment(const struct tables *t) {
  clearenv();
  for (size_t at = 1; at < t->vars_used;) {
    struct text name, value;
    if (!take_text(t->vars, t->vars_used, &at, &name) || !take_text(t->vars, t->vars_used, &at, &value)) die("is malformed", "an environment");
    char *n = strndup((const char *)name.bytes, name.n), *v = strndup((const char *)value.bytes, value.n);
    setenv(n, v, 1);
    free(n), free(v);
  }
}

/* One dash on a script: the assignments, then n times the command and the set's line from turn `at` on. Its processor time; what it writes goes to a file. */
static double run_dash(const char *command, const struct set *s, int at, int n, int to) {
  size_t used = 0;
  used += (size_t)snprintf(script, sizeof script, "IFS=' \t\n'\n");
  for (int i = at; i < at + n; i++) used += (size_t)snprintf(script + used, sizeof script - used, "%s%s\n", command, line_at(s, i));
  if (used >= sizeof script - 1) die("the script is too long", s->name);
  int from = open(".script", O_CREAT | O_TRUNC | O_RDWR, 0600);
  if (from < 0 || write(from, script, used) != (ssize_t)used || lseek(from, 0, SEEK_SET) != 0) die("cannot be written", ".script");
  pid_t child = fork();
  if (child == 0) {
    dup2(from, 0), dup2(to, 1);
    execl(dash, "dash", (char *)NULL);
    _exit(127);
  }
  int status;
  struct rusage spent;
  if (wait4(child, &status, 0, &spent) != child || status != 0) die("dash fails", s->name);
  close(from);
  return (double)(spent.ru_utime.tv_sec + spent.ru_stime.tv_sec) + (double)(spent.ru_utime.tv_usec + spent.ru_stime.tv_usec) * 1e-6;
}

/* All three give the same fields of a line. How many. */
static size_t check(const struct set *s, int turn) {
  const char *line = line_at(s, turn);
  struct drunquill_answer a = call(line, strlen(line), &s->tables, sizeof work);
  if (a.number) die("the expander refuses it", s->name);
  wordexp_t fields;
  if (wordexp(line, &fields, WRDE_NOCMD)) die("wordexp refuses it", s->name);
  int to = open(".fields", O_CREAT | O_TRUNC | O_RDWR, 0600);
  run_dash("printf '%s\\0' ", s, turn, 1, to);
  static char said[DRUNQUILL_IMAGE_MAX * 2];
  ssize_t length = pread(to, said, sizeof said, 0);
  close(to);
  size_t at = 1, word = 0, behind = 0;
  for (; at < a.out_len; word++) {
    size_t n = (size_t)out[at] * 256 + out[at + 1];
    const char *field = (const char *)out + at + 2;
    if (word >= fields.we_wordc || strlen(fields.we_wordv[word]) != n || memcmp(fields.we_wordv[word], field, n)) die("wordexp differs", s->name);
    if (behind + n + 1 > (size_t)length || memcmp(said + behind, field, n) || said[behind + n]) die("dash differs", s->name);
    at += 2 + n, behind += n + 1;
  }
  if (word != fields.we_wordc || behind != (size_t)length) die("a peer has more fields", s->name);
  wordfree(&fields);
  return word;
}

static void hold(const char *name, const char *what, double measured, double most) {
  snprintf(bars[bars_count].what, sizeof bars[bars_count].what, "%s: %s", name, what);
  bars[bars_count].measured = measured, bars[bars_count++].most = most;
}

static void race(const struct set *s, double share, int nowhere) {
  set_environment(&s->tables);
  size_t fields = check(s, 0);
  for (int i = 1; !s->line && i < MANY; i++) fields += check(s, i);
  double (*const who[])(const struct set *, int) = {ours, floors, wordexps};
  double ns[4] = {1e9, 1e9, 1e9, 0}, lines = 0, shell = 0;
  int n[3], most = SCRIPT / (s->line ? (int)strlen(s->line) + 4 : MANY_ROOM) - 1;
  for (int i = 0; i < 3; i++) {
    double wanted = turn / (who[i](s, 20) / 20);
    n[i] = !s->line ? MANY : wanted < 5 ? 5 : (int)wanted;
  }
  double one = (run_dash(": ", s, 0, 200, nowhere) - run_dash("", s, 0, 0, nowhere)) / 200, wanted = share / ROUNDS / 2 / (one > 2e-7 ? one : 2e-7);
  int script_lines = wanted < 50 ? 50 : wanted < most ? (int)wanted : most;
  for (double all = 0; all < share;) {
    double start = run_dash("", s, 0, 0, nowhere), c = run_dash(": ", s, 0, script_lines, nowhere), spent = 0;
    shell += c - start, lines += script_lines;
    while (spent < share / ROUNDS / 2)
      for (int i = 0; i < 3; i++) {
        double took = who[i](s, n[i]);
        spent += took;
        if (took / n[i] * 1e9 < ns[i]) ns[i] = took / n[i] * 1e9;
      }
    all += spent + start + c;
  }
  ns[3] = shell / lines * 1e9;
  double to_floor = ns[0] / ns[1], above = (ns[0] - ns[1]) / ns[2], whole = ns[0] / ns[2];
  printf("%-17s %3zu %s %6.0f ns a call, floor %6.0f, wordexp %7.0f, dash %7.0f; to the floor %5.2f, less it to wordexp's %5.2f; "
         "time to wordexp's %5.2f, to dash's %5.2f\n",
         s->name, fields, fields == 1 ? "field: " : "fields:", ns[0], ns[1], ns[2], ns[3], to_floor, above, whole, ns[0] / ns[3]);
  if (s->held == TO_THE_FLOOR) hold(s->name, "the call, to the floor", to_floor, s->most);
  if (s->held == ABOVE_THE_FLOOR) hold(s->name, "the call less its floor, to wordexp's call", above, s->most);
  if (s->held == WHOLE) hold(s->name, "the whole call, to wordexp's", whole, s->most);
}

/* TABLES ALONE */

/* The check of full tables by the library, the call on the empty line with them less that without records, and by the floor's check. */
static void check_alone(double seconds) {
  const struct tables *const lent[] = {&sets[FULL].tables, &no_records};
  double us[4] = {1e9, 1e9, 1e9, 1e9};
  for (double spent = 0; spent < seconds;)
    for (int i = 0; i < 4; i++) {
      double a = now();
      for (int k = 0; k < 200; k++) {
        sink += i < 2 ? call("", 0, lent[i], sizeof work).number : check_tables(lent[i - 2]);
        look();
      }
      double b = now() - a;
      spent += b;
      if (b / 200 * 1e6 < us[i]) us[i] = b / 200 * 1e6;
    }
  double ours = us[0] - us[1], floors = us[2] - us[3];
  printf("the check of full tables, %zu bytes, alone: %.1f us, in C %.1f us, ratio %.2f\n", sizeof full_vars + sizeof full_homes + card_len, ours, floors,
         ours / floors);
  hold("full tables", "their check, to the same in C", ours / floors, 1.2);
}

/* One call with these tables and so much work area, in microseconds: the least of some turns. */
static double one_call(const char *line, const struct tables *t, size_t work_len, double seconds) {
  size_t n = strlen(line);
  double best = 1e9, spent = 0;
  while (spent < seconds) {
    double a = now();
    for (int i = 0; i < 200; i++) sink += call(line, n, t, work_len).number;
    double b = now() - a;
    spent += b;
    if (b / 200 < best) best = b / 200;
  }
  return best * 1e6;
}

static void shares(double seconds) {
  const char *typical = "load \"$base\" \"${rover%.raw}\" out/$(($zone * 12)).csv";
  const struct tables *season = &sets[PLAIN].tables, *full = &sets[FULL].tables;
  double s = seconds / 5;
  double cleared = one_call("", &no_records, DRUNQUILL_WORK_LEAST - 1, s); /* number 1: the work area is cleared, and nothing else is done */
  double empty = one_call("", &no_records, DRUNQUILL_WORK_LEAST, s), checked = one_call("", season, DRUNQUILL_WORK_LEAST, s);
  double longest = one_call("", full, DRUNQUILL_WORK_LEAST, s), line = one_call(typical, season, DRUNQUILL_WORK_LEAST, s);
  printf("a call on `%s`, with %d variables and %d paths: %.1f us\n", typical, VARIABLES_COUNT, FEW_PATHS, line);
  printf("  of it clearing the work area (the call refused with 1): %.1f us, %.0f %%\n", cleared, cleared / line * 100);
  printf("  of it checking these tables, %zu bytes (the empty line with them, less that without records): %.1f us, %.0f %%\n", vars_len + few_len + 1,
         checked - empty, (checked - empty) / line * 100);
  printf("the empty line without records: %.1f us; with full tables, %zu bytes: %.1f us, of it checking them %.1f us, %.2f ns a byte\n", empty,
         sizeof full_vars + sizeof full_homes + card_len, longest, longest - empty,
         (longest - empty) * 1e3 / (double)(sizeof full_vars + sizeof full_homes + card_len));
}

static void print_bars(void) {
  int met = 0;
  for (int i = 0; i < bars_count; i++) {
    bool is_met = bars[i].measured <= bars[i].most;
    met += is_met;
    printf("%-54s at most %.1f, measured %5.2f: %s\n", bars[i].what, bars[i].most, bars[i].measured, is_met ? "met" : "not met");
  }
  printf("%d of %d bars are met\n", met, bars_count);
}

int main(int argc, char **argv) {
  if (argc != 4 || chdir(argv[2])) die("usage: peers DASH FOLDER SECONDS", argv[0]);
  setvbuf(stdout, NULL, _IOLBF, 0);
  dash = argv[1];
  double seconds = atof(argv[3]);
  make_tables();
  make_sets();
  int nowhere = open("/dev/null", O_WRONLY);
  printf("the expander, the floor, wordexp of glibc %s, and dash; patterns over %d paths or files\n", gnu_get_libc_version(), PATHS_COUNT);
  printf("floor and library judge alike the tables of all sets and %d images more\n", judge_all());
  for (int i = 0; i < SETS; i++) race(&sets[i], seconds * 0.8 / SETS, nowhere);
  check_alone(seconds * 0.1);
  shares(seconds * 0.1);
  print_bars();
  return 0;
}
