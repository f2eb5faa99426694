/* Measures how deep the jobs that take a line go on the stack: a thread runs on a stack filled with a pattern, and the lowest byte that a call changed tells.
 * The lines are the deepest known: all eight expansions open, all 32 parentheses and signs, patterns of many stars, assignments in each other; the assigner
 * has them as a value. The figure counts from the frame of the function that calls the job, and is checked against DRUNQUILL_STACK. */
#define _GNU_SOURCE
#include <pthread.h>
#include <sys/mman.h>

#include "buffers.h"

enum { STACK = 1 << 23, PATTERN = 0xA7 };

static struct bytes line, vars_image, homes_image, params_image, paths_image;
static struct buffer vars, work, out, message;
static enum job { EXPANDER, NORMALISER, ASSIGNER } job;
static const char *const jobs[] = {"expander", "normaliser", "assigner"};
static struct drunquill_answer answer;
static uint8_t *caller;

static void *run(void *unused) {
    caller = __builtin_frame_address(0);
    if (job == ASSIGNER) {
        answer = drunquill_assign(line.at, line.len, lent(&vars), vars.len, vars_image.len, false, homes_image.at, homes_image.len, params_image.at,
                                  params_image.len, lent(&work), work.len, lent(&message), message.len);
        return unused;
    }
    answer = (job == NORMALISER ? drunquill_normalise : drunquill_expand)(line.at, line.len, lent(&vars), vars.len, vars_image.len, false,
                                                                         homes_image.at, homes_image.len, params_image.at, params_image.len, paths_image.at,
                                                                         paths_image.len, lent(&work), work.len, lent(&out), out.len, lent(&message),
                                                                         message.len);
    return unused;
}

/* The bytes of the stack that a call on the line uses, below its caller's frame. */
static size_t used_by_call(void) {
    uint8_t *stack = mmap(NULL, STACK, PROT_READ | PROT_WRITE, MAP_PRIVATE | MAP_ANONYMOUS | MAP_STACK, -1, 0);
    if (stack == MAP_FAILED) abort();
    memset(stack, PATTERN, STACK);
    lend(&vars, DRUNQUILL_IMAGE_MAX, &vars_image, 1);
    lend(&work, DRUNQUILL_WORK_LEAST, NULL, 2);
    lend(&out, DRUNQUILL_IMAGE_MAX, NULL, 3);
    lend(&message, DRUNQUILL_MESSAGE_MAX, NULL, 4);
    pthread_attr_t attr;
    pthread_t thread;
    if (pthread_attr_init(&attr) || pthread_attr_setstack(&attr, stack, STACK)) abort();
    if (pthread_create(&thread, &attr, run, NULL) || pthread_join(thread, NULL)) abort();
    pthread_attr_destroy(&attr);
    uint8_t *low = stack;
    while (*low == PATTERN) low++;
    size_t depth = (size_t)(caller - low);
    munmap(stack, STACK);
    return depth;
}

/* `outer` expansions around `inside`. */
static void within(int outer, const char *open, const char *inside, const char *close) {
    line.len = 0;
    repeat(&line, open, outer);
    add_string(&line, inside);
    repeat(&line, close, outer);
}

/* Seven expansions around an arithmetic text in which 32 parentheses are open, each opened so. */
static void within_parentheses(const char *open) {
    static struct bytes inside;
    inside.len = 0;
    add_string(&inside, "$((");
    repeat(&inside, open, 32);
    add_string(&inside, "1");
    repeat(&inside, ")", 32);
    add(&inside, "))", 3);
    within(7, "${u-", (const char *)inside.at, "}");
}

static size_t most;

/* The line is measured in each job up to the last; the number is to be as expected, so that the line went where it should. */
static void measure_in(const char *name, unsigned number, enum job last) {
    static struct bytes word;
    for (job = EXPANDER; job <= last; job++) {
        if (job == ASSIGNER) {
            word = line;
            line.len = 0;
            add_string(&line, "a=");
            add(&line, word.at, word.len);
        }
        size_t depth = used_by_call();
        if (answer.number != number) {
            printf("tests/built/c: stack: %s: number %u, not %u\n", name, answer.number, number);
            exit(1);
        }
        printf("  %-52s %-10s %6zu\n", name, jobs[job], depth);
        if (depth > most) most = depth;
    }
}

static void measure(const char *name, unsigned number) { measure_in(name, number, ASSIGNER); }

int main(void) {
    static struct bytes inside, value;
    setvbuf(stdout, NULL, _IOLBF, 0);
    image(&homes_image, (const char *const[]){NULL});
    empty_image(&params_image);
    for (int i = 0; i < 500; i++) add_text(&params_image, "ab");
    empty_image(&paths_image);
    for (int i = 0; i < 9; i++) {
        value.len = 0;
        repeat(&value, "ab", 10);
        value.at[value.len++] = (uint8_t)('0' + i);
        add_text_of(&paths_image, value.at, value.len);
    }
    empty_image(&vars_image);
    add_text(&vars_image, "p");
    value.len = 0;
    repeat(&value, "*", DRUNQUILL_UNITS_MAX);
    add_text_of(&vars_image, value.at, value.len);
    add_text(&vars_image, "v");
    value.len = 0;
    repeat(&value, "ab", 30);
    add_text_of(&vars_image, value.at, value.len);

    within(0, "", "a", "");
    measure("one literal byte", 0);
    within(8, "${u-", "x", "}");
    measure("eight nested ${u-", 0);
    within(8, "${u=", "x", "}");
    measure("eight nested ${u=", 0);
    within(8, "${u?", "x", "}");
    measure("eight nested ${u?", DRUNQUILL_DEMANDED);
    line.len = 0;
    add_string(&line, "\"");
    repeat(&line, "${u-", 8);
    add_string(&line, "x");
    repeat(&line, "}", 8);
    add_string(&line, "\"");
    measure("eight nested ${u- in quotes", 0);
    within(8, "${v%", "*a*c", "}");
    measure("eight nested ${v% with stars", 0);
    within(8, "$((", "1", "))");
    measure("eight nested $((", 0);
    within(8, "${u-", "\"$@\"", "}");
    measure_in("eight nested ${u- around 500 parameters", 0, NORMALISER);

    within_parentheses("1==1<1+1*(");
    measure("seven ${u- around 32 parentheses after operators", 0);
    within_parentheses("0||1&&1|1^1&1==1<1<<1+1*(");
    measure("the same after an operator of every level", 0);
    within_parentheses("n=0||1&&1|1^1&1==1<1<<1+1*(");
    measure("the same, each in an assignment", 0);
    inside.len = 0;
    add_string(&inside, "$((");
    repeat(&inside, "n=", 1000);
    add(&inside, "1))", 4);
    within(7, "${u-", (const char *)inside.at, "}");
    measure("seven ${u- around a thousand assignments", 0);
    inside.len = 0;
    add_string(&inside, "$((");
    repeat(&inside, "-", 32);
    add(&inside, "1))", 4);
    within(7, "$((", (const char *)inside.at, "))");
    measure("seven $(( around 32 signs", 0);
    within(7, "${u-", "${v%%$p}", "}");
    measure("seven ${u- around a pattern of 2,048 stars", 0);
    within(7, "\"${v%", "\"${v%%$p}\"", "}\"");
    measure("seven ${v% around it, each in quotes", 0);
    within(8, "${u-", "$p", "}");
    measure("eight ${u- around a path pattern of 2,048 stars", 0);
    within(8, "${u-", "$((", "}");
    measure("a ninth expansion", DRUNQUILL_TOO_DEEP);

    printf("c: the deepest call used %zu bytes of the stack, of %d allowed\n", most, DRUNQUILL_STACK);
    return most > DRUNQUILL_STACK;
}
