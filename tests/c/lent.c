/* The functions of the header itself: they answer as those that they call, what is NULL counts as a table without records, and the variables are carried from
 * call to call; texts are walked over and added, also at the edges of a buffer; numbers have words. C and C++ compile this. What is expected is written out
 * from the header's comments. */
#include <stdio.h>
#include <string.h>
#include <drunquill.h>

static int faults, checks;

static void check(bool holds, const char *what)
{
    checks++;
    if (!holds) {
        faults++;
        printf("tests/c/lent: %s\n", what);
    }
}

static uint8_t work[DRUNQUILL_WORK_LEAST], out[DRUNQUILL_IMAGE_MAX], vars[DRUNQUILL_IMAGE_MAX], message[DRUNQUILL_MESSAGE_MAX];

static struct drunquill_call lent(void)
{
    struct drunquill_call call;
    memset(&call, 0, sizeof call);
    call.work = work;
    call.work_len = sizeof work;
    return call;
}

/* The fields that the expander gave, with a bar behind each. */
static bool gave(struct drunquill_answer answer, const char *fields)
{
    char found[256];
    size_t at = 0, length = 0, end = 0;
    const uint8_t *text = NULL;
    while (drunquill_next_text(out, answer.out_len, &at, &text, &length)) {
        memcpy(found + end, text, length);
        end += length;
        found[end++] = '|';
    }
    return answer.number == DRUNQUILL_ACCEPTED && at == (answer.out_len == 1 ? 0 : answer.out_len) && end == strlen(fields) && memcmp(found, fields, end) == 0;
}

static struct drunquill_answer expand(struct drunquill_call *call, const char *line)
{
    return drunquill_expand_with(call, line, strlen(line), out, sizeof out);
}

/* Calls with nothing lent but the work area. */
static void nothing_lent(void)
{
    struct drunquill_call call = lent();
    check(gave(expand(&call, "a 'b c' *.raw ~x \"$u\" $#"), "a|b c|*.raw|~x||0|"), "a line without tables");
    check(gave(expand(&call, ""), ""), "no fields");
    check(expand(&call, "a ${u=1}").number == DRUNQUILL_VARIABLE_ROOM, "no variables have no room");
    const struct drunquill_answer demand = expand(&call, "a ${u?b}");
    check(demand.number == DRUNQUILL_DEMANDED && demand.place == 2 && demand.message_len == 0, "no message is wanted");
    check(call.vars == NULL && call.vars_used == 0 && call.homes == NULL && call.message == NULL, "the struct is as it was");
    check(drunquill_assign_with(&call, "a=1", 3).number == DRUNQUILL_VARIABLE_ROOM, "no assignment has room");
    check(drunquill_assign_with(&call, " ", 1).number == DRUNQUILL_ACCEPTED, "no assignments");
    call.work_len = DRUNQUILL_WORK_LEAST - 1;
    check(expand(&call, "a").number == DRUNQUILL_WORK_TOO_SMALL, "a work area that is too small");
}

/* Everything lent: each member reaches its function. */
static void all_lent(void)
{
    static const uint8_t homes[] = {1, 0, 1, 'c', 0, 2, '/', 'c'}, paths[] = {1, 0, 2, 'p', '1', 0, 2, 'p', '2'};
    uint8_t params[16];
    size_t params_len = drunquill_add_text(params, sizeof params, 0, "x y", 3);
    params_len = drunquill_add_text(params, sizeof params, params_len, "", 0);
    struct drunquill_call call = lent();
    vars[0] = 1;
    call.vars = vars;
    call.vars_len = sizeof vars;
    call.vars_used = 1;
    call.homes = homes;
    call.homes_len = sizeof homes;
    call.params = params;
    call.params_len = params_len;
    call.paths = paths;
    call.paths_len = sizeof paths;
    call.message = message;
    call.message_len = sizeof message;
    check(drunquill_assign_with(&call, "a=~c:$1 n=1", 11).number == DRUNQUILL_ACCEPTED && call.vars_used > 1, "assignments");
    check(gave(expand(&call, "\"$a\" $((n=n+1)) p? ~c \"$@\""), "/c:x y|2|p1|p2|/c|x y||"), "all tables");
    check(gave(expand(&call, "$n"), "2|"), "the variables are carried on");
    const size_t used = call.vars_used;
    const struct drunquill_answer demand = expand(&call, "$((n=n+1)) ${u?no $a}");
    check(demand.number == DRUNQUILL_DEMANDED && demand.place == 11 && demand.message_len == 9 && memcmp(message, "no /c:x y", 9) == 0, "the message");
    check(call.vars_used == used && gave(expand(&call, "$n"), "2|"), "a refusal changes nothing");
    const struct drunquill_answer quoted = drunquill_normalise_with(&call, "$u \"$1\"", 7, out, sizeof out);
    check(quoted.number == DRUNQUILL_ACCEPTED && quoted.out_len == 5 && memcmp(out, "'x y'", 5) == 0, "the quoted line");
    call.shouts = true;
    check(expand(&call, "a $u").number == DRUNQUILL_UNSET_NAME, "unset names shout");
    check(drunquill_normalise_with(&call, "a $u", 4, out, sizeof out).number == DRUNQUILL_UNSET_NAME, "in the normaliser too");
    check(drunquill_assign_with(&call, "a=$u", 4).number == DRUNQUILL_UNSET_NAME, "in the assigner too");
}

static void texts(void)
{
    uint8_t image[8] = {9, 9, 9, 9, 9, 9, 9, 9};
    const uint8_t *text = NULL;
    size_t at = 0, length = 7;
    check(drunquill_add_text(image, 5, 0, "abc", 3) == 0 && image[0] == 9, "a text without room");
    check(drunquill_add_text(image, 6, 0, "abc", 3) == 6 && memcmp(image, "\1\0\3abc\11\11", 8) == 0, "a text that just has room");
    check(drunquill_add_text(image, 8, 6, "", 0) == 8 && image[6] == 0 && image[7] == 0, "an empty text");
    check(drunquill_add_text(image, 8, 8, "", 0) == 0, "a full image");
    check(drunquill_add_text(out, sizeof out, 0, (const char *)work, DRUNQUILL_IMAGE_MAX - 3) == DRUNQUILL_IMAGE_MAX, "the longest text");
    check(drunquill_add_text(out, sizeof out, 0, (const char *)work, DRUNQUILL_IMAGE_MAX - 2) == 0, "a text that is too long");
    check(drunquill_next_text(image, 8, &at, &text, &length) && at == 6 && length == 3 && text == image + 3, "the first text");
    check(drunquill_next_text(image, 8, &at, &text, &length) && at == 8 && length == 0, "the second text");
    check(!drunquill_next_text(image, 8, &at, &text, &length) && at == 8, "no third text");
    for (size_t cut = 0; cut < 6; cut++) {
        at = 0;
        check(!drunquill_next_text(image, cut, &at, &text, &length) && at == 0, "an image that is cut");
    }
}

static void words(void)
{
    check(strcmp(drunquill_words(DRUNQUILL_ACCEPTED), "accepted") == 0, "words of 0");
    check(strcmp(drunquill_words(DRUNQUILL_ZERO_DIVISOR), "a calculation divides by zero") == 0, "words of 18");
    check(strcmp(drunquill_words(DRUNQUILL_UNSET_NAME), "a name that is not set, while unset names shout") == 0, "words of 25");
    check(strcmp(drunquill_words(26), "no number of Drunquill") == 0 && drunquill_words(255) == drunquill_words(26), "words of no number");
}

int main(void)
{
    nothing_lent();
    all_lent();
    texts();
    words();
    printf("lent: %d checks, %d faults\n", checks, faults);
    return faults != 0;
}
