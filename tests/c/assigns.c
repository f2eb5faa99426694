/* Lines of assignments: the variables that they leave, every byte of their buffer, and what refuses them; first calls that are written out here from E9 of
 * docs/02-change-requests.md, then each call of standard input, in the format of tests/vectors/README.md. */
#include "jobs.h"

static void assigns(const char *text, const char *const *texts) {
    set(text);
    image(&want_vars, texts);
    assign(text, 0, 0);
}

static void refuses_assignments(const char *text, unsigned number, size_t place) {
    set(text);
    assign(text, number, place);
}

/* a call's variables, in which `job` and `note` have these values, and then others */
#define CREW(job, note, ...) ((const char *const[]){"HOME", "/home/crew", "job", job, "note", note, __VA_ARGS__})

static void values(void) {
    assigns("out=~/jobs:$job", CREW("north field", "", "out", "/home/crew/jobs:north field", NULL));
    assigns("tilt=1 n=$((tilt+1)) tilt=$n$n",
            (const char *const[]){"HOME", "/home/crew", "job", "north field", "n", "2", "note", "", "tilt", "22", NULL});
    assigns("z=*.raw y='a  '\"$job\"\\ ", CREW("north field", "", "y", "a  north field ", "z", "*.raw", NULL));
    assigns("x=:~:'~':\\~:~nobody", CREW("north field", "", "x", ":/home/crew:~:~:~nobody", NULL));
    assigns("x=a:~ y=b=~ z=${u-c:~}", CREW("north field", "", "x", "a:/home/crew", "y", "b=~", "z", "c:~", NULL));
    assigns("", CREW("north field", "", NULL));
    assigns(" \t\n", CREW("north field", "", NULL));
    set("x=~kit:$1$#");
    image(&homes_image, (const char *const[]){"kit", "/k *", NULL});
    image(&params_image, (const char *const[]){"p q", NULL});
    image(&want_vars, CREW("north field", "", "x", "/k *:p q1", NULL));
    assign("a home and parameters", 0, 0);
}

/* A shorter image leaves zeros up to the used length given, and bytes beyond it as they were. */
static void shorter(void) {
    assigns("job=", CREW("", "", NULL));
    assigns("job=s note=long", CREW("s", "long", NULL));
    assigns("job= job='north fields'", CREW("north fields", "", NULL));
    assigns("note=longer note=", CREW("north field", "", NULL));
    assigns("note='a long note' job= note=", CREW("", "", NULL));
    set("job=s");
    vars_len = used;
    image(&want_vars, CREW("s", "", NULL));
    assign("a buffer that the variables fill", 0, 0);
}

static void refused_assignments(void) {
    refuses_assignments("a=1 b", DRUNQUILL_BAD_SYNTAX, 4);
    refuses_assignments("a=1 'b'=2", DRUNQUILL_BAD_SYNTAX, 4);
    refuses_assignments("a=1 b\\=2", DRUNQUILL_BAD_SYNTAX, 4);
    refuses_assignments("a=1 2b=3 `", DRUNQUILL_BAD_SYNTAX, 4);
    refuses_assignments("a=1 b`=2", DRUNQUILL_BAD_SYNTAX, 4);
    refuses_assignments("a=1 b+=2", DRUNQUILL_BAD_SYNTAX, 4);
    refuses_assignments("=1", DRUNQUILL_BAD_SYNTAX, 0);
    refuses_assignments("a=1 | b=2", DRUNQUILL_BARE_OPERATOR, 4);
    refuses_assignments("a=1 b=2|", DRUNQUILL_BARE_OPERATOR, 4);
    refuses_assignments("a=1 #b=2", DRUNQUILL_BARE_OPERATOR, 4);
    refuses_assignments("a=`b`", DRUNQUILL_SUBSTITUTION, 0);
    refuses_assignments("a=1 b='", DRUNQUILL_UNENDED, 4);
    refuses_assignments("a=1 b=$@", DRUNQUILL_UNSERVED, 4);
    refuses_assignments("a=1 b=\"${u-$*}\"", DRUNQUILL_UNSERVED, 4);
    refuses_assignments("job= b=$((job/0))", DRUNQUILL_ZERO_DIVISOR, 5);
    refuses_assignments("a=[[.b.]] b=${a#[[.b.]]}", DRUNQUILL_BRACKET_CLASS, 10);
    set("job= b=${c:?no $job at ~}");
    add_string(&want_message, "no  at ~");
    assign("a message", DRUNQUILL_DEMANDED, 5);
    message_len = 3;
    want_message.len = 3;
    assign("a message that is cut", DRUNQUILL_DEMANDED, 5);
    set("a=1 tilt=x");
    vars_len = used + 6;
    assign("no room for the second", DRUNQUILL_VARIABLE_ROOM, 4);
    set("a=12 a=");
    vars_len = used + 6;
    assign("no room for a value that would be shorter at the end", DRUNQUILL_VARIABLE_ROOM, 0);
}

/* 1 to 3, 23, 5 and 6, in this order; there are no paths to be malformed. */
static void in_order(void) {
    set("a");
    repeat(&line, "a", DRUNQUILL_LINE_MAX);
    add(&line, "\0", 1);
    work_len = DRUNQUILL_WORK_LEAST - 1;
    used = vars_len + 1;
    homes_image.len = 0;
    params_image.len = 0;
    assign("a work area one byte short", DRUNQUILL_WORK_TOO_SMALL, 0);
    work_len++;
    assign("used length beyond the buffer", DRUNQUILL_BAD_VARIABLES, 0);
    used = vars_image.len - 1;
    assign("variables cut short", DRUNQUILL_BAD_VARIABLES, 0);
    used++;
    assign("no homes' image", DRUNQUILL_BAD_HOMES, 0);
    empty_image(&homes_image);
    assign("no parameters' image", DRUNQUILL_BAD_PARAMETERS, 0);
    empty_image(&params_image);
    assign("a line of 2,050 bytes", DRUNQUILL_LINE_TOO_LONG, 0);
    line.at[1] = 0;
    line.len = 2;
    assign("a zero byte", DRUNQUILL_ZERO_BYTE, 0);
    line.len = 1;
    assign("no assignment", DRUNQUILL_BAD_SYNTAX, 0);
}

/* The value alone counts: 2,048 bytes are stored, and a mark more is 14. */
static void edges(void) {
    static struct bytes value;
    value.len = 0;
    repeat(&value, "x", DRUNQUILL_UNITS_MAX);
    for (int quoted = 0; quoted <= 1; quoted++) {
        set(quoted ? "long_name=''$v" : "long_name=$v");
        empty_image(&vars_image);
        add_text(&vars_image, "v");
        add_text_of(&vars_image, value.at, value.len);
        used = vars_image.len;
        vars_len = DRUNQUILL_IMAGE_MAX;
        if (quoted) {
            assign("2,048 bytes and a mark", DRUNQUILL_TOO_MANY_UNITS, 0);
            continue;
        }
        empty_image(&want_vars);
        add_text(&want_vars, "long_name");
        add_text_of(&want_vars, value.at, value.len);
        add(&want_vars, vars_image.at + 1, vars_image.len - 1);
        assign("2,048 bytes", 0, 0);
        vars_len = want_vars.len - 1;
        want_vars.len = 0;
        assign("2,048 bytes, one too few for them", DRUNQUILL_VARIABLE_ROOM, 0);
    }
}

/* The next word of standard input, which ends at a blank or at the line's end; none at the end of all. */
static const char *word(void) {
    static char text[2 * ROOM + 1];
    size_t len = 0;
    int c = getchar();
    while (c != ' ' && c != '\n' && c != EOF && len < sizeof text - 1) {
        text[len++] = (char)c;
        c = getchar();
    }
    text[len] = 0;
    return text;
}

static size_t number_word(void) {
    size_t n = 0;
    for (const char *s = word(); *s; s++) n = n * 10 + (size_t)(*s - '0');
    return n;
}

static unsigned digit(char c) { return (unsigned)(c <= '9' ? c - '0' : c - 'a' + 10); }

static void bytes_word(struct bytes *b) {
    b->len = 0;
    for (const char *s = word(); s[0] && s[1]; s += 2) b->at[b->len++] = (uint8_t)(digit(s[0]) << 4 | digit(s[1]));
}

static void vectors(void) {
    char name[40];
    for (int n = 1; memcmp(word(), "assign", 7) == 0; n++) {
        snprintf(name, sizeof name, "call %d of the vectors", n);
        set("");
        bytes_word(&line);
        bytes_word(&vars_image);
        used = number_word();
        vars_len = number_word();
        bytes_word(&homes_image);
        work_len = number_word();
        bytes_word(&params_image);
        message_len = number_word();
        shouts = number_word() == 1;
        if (vars_len > ROOM || work_len > ROOM || message_len > ROOM || memcmp(word(), "=", 2)) fail(name, "not a call, or too large");
        unsigned number = (unsigned)number_word();
        size_t place = number_word();
        size_t left = number_word();
        bytes_word(&want_vars);
        size_t told = number_word();
        bytes_word(&want_message);
        if (left != (number ? used : want_vars.len) || told != want_message.len) fail(name, "not a call: its lengths");
        assign(name, number, place);
    }
}

int main(void) {
    values();
    shorter();
    refused_assignments();
    in_order();
    edges();
    int written = count;
    vectors();
    printf("c: %d calls with lines of assignments, and %d of the vectors, every byte of every buffer\n", written, count - written);
    return count == written;
}
