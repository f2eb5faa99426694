/* Calls each function of the archive on good and bad input, and compares number, place, lengths and every byte of every buffer, with what stands around it.
 * What is expected is written out here from docs/01-scope.md and docs/02-change-requests.md. */
#include "jobs.h"

static struct bytes fields;

static void quote(const char *name, unsigned number) {
    lend(&out, out_len, NULL, 200);
    out_before = out;
    struct drunquill_quote_answer a = drunquill_quote(fields.at, fields.len, lent(&out), out_len);
    memcpy(lent(&out_before), want_out.at, want_out.len);
    if (a.number != number) fail(name, "number");
    if (a.place != 0) fail(name, "place");
    if (a.out_len != want_out.len) fail(name, "output length");
    if (!same(&out, &out_before)) fail(name, "output");
    count++;
}

static void accepted_lines(void) {
    static const uint8_t c1[32] = {0x01, 0x00, 0x02, 0x63, 0x70, 0x00, 0x0B, 0x6E, 0x6F, 0x72, 0x74, 0x68, 0x20, 0x66, 0x69, 0x65,
                                   0x6C, 0x64, 0x00, 0x05, 0x6E, 0x6F, 0x72, 0x74, 0x68, 0x00, 0x05, 0x66, 0x69, 0x65, 0x6C, 0x64};
    set("cp \"$job\" $job");
    add(&want_out, c1, sizeof c1);
    call("C1", drunquill_expand, 0, 0);
    out_len = 32;
    call("C1, output just long enough", drunquill_expand, 0, 0);
    want_out.len = 0;
    out_len = 200;
    add_string(&want_out, "cp 'north field' north field");
    call("C1 normalised", drunquill_normalise, 0, 0);

    set("${tilt:=\"a b\"}");
    image(&want_out, (const char *const[]){"a", "b", NULL});
    image(&want_vars, (const char *const[]){"HOME", "/home/crew", "job", "north field", "note", "", "tilt", "a b", NULL});
    call("C6", drunquill_expand, 0, 0);
    want_out.len = 0;
    add_string(&want_out, "a b");
    call("C6 normalised", drunquill_normalise, 0, 0);

    set("*.raw ~/out $((7/-2))");
    image(&want_out, (const char *const[]){"a b.raw", "p1.raw", "p2.raw", "/home/crew/out", "-3", NULL});
    call("C2, C10, C9", drunquill_expand, 0, 0);
    work_len = DRUNQUILL_WORK_LEAST + 1000;
    call("a longer work area", drunquill_expand, 0, 0);

    set("~kit");
    image(&homes_image, (const char *const[]){"kit", "/k", NULL});
    image(&want_out, (const char *const[]){"/k", NULL});
    call("a home", drunquill_expand, 0, 0);
}

static void parameters(void) {
    static const char *const three[] = {"a b", "", "c", NULL};
    set("\"x$@y\" $#");
    image(&params_image, three);
    image(&want_out, (const char *const[]){"xa b", "", "cy", "3", NULL});
    call("each parameter a field", drunquill_expand, 0, 0);
    want_out.len = 0;
    add_string(&want_out, "'xa b' '' cy 3");
    call("each parameter a field, normalised", drunquill_normalise, 0, 0);

    set("$1 \"$*\" ${2:-none} ${4-unset} ${#1}");
    image(&params_image, three);
    image(&want_out, (const char *const[]){"a", "b", "a b  c", "none", "unset", "3", NULL});
    call("parameters by their numbers, and joined", drunquill_expand, 0, 0);

    set("\"$@\" a");
    image(&want_out, (const char *const[]){"a", NULL});
    call("no parameters give no field", drunquill_expand, 0, 0);

    refuses("a ${01}", DRUNQUILL_UNSERVED, 2);
    refuses("a ${1=b}", DRUNQUILL_UNSERVED, 2);
    refuses("a ${u=$@}", DRUNQUILL_UNSERVED, 2);
    set("a");
    params_image.len = 0;
    refused("no parameters' image", DRUNQUILL_BAD_PARAMETERS, 0);
    set("a\"");
    image(&params_image, three);
    params_image.len--;
    refused("parameters cut short, before the line is read", DRUNQUILL_BAD_PARAMETERS, 0);
    paths_image.len = 0;
    refused("paths are looked at before parameters", DRUNQUILL_BAD_PATHS, 0);
}

/* Both jobs give this one field and leave these variables, by the line that is set. */
static void counts(const char *name, const char *field, const char *const *texts) {
    image(&want_vars, texts);
    image(&want_out, (const char *const[]){field, NULL});
    call(name, drunquill_expand, 0, 0);
    want_out.len = 0;
    add_string(&want_out, field);
    call(name, drunquill_normalise, 0, 0);
}

/* Assignments in arithmetic: what they store is there for all that comes behind, a shorter image leaves zeros, and a refusal undoes them. */
static void counting(void) {
    set("P$((n=n+1))-$((n+=1))-$n");
    counts("setups are numbered", "P1-2-2", (const char *const[]){"HOME", "/home/crew", "job", "north field", "n", "2", "note", "", NULL});
    set("$((job=note=3))");
    counts("a shorter value", "3", (const char *const[]){"HOME", "/home/crew", "job", "3", "note", "3", NULL});
    set("$((note=job=3))");
    vars_len = used;
    counts("a shorter value in a buffer that the variables fill", "3", (const char *const[]){"HOME", "/home/crew", "job", "3", "note", "3", NULL});
    set("$((job=7))$((job*=12345678901))");
    counts("a value that is shorter for a while", "786419752307", (const char *const[]){"HOME", "/home/crew", "job", "86419752307", "note", "", NULL});
    refuses("a $((job=3))$((1/0))", DRUNQUILL_ZERO_DIVISOR, 2);
    refuses("$((job=3)) ${base:?}", DRUNQUILL_DEMANDED, 11);
    refuses("$((job+=1))", DRUNQUILL_NOT_NUMBER, 0);
    refuses("$(((note)=1))", DRUNQUILL_ARITHMETIC_SYNTAX, 0);
    set("a $((n=1))");
    vars_len = used + 5;
    refused("one byte short for a number", DRUNQUILL_VARIABLE_ROOM, 2);
}

static void empty_things(void) {
    set("");
    empty_image(&want_out);
    call("no line", drunquill_expand, 0, 0);
    want_out.len = 0;
    out_len = 0;
    call("no line, no output", drunquill_expand, DRUNQUILL_OUTPUT_ROOM, 0);
    call("no line, no output, normalised", drunquill_normalise, 0, 0);
    set("a");
    work_len = 0;
    refused("no work area", DRUNQUILL_WORK_TOO_SMALL, 0);
    set("a");
    used = 0;
    refused("no variables' image", DRUNQUILL_BAD_VARIABLES, 0);
    vars_len = 0;
    refused("no variables' buffer", DRUNQUILL_BAD_VARIABLES, 0);
    set("a");
    homes_image.len = 0;
    refused("no homes' image", DRUNQUILL_BAD_HOMES, 0);
    set("a");
    paths_image.len = 0;
    refused("no paths' image", DRUNQUILL_BAD_PATHS, 0);
}

static void refused_tables(void) {
    set("a");
    work_len = DRUNQUILL_WORK_LEAST - 1;
    refused("a work area one byte short", DRUNQUILL_WORK_TOO_SMALL, 0);
    set("a");
    used = vars_len + 1;
    refused("used length beyond the buffer", DRUNQUILL_BAD_VARIABLES, 0);
    used = (size_t)-1;
    refused("the greatest used length", DRUNQUILL_BAD_VARIABLES, 0);
    set("a");
    used = vars_image.len - 1;
    refused("used length inside a record", DRUNQUILL_BAD_VARIABLES, 0);
    set("a");
    image(&homes_image, (const char *const[]){"b", "/b", "a", "/a", NULL});
    refused("homes that fall", DRUNQUILL_BAD_HOMES, 0);
    set("a");
    image(&paths_image, (const char *const[]){"", NULL});
    refused("an empty path", DRUNQUILL_BAD_PATHS, 0);
}

static void refused_lines(void) {
    set("");
    repeat(&line, "a", DRUNQUILL_LINE_MAX + 1);
    refused("a line of 2,049 bytes", DRUNQUILL_LINE_TOO_LONG, 0);
    set("a");
    add(&line, "\0b", 2);
    refused("a zero byte", DRUNQUILL_ZERO_BYTE, 0);
    refuses("a \"b", DRUNQUILL_UNENDED, 2);
    refuses("a | b", DRUNQUILL_BARE_OPERATOR, 2);
    refuses("a `b`", DRUNQUILL_SUBSTITUTION, 2);
    refuses("a b$?", DRUNQUILL_UNSERVED, 2);
    refuses("a ${job!}", DRUNQUILL_BAD_SYNTAX, 2);
    refuses("a ${u-${u-${u-${u-${u-${u-${u-${u-${u-x}}}}}}}}}", DRUNQUILL_TOO_DEEP, 2);
    refuses("${note:?}", DRUNQUILL_DEMANDED, 0);
    refuses("${tilt=x} ${note:?}", DRUNQUILL_DEMANDED, 10);
    refuses("a $((08))", DRUNQUILL_NOT_NUMBER, 2);
    refuses("a $(())", DRUNQUILL_ARITHMETIC_SYNTAX, 2);
    refuses("a $((9223372036854775807+1))", DRUNQUILL_OVERFLOW, 2);
    refuses("a $((1/0))", DRUNQUILL_ZERO_DIVISOR, 2);
    refuses("a [[:alph:]]", DRUNQUILL_BRACKET_CLASS, 2);
}

static void edges(void) {
    static struct bytes value;
    for (int n = 2047; n <= 2048; n++) {
        set("\"$v\"");
        empty_image(&vars_image);
        add_text(&vars_image, "v");
        value.len = 0;
        repeat(&value, "x", n);
        add_text_of(&vars_image, value.at, value.len);
        used = vars_image.len;
        vars_len = DRUNQUILL_IMAGE_MAX + 100;
        out_len = DRUNQUILL_IMAGE_MAX;
        if (n == 2047) {
            empty_image(&want_out);
            add_text_of(&want_out, value.at, value.len);
            call("2,047 bytes in quotes", drunquill_expand, 0, 0);
            want_out.len = 0;
            add(&want_out, value.at, value.len);
            call("2,047 bytes as a quoted line", drunquill_normalise, 0, 0);
        } else {
            refused("2,048 bytes in quotes", DRUNQUILL_TOO_MANY_UNITS, 0);
        }
    }
    set("a ${tilt:=x}");
    vars_len = used + 8;
    refused("one byte short for a variable", DRUNQUILL_VARIABLE_ROOM, 2);
    set("a ${tilt:=x} bc");
    out_len = 10;
    call("one byte short for the output", drunquill_expand, DRUNQUILL_OUTPUT_ROOM, 13);
    out_len = 5;
    call("one byte short for the quoted line", drunquill_normalise, DRUNQUILL_OUTPUT_ROOM, 0);
}

static void quoted_fields(void) {
    out_len = 60;
    want_out.len = 0;
    image(&fields, (const char *const[]){"it's", "", "a b", NULL});
    add_string(&want_out, "'it'\\''s' '' 'a b'");
    quote("the recipe", 0);
    out_len = want_out.len;
    quote("the recipe, output just long enough", 0);
    out_len--;
    want_out.len = 0;
    quote("the recipe, one byte short", DRUNQUILL_OUTPUT_ROOM);
    fields.len--;
    quote("fields cut short", DRUNQUILL_BAD_FIELDS);
    out_len = 60;
    image(&fields, (const char *const[]){"cp", "a b", "/n/P_1-2.raw", "", "~a", "-r", NULL});
    add_string(&want_out, "cp 'a b' /n/P_1-2.raw '' '~a' -r");
    quote("bare fields among others", 0);
    out_len = want_out.len;
    quote("bare fields among others, output just long enough", 0);
    out_len--;
    want_out.len = 0;
    quote("bare fields among others, one byte short", DRUNQUILL_OUTPUT_ROOM);
    fields.len = 0;
    quote("no bytes", DRUNQUILL_BAD_FIELDS);
    empty_image(&fields);
    out_len = 0;
    quote("no fields, no output", 0);
    fields.at[0] = 2;
    quote("another version", DRUNQUILL_BAD_FIELDS);
}

int main(void) {
    accepted_lines();
    parameters();
    counting();
    empty_things();
    refused_tables();
    refused_lines();
    edges();
    quoted_fields();
    printf("c: %d calls as they should be, every byte of every buffer\n", count);
    return 0;
}
