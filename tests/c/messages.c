/* The message of a `?` on a missing value: what is written of it to buffers of every kind, and that every other answer leaves the buffer alone. What is
 * expected is written out here from E7 of docs/02-change-requests.md. */
#include "jobs.h"

/* The message that is expected of the line that is set, as far as it is written. */
static void demanded(const char *name, size_t place, const char *text) {
    want_message.len = 0;
    add_string(&want_message, text);
    refused(name, DRUNQUILL_DEMANDED, place);
}

static void demands(const char *text, size_t place, const char *wanted) {
    set(text);
    demanded(text, place, wanted);
}

static void lengths(void) {
    set("load ${base:?no base file chosen}");
    demanded("a buffer that is longer than the message", 5, "no base file chosen");
    message_len = 19;
    demanded("a buffer of the message's length", 5, "no base file chosen");
    message_len = 18;
    demanded("one byte short", 5, "no base file chose");
    message_len = 1;
    demanded("a buffer of one byte", 5, "n");
    message_len = 0;
    demanded("a buffer of no bytes", 5, "");
    demands("${note:?}", 0, "");
    demands("${base?''\"\"}", 0, "");
    message_len = 0;
    demanded("an empty message and no buffer", 0, "");
}

static void expanded(void) {
    demands("${base?'$job' \"$job\"  \\* $((1+2)) ${#job}}", 0, "$job north field  * 3 11");
    demands("${base?*.raw}", 0, "*.raw");
    demands("${base?~/b: $job}", 0, "/home/crew/b: north field");
    demands("${base? ~}", 0, " ~");
    demands("\"${base?~ 'a' \\}}\"", 0, "~ 'a' }");
    demands("${job%${base?in a pattern}}", 0, "in a pattern");
    demands("$((1+${base?in a sum}))", 0, "in a sum");
    demands("a \"b${note:?}\"", 2, "");
    demands("${base?outer${rover?inner}}", 0, "inner");
    demands("a '${base?b}' ${base?c} ${base?d}", 14, "c");
    set("${2:?$# given: $1}");
    image(&params_image, (const char *const[]){"p q", NULL});
    demanded("a parameter that is not given", 0, "1 given: p q");
    set("${base?~kit/b}");
    image(&homes_image, (const char *const[]){"kit", "/k *", NULL});
    demanded("a home", 0, "/k */b");
}

/* Stores are undone, those of the operand too; the message was worked out with them. */
static void undone(void) {
    demands("${tilt=x} ${base?tilt is $tilt}", 10, "tilt is x");
    demands("${base?${tilt=x}$tilt}", 0, "xx");
    demands("${tilt=${base?not stored}}", 0, "not stored");
}

/* Number 0 and the refusals of the operand, which come in place of 13, leave the buffer alone; so do all calls of tests/c/calls.c. */
static void kept(void) {
    refuses("a ${base?$((1/0))}", DRUNQUILL_ZERO_DIVISOR, 2);
    refuses("a ${base?b $((08))}", DRUNQUILL_NOT_NUMBER, 2);
    refuses("a ${base?b ${job%[[.a.]]}}", DRUNQUILL_BRACKET_CLASS, 2);
    refuses("a ${base?b $?}", DRUNQUILL_UNSERVED, 2);
    refuses("${base?b} \"", DRUNQUILL_UNENDED, 10);
    set("${base?b${tilt=x}}");
    vars_len = used + 8;
    refused("a store of the operand without room", DRUNQUILL_VARIABLE_ROOM, 0);
    set("${job?$((1/0))}");
    image(&want_out, (const char *const[]){"north", "field", NULL});
    call("a value that is not missing", drunquill_expand, 0, 0);
    want_out.len = 0;
    add_string(&want_out, "north field");
    call("a value that is not missing, normalised", drunquill_normalise, 0, 0);
}

/* The operand has a row of its own: 2,048 bytes are a message, and a unit more is 14. */
static void edges(void) {
    static struct bytes value;
    static const struct {
        const char *line;
        int bytes;
        unsigned number;
    } rows[] = {
        {"a${u?$v}", 2048, DRUNQUILL_DEMANDED},
        {"a${u?''$v}", 2047, DRUNQUILL_DEMANDED},
        {"${u?$v}", 2049, DRUNQUILL_TOO_MANY_UNITS},
        {"${u?''$v}", 2048, DRUNQUILL_TOO_MANY_UNITS},
        {"${u?b$v}", 2048, DRUNQUILL_TOO_MANY_UNITS},
    };
    for (size_t i = 0; i < sizeof rows / sizeof *rows; i++) {
        set(rows[i].line);
        value.len = 0;
        repeat(&value, "x", rows[i].bytes);
        empty_image(&vars_image);
        add_text(&vars_image, "v");
        add_text_of(&vars_image, value.at, value.len);
        used = vars_image.len;
        vars_len = DRUNQUILL_IMAGE_MAX;
        message_len = DRUNQUILL_MESSAGE_MAX + 10;
        if (rows[i].number == DRUNQUILL_DEMANDED) add(&want_message, value.at, value.len);
        refused(rows[i].line, rows[i].number, 0);
        message_len = 2000;
        if (want_message.len) want_message.len = message_len;
        refused(rows[i].line, rows[i].number, 0);
    }
}

int main(void) {
    lengths();
    expanded();
    undone();
    kept();
    edges();
    printf("c: %d calls that demand a message or none, every byte of every buffer\n", count);
    return 0;
}
