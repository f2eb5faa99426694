/* Drunquill: POSIX words expanded, fields quoted, variables assigned, paths kept, patterns priced. Seven functions over buffers that the caller lends.
 *
 * To begin with, see `struct drunquill_call` near the end of this file: it holds what is lent from call to call, and what is not needed may be left NULL there.
 * man/drunquill.3 has a short program.
 *
 * The functions are proved to answer as docs/01-scope.md says, with the requests of docs/02-change-requests.md that have landed, for any bytes in any
 * buffers: they call nothing but memcpy and memset, use no heap and always return. How soon they return is measured and not proved: a removal costs at most
 * its pattern times its value, a field its pattern times the paths, a store the image of variables that it walks over, the coster at most the square of its
 * pattern (where many brackets are never closed), and all else is in proportion to the line (docs/TRUST.md has the dearest lines known and what they take).
 * Link by `pkg-config --cflags --libs drunquill` what ./install has put there, or crates/drunquill_c/out/libdrunquill_c.a, which tools/build-archive
 * builds (x86-64 Linux).
 *
 * THREADS. The functions have no state: any number of threads may call them at once, each with its own `vars`, `work`, `out` and `message`. Buffers that
 * are only read may be shared by them.
 * LIFETIME. A buffer is lent for the time of the call: the functions keep no pointer, nothing that they give back points anywhere, and nothing is to be freed.
 * STACK. A call may need DRUNQUILL_STACK bytes of it: a thread's stack that is made smaller than that must not call. None of the buffers is on it but those that
 * the caller puts there.
 *
 * BUFFERS. Each is a pointer and a length in bytes.
 *  - No pointer may be NULL, also where the length is 0. Each must have that many bytes, readable; `vars`, `work`, `out` and `message` writable too,
 *    and `paths` in the two functions that change it.
 *  - `vars`, `work`, `out` and `message` may overlap neither each other nor any other buffer of the call. `line`, `homes`, `params`, `paths`, `pattern`
 *    and `text` are only read.
 *  - Nothing else may read or write the buffers during the call.
 * The functions reach no byte outside the buffers and the stack. Bytes of a text are never changed by a locale: letters and digits are the ASCII ones.
 *
 * IMAGES. A table is an image: one version byte, 1, then its records to the end. A text is a length in two bytes, the higher first, then so many bytes,
 * none of them zero.
 *  - variables  a name (a letter or '_', then letters, digits, '_') and a value; at most DRUNQUILL_IMAGE_MAX bytes
 *  - homes      a login (letters, digits, '.', '_', '-', at least one) and a directory; at most DRUNQUILL_IMAGE_MAX bytes
 *  - paths      one text, not empty; at most DRUNQUILL_PATHS_MAX bytes
 *  - fields     one text, which may be empty; at most DRUNQUILL_IMAGE_MAX bytes. Positional parameters are such an image too.
 * Variables, homes and paths stand in strictly rising order of name, login or path, as memcmp orders them, a prefix first. A table without records is
 * the one byte 1, and not an empty buffer.
 */
#ifndef DRUNQUILL_H
#define DRUNQUILL_H

#include <stdbool.h>
#include <stddef.h>
#include <stdint.h>

#ifdef __cplusplus
extern "C" {
#endif

/* Limits, in bytes where nothing else is said. */
#define DRUNQUILL_WORK_LEAST 65536 /* the least length of the work area */
#define DRUNQUILL_LINE_MAX 2048    /* the longest line, and the longest quoted line */
#define DRUNQUILL_IMAGE_MAX 8192   /* the longest image of variables, homes, parameters or fields */
#define DRUNQUILL_PATHS_MAX 32768  /* the longest image of paths */
#define DRUNQUILL_UNITS_MAX 2048   /* units of a word, a value, an operand or an arithmetic text: its bytes, a mark for each opening quote, and between
                                      two parameters of $@ or $* a mark, in quotes $@ has two */
#define DRUNQUILL_MESSAGE_MAX 2048 /* no message is longer: it has at most a byte for each unit of an operand */
#define DRUNQUILL_DEPTH_MAX 8      /* expansions open at once, "${" and "$((" together */
#define DRUNQUILL_OPEN_MAX 32      /* parentheses and unary signs, + - ! ~, open at once in arithmetic, together */
#define DRUNQUILL_ELEMENTS_MAX 64  /* elements of a pattern whose cost is asked for: each *, ?, closed bracket and other byte is one */
#define DRUNQUILL_COMPARED_MAX 256 /* bytes of the text that its cost is asked for with */

/* What a call may need of the stack, in bytes: well above what tests/built/c measures on the deepest lines known (docs/TRUST.md). It is measured and not
 * proved. */
#define DRUNQUILL_STACK 524288

/* The numbers. 0 is the acceptance, each other one a refusal. drunquill_words has a sentence for each. */
enum drunquill_number {
    DRUNQUILL_ACCEPTED = 0,
    DRUNQUILL_WORK_TOO_SMALL = 1,     /* the work area has fewer than DRUNQUILL_WORK_LEAST bytes */
    DRUNQUILL_BAD_VARIABLES = 2,      /* variables malformed, above their limit, or the used length beyond the buffer */
    DRUNQUILL_BAD_HOMES = 3,          /* homes malformed or above their limit */
    DRUNQUILL_BAD_PATHS = 4,          /* paths malformed or above their limit */
    DRUNQUILL_LINE_TOO_LONG = 5,      /* the line has more than DRUNQUILL_LINE_MAX bytes */
    DRUNQUILL_ZERO_BYTE = 6,          /* a zero byte in the line */
    DRUNQUILL_UNENDED = 7,            /* the line ends inside a quote, a brace or arithmetic, or after a backslash */
    DRUNQUILL_BARE_OPERATOR = 8,      /* one of |&;<>() not quoted, or a # that begins a word */
    DRUNQUILL_SUBSTITUTION = 9,       /* a command substitution: $( or a backquote */
    DRUNQUILL_UNSERVED = 10,          /* a parameter that is not served: $?, $0, ${01}, ${1=x}; $@ or $* in an operand of = or ?, of a removal, in
                                         arithmetic, in a value that is assigned, or with an operator */
    DRUNQUILL_BAD_SYNTAX = 11,        /* other bad syntax; from the assigner, a word that does not begin with a name and a bare = */
    DRUNQUILL_TOO_DEEP = 12,          /* more than DRUNQUILL_DEPTH_MAX expansions, or DRUNQUILL_OPEN_MAX parentheses and signs */
    DRUNQUILL_DEMANDED = 13,          /* ${name?word} or ${name:?word} on a missing value: `message` begins with what the word expands to. A fault of the
                                         word comes in place of 13 */
    DRUNQUILL_TOO_MANY_UNITS = 14,    /* a word, a value, an operand or an arithmetic text above DRUNQUILL_UNITS_MAX units */
    DRUNQUILL_NOT_NUMBER = 15,        /* arithmetic: a constant or a variable's value that is not a number */
    DRUNQUILL_ARITHMETIC_SYNTAX = 16, /* arithmetic: bad syntax, an assignment to what is not a name alone, or an empty text */
    DRUNQUILL_OVERFLOW = 17,          /* arithmetic: out of the range of 64 signed bits, or a shift count that is not 0 to 63 */
    DRUNQUILL_ZERO_DIVISOR = 18,      /* arithmetic: division or remainder by zero */
    DRUNQUILL_BRACKET_CLASS = 19,     /* in a bracket of a pattern: [: without one of the twelve names of POSIX, [. or [=, or a class in a range */
    DRUNQUILL_VARIABLE_ROOM = 20,     /* a store, in arithmetic too, makes the variables longer than their buffer or DRUNQUILL_IMAGE_MAX */
    DRUNQUILL_OUTPUT_ROOM = 21,       /* the output is longer than its buffer or its limit */
    DRUNQUILL_BAD_FIELDS = 22,        /* the quoter's fields malformed or above their limit */
    DRUNQUILL_BAD_PARAMETERS = 23,    /* positional parameters malformed or above their limit */
    DRUNQUILL_BAD_PATH = 24,          /* a path to insert that is there, or one to delete that is not */
    DRUNQUILL_UNSET_NAME = 25         /* with `shouts`, a parameter that is unset where its value is looked up: $name, ${#name}, a removal, a name in
                                         arithmetic */
};

/* What the expander, the normaliser and the assigner answer. */
struct drunquill_answer {
    uint8_t number;     /* one of the numbers above */
    size_t place;       /* where in the line: the offset of the first byte of the word at fault, or of the operator itself if no word is open.
                           0 on acceptance, for numbers 1 to 6 and 23, and for 21 from the normaliser's quoting */
    size_t out_len;     /* bytes written to the front of `out`; 0 on a refusal, and from the assigner */
    size_t vars_used;   /* the variables' used length now: that of the new image, or on a refusal `vars_used` as it was given */
    size_t message_len; /* bytes written to the front of `message`; 0 for every number but 13, and where message or buffer is empty */
};

/* What the quoter answers. Its place is always 0. */
struct drunquill_quote_answer {
    uint8_t number; /* 0, 21 or 22 */
    size_t place;
    size_t out_len; /* bytes written to the front of `out`; 0 on a refusal */
};

/* What the insertion and the deletion of a path answer. Their place is always 0. */
struct drunquill_updated {
    uint8_t number; /* 0, 4, 21 (from the insertion) or 24 */
    size_t place;
    size_t used;    /* the paths' used length now: that of the new image, or on a refusal `paths_used` as it was given */
};

/* What the coster answers. Its place is always 0. */
struct drunquill_costed {
    uint8_t number; /* 0, 1, 14 or 19 */
    size_t place;
    size_t pairs;   /* how many pairs can be reached, from 1 to (elements + 1) * (bytes + 1); 0 on a refusal */
};

/* The expander: the fields of the line's words, an image, to `out`.
 *
 *  vars         the variables: an image in the first `vars_used` of `vars_len` bytes. ${name=word} and arithmetic, as $((n=n+1)), store into it. The
 *               buffer may be longer than DRUNQUILL_IMAGE_MAX, the image may not.
 *  shouts       whether unset names shout: with `true` the plain form $name or ${name}, the length ${#name}, the four removals as ${name%word}, each
 *               before its word is expanded, and a name that is read in arithmetic are DRUNQUILL_UNSET_NAME on a parameter that is unset, a number beyond
 *               the last one too, at the moment it is looked up. The forms with - = ? + are exempt, and so are $#, $@, $* and ~, but not what stands in a
 *               word that they expand. An empty value is set; a name that arithmetic only stores to, or on a side that is not needed, is not read. A call
 *               that is not refused with this number answers what it answers with `false`, in every byte.
 *  homes        whose directory ~login gives, at the start of a word or of a bare operand; ~ alone gives the variable HOME
 *  params       the positional parameters: an image of fields, the first of them $1. One without parameters is the byte 1.
 *  paths        what patterns are matched against: the function looks at no file
 *  work         at least DRUNQUILL_WORK_LEAST bytes, whatever they hold. After every call, whatever the number, all `work_len` bytes are zero.
 *  out          the fields' image. One of DRUNQUILL_IMAGE_MAX bytes is always long enough for what can be accepted. One byte is needed for no fields.
 *  message      any bytes, of any length, also 0. After DRUNQUILL_DEMANDED it begins with the message, what the word of ${name?word} expands to, as
 *               bytes without quotes and without a zero byte behind them: its first `message_len` bytes. A message that is longer than the buffer is
 *               cut to it; one of DRUNQUILL_MESSAGE_MAX bytes takes every message whole.
 *
 * On acceptance the variables' new image stands at the front of `vars`, and its length is the answer's `vars_used`. It may be shorter than the one before:
 * then the bytes after it are zero up to the `vars_used` that was given. All other bytes of `vars` and `out` after the new images are unchanged. On a refusal
 * every byte of both is. The bytes of `message` after the message are unchanged, and on every number but DRUNQUILL_DEMANDED every byte of it is. Faults are
 * met in this order: numbers 1 to 4, 23, 5 and 6; then the whole line is read; then its words are expanded from left to right; the first fault is answered.
 */
struct drunquill_answer drunquill_expand(const uint8_t *line, size_t line_len, uint8_t *vars, size_t vars_len, size_t vars_used, bool shouts,
                                         const uint8_t *homes, size_t homes_len, const uint8_t *params, size_t params_len, const uint8_t *paths,
                                         size_t paths_len, uint8_t *work, size_t work_len, uint8_t *out, size_t out_len, uint8_t *message,
                                         size_t message_len);

/* The normaliser: as the expander, but the fields go to `out` as a quoted line (see the quoter), of at most DRUNQUILL_LINE_MAX bytes. If the quoted line
 * has no room the number is 21 at place 0 and the variables are as before, too. A line without fields needs no byte of `out`.
 */
struct drunquill_answer drunquill_normalise(const uint8_t *line, size_t line_len, uint8_t *vars, size_t vars_len, size_t vars_used, bool shouts,
                                            const uint8_t *homes, size_t homes_len, const uint8_t *params, size_t params_len, const uint8_t *paths,
                                            size_t paths_len, uint8_t *work, size_t work_len, uint8_t *out, size_t out_len, uint8_t *message,
                                            size_t message_len);

/* The assigner: each word of the line is a name, a bare `=` and a value, which may be empty, as in out=~/jobs:$base, and sets that variable. Assignments take
 * effect from left to right, each seen by the next; if one is refused, none has taken effect.
 *
 * A value is expanded as a word is, but it is neither split nor matched against paths: it is one text. ~ and ~login give a directory right after the
 * assignment's own `=`, and after each `:` that is written in the value, not quoted and in no operand; a login there ends at a `:` too. A word without name
 * and `=` is DRUNQUILL_BAD_SYNTAX, whatever else is wrong with it; $@ and $* in a value are DRUNQUILL_UNSERVED.
 *
 * `vars`, `shouts`, `homes`, `params`, `work` and `message` are as in the expander, before the call and after it; there are neither paths nor output, and
 * the answer's `out_len` is 0. Faults are met in this order: numbers 1 to 3, 23, 5 and 6; then the whole line is read; then its values are expanded and stored from left to
 * right. 4, 21 and 22 do not arise.
 */
struct drunquill_answer drunquill_assign(const uint8_t *line, size_t line_len, uint8_t *vars, size_t vars_len, size_t vars_used, bool shouts,
                                         const uint8_t *homes, size_t homes_len, const uint8_t *params, size_t params_len, uint8_t *work, size_t work_len,
                                         uint8_t *message, size_t message_len);

/* The quoter: an image of fields as a line to `out`. A field that is not empty and holds only letters, digits, `.`, `_`, `-` and `/` stands there bare; one
 * that holds a byte below 32 or byte 127 in $'...', a backslash before each \ and ', and each such byte as a backslash and three octal digits; any other in
 * single quotes, each ' in it written '\''. So the line holds no newline. One blank between fields; no fields, no bytes. No zero byte is put after the line.
 * Above DRUNQUILL_LINE_MAX bytes or `out_len` the number is 21. Bytes of `out` after the line are unchanged, on a refusal all of them.
 */
struct drunquill_quote_answer drunquill_quote(const uint8_t *fields, size_t fields_len, uint8_t *out, size_t out_len);

/* A path inserted: `paths` holds an image of paths in its first `paths_used` of `paths_len` bytes, and `path` is added to it in its order. The bytes before its
 * place and those after the new image are unchanged. Faults are met in this order: DRUNQUILL_BAD_PATHS for an image that is malformed or above its limit, or a
 * used length beyond the buffer; the same for a path that is empty or holds a zero byte; DRUNQUILL_BAD_PATH for one that is there; DRUNQUILL_OUTPUT_ROOM if
 * the new image is longer than the buffer or DRUNQUILL_PATHS_MAX. On a refusal every byte of `paths` is unchanged. `path` may not overlap `paths`.
 */
struct drunquill_updated drunquill_insert_path(uint8_t *paths, size_t paths_len, size_t paths_used, const uint8_t *path, size_t path_len);

/* A path deleted from such an image. The bytes before its place are unchanged, those after the new image are zero up to the `paths_used` that was given, and
 * unchanged beyond it. DRUNQUILL_BAD_PATHS as in the insertion, then DRUNQUILL_BAD_PATH for a path that is not there; a refusal changes nothing.
 */
struct drunquill_updated drunquill_delete_path(uint8_t *paths, size_t paths_len, size_t paths_used, const uint8_t *path, size_t path_len);

/* The coster: what a pattern may cost with a text. Of the pairs of a place in the pattern, between its elements, and a place in the text, those are counted that
 * can be reached from the start: a star leads on to the next element, and to the next byte if there is one; another element that matches the byte leads on in
 * both. Elements are those of the removals, as in ${name#pattern}, and every byte of `pattern` is active; both may hold any bytes. A text matches just if the
 * last pair is reached. `work` has at least DRUNQUILL_WORK_LEAST bytes, whatever they hold; after every call all `work_len` bytes are zero.
 * Faults are met in this order: DRUNQUILL_WORK_TOO_SMALL; DRUNQUILL_BRACKET_CLASS for a class in a bracket that is not served; DRUNQUILL_TOO_MANY_UNITS for more
 * than DRUNQUILL_ELEMENTS_MAX elements or DRUNQUILL_COMPARED_MAX bytes of text.
 */
struct drunquill_costed drunquill_cost(const uint8_t *pattern, size_t pattern_len, const uint8_t *text, size_t text_len, uint8_t *work, size_t work_len);

/* What a number says, in words, without a full stop: those of commands/numbers.txt. The text is not to be freed. */
static inline const char *drunquill_words(uint8_t number)
{
    static const char *const words[] = {
        "accepted",
        "the work area has fewer than 65,536 bytes",
        "the table of variables is spoiled or too long",
        "the table of homes is spoiled or too long",
        "the table of paths is spoiled or too long, or a path is empty or holds a zero byte",
        "the line has more than 2,048 bytes",
        "a zero byte stands in the line",
        "an apostrophe or quote, a brace or a calculation is not closed, or a backslash ends the line",
        "one of |&;<>() is not quoted, or a word begins with #",
        "a command, as $(...) or in backquotes, is never run",
        "a parameter that is not served, as $? or $0, or one where it may not stand",
        "bad syntax, or among assignments a word that is none",
        "nested too deep: more than 8 expansions, or 32 parentheses and signs, are open at once",
        "a value that the line demands is missing",
        "too long: a word, value or calculation above 2,048 units, or a pattern or text to be priced",
        "a calculation has something that is not a number",
        "a calculation cannot be read",
        "a calculation leaves the range of 64 bits, or shifts by a count that is not 0 to 63",
        "a calculation divides by zero",
        "a class in the brackets of a pattern is not served",
        "no room for a variable",
        "no room for the answer",
        "the image of fields is malformed or too long",
        "the positional parameters are malformed or too long",
        "the path to insert is there already, or the one to delete is not there",
        "a name that is not set, while unset names shout",
    };
    return number < sizeof words / sizeof words[0] ? words[number] : "no number of Drunquill";
}

/* What is lent to the calls of the three functions below, which call those of the same name above. A struct of zeros with a work area is enough to begin with: a
 * table that is NULL has no records, variables that are NULL are none and have no room, and a message that is NULL is not wanted. Its buffers are those of the
 * caller, and stay lent as long as the struct is used; nothing else changes it but `vars_used`.
 */
struct drunquill_call {
    uint8_t *vars;         /* the variables' buffer: to begin without variables, put the byte 1 at its front and 1 in `vars_used` */
    size_t vars_len;       /* DRUNQUILL_IMAGE_MAX bytes are enough for all that can be accepted */
    size_t vars_used;      /* their used length; a call that is accepted puts the new one here, so that the next call goes on with them */
    const uint8_t *homes;
    size_t homes_len;
    const uint8_t *params;
    size_t params_len;
    const uint8_t *paths;
    size_t paths_len;
    uint8_t *work;         /* at least DRUNQUILL_WORK_LEAST bytes */
    size_t work_len;
    uint8_t *message;
    size_t message_len;
    bool shouts;           /* whether unset names shout */
};

/* The call with bytes of `instead`, the image without records and then a byte to write to, in the place of what is NULL. */
static inline struct drunquill_call drunquill_filled(const struct drunquill_call *call, uint8_t instead[3])
{
    struct drunquill_call filled = *call;
    instead[0] = instead[1] = 1;
    instead[2] = 0;
    if (filled.vars == NULL) {
        filled.vars = instead + 1;
        filled.vars_len = filled.vars_used = 1;
    }
    if (filled.homes == NULL) {
        filled.homes = instead;
        filled.homes_len = 1;
    }
    if (filled.params == NULL) {
        filled.params = instead;
        filled.params_len = 1;
    }
    if (filled.paths == NULL) {
        filled.paths = instead;
        filled.paths_len = 1;
    }
    if (filled.message == NULL) {
        filled.message = instead + 2;
        filled.message_len = 0;
    }
    return filled;
}

/* Takes over what a call left. */
static inline struct drunquill_answer drunquill_carried(struct drunquill_call *call, struct drunquill_answer answer)
{
    if (answer.number == DRUNQUILL_ACCEPTED && call->vars != NULL)
        call->vars_used = answer.vars_used;
    return answer;
}

/* The expander, with what a call is lent. */
static inline struct drunquill_answer drunquill_expand_with(struct drunquill_call *call, const char *line, size_t line_len, uint8_t *out, size_t out_len)
{
    uint8_t instead[3];
    const struct drunquill_call c = drunquill_filled(call, instead);
    return drunquill_carried(call, drunquill_expand((const uint8_t *)line, line_len, c.vars, c.vars_len, c.vars_used, c.shouts, c.homes, c.homes_len, c.params,
                                                    c.params_len, c.paths, c.paths_len, c.work, c.work_len, out, out_len, c.message, c.message_len));
}

/* The normaliser, with what a call is lent. */
static inline struct drunquill_answer drunquill_normalise_with(struct drunquill_call *call, const char *line, size_t line_len, uint8_t *out, size_t out_len)
{
    uint8_t instead[3];
    const struct drunquill_call c = drunquill_filled(call, instead);
    return drunquill_carried(call, drunquill_normalise((const uint8_t *)line, line_len, c.vars, c.vars_len, c.vars_used, c.shouts, c.homes, c.homes_len, c.params,
                                                       c.params_len, c.paths, c.paths_len, c.work, c.work_len, out, out_len, c.message, c.message_len));
}

/* The assigner, with what a call is lent; the paths are not looked at. */
static inline struct drunquill_answer drunquill_assign_with(struct drunquill_call *call, const char *line, size_t line_len)
{
    uint8_t instead[3];
    const struct drunquill_call c = drunquill_filled(call, instead);
    return drunquill_carried(call, drunquill_assign((const uint8_t *)line, line_len, c.vars, c.vars_len, c.vars_used, c.shouts, c.homes, c.homes_len, c.params,
                                                    c.params_len, c.work, c.work_len, c.message, c.message_len));
}

/* The next text of a well formed image, as the expander writes one: begin with `*at` 0. Answers false, and changes nothing, where there is no further one. The
 * text is a part of the image, and no zero byte ends it. Of an image that is not well formed it reads no byte outside either.
 */
static inline bool drunquill_next_text(const uint8_t *image, size_t image_len, size_t *at, const uint8_t **text, size_t *text_len)
{
    const size_t record = *at == 0 ? 1 : *at;
    if (image_len < 2 || record > image_len - 2)
        return false;
    const size_t length = (size_t)image[record] << 8 | image[record + 1];
    if (length > image_len - 2 - record)
        return false;
    *text = image + record + 2;
    *text_len = length;
    *at = record + 2 + length;
    return true;
}

/* A text put behind the others of an image of fields, so as to make one of positional parameters: the image stands in the first `used` of `room` bytes, with
 * `used` 0 for a new one. Answers the new used length, or 0 if it has no room or is longer than DRUNQUILL_IMAGE_MAX; then nothing is changed. A zero byte in
 * the text is for the functions to refuse.
 */
static inline size_t drunquill_add_text(uint8_t *image, size_t room, size_t used, const char *text, size_t text_len)
{
    const size_t front = used == 0 ? 1 : used, most = room < DRUNQUILL_IMAGE_MAX ? room : DRUNQUILL_IMAGE_MAX;
    if (front > most || most - front < 2 || most - front - 2 < text_len)
        return 0;
    image[0] = 1;
    image[front] = (uint8_t)(text_len >> 8);
    image[front + 1] = (uint8_t)(text_len & 255);
    for (size_t i = 0; i < text_len; i++)
        image[front + 2 + i] = (uint8_t)text[i];
    return front + 2 + text_len;
}

#ifdef __cplusplus
}
#endif

#endif
