/* The switch by which unset names shout: each sentence of E14 of docs/02-change-requests.md with the switch off and on, from which what is expected is written
 * out here. Set are HOME, a job of two words and an empty note, and one parameter, p. */
#include "jobs.h"

#define FIELDS(...) ((const char *const[]){__VA_ARGS__, NULL})
#define CREW(...) ((const char *const[]){"HOME", "/home/crew", "job", "north field", "note", "", __VA_ARGS__})

static const char *const no_fields[] = {NULL};

static void prepare(const char *text) {
    set(text);
    image(&params_image, FIELDS("p"));
}

/* Both jobs give these fields, each empty or of bytes that need no quotes, and leave these variables. */
static void gives(const char *text, const char *const *fields, const char *const *texts) {
    prepare(text);
    image(&want_vars, texts);
    image(&want_out, fields);
    call(text, drunquill_expand, 0, 0);
    want_out.len = 0;
    for (size_t i = 0; fields[i]; i++) {
        if (i) add_string(&want_out, " ");
        add_string(&want_out, *fields[i] ? fields[i] : "''");
    }
    call(text, drunquill_normalise, 0, 0);
}

/* Both jobs refuse the line, with a message that may be empty. */
static void refuses_with(const char *text, unsigned number, size_t place, const char *words) {
    prepare(text);
    add_string(&want_message, words);
    refused(text, number, place);
}

static void shouts_on(const char *text, size_t place) {
    shouts = true;
    refuses_with(text, DRUNQUILL_UNSET_NAME, place, "");
}

/* With the switch on the line is refused with 25 there; with it off it gives these fields and leaves these variables. */
static void heard(const char *text, size_t place, const char *const *fields, const char *const *texts) {
    shouts = false;
    gives(text, fields, texts);
    shouts_on(text, place);
}

/* With the switch on the line is refused with 25 at 0; with it off with this number there, and this message. */
static void heard_first(const char *text, unsigned number, const char *words) {
    shouts = false;
    refuses_with(text, number, 0, words);
    shouts_on(text, 0);
}

/* The switch changes nothing: these fields, or this refusal at 0 with its message. */
static void spared(const char *text, const char *const *fields, const char *const *texts) {
    for (int on = 0; on <= 1; on++) {
        shouts = on == 1;
        gives(text, fields, texts);
    }
}

static void refused_alike(const char *text, unsigned number, const char *words) {
    for (int on = 0; on <= 1; on++) {
        shouts = on == 1;
        refuses_with(text, number, 0, words);
    }
}

/* "the plain form, the length, the four removals and a name read in arithmetic are refused on an unset parameter with new number 25" */
static void forms(void) {
    heard("load $bsae $job", 5, FIELDS("load", "north", "field"), CREW(NULL));
    heard("load \"${bsae}\"", 5, FIELDS("load", ""), CREW(NULL));
    heard("load ${#bsae}", 5, FIELDS("load", "0"), CREW(NULL));
    heard("load ${bsae%.raw}", 5, FIELDS("load"), CREW(NULL));
    heard("load ${bsae%%.*}", 5, FIELDS("load"), CREW(NULL));
    heard("load \"${bsae#p}\"", 5, FIELDS("load", ""), CREW(NULL));
    heard("load ${bsae##*/}", 5, FIELDS("load"), CREW(NULL));
    heard("load $((bsae + 1))", 5, FIELDS("load", "1"), CREW(NULL));
    heard("load $1$2${10}", 5, FIELDS("load", "p"), CREW(NULL));
    heard("load ${#2} ${2%p}", 5, FIELDS("load", "0"), CREW(NULL));
    heard("x$((${u}1))", 0, FIELDS("x1"), CREW(NULL));
    spared("x$note\"$note\"${#note}${note%a}$((note))", FIELDS("x00"), CREW(NULL));
    spared("$job$1 ${#job} ${job% *} ${1#q} $#${#}", FIELDS("north", "fieldp", "11", "north", "p", "11"), CREW(NULL));
}

/* "at the moment it is looked up": what comes before it comes first, and what is not looked up does not shout; a refusal undoes stores */
static void moment(void) {
    heard("${t=x} $u", 7, FIELDS("x"), CREW("t", "x", NULL));
    spared("${t=x}$t${#t}", FIELDS("xx1"), CREW("t", "x", NULL));
    refused_alike("$u\"", DRUNQUILL_UNENDED, "");
    refused_alike("$u$((08", DRUNQUILL_UNENDED, "");
    refused_alike("$((08))$u", DRUNQUILL_NOT_NUMBER, "");
    heard_first("$u$((08))", DRUNQUILL_NOT_NUMBER, "");
    refused_alike("$((u u))", DRUNQUILL_ARITHMETIC_SYNTAX, "");
    for (int on = 0; on <= 1; on++) {
        shouts = on == 1;
        prepare("$u");
        work_len = DRUNQUILL_WORK_LEAST - 1;
        refused("the work area comes first", DRUNQUILL_WORK_TOO_SMALL, 0);
    }
}

/* "The forms with `-`, `=`, `?`, `+` are exempt, and so are `$@`, `$*` and tilde." */
static void exempt(void) {
    spared("${u-x}${u:-y}${2-z}", FIELDS("xyz"), CREW(NULL));
    spared("${u=x}${u:=y}", FIELDS("xx"), CREW("u", "x", NULL));
    spared("y${u+x}${u:+x}${2+x}", FIELDS("y"), CREW(NULL));
    refused_alike("${u?m}", DRUNQUILL_DEMANDED, "m");
    refused_alike("${note:?m $job}", DRUNQUILL_DEMANDED, "m north field");
    spared("${job-$u}${job?$u}${u+$w}", FIELDS("north", "fieldnorth", "field"), CREW(NULL));
    heard("${u-$w}", 0, no_fields, CREW(NULL));
    heard("${job+${#u}}", 0, FIELDS("0"), CREW(NULL));
    heard("${u=$w}", 0, no_fields, CREW("u", "", NULL));
    heard_first("${u?no $w}", DRUNQUILL_DEMANDED, "no ");
    spared("\"$@\" $@ \"$*\" $*", FIELDS("p", "p", "p", "p"), CREW(NULL));
    spared("~ ~/a ${u-~/b}", FIELDS("/home/crew", "/home/crew/a", "/home/crew/b"), CREW(NULL));
    heard("$IFS", 0, no_fields, CREW(NULL));
    for (int on = 0; on <= 1; on++) {
        shouts = on == 1;
        set("~/a $x$@\"$@\"");
        image(&vars_image, FIELDS("x", "b c"));
        used = vars_image.len;
        image(&want_out, FIELDS("~/a", "b", "c"));
        call("neither HOME, IFS nor parameters", drunquill_expand, 0, 0);
    }
}

/* "A removal is refused before its operand is expanded." */
static void removals(void) {
    heard("${u%${u=1}}", 0, no_fields, CREW("u", "1", NULL));
    heard("${u##$((u=1))}", 0, no_fields, CREW("u", "1", NULL));
    heard_first("${u%$((1/0))}", DRUNQUILL_ZERO_DIVISOR, "");
    heard_first("${u#${w?m}}", DRUNQUILL_DEMANDED, "m");
    heard_first("${u%%[[.a.]]}", DRUNQUILL_BRACKET_CLASS, "");
    heard("${job%$u}", 0, FIELDS("north", "field"), CREW(NULL));
    refused_alike("${u%$@}", DRUNQUILL_UNSERVED, "");
    spared("${u=ab}${u%b}", FIELDS("aba"), CREW("u", "ab", NULL));
}

/* Arithmetic: `=` reads nothing, the others read their name behind the right side, and a side that is not needed is not read. */
static void sums(void) {
    spared("$((u=1))$((u))", FIELDS("11"), CREW("u", "1", NULL));
    heard("$((u+=1))", 0, FIELDS("1"), CREW("u", "1", NULL));
    spared("$((u+=u=2))", FIELDS("4"), CREW("u", "4", NULL));
    spared("$((0&&u))$((1||u))$((1?2:u))$((0?u:3))$((0&&(u+=1)))", FIELDS("01230"), CREW(NULL));
    heard("$((1&&u))", 0, FIELDS("0"), CREW(NULL));
    refused_alike("$((u+=1/0))", DRUNQUILL_ZERO_DIVISOR, "");
    refused_alike("$((1/0+u))", DRUNQUILL_ZERO_DIVISOR, "");
    heard_first("$((u+1/0))", DRUNQUILL_ZERO_DIVISOR, "");
    heard("$(($1=2))$((u))", 0, FIELDS("20"), CREW("p", "2", NULL));
}

/* An assignment line, with the switch off and on: what it leaves, or with the switch on 25 at this place. */
static void assigns(const char *text, int heard_at, const char *const *texts) {
    for (int on = 0; on <= 1; on++) {
        shouts = on == 1;
        prepare(text);
        if (on && heard_at >= 0) {
            assign(text, DRUNQUILL_UNSET_NAME, (size_t)heard_at);
            continue;
        }
        image(&want_vars, texts);
        assign(text, 0, 0);
    }
}

static void assignments(void) {
    assigns("u=$w", 0, CREW("u", "", NULL));
    assigns("t=1 u=$((w+1))", 4, CREW("t", "1", "u", "1", NULL));
    assigns("t=1 u=$t:~:$1$#", -1, CREW("t", "1", "u", "1:/home/crew:p1", NULL));
    assigns("u=${w-1}", -1, CREW("u", "1", NULL));
    assigns("note= u=$note${#note}", -1, CREW("u", "0", NULL));
    assigns("u=${2#p}", 0, CREW("u", "", NULL));
}

/* "Demand 3 holds with the switch in either position": a quoted line never shouts. */
static void quoted_lines(void) {
    static const char text[] = "load '$bsae' '${#u}' '$((u))' $'$u\\015' -- ''";
    for (int on = 0; on <= 1; on++) {
        shouts = on == 1;
        set(text);
        image(&want_out, FIELDS("load", "$bsae", "${#u}", "$((u))", "$u\r", "--", ""));
        call("a quoted line", drunquill_expand, 0, 0);
        want_out.len = 0;
        add_string(&want_out, text);
        call("a quoted line, normalised", drunquill_normalise, 0, 0);
    }
}

int main(void) {
    forms();
    moment();
    exempt();
    removals();
    sums();
    assignments();
    quoted_lines();
    printf("c: %d calls with the switch off and on, every byte of every buffer\n", count);
    return 0;
}
