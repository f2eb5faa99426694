"""Hostile lines: for each way in which a line could be slow, tables and a line that go that way as far as the limits let them.

A case makes its line and tables at a scale from 1 to FULL: at FULL they are near the limits, and at half of it what the case says that it `grows` is half as
long. A removal is held to pattern times value, so that it may take four times as long where both double. Everything else is held to the one size that grows:
a field to its pattern or to the paths, a line to how many of a thing it has."""
from collections import namedtuple

FULL = 4
LINE, ROW, IMAGE, PATHS = 2048, 2048, 8192, 32768  # the limits of document 01

# what a case grows where a doubled size may take four times as long
BOTH = "pattern and value"
STORES = "their number, and the image that each walks over"
TWOFOLD_TWICE = (BOTH, STORES)  # two sizes double at once
# the kind of what is timed only, and of lines of assignments, which are calls
UNBOUND, ASSIGNMENT = "unbound", "assignment"
# `kind` is what is dear, `parts` how many removals, fields or arithmetic texts of the line are
Case = namedtuple("Case", "name kind grows make parts")
Given = namedtuple("Given", "line variables homes paths params", defaults=({}, {}, (), ()))


def image(texts):
    return b"\1" + b"".join(len(text).to_bytes(2, "big") + text for text in texts)


def pairs(table):
    return image([text for key in sorted(table) for text in (key, table[key])])


def tables(given):
    """The images of a case's tables, by the names of their files."""
    return {"vars.tab": pairs(given.variables), "homes.tab": pairs(given.homes), "paths.tab": image(sorted(given.paths))}


def is_within_limits(given):
    sizes = {name: len(made) for name, made in tables(given).items()}
    longest = max(sizes["vars.tab"], sizes["homes.tab"], len(image(given.params)))
    return len(given.line) <= LINE and longest <= IMAGE and sizes["paths.tab"] <= PATHS


def filled(key, value, fill=b"x" * 20, room=IMAGE):
    """A table of pairs with four-byte keys, and then this one, as long as fits."""
    count = (room - 1 - 4 - len(key) - len(value)) // (8 + len(fill))
    return {b"k%03d" % i: fill for i in range(count)} | {key: value}


def as_long(text, length):
    """A text again and again, up to a length."""
    return (text * (length // len(text) + 1))[:length]


def paths_of(stem, length, room=PATHS):
    """As many paths as fit, each a stem again and again up to a length, or up to all of the room, and then a number."""
    length = min(length, room - 7)
    return [as_long(stem, length) + b"%04d" % i for i in range((room - 1) // (length + 6))]


# The removals. Each pattern fails at every place of its value, and nearly matches at most of them: the pattern, about 1,900 bytes where n is the whole scale,
# and what its value is made of.
PATTERNS = {
    "stars": lambda n: (b"*a" * n(900) + b"*c", b"a"),
    "? and stars": lambda n: (b"?*" * n(900) + b"c", b"a"),
    "a..ab": lambda n: (b"a" * n(1900) + b"b", b"a"),
    "*a..ab": lambda n: (b"*" + b"a" * n(1900) + b"b", b"a"),
    "a..ab*": lambda n: (b"a" * n(1900) + b"b*", b"a"),
    "*a..ab*c": lambda n: (b"*" + b"a" * n(1900) + b"b*c", b"a"),
    "a*a..a*c": lambda n: (b"a*" + b"a" * n(1900) + b"*c", b"a"),
    "*a..b*a..b": lambda n: ((b"*" + b"a" * 20 + b"b") * n(80), b"a" * 20 + b"ba"),
    "unclosed [": lambda n: (b"[" * n(1900) + b"b", b"["),
    "*, unclosed [": lambda n: (b"*" + b"[" * n(1900) + b"b", b"["),
    "*, unclosed [, *": lambda n: (b"*" + b"[" * n(1900) + b"b*", b"["),
    "*, [!": lambda n: (b"*" + b"[!" * n(900) + b"b", b"[!"),
    "*, [a-": lambda n: (b"*" + b"[a-" * n(600) + b"b", b"[a-"),
    "*, [ and a quoted ]": lambda n: (b"*" + b'["]"' * n(450) + b"b", b"[]"),
    "*, [[:": lambda n: (b"*" + b"[[:" * n(600) + b"b", b"[[:"),
    "*, [ and classes": lambda n: (b"*" + b"[[:alpha:]" * n(190) + b"b", b"[a"),
    "long bracket": lambda n: (b"*[" + b"bdefghi" * n(260) + b"]*c", b"a"),
    "long bracket of all others": lambda n: (b"*[!" + b"bdefghi" * n(260) + b"]c", b"a"),
    "long bracket of ranges": lambda n: (b"*[" + b"b-z" * n(600) + b"]*c", b"a"),
    "long bracket of classes": lambda n: (b"*[" + b"[:digit:]" * n(200) + b"]*c", b"a"),
    "brackets": lambda n: (b"[ab]" * n(480) + b"c", b"ab"),
    "*, brackets": lambda n: (b"*" + b"[ab]" * n(480) + b"c", b"ab"),
    "*, brackets, *": lambda n: (b"*" + b"[!c]" * n(480) + b"c*", b"ab"),
    "*, classes": lambda n: (b"*" + b"[[:alpha:]]" * n(170) + b"1", b"ab"),
    "empty quotes": lambda n: (b"''" * n(900) + b"*c", b"a"),
}
# the operators, a suffix and a prefix in turn; each pattern has one of each side, and those of ONCE have one
PAIRS = ((b"%%", b"#"), (b"%", b"##"))
ONCE = ("? and stars", "*, [!", "*, [a-", "*, [[:", "long bracket of all others", "long bracket of ranges", "long bracket of classes", "*, classes",
        "empty quotes")
# those that are tried in a variable too, with the operators that they have not in the line or with all, and with the longest value
DEAREST = {"*a..ab": PAIRS[0] + PAIRS[1], "stars": PAIRS[1], "a..ab*": PAIRS[1], "*, unclosed [": PAIRS[0], "*, brackets": PAIRS[0]}


def in_line(name, operator, share, length):
    """The pattern stands in the line, a share of it."""
    def make(n):
        pattern, stem = PATTERNS[name](lambda full: n(full) // share)
        return Given(b'"${v%s%s}"' % (operator, pattern), {b"v": as_long(stem, n(length))})
    return make


def in_variable(name, operator):
    """The pattern is a variable's value, and the value takes the rest of the variables."""
    def make(n):
        pattern, stem = PATTERNS[name](n)
        return Given(b'"${v%s$p}"' % operator, {b"p": pattern, b"v": as_long(stem, n(6000))})
    return make


def met_last(operator, value):
    """The one cut whose dropped part matches is the last that is tried."""
    return lambda n: Given(b'"${v%s$p}"' % operator, {b"p": b"*" + b"a" * n(1900) + b"b*", b"v": value(n)})


def removals():
    for at, name in enumerate(PATTERNS):
        pair = PAIRS[at % 2]
        for operator in (pair[at // 2 % 2],) if name in ONCE else pair:
            yield f"{name} in {operator.decode()}", BOTH, in_line(name, operator, 2, 2000), 1
    for name, operators in DEAREST.items():
        for operator in operators:
            yield f"{name} in {operator.decode()}, in a variable", BOTH, in_variable(name, operator), 1
        yield f"{name} in {operators[-1].decode()}, longest", BOTH, in_line(name, operators[-1], 1, 8150), 1
    yield "*[..[b in %%, 300 [ on 2,000", BOTH, lambda n: Given(b"${v%%*" + b"[" * n(300) + b"b}", {b"v": b"[" * n(2000)}), 1
    yield "*a..ab* met last in %", BOTH, met_last(b"%", lambda n: b"a" * n(1900) + b"b" + b"a" * n(4000)), 1
    yield "*a..ab* met last in #", BOTH, met_last(b"#", lambda n: b"a" * n(5900) + b"b"), 1
    yield ("removals in removals", BOTH,
           lambda n: Given(b'"' + b"${v%" * 7 + b"$p" + b"}" * 7 + b'"', {b"p": b"*" + b"a" * n(900) + b"b", b"v": b"a" * n(1900) + b"c"}), 7)
    yield "short removals", "their number", lambda n: Given(b"${v#*b}" * n(280), {b"v": b"a" * 1999 + b"b"}), 280


def dearest():
    """A line of two hundred long removals, which each leave nothing. It is the dearest line known, and timed, but held to no bound."""
    yield "dearest removals", "their number", lambda n: Given(b"${v#$p}" * n(200), {b"p": b"*" + b"a" * 1900 + b"b", b"v": b"a" * 5900 + b"b"}), 200


# Patterns over paths: the pattern, what the paths are made of, and how long each is.
FIELDS = {
    "stars": (lambda n: b"*a" * n(900) + b"*b", b"a", 2000),
    "a..a*a..ab": (lambda n: b"a" * n(900) + b"*" + b"a" * n(900) + b"b", b"a", 4000),
    "*a..ab*c": (lambda n: b"*" + b"a" * n(900) + b"b*c", b"a", 2000),
    "unclosed [": (lambda n: b"[" * n(1900) + b"*", b"[", 2000),
    "*, unclosed [": (lambda n: b"*" + b"[" * n(900) + b"b", b"[", 2000),
    "*, [!": (lambda n: b"*" + b"[!" * n(500) + b"b", b"[!", 2000),
    "*, [a-": (lambda n: b"*" + b"[a-" * n(300) + b"b", b"[a-", 2000),
    "*, [[:": (lambda n: b"*" + b"[[:" * n(600) + b"b", b"[[:", 2000),
    "*, [ and classes": (lambda n: b"*" + b"[[:alpha:]" * n(190) + b"b", b"[a", 2000),
    "[ before a slash": (lambda n: b"[" * n(1900) + b"/]*", b"[", 2000),
    "*, [ and slashes": (lambda n: b"*" + b"[/" * n(900) + b"*b", b"[/", 4000),
    "long bracket": (lambda n: b"*[" + b"bdefghi" * n(260) + b"]*c", b"a", 2000),
    "brackets": (lambda n: b"[ab]" * n(480) + b"c", b"ab", 500),
    "*, brackets": (lambda n: b"*" + b"[ab]" * n(480) + b"c", b"ab", 1000),
    "slashes and stars": (lambda n: b"*/" * n(900) + b"c", b"a/", 2000),
}


def fields():
    for name, (pattern, stem, length) in FIELDS.items():
        yield f"{name} over paths", "pattern", lambda n, row=(pattern, stem, length): Given(row[0](n), paths=paths_of(*row[1:])), 1
    for name in ("*a..ab*c", "*, brackets"):
        yield (f"{name} over paths", "paths",
               lambda n, row=FIELDS[name]: Given(row[0](lambda full: full), paths=paths_of(*row[1:], n(PATHS))), 1)
    yield "*a..ab over one path", "pattern", lambda n: Given(b"*" + b"a" * n(2000) + b"b", paths=paths_of(b"a", PATHS)), 1
    names, short = paths_of(b"ab", 16), [b"%c%c" % (a, b) for a in range(48, 123) for b in range(48, 123)]
    yield "patterns over paths", "their number", lambda n: Given(b"*c? " * n(500), paths=names), 500
    yield "patterns over short paths", "their number", lambda n: Given(b"*~ " * n(300), paths=short), 300
    yield "a word of patterns over paths", "its fields", lambda n: Given(b"$v", {b"v": b"*c " * n(400)}, paths=names), 400
    yield "a word of [ over paths", "its fields", lambda n: Given(b"$v", {b"v": b"[* " * n(680)}, paths=names), 680
    yield "stars in words over paths", "paths", lambda n: Given(b"*a*b*a*b*a*b*c " * 130, paths=paths_of(b"ab", 16, n(PATHS))), 130


def arithmetic():
    far, long = filled(b"z", b"1"), {b"z": b"0" * 6000 + b"1"}
    yield "arithmetic", "its text", lambda n: Given(b"$((" + b"1+" * n(1000) + b"1))"), 1
    yield "arithmetic of all operators", "its text", lambda n: Given(b"$((" + b"1*2/1%3-1<1<=2>1>=0==1!=" * n(80) + b"1))"), 1
    yield "arithmetic in a variable", "its text", lambda n: Given(b"$(($v))", {b"v": b"1+" * n(1000) + b"1"}), 1
    yield "arithmetic texts", "their number", lambda n: Given(b"$((1))" * n(340)), 340
    yield "names in arithmetic", "their number", lambda n: Given(b"$((" + b"z+" * n(1000) + b"1))", far), 1
    yield "names of long numbers in arithmetic", "their number", lambda n: Given(b"$((" + b"z+" * n(1000) + b"1))", long), 1
    yield "parentheses", "their number", lambda n: Given(b"$((" + b"(1)+" * n(500) + b"1))"), 1
    yield "deep parentheses", "their number", lambda n: Given(b"$((" + (b"(" * 31 + b"1" + b")" * 31 + b"+") * n(30) + b"1))"), 1
    yield "parentheses without an end", "their number", lambda n: Given(b"$((" + b"(1+" * n(680)), 1
    yield "a constant", "its digits", lambda n: Given(b"$((" + b"0" * n(2000) + b"1))"), 1
    bits = b"1<<2>>1&3^1|4&&1||0&&"
    yield "arithmetic of bits and truths", "its text", lambda n: Given(b"$((" + bits * n(92) + b"1))"), 1
    yield "signs", "their number", lambda n: Given(b"$((" + (b"!~" * 16 + b"1+") * n(60) + b"1))"), 1
    yield "|| that is decided", "their number", lambda n: Given(b"$((" + b"1||" * n(680) + b"z))", far), 1
    yield "&& that is decided", "their number", lambda n: Given(b"$((" + b"0&&z||" * n(340) + b"1))", far), 1
    yield "&& that is not decided", "their number", lambda n: Given(b"$((" + b"z&&" * n(680) + b"1))", far), 1
    yield "? in the middle, taken", "their number", lambda n: Given(b"$((" + b"1?" * n(510) + b"1" + b":2" * n(510) + b"))"), 1
    yield "? in the middle, not taken", "their number", lambda n: Given(b"$((" + b"0?" * n(510) + b"1" + b":2" * n(510) + b"))"), 1
    yield "? behind the colon, taken", "their number", lambda n: Given(b"$((" + b"1?2:" * n(510) + b"3))"), 1
    yield "? behind the colon, not taken", "their number", lambda n: Given(b"$((" + b"0?2:" * n(510) + b"3))"), 1
    yield "? without a colon", "their number", lambda n: Given(b"$((" + b"0?" * n(1020) + b"0))"), 1
    yield "? in parentheses", "their number", lambda n: Given(b"$((" + (b"(1?" * 31 + b"2" + b":3)" * 31 + b"+") * n(10) + b"1))"), 1


def counting():
    """Assignments in arithmetic, which nest as deep as the text is long, and each of which finds its place among the variables. Every line leaves the variables
    as they were, or is refused at its end, so that it can be asked again."""
    far, first = filled(b"z", b"1", room=8150), {b"A": b"1", **filled(b"z", b"1", room=8000)}
    yield "a chain of assignments", "their number", lambda n: Given(b"$((" + b"z=" * n(1020) + b"1))", far), 1
    yield "a chain of assignments before all others", "their number", lambda n: Given(b"$((" + b"A=" * n(1020) + b"1))", first), 1
    yield "a chain of sums that are assigned", "their number", lambda n: Given(b"$((" + b"z+=" * n(680) + b"0))", {**far, b"z": b"0"}), 1
    yield "a chain of long numbers that are assigned", "their number", lambda n: Given(b"$((" + b"z=" * n(1000) + b"-9223372036854775807))${u?}", far), 1
    yield "a chain of assignments with a bad end", "their number", lambda n: Given(b"$((" + b"z=" * n(1020) + b"08))", far), 1
    yield "a chain of assignments without an end", "their number", lambda n: Given(b"$((" + b"z=" * n(1020) + b"))", far), 1
    yield "? and assignments, taken", "their number", lambda n: Given(b"$((" + b"1?z=" * n(340) + b"1" + b":2" * n(340) + b"))", far), 1
    yield "? and assignments, not taken", "their number", lambda n: Given(b"$((" + b"0?z=" * n(340) + b"1" + b":2" * n(340) + b"))", far), 1
    yield "? and assignments behind the colon", "their number", lambda n: Given(b"$((" + b"0?z=2:" * n(340) + b"1))", far), 1
    yield "? and assignments without a colon", "their number", lambda n: Given(b"$((" + b"1?z=" * n(510) + b"1))", far), 1
    yield "assignments in parentheses", "their number", lambda n: Given(b"$((" + b"(z=1)+" * n(340) + b"1))", far), 1
    yield "assignments before all others, in parentheses", "their number", lambda n: Given(b"$((" + b"(A=12)+(A=1)+" * n(155) + b"1))", first), 1
    yield "assignments in deep parentheses", "their number", lambda n: Given(b"$((" + (b"(z=" * 31 + b"1" + b")" * 31 + b"+") * n(16) + b"1))", far), 1
    yield "assignments that are not needed", "their number", lambda n: Given(b"$((" + b"0&&(z=2)||" * n(200) + b"1))", far), 1
    yield "assignments of new names in arithmetic", STORES, lambda n: Given(
        b"$((" + b"".join(b"(%c%c=1)+" % (65 + i // 26, 65 + i % 26) for i in range(n(280))) + b"1/0))", filled(b"z", b"1", b"", 6100)), 1
    yield "numbers that go up and down", "their number", lambda n: Given(b"$((z+=1))$((z-=1))" * n(113), far), 226
    yield "a long name that is assigned to", "the line", lambda n: Given(b"$((" + b"a" * n(2030) + b"=1))", {b"a" * n(2030): b"1"}), 1
    yield "blanks in an assignment", "the line", lambda n: Given(b"$((z" + b" " * n(1015) + b"=" + b" " * n(1015) + b"1))", far), 1
    yield "a long number that is replaced", "the value", lambda n: Given(b"$(((v=1)+1/0))", {b"v": b"0" * n(8000)}), 1


def others():
    far, homes = filled(b"z", b"1"), filled(b"z", b"/")
    yield "names", "their number", lambda n: Given(b"$u" * n(1020), far), 1020
    yield "names in words", "their number", lambda n: Given(b"$z " * n(680), far), 680
    yield "lengths", "their number", lambda n: Given(b"${#z}" * n(400), far), 400
    # the line is refused at its end, so that the stores are undone and it can be asked again
    yield ("stores", "their number",
           lambda n: Given(b"".join(b"${%c%c=}" % (108 + i // 26, 97 + i % 26) for i in range(n(300))) + b"${u?}", filled(b"z", b"1", b"", 6300)), 300)
    yield "tildes", "their number", lambda n: Given(b"~z " * n(680), homes=homes), 680
    yield "tildes of operands", "their number", lambda n: Given(b"${u-~z}" * n(290), homes=homes), 290
    yield "deep operands", "their text", lambda n: Given(b"${u-" * 8 + b"a" * n(2000) + b"}" * 8), 1
    yield "operands beside each other", "their number", lambda n: Given(b"${u-${u-a}}" * n(180)), 180
    yield "splitting", "its units", lambda n: Given(b"$v", {b"v": b"a " * n(1000)}), 1
    yield "splitting by a long IFS", "its units", lambda n: Given(b"$v", {b"IFS": b":" * 6000, b"v": b"a" * n(2040)}), 1
    yield "splitting by a long IFS", "IFS", lambda n: Given(b"$v", {b"IFS": b":" * n(6000), b"v": b"a" * 2040}), 1
    yield "quoted bytes", "the line", lambda n: Given(b'"' + b"a" * n(2000) + b'"'), 1
    yield "quotes", "their number", lambda n: Given(b"'a'\"b\"" * n(340)), 1
    yield "empty quotes", "their number", lambda n: Given(b"''" * n(1000)), 1
    yield "backslashes", "their number", lambda n: Given(b"\\'" * n(450)), 1
    yield "a quote without an end", "the line", lambda n: Given(b"'" + b"a" * n(2000)), 1
    yield "blanks", "the line", lambda n: Given(b" " * n(2040)), 1


def params_of(count, text=b""):
    """So many parameters of a text."""
    return (text,) * count


def parameters():
    """Positional parameters: each is found by a walk over those before it, a list is walked whole. A row has room for 2,048 bare empty parameters with the
    marks between them, and the program's answer for 680 in quotes."""
    most = (IMAGE - 1) // 2  # empty ones
    yield "$@ in words, of empty parameters", "their number", lambda n: Given(b"$@ " * n(680), params=params_of(2000)), 680
    yield "$@ in words, of empty parameters", "parameters", lambda n: Given(b"$@ " * 680, params=params_of(n(2000))), 680
    yield "$@ of a full list, too many units", "parameters", lambda n: Given(b"$@", params=params_of(n(4095))), 1
    yield "$@ of a full list in unused operands", "their number", lambda n: Given(b"${z:-$@}" * n(250), {b"z": b"1"}, params=params_of(most)), 250
    yield "\"$@\" of 4,000 empty parameters", "parameters", lambda n: Given(b'"$@"', params=params_of(n(4000))), 1
    yield "\"$@\" of empty parameters", "parameters", lambda n: Given(b'"$@"', params=params_of(n(680))), 1
    yield "\"$*\" in words, of empty parameters", "their number", lambda n: Given(b'"$*" ' * n(400), {b"IFS": b""}, params=params_of(most)), 400
    yield "\"$*\" in words, of empty parameters", "parameters", lambda n: Given(b'"$*" ' * 400, {b"IFS": b""}, params=params_of(n(most))), 400
    yield "$* split by a long IFS", "IFS", lambda n: Given(b"$*", {b"IFS": b":" * n(6000)}, params=params_of(600, b"aa")), 1
    yield "numbers", "their number", lambda n: Given(b"${4000}" * n(290), params=params_of(most)), 290
    yield "numbers", "parameters", lambda n: Given(b"${4000}" * 290, params=params_of(n(most))), 290
    yield "numbers beyond the list", "their number", lambda n: Given(b"${99999}" * n(250), params=params_of(most)), 250
    yield "a number", "its digits", lambda n: Given(b"${" + b"9" * n(2000) + b"}", params=params_of(most)), 1
    yield "counts", "their number", lambda n: Given(b"$#" * n(500), params=params_of(most)), 500


def messages():
    """What a `?` demands: its operand is expanded, its marks are taken off and it is handed over, at most a row of it."""
    far, long = filled(b"z", b"1"), lambda n: {b"v": b"a" * n(ROW)}
    yield "a message", "its text", lambda n: Given(b"${u?" + b"a" * n(2040) + b"}"), 1
    yield "a message in quotes", "its text", lambda n: Given(b'"${u?' + b"a" * n(2040) + b'}"'), 1
    yield "a message of empty quotes", "their number", lambda n: Given(b"${u?" + b"''" * n(1000) + b"}"), 1
    yield "a message of quotes", "their number", lambda n: Given(b"${u?" + b"'a'\"b\"" * n(340) + b"}"), 1
    yield "a message of names", "their number", lambda n: Given(b"${u?" + b"$z" * n(1000) + b"}", far), 1
    yield "a message of a long value", "the value", lambda n: Given(b"${u?$v}", long(n)), 1
    yield "a message of too many units", "the value", lambda n: Given(b"${u?a$v}", {b"v": b"a" * n(8000)}), 1
    yield "messages in a message", "their text", lambda n: Given(b"${u?" * 8 + b"a" * n(2000) + b"}" * 8), 1
    yield "messages in a message, in quotes", "their text", lambda n: Given(b'"' + b"${u?" * 8 + b"$v" + b"}" * 8 + b'"', long(n)), 1
    yield "a message in sums", "its text", lambda n: Given(b"$((" * 7 + b"${u?" + b"a" * n(1990) + b"}" + b"))" * 7), 1
    yield "a message in a pattern", "its text", lambda n: Given(b"${v%" * 7 + b"${u?$v}" + b"}" * 7, long(n)), 1
    yield "messages that are not demanded", "their number", lambda n: Given(b"${z?$((1/0))}" * n(150), far), 150
    yield "a message behind words", "their number", lambda n: Given(b"$z " * n(660) + b"${u?$z}", far), 660


def assignments():
    """Lines of assignments: each store finds its place among the variables and moves all that stands behind it; each colon lets a tilde begin."""
    far, homes, first = filled(b"z", b"1", room=8100), filled(b"z", b"/"), {b"A": b"", **filled(b"z", b"1", room=6000)}
    yield "assignments", "their number", lambda n: Given(b"z= " * n(680), far), 680
    yield "assignments before all others", "their number", lambda n: Given(b"A=b A= " * n(290), first), 580
    yield "assignments of long values", "their number", lambda n: Given(b"A=$v A= " * n(250), {**first, b"v": b"a" * 900}), 500
    yield ("assignments of new names", "their number",
           lambda n: Given(b"".join(b"%c%c= " % (65 + i // 26, 65 + i % 26) for i in range(n(270))), filled(b"z", b"1", b"", 6500)), 270)
    yield "assignments that see each other", "their number", lambda n: Given(b"z=$((z+1)) " * n(180), far), 180
    yield "assignments of assignments", "their number", lambda n: Given(b"z=$((A=z+=1)) " * n(145), {b"A": b"", **far}), 145
    yield "tildes of values", "their number", lambda n: Given(b"a=~z " * n(400), homes=homes), 400
    yield "tildes of one value", "their number", lambda n: Given(b"a=" + b"~z:" * n(680), homes=homes), 680
    yield "tildes that are not found", "their number", lambda n: Given(b"a=" + b"~zz:" * n(510), homes=homes), 510
    yield "colons", "the line", lambda n: Given(b"a=" + b":" * n(2040)), 1
    yield "a value", "the line", lambda n: Given(b"a=" + b"b" * n(2040)), 1
    yield "a long name", "the line", lambda n: Given(b"a" * n(2040) + b"=b"), 1
    yield "a long name alone", "the line", lambda n: Given(b"a" * n(2040)), 1
    yield "assignments before a word", "their number", lambda n: Given(b"z= " * n(680) + b"z", far), 680
    yield "a message behind assignments", "their number", lambda n: Given(b"z= " * n(670) + b"z=${u?$v}", {**far, b"v": b"a" * 20}), 670
    yield "a long value made short", "the value", lambda n: Given(b"v=", {b"v": b"a" * n(8000)}), 1


def one_of_each():
    """A removal, a field over paths and an arithmetic text, each dear."""
    def make(n):
        line = b'"${v%%$p}" *' + b"a" * n(900) + b"b $((" + b"z+" * 500 + b"1))"
        return Given(line, {b"p": b"*" + b"a" * n(1900) + b"b", b"v": b"a" * n(2000), b"z": b"0" * 4000 + b"1"}, paths=paths_of(b"a", 2000))
    yield "one of each", BOTH, make, 3


def scaled(make):
    """What makes a case at a scale, of what makes it by a function of sizes."""
    return lambda scale: make(lambda full: full * scale // FULL)


def cases():
    """All cases, in order."""
    groups = {"removal": removals, "field": fields, "arithmetic": arithmetic, "counting": counting, "parameter": parameters, "message": messages,
              "other": others, "line": one_of_each, ASSIGNMENT: assignments, UNBOUND: dearest}
    for kind, group in groups.items():
        for name, grows, make, parts in group():
            yield Case(name, kind, grows, scaled(make), parts)
