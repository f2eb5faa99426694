"""Words that stay together, made from a seed, and what a program makes of them under tables that differ only in the value of IFS and in the list of paths.
Document 02, E8: such a word has every `$` inside double quotes, no bare `*`, `?` or `[` outside quotes, no `@` or `*` parameter, no mention of IFS and no
`$` within an arithmetic text. Each word is one by the way it is made; the test itself is crates/stages/specs/Together.antt, and tools/check-stages computes
it of some of them. No word demands a value that is missing, so that the program has nothing to say but its answers."""
import os
import random
import re
import subprocess
import tempfile

from quoted import ANSWER, fields_of

LETTERS = b"abcxyzIFS019_"
SIGNS = b"*?[]!-^&|;<>()#~ \t=:.,/{}%+@"
UPPER = bytes([0xC3, 0xA9, 0xFF])
BARE = LETTERS + b"._-/=:,%+@]!^{}~" + UPPER
BEHIND_DOLLAR = b"./=:,%+]^~"

VARIABLES = {
    b"HOME": b"/home/crew 7", b"IF": b"if", b"IFSX": b"x y", b"base": b"north field", b"blank": b" \t ", b"colons": b"a:b::c/0", b"dollar": b"$base `x`",
    b"e": b"", b"k": b"0x1f", b"lines": b"a\nb", b"m": b"-3", b"n": b"7", b"name": b"IFS", b"quote": b"rover's \"log\".raw", b"set": b"[a-c]*", b"star": b"*",
    b"tilde": b"~crew"}
HOMES = {b"anna": b"/a b", b"crew": b"/home/crew 7/*"}
PARAMETERS = [b"p q", b"", b"*", b"7", b"IFS", b"it's", b"~", b"a:b", b"?", b"[a-c]", b"eleven 11"]
UNSET = [b"u%d" % number for number in range(20)]
NUMBERS = [b"n", b"m", b"k", b"zero", b"IFSN"]
SHOWN = sorted({*VARIABLES, *UNSET, *NUMBERS})
HOSTILE = b" \t\n" + bytes(sorted(set(LETTERS + SIGNS) - set(b" \t"))) + b"defghijklmnopqrstuvw'\"$"
PATHS = [b"*", b"?", b"[a-c]", b"a", b"ab", b"abc", b"b", b"north", b"north field", b"p q", b"x", b"~", b"~crew"]
SETS = {"IFS unset": (None, []), "IFS of everything": (HOSTILE, PATHS), "IFS empty": (b"", PATHS[2::3])}

# words of other kinds, by the clause that they fail
OTHERS = {
    "a bare `$`": [b"$base", b'"$base"$blank', b"${u0-a b}", b"$((n+3))"],
    "a bare `*`, `?` or `[`": [b"*", b'"$e"?', b"[a-c]"],
    "a `@` or `*` parameter": [b'"$@"', b'"a${u0-$*}"'],
    "IFS": [b'"$IFS"', b'"${#IFS}"', b'"${base%%["$IFS"]*}"', b'"a${u1%${u0:=$IFS}}"', b'"$((IFS+1))"', b'"$((IFS+=1))"'],
    "a `$` within an arithmetic text": [b'"$(($name))"', b'"$((${5}+1))"'],
}

# how many words are made, how many are fed to the program at a time, and how many there must be of each kind
COUNT, GROUP = 5000, 100
LEAST = {"different": 4500, "accepted": 4500, "with a store": 300, "with a removal": 1000, "with a sum": 800, "with a sum that stores": 300,
         "with a tilde's home": 500, "whose field has a blank": 1000, "whose field has a `*`, `?` or `[`": 1000, "whose field is empty": 50}


class Words:
    """Words that stay together, by one seed."""

    def __init__(self, seed):
        self.random = random.Random(seed)

    def some(self, least, most, make):
        return b"".join(make() for _ in range(self.random.randint(least, most)))

    def byte(self, among):
        return bytes([self.random.choice(among)])

    def run(self, among):
        return self.some(1, 4, lambda: self.byte(among))

    def word(self):
        """A word: pieces outside quotes, among them at least one in quotes in most."""
        first = self.random.choice([b"", b"", b"", b"~", b"~crew/", b"~nobody", b"~/"])
        return first + self.some(0, 1, self.outside) + self.double(3) + self.some(0, 3, self.outside)

    def outside(self):
        make = self.random.choice([
            lambda: self.run(BARE), lambda: self.run(BARE), lambda: b"$" + self.byte(BEHIND_DOLLAR), lambda: b"\\" + self.byte(LETTERS + SIGNS + b"$\"'\\`"),
            self.single, lambda: self.double(3), lambda: self.double(3)])
        return make()

    def single(self):
        return b"'" + self.some(0, 2, lambda: self.random.choice([b"$IFS", b"$@", b"*", self.run(LETTERS + SIGNS + b"$\"\\`")])) + b"'"

    def double(self, depth):
        return b'"' + self.some(0, 4, lambda: self.within(depth, LETTERS + SIGNS + b"'" + UPPER, b'$`"\\')) + b'"'

    def within(self, depth, plain, escaped):
        """A piece of double-quoted text."""
        kind = self.random.random()
        if kind < 0.3 or depth == 0:
            return self.run(plain)
        if kind < 0.4:
            return b"\\" + self.byte(escaped + b"*a")
        return self.expansion(depth, lambda: self.within(depth - 1, LETTERS + b"*?[]!-#~ =:./+'", b'$`"\\}'))

    def expansion(self, depth, operand):
        """One expansion; `operand` makes a piece of an operand of `-=?+` there."""
        kind = self.random.randrange(10)
        name = self.random.choice([*VARIABLES, *UNSET])
        if kind < 2:
            return self.random.choice([b"${%s}" % name, b"$%s." % name, b"$%d" % self.random.randint(1, 9), b"${%d}" % self.random.randint(1, 12)])
        if kind == 2:
            return self.random.choice([b"${#%s}" % name, b"$#", b"${#}", b"${#%d}" % self.random.randint(1, 12)])
        if kind < 5:
            form = self.random.choice([b"-", b":-", b"+", b":+", b"=", b":=", b":?", b"?"])
            if b"?" in form:
                name = self.random.choice([b"base", b"n", b"star"])
            elif b"=" in form:
                name = self.random.choice([b"e", *UNSET])
            elif self.random.random() < 0.3:
                name = b"%d" % self.random.randint(1, 12)
            return b"${%s%s%s}" % (name, form, self.some(0, 2, operand))
        if kind < 8:
            tilde = self.random.choice([b"", b"", b"", b"~/", b"~crew/"])
            return b"${%s%s%s%s}" % (name, self.random.choice([b"%", b"%%", b"#", b"##"]), tilde, self.some(0, 3, lambda: self.pattern(depth - 1)))
        return b"$((" + self.sum(2) + b"))"

    def pattern(self, depth):
        """A piece of a removal's operand, which is bare text."""
        kind = self.random.random()
        if kind < 0.6 or depth == 0:
            return self.random.choice([b"*", b"?", b"[a-c]", b"[!0-9]", b"[[:digit:]]", b"\\" + self.byte(SIGNS), b"'*'", self.run(LETTERS + b" .:/")])
        if kind < 0.8:
            return self.expansion(depth, lambda: self.pattern(depth - 1))
        return self.double(depth - 1)

    def sum(self, depth):
        """An arithmetic text without a `$`."""
        kind = self.random.randrange(9) if depth else self.random.randrange(2)
        if kind == 0:
            return self.random.choice(NUMBERS)
        if kind == 1:
            return self.random.choice([b"%d" % self.random.randint(0, 120), b"0x1F", b"017"])
        if kind == 2:
            return self.random.choice([b"-", b"+", b"!", b"~"]) + b"(" + self.sum(depth - 1) + b")"
        if kind == 3:
            return b"(" + self.sum(depth - 1) + b")?" + self.sum(depth - 1) + b": " + self.sum(depth - 1)
        if kind == 4:
            return b"(" + self.sum(depth - 1) + b")" + self.random.choice([b"/3", b"%5", b"<<2", b" >> 1"])
        if kind == 5:
            return b"(" + self.random.choice(NUMBERS) + self.random.choice([b"=", b" = ", b"+=", b"-="]) + self.sum(depth - 1) + b")"
        sign = self.random.choice([b"+", b"-", b" * ", b"<", b">=", b"==", b"!=", b"&", b"^", b"|", b"&&", b"||"])
        return b"(" + self.sum(depth - 1) + b")" + sign + b"(" + self.sum(depth - 1) + b")"


def image(texts):
    return b"\1" + b"".join(len(text).to_bytes(2, "big") + text for text in texts)


def pairs(table):
    return image([text for key in sorted(table) for text in (key, table[key])])


def write_tables(folder, ifs, paths):
    """The tables of one set."""
    os.mkdir(folder)
    variables = VARIABLES if ifs is None else VARIABLES | {b"IFS": ifs}
    for name, table in (("vars", pairs(variables)), ("homes", pairs(HOMES)), ("paths", image(sorted(paths)))):
        with open(os.path.join(folder, name + ".tab"), "wb") as file:
            file.write(table)


def answers(command, folder, lines):
    """A program's answers to lines in a folder: the quoted line of each, or None for a refusal."""
    said = subprocess.run([*command, *PARAMETERS], cwd=folder, input=b"".join(line + b"\n" for line in lines), stdout=subprocess.PIPE, check=True).stdout
    found = list(ANSWER.finditer(said))
    if sum(len(answer[0]) for answer in found) != len(said) or len(found) != len(lines):
        raise ValueError(f"{folder}: {len(found)} answers to {len(lines)} lines")
    return [answer[1] for answer in found]


def judge(command, words):
    """What is wrong with words under the three sets of tables, one behind the other, and the first field of each that has one. Each accepted one must be exactly
    one field, and the answers and all variables but IFS the same under all sets. A refusal must be one under all sets, since no limit is near."""
    probe = b" ".join(b'"${%s-(unset)}"' % name for name in SHOWN)
    with tempfile.TemporaryDirectory() as room:
        told = []
        for number, (ifs, paths) in enumerate(SETS.values()):
            write_tables(os.path.join(room, str(number)), ifs, paths)
            told.append(answers(command, os.path.join(room, str(number)), [line for word in words for line in (word, probe)]))
    wrong = []
    for at, word in enumerate(words):
        lines = [said[2 * at] for said in told]
        variables = [said[2 * at + 1] for said in told]
        if any(line is not None and len(fields_of(line)) != 1 for line in lines):
            wrong.append(f"{word!r} is not one field: {lines}")
        elif len(set(lines)) > 1:
            wrong.append(f"{word!r} differs: {lines}")
        elif len(set(variables)) > 1:
            wrong.append(f"{word!r} leaves other variables: {variables}")
    return wrong, [fields_of(line)[0] for line in told[0][::2] if line]


def counted(words, fields):
    """How many words there are of each kind."""
    return {
        "different": len(set(words)), "accepted": len(fields),
        "with a store": sum(re.search(rb"\$\{u[0-9]+:?=", word) is not None for word in words),
        "with a removal": sum(re.search(rb"\$\{[A-Za-z0-9]+[%#]", word) is not None for word in words),
        "with a sum": sum(b"$((" in word for word in words),
        "with a sum that stores": sum(re.search(rb"\((?:n|m|k|zero|IFSN) ?[-+]?= ?[^=]", word) is not None for word in words),
        "with a tilde's home": sum(word.startswith((b"~/", b"~crew/")) for word in words),
        "whose field has a blank": sum(b" " in field for field in fields),
        "whose field has a `*`, `?` or `[`": sum(any(sign in field for sign in b"*?[") for field in fields),
        "whose field is empty": fields.count(b"")}


def run(command):
    """Judges COUNT words by a program, then the other ones, which must be told apart. Prints what was found, and gives the status for the shell."""
    words, fields, faults = [], [], []
    for seed in range(COUNT // GROUP):
        made = Words(seed)
        group = [made.word() for _ in range(GROUP)]
        wrong, found = judge(command, group)
        words += group
        fields += found
        faults += wrong
    for clause, others in OTHERS.items():
        faults += [f"{word!r}, with {clause}, is not told apart" for word in others if not judge(command, [word])[0]]
    counts = counted(words, fields)
    faults += [f"{counts[kind]} words {kind}, and {least} are wanted" for kind, least in LEAST.items() if counts[kind] < least]
    for fault in faults[:20]:
        print(f"together: {fault}")
    said = ", ".join(f"{count} {kind}" for kind, count in counts.items())
    print(f"together: {len(words)} words ({said}), each under 3 sets of tables: {'one field, the same' if not faults else f'{len(faults)} faults'}; "
          f"{sum(map(len, OTHERS.values()))} other words told apart")
    return 1 if faults else 0
