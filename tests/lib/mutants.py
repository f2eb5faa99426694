"""What can be changed in the code of a crate, one thing at a time, such that it may still compile and its shape stays: a comparison, a constant, an operator,
an arm, an argument. Code is the bodies of functions and the values of private constants: contracts, `use` lines, types and comments are not looked at, and a
public constant is changed where it is used. Whether a change compiles is for the compiler to say."""
import os
import random
import re
from collections import namedtuple

import crates

# A change: the file, from where to where, what then stands there, and what kind of change it is.
Change = namedtuple("Change", "path start end new kind")
Token = namedtuple("Token", "sort text start end")
Function = namedtuple("Function", "name params body")
Field = namedtuple("Field", "name type")

TOKEN = re.compile(r"""
    (?P<space>\s+|//[^\n]*)
  | (?P<string>b"(?:\\.|[^"\\])*")
  | (?P<byte>b'(?:\\x[0-9a-fA-F]{2}|\\.|[^'\\])')
  | (?P<life>'[a-z_]\w*)
  | (?P<number>(?:0x[0-9a-fA-F_]+|\d[\d_]*)(?:[ui](?:8|16|32|64|size))?)
  | (?P<name>[A-Za-z_]\w*)
  | (?P<sign>\.\.=|<<=|>>=|=>|->|::|==|!=|<=|>=|&&|\|\||[-+*/%&|^]=|\.\.|<<|>>|.)
""", re.X | re.S)
CLAUSES = {"requires", "ensures", "ghost"}
WORDS = {"if", "else", "match", "while", "loop", "return", "break", "continue", "let", "mut", "as", "in", "for"}
OPENING, CLOSING = {"(": ")", "[": "]", "{": "}"}, {")", "]", "}"}
COMPARISONS = ["<", "<=", "==", "!=", ">", ">="]
OPERATORS = {
    "+": ["-"], "-": ["+"], "*": ["/", "+"], "/": ["*", "%"], "%": ["/"], "&": ["|"], "|": ["&"], "^": ["|"], "<<": [">>"], ">>": ["<<"],
    "+=": ["-="], "-=": ["+="], "|=": ["&="], "&&": ["||"], "||": ["&&"],
}


def tokens_of(text):
    """The tokens of a file of Rattle without space, comments, clauses of contracts and `ghost use` lines."""
    found, at = [], 0
    while at < len(text):
        piece = TOKEN.match(text, at)
        at = piece.end()
        if piece.lastgroup == "name" and piece[0] in CLAUSES:
            at = clause_end(text, at)
        elif piece.lastgroup != "space":
            found.append(Token(piece.lastgroup, piece[0], piece.start(), piece.end()))
    return found


def clause_end(text, at):
    """The place after a clause, which is antt's text in braces, or after a `ghost use` line."""
    if re.match(r"\s+use\b", text[at:]):
        return text.index(";", at) + 1
    return crates.clause_end(text, at)


def closing(tokens, at):
    """The index of the token that closes the bracket at an index."""
    depth = 0
    for i in range(at, len(tokens)):
        if tokens[i].sort == "sign":
            depth += tokens[i].text in OPENING
            depth -= tokens[i].text in CLOSING
            if depth == 0:
                return i
    raise ValueError("a bracket that does not close")


def parts(tokens, at, end, mark=","):
    """The parts between commas of the tokens from one index to another, each as its first index and the one after its last."""
    found, start, i = [], at, at
    while i < end:
        if tokens[i].text in OPENING and tokens[i].sort == "sign":
            i = closing(tokens, i)
        elif tokens[i].text == mark:
            found.append((start, i))
            start = i + 1
        i += 1
    return found + [(start, end)] if start < end else found


class File:
    """A file of Rattle: its functions, types and constants."""

    def __init__(self, crate, path):
        self.crate, self.path = crate, path
        self.module = crate if path.endswith(("src/lib.rt", "src/main.rt")) else os.path.basename(path)[:-3]
        with open(os.path.join(crates.ROOT, path), encoding="utf-8") as file:
            self.text = file.read()
        self.tokens = tokens_of(self.text)
        self.functions, self.values, self.constants, self.variants, self.shapes = [], [], {}, {}, {}
        self.items()

    def items(self):
        at, public = 0, False
        while at < len(self.tokens):
            word = self.tokens[at].text
            if word in ("use", "mod"):
                at = self.until(at, ";")
            elif word == "#":
                at = closing(self.tokens, at + 1)
            elif word == "enum":
                at = self.enum(at)
            elif word == "struct":
                at = self.struct(at)
            elif word == "const":
                at = self.constant(at, public)
            elif word == "fn":
                at = self.function(at)
            public = word == "pub"
            at += 1

    def until(self, at, mark):
        while self.tokens[at].text != mark:
            at += 1
        return at

    def written(self, start, end):
        """The text of the tokens from one index to another, in one line."""
        return " ".join(self.text[self.tokens[start].start:self.tokens[end - 1].end].split()) if start < end else ""

    def fields(self, at):
        """The fields between the brackets at an index, by name or by number."""
        found = []
        for start, end in parts(self.tokens, at + 1, closing(self.tokens, at)):
            start += self.tokens[start].text == "pub"
            if self.tokens[at].text == "{":
                found.append(Field(self.tokens[start].text, self.written(start + 2, end)))
            else:
                found.append(Field(None, self.written(start, end)))
        return found

    def enum(self, at):
        name, opens = self.tokens[at + 1].text, at + 2
        end = closing(self.tokens, opens)
        self.variants[name] = []
        for start, stop in parts(self.tokens, opens + 1, end):
            if stop == start + 1:
                self.variants[name].append(self.tokens[start].text)
            else:
                self.shapes[self.tokens[start].text] = self.fields(start + 1)
        return end

    def struct(self, at):
        self.shapes[self.tokens[at + 1].text] = self.fields(at + 2)
        return closing(self.tokens, at + 2)

    def constant(self, at, public):
        gets, end = self.until(at, "="), self.until(at, ";")
        self.constants[self.tokens[at + 1].text] = self.written(at + 3, gets)
        if not public:
            self.values.append((gets + 1, end))
        return end

    def function(self, at):
        name, opens = self.tokens[at + 1].text, self.until(at, "(")
        params, end = [], closing(self.tokens, opens)
        for start, stop in parts(self.tokens, opens + 1, end):
            start += self.tokens[start].text == "mut"
            if self.tokens[start].text != "self":
                params.append(Field(self.tokens[start].text, self.written(start + 2, stop)))
        body = self.until(end, "{")
        last = closing(self.tokens, body)
        self.functions.append(Function(name, params, (body + 1, last)))
        return last


class Code:
    """The code of all crates, and what can be changed in it."""

    def __init__(self):
        self.files = {}
        for crate in crates.listed():
            paths = sorted(path for path in crates.files(crate, "src"))
            self.files[crate] = [File(crate, path) for path in paths]

    def everywhere(self, crate):
        """All files, those of the crate first."""
        return self.files[crate] + [file for other, files in self.files.items() if other != crate for file in files]

    def ordered(self, crate, seed):
        """The changes of a crate in the order in which a seed has them: the kinds take turns at random, and no place comes twice before each has come once."""
        chance = random.Random(f"{seed} {crate}")
        places = {}
        for file in self.files[crate]:
            for place in Places(self, file, chance).found:
                chance.shuffle(place)
                places.setdefault(place[0].kind, []).append(place)
        order, again = [], {}
        while places:
            for kind in sorted(places):
                chance.shuffle(places[kind])
            while places:
                kind = chance.choice(sorted(places))
                place = places[kind].pop()
                order.append(place[0])
                if len(place) > 1:
                    again.setdefault(kind, []).append(place[1:])
                if not places[kind]:
                    del places[kind]
            places, again = again, {}
        return order


class Places:
    """The places of a file where something can be changed, each with its changes."""

    def __init__(self, code, file, chance):
        self.code, self.file, self.tokens, self.chance = code, file, file.tokens, chance
        self.found = []
        for start, end in file.values:
            self.look(start, end, [])
        for function in file.functions:
            self.look(*function.body, function.params)

    def put(self, kind, start, end, texts):
        """A place, from one index to another, whose text may become one of these."""
        first, last = self.tokens[start].start, self.tokens[end - 1].end
        old = self.file.text[first:last]
        changes = [Change(self.file.path, first, last, new, kind) for new in texts if new != old]
        if changes:
            self.found.append(changes)

    def source(self, span):
        return self.file.text[self.tokens[span[0]].start:self.tokens[span[1] - 1].end]

    def swap(self, kind, one, other):
        """A place whose changes are two spans swapped, each with one of the others."""
        between = self.file.text[self.tokens[one[1] - 1].end:self.tokens[other[0]].start]
        if self.source(one) != self.source(other):
            self.put(kind, one[0], other[1], [self.source(other) + between + self.source(one)])

    def look(self, start, end, params):
        for i in range(start, end):
            token, before = self.tokens[i], self.tokens[i - 1]
            if token.sort == "number" and before.text != ".":
                self.put("constant", i, i + 1, self.near_numbers(token.text))
            elif token.sort == "byte":
                self.put("constant", i, i + 1, [quoted(value) for value in near(byte_value(token.text), 255)])
            elif token.sort == "string":
                self.put("constant", i, i + 1, self.near_strings(token.text))
            elif token.sort == "name":
                self.name(i, params)
            elif token.text in COMPARISONS and follows_value(before):
                self.put("comparison", i, i + 1, COMPARISONS)
            elif token.text in OPERATORS and follows_value(before):
                self.put("operator", i, i + 1, OPERATORS[token.text])

    def name(self, i, params):
        token, before, behind = self.tokens[i], self.tokens[i - 1].text, self.tokens[i + 1].text
        if token.text in ("true", "false"):
            self.put("constant", i, i + 1, ["true", "false"])
        elif token.text == "match":
            self.arms(i)
        elif token.text == "else":
            self.branches(i)
        elif behind == "(" and token.text not in WORDS:
            self.arguments(i)
        elif behind == "{" and token.text[0].isupper():
            self.literal(i)
        elif re.fullmatch(r"[A-Z][A-Z0-9_]+", token.text):
            self.constant(i)
        elif before == "::" and token.text[0].isupper() and behind not in ("=>", "|", "::"):
            self.variant(i)
        elif before not in (".", "::", "let", "mut") and behind not in (":", "::"):
            self.variable(i, params)

    def near_numbers(self, text):
        digits, suffix = re.fullmatch(r"(0x[0-9a-fA-F_]+|\d[\d_]*)(\w*)", text).groups()
        if not digits.startswith("0x"):
            return [f"{value}{suffix}" for value in near(int(digits.replace("_", "")), 2 ** 64 - 1)]
        plain = digits[2:].replace("_", "")
        turned = [f"{int(plain, 16) ^ 1 << self.chance.randrange(4 * len(plain)):0{len(plain)}x}" for _ in range(2)]
        groups = 4 if "_" in digits else len(plain)
        return ["0x" + "_".join(bits[k:k + groups] for k in range(0, len(plain), groups)) + suffix for bits in turned]

    def near_strings(self, text):
        pieces = re.findall(r"\\x[0-9a-fA-F]{2}|\\.|.", text[2:-1])
        found = []
        for _ in range(min(2, len(pieces))):
            k = self.chance.randrange(len(pieces))
            value = self.chance.choice(near(byte_value(f"b'{pieces[k]}'"), 255))
            found.append('b"' + "".join(pieces[:k]) + quoted(value)[2:-1] + "".join(pieces[k + 1:]) + '"')
        return found

    def constant(self, i):
        """Another constant of the same type and the same file."""
        name, path = self.tokens[i].text, self.tokens[i - 2].text if self.tokens[i - 1].text == "::" else None
        for file in self.code.everywhere(self.file.crate):
            if name in file.constants and (file.module == path if path else file is self.file):
                others = [other for other, sort in file.constants.items() if sort == file.constants[name] and other != name]
                self.put("named constant", i, i + 1, self.chance.sample(others, min(3, len(others))))
                return

    def variant(self, i):
        """Another variant of the same enum, neither with data."""
        for file in self.code.everywhere(self.file.crate):
            variants = file.variants.get(self.tokens[i - 2].text, [])
            if self.tokens[i].text in variants:
                self.put("variant", i, i + 1, self.chance.sample(variants, min(4, len(variants))))
                return

    def variable(self, i, params):
        """Another parameter of the same type."""
        types = {param.name: param.type for param in params}
        name = self.tokens[i].text
        if name in types:
            self.put("variable", i, i + 1, [other for other, sort in types.items() if sort == types[name] and other != name])

    def shape(self, name, path, count):
        """The fields or parameters of what has this name, so many of them, of the crate or module that the path names if it names one."""
        found = []
        for file in self.code.everywhere(self.file.crate):
            shapes = [function.params for function in file.functions if function.name == name]
            shapes += [file.shapes[name]] if name in file.shapes else []
            found += [(path not in (file.crate, file.module), shape) for shape in shapes if count in (None, len(shape))]
        return min(found, key=lambda pair: pair[0])[1] if found else []

    def path(self, i):
        return self.tokens[i - 2].text if self.tokens[i - 1].text == "::" else None

    def arguments(self, i):
        spans = parts(self.tokens, i + 2, closing(self.tokens, i + 1))
        shape = self.shape(self.tokens[i].text, self.path(i), len(spans))
        self.pairs("argument", spans, [field.type for field in shape])

    def literal(self, i):
        """A struct or a variant whose fields have names: two values swapped."""
        end = closing(self.tokens, i + 1)
        shape = {field.name: field.type for field in self.shape(self.tokens[i].text, self.path(i), None)}
        if self.tokens[end + 1].text in ("=>", "|", "="):
            return
        named = [(start + 2, stop, shape.get(self.tokens[start].text)) for start, stop in parts(self.tokens, i + 2, end)
                 if stop > start + 2 and self.tokens[start + 1].text == ":"]
        self.pairs("argument", [(start, stop) for start, stop, _ in named], [sort for _, _, sort in named])

    def pairs(self, kind, spans, types):
        for k, sort in enumerate(types):
            for j in range(k + 1, len(types)):
                if sort and types[j] == sort:
                    self.swap(kind, spans[k], spans[j])

    def arms(self, i):
        """Two arms' results swapped, both blocks or neither, where they bind nothing that the other's does not."""
        opens = i
        while self.tokens[opens].text != "{":
            opens = closing(self.tokens, opens) + 1 if self.tokens[opens].text in ("(", "[") else opens + 1
        at, end, found = opens + 1, closing(self.tokens, opens), []
        while at < end:
            start = at
            while self.tokens[at].text != "=>":
                at += 1
            stop = self.arm_end(at + 1, end)
            found.append((names(self.tokens[start:at]), (at + 1, stop)))
            at = stop + (self.tokens[stop].text == ",")
        for k, (bound, span) in enumerate(found):
            for other, later in found[k + 1:]:
                used, taken = names(self.tokens[span[0]:span[1]]), names(self.tokens[later[0]:later[1]])
                blocks = {self.tokens[at].text == "{" for at in (span[0], later[0])}
                if len(blocks) == 1 and bound & used <= other and other & taken <= bound:
                    self.swap("arm", span, later)

    def arm_end(self, at, end):
        if self.tokens[at].text == "{":
            return closing(self.tokens, at) + 1
        return parts(self.tokens, at, end)[0][1]

    def branches(self, i):
        """What two branches give, swapped: each without a statement of its own."""
        if self.tokens[i - 1].text != "}" or self.tokens[i + 1].text != "{":
            return
        opens = i - 1
        while self.tokens[opens].text != "{" or closing(self.tokens, opens) != i - 1:
            opens -= 1
        one, other = (opens + 1, i - 1), (i + 2, closing(self.tokens, i + 1))
        if one[0] < one[1] and other[0] < other[1] and ";" not in self.source(one) + self.source(other):
            self.swap("arm", one, other)


def names(tokens):
    return {token.text for token in tokens if token.sort == "name" and not token.text[0].isupper()} - {"_"}


def follows_value(token):
    return token.sort in ("number", "byte", "string") or token.text in (")", "]") or token.sort == "name" and token.text not in WORDS


def near(value, most):
    return [other for other in (value - 1, value + 1) if 0 <= other <= most]


def byte_value(text):
    """The value of b'x'."""
    said = text[2:-1]
    if said.startswith("\\x"):
        return int(said[2:], 16)
    return {"n": 10, "r": 13, "t": 9, "0": 0}.get(said[1], ord(said[1])) if said.startswith("\\") else ord(said)


def quoted(value):
    return f"b'{chr(value)}'" if 32 <= value < 127 and chr(value) not in "'\"\\" else f"b'\\x{value:02x}'"
