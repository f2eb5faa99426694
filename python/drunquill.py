"""Drunquill for Python: POSIX words expanded, fields quoted, variables assigned, by the proved functions of include/drunquill.h.

    >>> import drunquill
    >>> drunquill.expand('load "$base" $job', variables={"base": "b 07", "job": "a b"})
    [b'load', b'b 07', b'a', b'b']
    >>> drunquill.expand("load rover's log")
    Traceback (most recent call last):
    drunquill.Refused: refused at place 5: an apostrophe or quote, a brace or a calculation is not closed, or a backslash ends the line (7)

Texts may be given as bytes or as str, which stands for its bytes in UTF-8; what comes back is bytes. Names, logins and paths may come in any order. What
is no name, or too long, is refused by the library itself, as include/drunquill.h says. Calls keep nothing: they may run in several threads, each of which
needs 512 KB of stack.

The functions stand in an archive for x86-64 Linux, of which a shared object is made by cc on first use: in the repository of
crates/drunquill_c/out/libdrunquill_c.a, which tools/build-archive makes. DRUNQUILL_LIBRARY may name a shared object that is there already, as the one that
./install makes.
"""
import ctypes
import enum
import os
import subprocess
import tempfile

__version__ = "1.0.0"

WORK_LEAST = 65536
LINE_MAX = 2048
IMAGE_MAX = 8192
PATHS_MAX = 32768
MESSAGE_MAX = 2048


class Number(enum.IntEnum):
    """Why a call was refused: the names and numbers of include/drunquill.h."""

    ACCEPTED = 0
    WORK_TOO_SMALL = 1
    BAD_VARIABLES = 2
    BAD_HOMES = 3
    BAD_PATHS = 4
    LINE_TOO_LONG = 5
    ZERO_BYTE = 6
    UNENDED = 7
    BARE_OPERATOR = 8
    SUBSTITUTION = 9
    UNSERVED = 10
    BAD_SYNTAX = 11
    TOO_DEEP = 12
    DEMANDED = 13
    TOO_MANY_UNITS = 14
    NOT_NUMBER = 15
    ARITHMETIC_SYNTAX = 16
    OVERFLOW = 17
    ZERO_DIVISOR = 18
    BRACKET_CLASS = 19
    VARIABLE_ROOM = 20
    OUTPUT_ROOM = 21
    BAD_FIELDS = 22
    BAD_PARAMETERS = 23
    BAD_PATH = 24
    UNSET_NAME = 25


WORDS = {
    Number.ACCEPTED: "accepted",
    Number.WORK_TOO_SMALL: "the work area has fewer than 65,536 bytes",
    Number.BAD_VARIABLES: "the table of variables is spoiled or too long",
    Number.BAD_HOMES: "the table of homes is spoiled or too long",
    Number.BAD_PATHS: "the table of paths is spoiled or too long, or a path is empty or holds a zero byte",
    Number.LINE_TOO_LONG: "the line has more than 2,048 bytes",
    Number.ZERO_BYTE: "a zero byte stands in the line",
    Number.UNENDED: "an apostrophe or quote, a brace or a calculation is not closed, or a backslash ends the line",
    Number.BARE_OPERATOR: "one of |&;<>() is not quoted, or a word begins with #",
    Number.SUBSTITUTION: "a command, as $(...) or in backquotes, is never run",
    Number.UNSERVED: "a parameter that is not served, as $? or $0, or one where it may not stand",
    Number.BAD_SYNTAX: "bad syntax, or among assignments a word that is none",
    Number.TOO_DEEP: "nested too deep: more than 8 expansions, or 32 parentheses and signs, are open at once",
    Number.DEMANDED: "a value that the line demands is missing",
    Number.TOO_MANY_UNITS: "too long: a word, value or calculation above 2,048 units, or a pattern or text to be priced",
    Number.NOT_NUMBER: "a calculation has something that is not a number",
    Number.ARITHMETIC_SYNTAX: "a calculation cannot be read",
    Number.OVERFLOW: "a calculation leaves the range of 64 bits, or shifts by a count that is not 0 to 63",
    Number.ZERO_DIVISOR: "a calculation divides by zero",
    Number.BRACKET_CLASS: "a class in the brackets of a pattern is not served",
    Number.VARIABLE_ROOM: "no room for a variable",
    Number.OUTPUT_ROOM: "no room for the answer",
    Number.BAD_FIELDS: "the image of fields is malformed or too long",
    Number.BAD_PARAMETERS: "the positional parameters are malformed or too long",
    Number.BAD_PATH: "the path to insert is there already, or the one to delete is not there",
    Number.UNSET_NAME: "a name that is not set, while unset names shout",
}


class Refused(Exception):
    """A call was refused: why, by its number, where in the line, and what a line that demands a value says of it, which is empty but for DEMANDED."""

    def __init__(self, number, place, message=b""):
        super().__init__(number, place, message)
        self.number, self.place, self.message = Number(number), place, message

    def __str__(self):
        told = f": {self.message.decode('utf-8', 'backslashreplace')}" if self.message else ""
        return f"refused at place {self.place}: {WORDS[self.number]} ({self.number:d}){told}"


class Fields(list):
    """The fields of a line, a list of bytes, with the variables after it, which the next line may be given."""

    def __init__(self, fields, variables):
        super().__init__(fields)
        self.variables = variables


class Line(bytes):
    """A quoted line, bytes, with the variables after it, which the next line may be given."""

    def __new__(cls, line, variables):
        made = super().__new__(cls, line)
        made.variables = variables
        return made


def expand(line, variables=None, params=(), homes=None, paths=(), shout=False):
    """The fields of the line's words. `variables` and `homes` are by name and login, `params` are $1 and on, `paths` what patterns are matched against; with
    `shout` a name that is not set is refused. The variables that the line leaves are the attribute `variables` of what is given back."""
    answer = _with_tables(call_expand, line, variables, params, homes, paths, shout, IMAGE_MAX)
    return Fields(unpack(answer.out), _pairs(answer.variables))


def normalise(line, variables=None, params=(), homes=None, paths=(), shout=False):
    """The same as a quoted line: read again, it gives exactly these fields, and it holds no newline."""
    answer = _with_tables(call_normalise, line, variables, params, homes, paths, shout, LINE_MAX)
    return Line(answer.out, _pairs(answer.variables))


def assign(line, variables=None, params=(), homes=None, shout=False):
    """The variables after a line whose every word is an assignment, as out=~/jobs:$base; those that are given are not changed."""
    image = pack_pairs(variables or {})
    answer = call_assign(_bytes(line), image, len(image), max(IMAGE_MAX, len(image)), shout, pack_pairs(homes or {}), pack(params), WORK_LEAST, MESSAGE_MAX)
    return _pairs(_accepted(answer).variables)


def quote(fields):
    """Fields as a line that reads back as exactly these."""
    return _accepted(call_quote(pack(fields), LINE_MAX)).out


def insert_path(paths, path):
    """The paths with one more, in their order; one that is there is refused."""
    image = pack(_ordered(paths))
    return unpack(_accepted(call_update("insert", image, len(image), PATHS_MAX, _bytes(path))).out)


def delete_path(paths, path):
    """The paths without one; one that is not there is refused."""
    image = pack(_ordered(paths))
    return unpack(_accepted(call_update("delete", image, len(image), max(PATHS_MAX, len(image)), _bytes(path))).out)


def cost(pattern, text):
    """How many pairs of a place in the pattern and a place in the text can be reached while they are compared."""
    return _accepted(call_cost(_bytes(pattern), _bytes(text), WORK_LEAST)).pairs


# Images.


def pack(texts):
    """An image of the texts, as they stand. One that is longer than its length can say makes an image that is longer than any limit, which is refused."""
    return b"\1" + b"".join(min(len(text), 65535).to_bytes(2, "big") + text for text in map(_bytes, texts))


def pack_pairs(table):
    """An image of names and values, or of logins and directories, in rising order."""
    known = {_bytes(key): _bytes(value) for key, value in table.items()}
    return pack(text for key in sorted(known) for text in (key, known[key]))


def unpack(image):
    """The texts of an image that is well formed, as the library writes them."""
    texts, at = [], 1
    while at < len(image):
        end = at + 2 + int.from_bytes(image[at:at + 2], "big")
        texts.append(image[at + 2:end])
        at = end
    return texts


def _bytes(text):
    return text.encode("utf-8", "surrogateescape") if isinstance(text, str) else bytes(text)


def _ordered(paths):
    return sorted({_bytes(path) for path in paths})


def _pairs(image):
    texts = unpack(image)
    return dict(zip(texts[::2], texts[1::2]))


# The calls of include/drunquill.h, on images and lengths of buffers. The buffers that are written are made here for each call and filled with a byte.


class Answer:
    """What a call gave: number and place; the written part of the output, or the new image of paths; the image of the variables; the message; how many
    pairs; and the buffers that it wrote to, whole."""

    def __init__(self, given, out=None, variables=None, message=None, work=None):
        self.number, self.place = given.number, given.place
        self.buffers = {"out": out, "variables": variables, "message": message, "work": work}
        self.out = out[:getattr(given, "out_len", getattr(given, "used", 0))] if out is not None else b""
        self.vars_used = getattr(given, "vars_used", 0)
        self.variables = variables[:self.vars_used] if variables is not None else b""
        self.message = message[:given.message_len] if message is not None else b""
        self.pairs = getattr(given, "pairs", 0)


def call_expand(*given, fill=0):
    """The expander: line, image of variables, their used length, the length of their buffer, the switch, images of homes, parameters and paths, the lengths of
    work area, output and message."""
    return _call_line("drunquill_expand", *given, fill=fill)


def call_normalise(*given, fill=0):
    """The normaliser: as the expander."""
    return _call_line("drunquill_normalise", *given, fill=fill)


def _call_line(name, line, variables, used, vars_len, shouts, homes, params, paths, work_len, out_len, message_len, fill=0):
    lent, work, out, message = _buffer(vars_len, fill, variables), _buffer(work_len, fill), _buffer(out_len, fill), _buffer(message_len, fill)
    given = getattr(_library(), name)(line, len(line), lent, vars_len, used, shouts, homes, len(homes), params, len(params), paths, len(paths), work, work_len,
                                      out, out_len, message, message_len)
    return Answer(given, out.raw[:out_len], lent.raw[:vars_len], message.raw[:message_len], work.raw[:work_len])


def call_assign(line, variables, used, vars_len, shouts, homes, params, work_len, message_len, fill=0):
    """The assigner: as the expander, without paths and output."""
    lent, work, message = _buffer(vars_len, fill, variables), _buffer(work_len, fill), _buffer(message_len, fill)
    given = _library().drunquill_assign(line, len(line), lent, vars_len, used, shouts, homes, len(homes), params, len(params), work, work_len, message, message_len)
    return Answer(given, None, lent.raw[:vars_len], message.raw[:message_len], work.raw[:work_len])


def call_quote(fields, out_len, fill=0):
    """The quoter: an image of fields, and the length of the output."""
    out = _buffer(out_len, fill)
    return Answer(_library().drunquill_quote(fields, len(fields), out, out_len), out.raw[:out_len])


def call_update(job, image, used, paths_len, path, fill=0):
    """A path inserted or deleted, by the name of the job: an image of paths, its used length, the length of its buffer, and the path."""
    lent = _buffer(paths_len, fill, image)
    return Answer(getattr(_library(), f"drunquill_{job}_path")(lent, paths_len, used, path, len(path)), lent.raw[:paths_len])


def call_cost(pattern, text, work_len, fill=0):
    """The coster: a pattern, a text, and the length of the work area."""
    work = _buffer(work_len, fill)
    return Answer(_library().drunquill_cost(pattern, len(pattern), text, len(text), work, work_len), work=work.raw[:work_len])


def _buffer(length, fill, front=b""):
    """A buffer of that length that begins with these bytes; one of no bytes has a byte too many, so that there is something to point to."""
    return ctypes.create_string_buffer((front[:length] + bytes([fill]) * (length - len(front)))[:length], max(1, length))


def _accepted(answer):
    if answer.number != Number.ACCEPTED:
        raise Refused(answer.number, answer.place, answer.message)
    return answer


def _with_tables(call, line, variables, params, homes, paths, shout, out_len):
    image = pack_pairs(variables or {})
    return _accepted(call(_bytes(line), image, len(image), max(IMAGE_MAX, len(image)), shout, pack_pairs(homes or {}), pack(params), pack(_ordered(paths)),
                          WORK_LEAST, out_len, MESSAGE_MAX))


# The library.


def _struct(name, *fields):
    members = [("number", ctypes.c_uint8)] + [(field, ctypes.c_size_t) for field in ("place", *fields)]
    return type(name, (ctypes.Structure,), {"_fields_": members})


_LENT, _COUNT = ctypes.c_char_p, ctypes.c_size_t
_TABLES = [_LENT, _COUNT, _LENT, _COUNT, _COUNT, ctypes.c_bool, _LENT, _COUNT, _LENT, _COUNT]
_FUNCTIONS = {
    "drunquill_expand": (_struct("answer", "out_len", "vars_used", "message_len"), _TABLES + [_LENT, _COUNT] * 4),
    "drunquill_normalise": (_struct("answer", "out_len", "vars_used", "message_len"), _TABLES + [_LENT, _COUNT] * 4),
    "drunquill_assign": (_struct("answer", "out_len", "vars_used", "message_len"), _TABLES + [_LENT, _COUNT] * 2),
    "drunquill_quote": (_struct("quote_answer", "out_len"), [_LENT, _COUNT] * 2),
    "drunquill_insert_path": (_struct("updated", "used"), [_LENT, _COUNT, _COUNT, _LENT, _COUNT]),
    "drunquill_delete_path": (_struct("updated", "used"), [_LENT, _COUNT, _COUNT, _LENT, _COUNT]),
    "drunquill_cost": (_struct("costed", "pairs"), [_LENT, _COUNT] * 3),
}
_ABOVE = os.path.dirname(os.path.dirname(os.path.abspath(__file__)))
_ARCHIVE = os.path.join(_ABOVE, "crates", "drunquill_c", "out", "libdrunquill_c.a")
_MADE = os.path.join(_ABOVE, "target", "python", "libdrunquill.so")
_INSTALLED = os.path.join(os.path.dirname(_ABOVE), "libexec", "drunquill", "libdrunquill.so")
_loaded = None


def _library():
    """The shared object with the functions declared."""
    global _loaded
    if _loaded is None:
        library = ctypes.CDLL(_shared_object())
        for name, (answer, given) in _FUNCTIONS.items():
            function = getattr(library, name)
            function.restype, function.argtypes = answer, given
        _loaded = library
    return _loaded


def _shared_object():
    """The path of the shared object, which is made of the repository's archive if it is not there or older."""
    if "DRUNQUILL_LIBRARY" in os.environ:
        return os.environ["DRUNQUILL_LIBRARY"]
    if not os.path.exists(os.path.join(_ABOVE, "crates.txt")):
        return _INSTALLED
    if not os.path.exists(_ARCHIVE):
        raise OSError(f"there is no {_ARCHIVE}; tools/build-archive makes it, and DRUNQUILL_LIBRARY may name a shared object")
    if not os.path.exists(_MADE) or os.path.getmtime(_MADE) < os.path.getmtime(_ARCHIVE):
        make_shared_object(_ARCHIVE, _MADE)
    return _MADE


def make_shared_object(archive, made):
    """Makes a shared object of an archive, at once or not at all."""
    os.makedirs(os.path.dirname(made), exist_ok=True)
    with tempfile.TemporaryDirectory(dir=os.path.dirname(made)) as folder:
        new = os.path.join(folder, "new.so")
        subprocess.run(["cc", "-shared", "-o", new, "-Wl,--whole-archive", archive, "-Wl,--no-whole-archive"], check=True)
        os.replace(new, made)
