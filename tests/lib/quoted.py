"""The quoted line as the tests write and read it, from documents 01 and 02 (E2, E12): each field bare, in $'...' if it holds a control byte, or in single
quotes, one blank between fields."""
import re

BARE = rb"[A-Za-z0-9._/-]+"
CONTROL = rb"[\x00-\x1f\x7f]"
SHOWN = rb"[^'\x00-\x1f\x7f]*"
ESCAPED = rb"\$'(?:[^'\\\x00-\x1f\x7f]|\\['\\]|\\[0-7]{3})*'"
FIELD = rb"(?:%s|%s|'%s'(?:\\''%s')*)" % (BARE, ESCAPED, SHOWN, SHOWN)
# an answer of the program, which is one line: its quoted line, if it has one, is the first group
ANSWER = re.compile(rb"ok ((?:%s(?: %s)*)?)\n|no [0-9]+ [0-9]+\n" % (FIELD, FIELD))


def field_of(written):
    """The field that is written so."""
    if written.startswith(b"$"):
        return re.sub(rb"\\([0-7]{3}|['\\])", lambda said: bytes([int(said[1], 8)]) if len(said[1]) == 3 else said[1], written[2:-1])
    return written[1:-1].replace(b"'\\''", b"'") if written.startswith(b"'") else written


def fields_of(line):
    """The fields of a quoted line."""
    return [field_of(written) for written in re.findall(FIELD, line)]


def written_as(field):
    """A field as it is written."""
    if re.fullmatch(BARE, field):
        return field
    if re.search(CONTROL, field):
        return b"$'" + re.sub(rb"['\\]|" + CONTROL, lambda byte: b"\\" + (byte[0] if byte[0] in b"'\\" else b"%03o" % byte[0][0]), field) + b"'"
    return b"'" + field.replace(b"'", b"'\\''") + b"'"


def quoted(fields):
    """The quoted line of fields."""
    return b" ".join(map(written_as, fields))


def is_mixed(line):
    """Whether a quoted line has bare fields and quoted ones."""
    return len({written.startswith((b"'", b"$")) for written in re.findall(FIELD, line)}) == 2
