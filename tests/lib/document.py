"""Documents 01 and 02 sentence by sentence. Run by itself it prints those of document 01, one to a line:  python3 tests/lib/document.py [FILE]

A heading, a bullet, a row of a table count as one each; in running text a sentence ends at a full stop, after which a blank and a capital, a
backquote or the line's end stand, outside backquotes. Lead-ins of the refusals' table are cut at the bar. A request of document 02 has its name in bold
before its first sentence: that is a heading. A request has landed when its note is in docs/requests.
"""
import os
import re
import sys

ROOT = os.path.abspath(os.path.join(os.path.dirname(__file__), "..", ".."))
PAGE = os.path.join(ROOT, "docs", "01-scope.md")
REQUESTS = os.path.join(ROOT, "docs", "02-change-requests.md")
# a request's name in bold, as it stands before its first sentence
REQUEST = re.compile(r"\*\*E(\d+): [^*]+\*\* ")


def cut(paragraph):
    """The sentences of a paragraph, the name of a request before them."""
    name = REQUEST.match(paragraph)
    start = name.end() if name else 0
    found, quoted = [name[0].strip()] if name else [], False
    for i, c in enumerate(paragraph):
        if c == "`":
            quoted = not quoted
        ends = c == "." and not quoted and re.match(r"\.( [A-Z`$]|$)", paragraph[i:i + 3].ljust(1))
        if ends and paragraph[max(0, i - 2):i] != "No":
            found.append(paragraph[start:i + 1].strip())
            start = i + 1
    rest = paragraph[start:].strip()
    return found + ([rest] if rest else [])


def sentences(page=PAGE):
    """All sentences of a document, in order."""
    with open(page, encoding="utf-8") as file:
        text = file.read()
    found, paragraph = [], []

    def flush():
        if paragraph:
            found.extend(cut(" ".join(paragraph)))
            paragraph.clear()

    for line in text.splitlines():
        if re.match(r"\|[-|]+\|?$", line) or not line.strip():
            flush()
        elif line.startswith(("#", "|")):
            flush()
            found.append(line.strip())
        elif line.startswith("- "):
            flush()
            paragraph.append(line[2:])
        else:
            paragraph.append(line)
    flush()
    return found


def is_heading(sentence):
    """Whether a heading or a request's name is what stands there."""
    return sentence.startswith("#") or REQUEST.match(sentence + " ") is not None


def requests():
    """The sentences of each request of document 02 by its number, in order, its name first; by 0 what stands before the first request."""
    found, number = {}, 0
    for sentence in sentences(REQUESTS):
        name = REQUEST.match(sentence + " ")
        number = int(name[1]) if name else number
        found.setdefault(number, []).append(sentence)
    return found


def landed():
    """The numbers of the requests that have landed, and 0 if there is one."""
    numbers = [number for number in requests() if os.path.exists(os.path.join(ROOT, "docs", "requests", f"E{number:02}.md"))]
    return [0] + numbers if numbers else []


def both():
    """All sentences of both documents, in order."""
    return sentences() + sentences(REQUESTS)


def demanded():
    """The sentences that hold of the tree: those of document 01 and of the requests that have landed, without headings."""
    found = sentences() + [sentence for number in landed() for sentence in requests()[number]]
    return [sentence for sentence in found if not is_heading(sentence)]


if __name__ == "__main__":
    print("\n".join(sentences(*sys.argv[1:])))
