"""crates.txt as the tests read it: its groups, each under a heading, and what each crate depends on; and what the files of a crate name."""
import functools
import os
import re
import subprocess

ROOT = os.path.abspath(os.path.join(os.path.dirname(__file__), "..", ".."))


@functools.lru_cache(maxsize=None)
def of_kit():
    """The libraries of Rattle's kit that a crate names only if it lists them: all but core and std."""
    page = subprocess.run(["rt", "doc"], stdout=subprocess.PIPE, text=True, check=True).stdout.strip()
    found = {name.removesuffix(".rlib") for name in os.listdir(os.path.join(os.path.dirname(page), "rlibs"))}
    return found - {"core", "std"}


def groups():
    """The groups in order, each with its crates and what these depend on. A heading is a line `## NAME`; a static library has the word behind its name."""
    found = {}
    with open(os.path.join(ROOT, "crates.txt"), encoding="utf-8") as file:
        for line in file:
            heading = re.match(r"## (.+)", line)
            crate = re.match(r"(\w+)(?: staticlib)?:(.*)", line)
            if heading:
                group = found.setdefault(heading[1], {})
            elif crate:
                group[crate[1]] = crate[2].split("#")[0].split()
    return found


def explained():
    """Pairs of a crate and another that it lists though no file names it: a comment at the end of its line begins with the other's name and a colon."""
    with open(os.path.join(ROOT, "crates.txt"), encoding="utf-8") as file:
        return set(re.findall(r"(?m)^(\w+)(?: staticlib)?:.* # (\w+): ", file.read()))


def listed():
    """Every crate with what it depends on."""
    return {crate: needs for group in groups().values() for crate, needs in group.items()}


def files(crate, *parts):
    """The files of Rattle and antt in some of a crate's folders, by their paths, without comments."""
    found = {}
    for part in parts:
        for folder, _, names in os.walk(os.path.join(ROOT, "crates", crate, part)):
            for name in names:
                if name.endswith((".rt", ".antt")):
                    with open(os.path.join(folder, name), encoding="utf-8") as file:
                        found[os.path.relpath(os.path.join(folder, name), ROOT)] = without_comments(file.read(), name.endswith(".rt"))
    return found


def without_comments(text, code):
    return re.sub(r"//[^\n]*" if code else r"(?m)(?<!\S)--(?!\S)[^\n]*", "", text)


def clause_end(text, at):
    """The place behind a clause of a contract, antt's text in braces, whose word ends at a place of the text; a name may stand between."""
    depth = 0
    for piece in re.finditer(r'"(?:\\.|[^"\\])*"|[{}]', text[at:]):
        depth += {"{": 1, "}": -1}.get(piece[0], 0)
        if piece[0] == "}" and depth == 0:
            return at + piece.end()
    raise ValueError("a clause that does not end")


def branches(tree):
    """The paths of a `use` item's tree, `a::{b, c as d}` is a::b and a::c, each with the name that it brings in."""
    tree = tree.strip()
    opens = tree.find("{")
    if opens < 0:
        path, _, name = tree.partition(" as ")
        yield path.strip(), (name or path.split("::")[-1]).strip()
        return
    head, inside, depth, start = tree[:opens], tree[opens + 1:tree.rindex("}")] + ",", 0, 0
    for at, c in enumerate(inside):
        depth += {"{": 1, "}": -1}.get(c, 0)
        if c == "," and depth == 0:
            if inside[start:at].strip():
                for path, name in branches(inside[start:at]):
                    yield (head[:-2], name if name != "self" else head.split("::")[-2]) if path == "self" else (head + path, name)
            start = at + 1


def imports(text):
    """What the `use` items of code bring in: each name with its path. `ghost use` is of antt, and no such item."""
    return {name: path for tree in re.findall(r"(?m)^\s*(?:pub(?:\(\w+\))? )?use ([^;]+);", text) for path, name in branches(tree)}


def named(crate, crates):
    """The other crates of these that the files of a crate name: `NAME::` in its code, `Rattle.NAME` anywhere. A module of its own is no crate, nor is a
    module that it imports from elsewhere, as `io` by `use std::io`."""
    texts = files(crate, "src", "specs", "proofs")
    code = [text for path, text in texts.items() if path.endswith(".rt")]
    modules = {name for text in code for name in re.findall(r"(?m)^(?:pub )?mod (\w+)(?:;| \{)", text)}
    found = set()
    for text in code:
        elsewhere = {name for name, path in imports(text).items() if path.split("::")[0] != name}
        found |= set(re.findall(r"(?<![\w:.])([a-z_]\w*)::", text)) - modules - elsewhere
    found |= {name for text in texts.values() for name in re.findall(r"\bRattle\.(\w+)", text)}
    return (found & set(crates)) - {crate}
