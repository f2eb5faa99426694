"""The functions of the crates and which of them a program or an archive reaches, read off the code by name.

A function is known by its crate, its module or the type that it belongs to ("" for the crate's own root), and its name. A call names a function by its
path, through what its file imports, or stands in the same module; a call of a method may be of any method with that name."""
import os
import re

import crates

# strings and bytes of the code, which may hold braces and words, and the words that begin a clause of a contract
LITERAL = re.compile(r"""b?"(?:\\.|[^"\\])*"|b?'(?:\\[^']+|\\'|[^'\\])'""")
CLAUSE = re.compile(r"(?m)^\s*(?:requires|ensures)\b[^{]*")
GHOST = re.compile(r"(?m)^\s*ghost use [^;]*;")
CALL = re.compile(r"(?<![\w:.])((?:\w+::)*)([a-z_]\w*)(?:::<[^<>()]*>)?\s*\(")
METHOD = re.compile(r"\.\s*([a-z_]\w*)\s*\(")


def without_terms(text):
    """Code whose clauses of contracts hold nothing: `ensures name {}`."""
    kept, at = [], 0
    for clause in CLAUSE.finditer(text):
        if clause.start() >= at:
            kept += [text[at:clause.end()], "{}"]
            at = crates.clause_end(text, clause.end())
    return "".join(kept) + text[at:]


class Module:
    """A file of code: what it imports, the text of each of its functions, which of them an archive has, and which of them another crate may call."""

    def __init__(self, crate, path, text):
        name = os.path.basename(path)[:-len(".rt")]
        self.crate, self.name = crate, "" if name in ("lib", "main") else name
        text = LITERAL.sub("0", without_terms(GHOST.sub("", text)))
        self.uses = crates.imports(text)
        self.types = set(re.findall(r"\b(?:struct|enum) (\w+)", text))
        self.constants = set(re.findall(r"\bconst (\w+)", text))
        self.functions, self.exported, self.public = {}, set(), set()
        self.read_functions(text)

    def read_functions(self, text):
        """Each function's text goes from its name to where the next begins."""
        marks = list(re.finditer(r'\b(pub )?(extern 0 )?fn (\w+)|^impl\b(?:<[^{]*?>)? (?:[^{\n]* for )?(\w+)|^}', text, re.M))
        owner = ""
        for mark, after in zip(marks, marks[1:] + [None]):
            if mark[4]:
                owner = mark[4]
            elif not mark[3]:
                owner = ""
            else:
                key = (self.crate, owner or self.name, mark[3])
                self.functions[key] = text[mark.end():after.start() if after else len(text)]
                if mark[1]:
                    self.public.add(key)
                if mark[2]:
                    self.exported.add(key)

    def promises(self, key):
        """Has the function an `ensures`?"""
        return re.search(r"(?m)^\s*ensures\b[^{]*\{\}", self.functions[key]) is not None


class Code:
    """All code of the repository."""

    def __init__(self):
        self.crates = crates.listed()
        self.modules = [Module(crate, path, text) for crate in self.crates for path, text in crates.files(crate, "src").items()]
        self.names = {(module.crate, module.name): module for module in self.modules}
        self.functions = {key: module for module in self.modules for key in module.functions}

    def is_open(self, module):
        """Can another crate name the module?"""
        root = os.path.join(crates.ROOT, "crates", module.crate, "src", "lib.rt")
        if not os.path.exists(root):
            return False
        with open(root, encoding="utf-8") as file:
            return f"\npub mod {module.name};" in file.read()

    def theorems(self, crate):
        """The names of the theorems that contracts of the crate determine what is answered."""
        path = os.path.join(crates.ROOT, "crates", crate, "proofs", "Determined.antt")
        if not os.path.exists(path):
            return set()
        with open(path, encoding="utf-8") as file:
            return set(re.findall(r"(?m)^\s*pub (\w+_determined) :", file.read()))

    def resolved(self, module, path, name):
        """The function that a call in a module names, or None."""
        parts = [part for part in path.split("::") if part]
        first = parts[0] if parts else name
        if first in module.uses:
            whole = module.uses[first].split("::") + (parts[1:] + [name] if parts else [])
        elif parts:
            whole = parts + [name]
        else:
            return self.known(module.crate, module.name, name)
        if whole[0] in ("crate", "super"):
            return self.known(module.crate, whole[-2] if len(whole) > 2 else "", whole[-1])
        if (module.crate, whole[0]) in self.names or whole[0] in module.types:
            return self.known(module.crate, whole[-2], whole[-1])
        return self.known(whole[0], whole[-2] if len(whole) > 2 else "", whole[-1])

    def known(self, crate, place, name):
        return (crate, place, name) if (crate, place, name) in self.functions else None

    def called(self, key):
        """The functions that a function calls."""
        module = self.functions[key]
        text = module.functions[key]
        found = {self.resolved(module, call[1], call[2]) for call in CALL.finditer(text)} - {None}
        methods = set(METHOD.findall(text))
        return found | {other for other in self.functions if other[2] in methods and other[1][:1].isupper()}

    def roots(self):
        """The main of each program, and each function that an archive has."""
        mains = [(crate, "", "main") for crate in self.crates if (crate, "", "main") in self.functions]
        return mains + sorted(key for module in self.modules for key in module.exported)

    def reached(self):
        """Every function that a root reaches."""
        found, todo = set(), self.roots()
        while todo:
            key = todo.pop()
            if key not in found:
                found.add(key)
                todo += self.called(key)
        return found
