"""Calls as tests/vectors/README.md has them: those that have names in tests/vectors/named.txt, which docs/TRACE.md cites as `call:NAME`, and those that tests
make of lines and tables, answered by the independent program."""
import os
import subprocess
import tempfile

ROOT = os.path.abspath(os.path.join(os.path.dirname(__file__), "..", ".."))
VECTORS = os.path.join(ROOT, "tests", "vectors")
SHOWN = 60
REFERENCE = os.path.join(ROOT, "reference")


def lines(name):
    """The lines of a file of vectors that are neither empty nor, in their first column, a comment."""
    with open(os.path.join(VECTORS, name), encoding="ascii") as file:
        return [line for line in file.read().splitlines() if line and not line.startswith("# ")]


def named():
    """Pairs of a name and the text of its call, in the file's order."""
    return [tuple(line.split(" ", 1)) for line in lines("named.txt")]


def answer(call):
    """The words of a call's answer."""
    words = call.split()
    return words[words.index("=") + 1:]


def number(call):
    """The number that a call gives."""
    return int(answer(call)[0])


def written(data):
    """Bytes as a call has them."""
    return data.hex() or "-"


def read(word):
    """The bytes that a word of a call stands for."""
    return b"" if word == "-" else bytes.fromhex(word)


def texts(image):
    """The texts of an image."""
    found, at = [], 1
    while at < len(image):
        end = at + 2 + int.from_bytes(image[at:at + 2], "big")
        found.append(image[at + 2:end])
        at = end
    return found


def assigning(line, variables, homes, params, shouts=False):
    """A call of the assigner on a line and three images, with the switch off or on, without its answer: buffers and work area are those of the program."""
    return f"assign {written(line)} {written(variables)} {len(variables)} 8192 {written(homes)} 65536 {written(params)} 2048 {int(shouts)}"


def answered(asked):
    """Calls with the independent program's answers."""
    subprocess.run(["cargo", "build", "--quiet", "--release", "--offline", "--bin", "replay-cases"], cwd=REFERENCE, check=True)
    with tempfile.NamedTemporaryFile("w", suffix=".calls", encoding="ascii") as file:
        file.writelines(call + "\n" for call in asked)
        file.flush()
        command = [os.path.join(REFERENCE, "target", "release", "replay-cases"), "--answer", file.name]
        return subprocess.run(command, stdout=subprocess.PIPE, text=True, check=True).stdout.splitlines()


def agrees(command, cases):
    """Whether a command that takes a file of calls with their answers finds none that differs."""
    with tempfile.NamedTemporaryFile("w", suffix=".cases", encoding="ascii") as file:
        file.writelines(case + "\n" for case in cases)
        file.flush()
        return subprocess.run([command, file.name], check=False).returncode == 0


def shown(call):
    """The comment above a named call: its job, its line, fields or path as text, its number and place."""
    words = call.split()
    text = read(words[4 if words[0] in ("insert", "delete") else 1])
    plain = "".join("\\\\" if byte == 92 else chr(byte) if 32 <= byte < 127 else f"\\x{byte:02X}" for byte in text[:SHOWN])
    rest = f".. ({len(text)} bytes)" if len(text) > SHOWN else ""
    given = words.index("=") + 1
    return f"# {words[0]} |{plain}|{rest} = {words[given]} {words[given + 1]}"


def faults():
    """What is wrong with the file: a name that is there twice, a comment that does not show its call. The answers are held by the independent program."""
    with open(os.path.join(VECTORS, "named.txt"), encoding="ascii") as file:
        comments = file.read().splitlines()
    seen = set()
    for name, call in named():
        above = comments[comments.index(f"{name} {call}") - 1]
        if name in seen:
            yield f"{name} is there twice"
        if above != shown(call):
            yield f"{name} stands below {above}, and not below {shown(call)}"
        seen.add(name)
