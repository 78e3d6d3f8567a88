"""The recorded answers of the repository: scenarios with their refusals and reports, and texts of policies."""
import glob
import os
import re

from .rules import TOP

CASES = os.path.join(TOP, "crates/tp_cases/data")
# lists within one another, up to the greatest depth of a JSON text and one more
DEPTHS = ((127, "shape $"), (128, "badjson"))
REFUSALS = ("toolong", "badjson", "shape", "range", "unknown", "policy")


class Case:
    """A scenario's bytes, why it is refused in reading (or ok), and where it is recorded what its run answers."""

    def __init__(self, name, answer, data):
        answer = answer.removeprefix("refused ").strip("\n")
        is_refusal = answer.split(" ")[0] in REFUSALS
        self.name, self.data = name, data
        self.refusal = answer if is_refusal else "ok"
        self.run = answer if answer.startswith(("tpvc ", "step ")) else None


def read(path):
    with open(path, "rb") as file:
        return file.read()


def lines_of(table):
    """The lines of a table but comments, with their numbers."""
    for number, line in enumerate(read(os.path.join(CASES, table)).decode().split("\n"), 1):
        if line and not line.startswith("#"):
            yield f"{table}:{number}", line


def cases():
    """All recorded scenarios."""
    for name, line in lines_of("readings.txt"):
        answer, _, text = line.partition("\t")
        yield Case(name, answer, text.encode())
    for name, line in lines_of("evaluations.txt"):
        answer, _, text = line.partition("\t")
        yield Case(name, answer.replace("\\n", "\n"), text.encode())
    for name, line in lines_of("bytes.txt"):
        answer, _, text = line.partition("\t")
        # where there is no report, a byte 0 and the status stand before the refusal
        yield Case(name, unescaped(answer).lstrip(b"\0\1").decode(), unescaped(text))
    for _, line in lines_of("runs.txt"):
        named, status, *words = line.split()
        if words == ["run"]:
            yield run_of(named, status)
    for depth, answer in DEPTHS:
        yield Case(f"{depth} lists within one another", answer, b"[" * depth + b"]" * depth)
    for path in sorted(glob.glob(os.path.join(TOP, "examples/*.json"))):
        yield Case(os.path.basename(path), "ok", read(path))
    for path in sorted(glob.glob(os.path.join(TOP, "crates/*/src/*.rt"))):
        for at, text in enumerate(re.findall(r'r#"(\{"admins".*?\})"#', read(path).decode(), re.S)):
            yield Case(f"{os.path.basename(path)}:{at}", "ok", text.encode())


def traces():
    """All recorded traces of runs that end: the name, the scenario's bytes, and the trace."""
    for _, line in lines_of("runs.txt"):
        named, status, *words = line.split()
        if words == ["trace"] and status == "0":
            path = os.path.join(CASES, named)
            yield named, read(path + ".json"), read(path + ".out").decode()


def run_of(named, status):
    """A run of its own files: NAME, or NAME:LENGTH with blanks up to the length."""
    name, _, length = named.partition(":")
    path = os.path.join(CASES, name)
    data = read(path + ".json")
    if length:
        data = data[:int(length)].ljust(int(length))
    return Case(named, read(path + (".out" if status == "0" else ".err")).decode(), data)


def unescaped(text):
    r"""The bytes of a text in which `\n` is the end of a line, and `\` with two digits of base 16 is that byte."""
    first, *parts = text.encode().split(b"\\")
    return first + b"".join(b"\n" + it[1:] if it[:1] == b"n" else bytes([int(it[:2], 16)]) + it[2:] for it in parts)


def policies():
    """All recorded texts of policies: the name, why each is refused (or ok), and its bytes."""
    for name, line in lines_of("policies.txt"):
        answer, _, given = line.partition("\t")
        text, _, length = given.partition("\t")
        data = unescaped(text)
        if length:
            data = data[:int(length)].ljust(int(length))
        yield name, answer.removeprefix("refuses ") if answer.startswith("refuses ") else "ok", data
