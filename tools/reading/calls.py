"""The public calls of the program's crates, as their sources have them: what each lib file passes on, the calls of the types that it
passes on, and of traits. A call is TYPE::NAME, or NAME where it stands alone."""
import glob
import os
import re

TOP = os.path.dirname(os.path.dirname(os.path.dirname(os.path.abspath(__file__))))
# crates that only try others
TRIES = re.compile(r"_(tests|cases|calls)$")
# what an answer has by which a call says that memory was refused
MEMORY = re.compile(r"\b(NoMemory|\w+Error|Status|Answer)\b")
# errors that are none of memory
OTHERS = {"SpellingError"}
LOCK = re.compile(r"\b(Wait|Threads)\b")
PASSED = re.compile(r"^pub use ([\w:]+?)(?:::\{([^}]*)\})?;", re.M)
PART = re.compile(r"^(impl|pub trait|trait)\b([^{\n]*)|^( *)(pub )?fn (\w+)|^\}", re.M)
END = re.compile(r"\n\s*(?:ensures|requires|where|//)|\s*\{|;\n")


def crates():
    with open(os.path.join(TOP, "crates.txt"), encoding="utf-8") as it:
        names = [line.split(":")[0].split()[0] for line in it if ":" in line]
    return [name for name in names if not TRIES.search(name) and os.path.exists(os.path.join(TOP, f"crates/{name}/src/lib.rt"))]


def texts_of(crate):
    """The sources of a crate, by the module that each is or is within."""
    top = os.path.join(TOP, f"crates/{crate}/src")
    for path in sorted(glob.glob(f"{top}/**/*.rt", recursive=True)):
        with open(path, encoding="utf-8") as it:
            yield os.path.relpath(path, top)[:-3].split("/")[0], it.read()


def passed_on(lib):
    """The names that a lib file passes on."""
    for path, names in PASSED.findall(lib):
        yield from re.findall(r"\w+", names) if names else [path.rpartition("::")[2]]


def without_bounds(head):
    """What stands behind the bounds of a block."""
    depth = 0
    for at, byte in enumerate(head):
        depth += (byte == "<") - (byte == ">")
        if depth == 0 and byte == ">":
            return head[at + 1:]
    return head


def owner_of(kind, head):
    """The type or the trait whose calls a block has, or None where it does what a trait says."""
    if kind == "impl" and " for " in head:
        return None
    head = head.strip()
    return re.match(r"\s*(\w+)", without_bounds(head) if head.startswith("<") else head)[1]


def heads(text):
    """Each function of a file: what it belongs to, whether it is of a trait, whether it is public, its name and its head."""
    owner, is_trait = None, False
    for part in PART.finditer(text):
        if part[1]:
            owner, is_trait = owner_of(part[1], part[2]), part[1] != "impl"
        elif part[5]:
            head = text[part.start():END.search(text, part.end()).start()]
            yield owner if part[3] else "", is_trait and bool(part[3]), bool(part[4]), part[5], " ".join(head.split())


def calls_of(crate):
    """The public calls of a crate, with the head of each."""
    texts = list(texts_of(crate))
    lib = dict(texts)["lib"]
    names, modules = set(passed_on(lib)), {"lib", *re.findall(r"^pub mod (\w+);", lib, re.M)}
    for module, text in texts:
        for owner, is_trait, is_public, name, head in heads(text):
            is_here = module in modules or (owner or name) in names
            if owner is not None and is_here and (is_public or is_trait):
                yield f"{owner}::{name}" if owner else name, head


def takes_memory(head):
    """Whether a call may answer that memory was refused."""
    answer = head.rpartition("->")[2] if "->" in head else ""
    return any(it[0] not in OTHERS for it in MEMORY.finditer(answer))


def takes_lock(head):
    return bool(LOCK.search(head))
