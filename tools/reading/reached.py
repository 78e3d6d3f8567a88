"""The definitions that a clause reaches: those that it names, those that these name, and so on.

Read are the files of crates/CRATE/specs as texts: a definition is a block between empty lines, and what it names is found by the file's imports.
Declared types and what the library defines have no such file, and end the way.
"""
import functools
import os
import re

TOP = os.path.dirname(os.path.dirname(os.path.dirname(os.path.abspath(__file__))))
# what a definition begins with
HEAD = re.compile(r"^ *(?:abbrev |unfoldable )?(?:pub )?(?:(?:record|data) )?([^\s:(){}]+)(?= [:({]| *$)")
CONSTRUCTOR = re.compile(r"^ +(\S+) :", re.M)
WORD = re.compile(r"[^\s(){}\[\],;]+")
IMPORT = re.compile(r"^\s*(?:ghost )?(?:pub )?use (Rattle\.[\w.]+?)(?:\.\{([^}]*)\}| as (\w+)|);?$", re.M)


def path_of(module):
    """The file of a module of specs, from the top of the repository; None where it is no such module."""
    found = re.match(r"Rattle\.(\w+)\.specs\.([\w.]+)$", module)
    path = f"crates/{found[1]}/specs/{found[2].replace('.', '/')}.antt" if found else None
    return path if path and os.path.isfile(os.path.join(TOP, path)) else None


def imports_of(text):
    """What a text imports: of each name its module and its name there, and of each name of a module that module."""
    names, modules = {}, {}
    for module, listed, other in IMPORT.findall(text):
        if other:
            modules[other] = module
        elif listed:
            for item in listed.split(","):
                name, _, own = item.strip().partition(" as ")
                names[own or name] = (module, name)
        else:
            modules[module.rpartition(".")[2]] = module
    return names, modules


@functools.lru_cache(maxsize=None)
def definitions_of(module):
    """Of a module of specs its imports, and of each definition the words that it has."""
    with open(os.path.join(TOP, path_of(module)), encoding="utf-8") as it:
        text = it.read()
    blocks = {}
    bare = "\n".join(line for line in text.split("\n") if not re.match(r"\s*--|(pub )?use ", line))
    for block in re.split(r"\n\s*\n", bare):
        block = re.sub(r"^(?:module .* where|mutual|infix.*)\n", "", block.lstrip("\n"))
        head = HEAD.match(block)
        made = CONSTRUCTOR.findall(block) if re.match(r" *(pub )?data ", block) else []
        for name in [*([head[1]] if head else []), *made]:
            blocks.setdefault(name, set()).update(WORD.findall(block))
    return imports_of(text), blocks


def named_by(words, imports, own):
    """The definitions that words name, as modules with names; own is the module they stand in, if it is one of specs."""
    names, modules = imports
    for word in [*words, *(f"◌{it}◌" for it in words)]:
        front, _, back = word.partition(".")
        if own and word in definitions_of(own)[1]:
            yield own, word
        elif own and front in definitions_of(own)[1]:
            yield own, front
        elif word in names:
            yield names[word]
        elif front in names:
            yield names[front]
        elif front in modules and back:
            yield modules[front], back.partition(".")[0]


def reached(start):
    """The definitions of specs that these and those behind them name: of each module its names."""
    found, left = {}, list(start)
    while left:
        module, name = left.pop()
        if not path_of(module) or name in found.get(module, ()):
            continue
        imports, blocks = definitions_of(module)
        if name in blocks:
            found.setdefault(module, set()).add(name)
            left += named_by(blocks[name], imports, module)
        elif name in imports[0]:
            # a module that only passes a name on
            left.append(imports[0][name])
    return found


def clauses_of(path, function):
    """The clauses of a function's contract, by name, with the imports of the file."""
    with open(os.path.join(TOP, path), encoding="utf-8") as it:
        text = it.read()
    there = re.search(rf"^\s*pub fn {function}\b.*?^\{{", text + "\n{", re.M | re.S)
    clauses = re.split(r"\n\s*(?:ensures|requires)\*? ", there[0])[1:]
    return {re.match(r"\w*", it)[0]: it for it in clauses}, imports_of(text)


def files_of(found):
    """Reached definitions by their files, each as CRATE/specs/FILE."""
    return {path_of(module)[len("crates/") : -len(".antt")]: names for module, names in found.items()}


def files_from(*definitions):
    """The files of specs that these definitions reach, themselves too, with the names that are reached there."""
    return files_of(reached([tuple(it.rsplit(".", 1)) for it in definitions]))


def reached_by(path, function, clauses):
    """The files of specs that these clauses of a function reach, with the names that are reached there."""
    of_each, imports = clauses_of(path, function)
    words = {word for name in clauses for word in WORD.findall(of_each[name])}
    return files_of(reached(named_by(words, imports, None)))
