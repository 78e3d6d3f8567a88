"""The bodies of functions that an edit changes.

A function is proved of its own body and of the contracts of others. So of an edit that changes bodies alone it is told by a check of these
functions whether it is refused.
"""
import functools
import re

from .edits import text_of
from .front_end import hunks_of

HEAD = re.compile(r"( *)(?:pub(?:\(crate\))? )?(?:const )?fn (\w+)")
IMPL = re.compile(r"impl(?:<.*?>)? (?:(?:\w+::)*(\w+)(?:<.*>)? for )?(?:\w+::)*(\w+)")


def functions_of(text):
    """The functions of a file of code as it is laid out: the name of each, and the lines of its head, its opening and its closing brace."""
    found, lines, at = [], text.split("\n"), 0
    while at < len(lines):
        head = HEAD.match(lines[at])
        if head:
            opening = re.compile(rf"{head[1]}(?:\{{|(?:\)|pub|const|fn).* \{{)$")
            opens = next((it for it in range(at, len(lines)) if opening.match(lines[it]) or lines[it].endswith((";", "{}"))), at)
            if opening.match(lines[opens]):
                closes = next(it for it in range(opens, len(lines)) if lines[it] == head[1] + "}")
                found.append((head[2], at, opens, closes))
                at = closes
        at += 1
    return found


@functools.cache
def bodies_of(edit):
    """The functions whose bodies an edit of code changes, as (path, name). None where it changes anything else, or where two functions of a file
    have that name."""
    if edit.kind != "code" or edit.made()[0] is None or edit.changed(".rt") != {edit.crate} or any(not it[0].endswith(".rt") for it in edit.pairs):
        return None
    found = set()
    for path, first, behind, _ in hunks_of(edit):
        functions = functions_of(text_of(path))
        name = next((it[0] for it in functions if it[2] < first and behind <= it[3]), None)
        if [it[0] for it in functions].count(name) != 1:
            return None
        found.add((path, name))
    return found


def path_of(path, name):
    """The path below its crate by which a check names this function. A method of an impl of a trait stands below the type's name and the trait's."""
    modules, lines = path.split("/src/")[1].removesuffix(".rt").split("/"), text_of(path).split("\n")
    first = next(it[1] for it in functions_of(text_of(path)) if it[0] == name)
    impl = next((line for line in reversed(lines[:first]) if line.startswith(("impl", "}"))), "") if lines[first].startswith(" ") else ""
    of_type = IMPL.match(impl)
    return "::".join([*(it for it in modules if it not in ("lib", "main")), *([of_type[2] + (of_type[1] or "")] if of_type else []), name])


def asked_of(edits):
    """The words that ask a check for the functions alone whose bodies these edits change, or none where an edit changes anything else."""
    found = set()
    for edit in edits:
        if bodies_of(edit) is None:
            return []
        found.update(path_of(*it) for it in bodies_of(edit))
    return [word for it in sorted(found) for word in ("--only", it)]
