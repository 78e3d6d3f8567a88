"""Whether the compiler's front end takes an edit: its names, its arities, its types. Nothing is proved.

Edits that do not meet in a line are put into one copy, which the front end reads once; where it refuses that, each half is tried by itself.
A library below is read as it was built where that is newer than its sources, and else from its sources, which takes longer.
"""
import difflib
import functools
import os
import re
import shutil
import subprocess
import tempfile

from .crates import SOURCES, TOP, between, built, kit_below, lines, stands_on
from .edits import text_of

PASSED = re.compile(r"^only=\d+ proved=\d+\s*\Z", re.M)
# one copy takes no more edits than this, so that a pass that is refused is soon taken apart
EDITS_AT_ONCE = 24


@functools.cache
def kit():
    """The folder of the toolchain."""
    ran = subprocess.run(["rt", "doc"], capture_output=True, text=True, check=True)
    return os.path.dirname(ran.stdout.strip())


def hunks_of(edit):
    """What the edit does to the lines of each file of code: (path, first line, line behind the last, the new lines)."""
    found = []
    for path, text in edit.made()[0].items():
        if path.endswith(".rt"):
            old, new = text_of(path).split("\n"), text.split("\n")
            for kind, first, behind, begins, ends in difflib.SequenceMatcher(None, old, new, autojunk=False).get_opcodes():
                if kind != "equal":
                    found.append((path, first, behind, new[begins:ends]))
    return found


def meet(hunks, others):
    """Whether two edits change a line of one file, or put lines at one place."""
    return any(one[0] == other[0] and one[1] <= other[2] and other[1] <= one[2] for one in hunks for other in others)


def passes_of(edits):
    """The edits in groups of which no two meet, and which have one highest crate."""
    groups = []
    for edit in edits:
        root = max(edit.changed(".rt"), key=lambda it: len(stands_on(it)))
        hunks = hunks_of(edit)
        for other, members in groups:
            if other == root and len(members) < EDITS_AT_ONCE and not any(meet(hunks, it) for _, it in members):
                members.append((edit, hunks))
                break
        else:
            groups.append((root, [(edit, hunks)]))
    return groups


def text_with(path, hunks):
    """A file of code with what these hunks do to it."""
    text = text_of(path).split("\n")
    # from the last to the first, so that the numbers of the lines before stay
    for _, first, behind, new in sorted((it for it in hunks if it[0] == path), key=lambda it: -it[1]):
        text[first:behind] = new
    return "\n".join(text)


def written(members, room):
    """Copies the crates that these edits change into a room, with all the edits made."""
    changed = {path.split("/")[1] for _, hunks in members for path, _, _, _ in hunks}
    for crate in changed:
        for part in SOURCES:
            if os.path.isdir(os.path.join(TOP, "crates", crate, part)):
                shutil.copytree(os.path.join(TOP, "crates", crate, part), os.path.join(room, "crates", crate, part))
    for path in {it[0] for _, hunks in members for it in hunks}:
        with open(os.path.join(room, path), "w", encoding="utf-8") as out:
            out.write(text_with(path, [it for _, hunks in members for it in hunks]))
    return changed


def words_for(root, changed, room, asked):
    """The command by which the compiler reads a crate, over those in the room, and does what is asked. What stands on one of these is read
    from its sources."""
    words = [f"{kit()}/bin/rattle", "check", *asked, "--jobs", "1", "--crate-name", root, "--links", f"{root}="]
    is_program = os.path.isfile(os.path.join(TOP, "crates", root, "src", "main.rt"))
    words += [f"src/{'main' if is_program else 'lib'}.rt", "-L", f"dependency={kit()}/rlibs"]
    words += ["--antt-project", f"{kit()}/rattle/logic/antt-project.json", "--logic-built", f"{kit()}/logic_built"]
    for name in kit_below(root):
        words += ["--extern", f"{name}={kit()}/rlibs/{name}.rlib"]
    sources, above_changed = set(), set(between(changed, root))
    for name in stands_on(root)[:-1]:
        below = lines()[name][1]
        if name in above_changed or sources & set(below) or not built(name):
            sources.add(name)
            home = os.path.join(room if name in changed else TOP, "crates", name)
            words += ["--lib", f"{name}:{','.join(['core', 'std', *below])}={home}/src/lib.rt"]
        else:
            words += ["--extern", f"{name}={built(name)}", "-L", f"dependency={os.path.dirname(built(name))}"]
    return words


def said_by(words, home):
    """Whether a command passes in a folder, and what it says."""
    how = {"stdin": subprocess.DEVNULL, "stdout": subprocess.PIPE, "stderr": subprocess.STDOUT, "text": True, "errors": "replace"}
    told = subprocess.run(words, cwd=home, **how)
    return told.returncode == 0, told.stdout


def refusal(root, members):
    """What the front end says against these edits together, or None."""
    with tempfile.TemporaryDirectory(prefix="wrong-body-") as room:
        changed = written(members, room)
        home = os.path.join(room if root in changed else TOP, "crates", root)
        said = said_by(words_for(root, changed, room, ["--only", ""]), home)[1]
    if PASSED.search(said):
        return None
    found = [it for it in said.split("\n") if "error" in it] or said.strip().split("\n")[-1:]
    return found[0][:200]


def refused_of(root, members):
    """Of these edits each that the front end does not take, with what it says."""
    why = refusal(root, members)
    if why is None:
        return []
    if len(members) == 1:
        return [(members[0][0], why)]
    half = len(members) // 2
    return refused_of(root, members[:half]) + refused_of(root, members[half:])
