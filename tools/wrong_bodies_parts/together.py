"""Edits of code that are put before the prover together.

A function is proved of its own body and of the contracts of others. So edits that change the bodies of different functions of a crate are made in
one copy, and one check tells of all: an edit is refused where that tells an error in a function that the edit changes, by its line or in the folder
of its proof. An edit of which the check tells none is tried alone, and so is one that changes anything but bodies.
"""
import re
import time

from . import record, trials, verdicts
from .bodies import bodies_of, functions_of
from .front_end import hunks_of, text_with

PLACE = re.compile(r"^(?:note: )?(?:\./)?(\S+?):(\d+):\d+: ")


def groups_of(edits):
    """The edits in groups, each of which is tried at once: edits that change bodies of different functions of a crate, or one edit."""
    groups = []
    for edit in edits:
        bodies = bodies_of(edit)
        group = next((it for it in groups if bodies and it[1] and it[0][0].crate == edit.crate and not it[1] & bodies), None)
        if group:
            group[0].append(edit)
            group[1].update(bodies)
        else:
            groups.append(([edit], set(bodies or ())))
    return [members for members, _ in groups]


def is_of(told, edit, functions):
    """Whether what a check told stands in a function that the edit changes."""
    place, number = told[1], int(told[2]) - 1
    for path, name in bodies_of(edit):
        within = path.removeprefix(f"crates/{edit.crate}/")
        _, first, _, last = next(it for it in functions[path] if it[0] == name)
        if place == within and first <= number <= last:
            return True
        if re.fullmatch(rf"proofs/{within[4:-3]}/(?:[^/]+/)?{name}/\w+\.antt", place):
            return True
    return False


def verdict_on(edit, said, functions):
    """What a check of many edits says of one, or None where that is not to be told from it."""
    told = [line for line in said.split("\n") if not (place := PLACE.match(line)) or is_of(place, edit, functions)]
    if not any(map(PLACE.match, told)):
        return None
    verdict = verdicts.of_code(False, "\n".join(told), {path.removeprefix(f"crates/{edit.crate}/") for path, _ in bodies_of(edit)})
    return verdict if verdict[0] in record.REFUSED else None


def tried(edits, room):
    """Puts the edits of a group before the prover. Gives each with what is recorded of it; of those that one check told of, each has its share of the
    time. Where it told of none, as where one of them cannot be compiled, each half is tried by itself."""
    if len(edits) == 1:
        yield edits[0], trials.tried(edits[0], room)
        return
    began = time.monotonic()
    texts = {path: text_with(path, [it for edit in edits for it in hunks_of(edit)]) for path in {it[0] for edit in edits for it in edit.pairs}}
    at, passed, said = room.check(edits, texts)
    functions = {path: functions_of(text) for path, text in texts.items()}
    found = {} if passed else {edit: verdict for edit in edits if (verdict := verdict_on(edit, said, functions))}
    seconds = round((time.monotonic() - began) / max(len(found), 1), 1)
    for edit, (verdict, by) in found.items():
        yield edit, {**record.sources_of(edit, at), "verdict": verdict, "by": by, "seconds": seconds}
    left = [it for it in edits if it not in found]
    half = len(left) // 2 if not found else 0
    for group in (left[:half], left[half:]) if half else ([it] for it in left):
        yield from tried(group, room)
