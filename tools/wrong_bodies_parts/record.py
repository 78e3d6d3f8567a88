"""wrong-bodies/tried.json: of each edit what came of it when it was tried last, and of which sources.

    edit      the checksum of the edit
    at        the crate whose check decided
    sources   the checksums of the sources of that crate and of those that the edit changes
    below     one checksum of the sources of all others that the crate at which it was decided stands on
    verdict, by, seconds   what came of it, what said so, and how long that took: of those that were tried together, its share
"""
import contextlib
import fcntl
import json
import os

from .crates import sum_below, sum_of
from .edits import FOLDER

FILE = os.path.join(FOLDER, "tried.json")
REFUSED = ("refused", "LOOK")


def read(file=FILE):
    """What is recorded, by the label of the edit."""
    if not os.path.exists(file):
        return {}
    with open(file, encoding="utf-8") as it:
        return json.load(it)


@contextlib.contextmanager
def held():
    """Keeps other runs of this tool from the record."""
    folder = os.open(FOLDER, os.O_RDONLY)
    try:
        fcntl.flock(folder, fcntl.LOCK_EX)
        yield
    finally:
        os.close(folder)


def note(entries, known):
    """Adds entries to the record, and drops those of edits that are gone. The file is replaced whole, so a run may stop at any time."""
    with held():
        kept = {label: it for label, it in {**read(), **entries}.items() if label in known}
        rows = [f"  {json.dumps(label)}: {json.dumps(kept[label], ensure_ascii=False)}" for label in sorted(kept)]
        with open(f"{FILE}.new", "w", encoding="utf-8") as out:
            out.write("{\n" + ",\n".join(rows) + "\n}\n")
        os.replace(f"{FILE}.new", FILE)


def sources_of(edit, at):
    """The checksums on which rests what came of an edit at a crate."""
    own = sorted(edit.changed() | {at})
    return {"edit": edit.sum, "at": at, "sources": {it: sum_of(it) for it in own}, "below": sum_below(at, own)}


def why_stale(edit, entry):
    """Why an edit is to be tried again, or None."""
    if entry is None:
        return "was never tried"
    now = sources_of(edit, entry["at"])
    if now["edit"] != entry["edit"]:
        return "has changed since it was tried"
    moved = [it for it, found in now["sources"].items() if entry["sources"].get(it) != found]
    if moved:
        return f"was tried before {' and '.join(moved)} changed"
    if now["below"] != entry["below"]:
        return f"was tried before a crate below {entry['at']} changed"
    return None if entry["verdict"] in REFUSED else f"was not refused when it was tried: {entry['verdict']}"


def has_moved(edit, entry):
    """Whether a crate of which the edit changes the code has changed itself since the edit was tried, or the edit has."""
    return entry is None or edit.sum != entry["edit"] or any(entry["sources"].get(it) != sum_of(it) for it in edit.changed(".rt"))
