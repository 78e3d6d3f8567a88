"""Edits put before the prover. Each is made in a copy, whose check begins with what the checks of the repository have kept.

What is kept is linked and not copied, for it has gigabytes: a check writes a file beside the old one and renames it, so what stands in the
repository stays as it is. Sources are copied.

Of an edit of a row each crate that it changes is proved, and then the theorems are checked over its sources and those of the crates between:
so the code of these, which speaks of rows by their names alone, is not proved again.
"""
import os
import shutil
import subprocess
import tempfile
import threading
import time

from . import bodies, verdicts
from .crates import SOURCES, TOP, between, built, known_built, lines, stands_on
from .edits import LAWS
from .front_end import said_by, words_for
from .record import sources_of

# the crates with theorems over all runs, and of each the calls alone that they stand at
THEOREMS = {LAWS: ["--only", "history::facts", "--only", "laws"], "tp_auto": ["--only", "laws"]}


class NotProved(Exception):
    """A crate is not proved as it stands."""


def ran(crate, asked, top=TOP):
    """Whether the crate passes a check, and what that says."""
    return said_by(["rt", "check", "--jobs", "1", *asked], os.path.join(top, "crates", crate))


def asked_of(edit):
    return THEOREMS.get(edit.checked_crate(), []) if edit.kind == "rows" else []


def linked(source, target):
    """A folder again, of which each file is the same one, or a copy where the two lie on different disks."""
    if os.path.isdir(source):
        shutil.rmtree(target, ignore_errors=True)
        os.makedirs(os.path.dirname(target), exist_ok=True)
        if subprocess.run(["cp", "-al", source, target], stderr=subprocess.DEVNULL).returncode:
            shutil.rmtree(target, ignore_errors=True)
            subprocess.run(["cp", "-a", source, target], check=True)


class Seeds:
    """What checks of the theorems keep, where certain crates are read from their sources."""

    def __init__(self):
        self.top, self.made, self.making = tempfile.mkdtemp(prefix="wrong-body-"), {}, threading.Lock()

    def of(self, crate, sources):
        """The folder of what is kept where these crates are read from their sources. The first time it is made, from what each has kept."""
        with self.making:
            folder, lock = self.made.setdefault((crate, *sources), (os.path.join(self.top, str(len(self.made))), threading.Lock()))
        with lock:
            if not os.path.isdir(folder):
                os.makedirs(folder)
                for name in sources:
                    subprocess.run(["cp", "-an", "--link", os.path.join(TOP, "crates", name, "out", "incremental", "."), folder], stderr=subprocess.DEVNULL)
                words = words_for(crate, set(sources), TOP, [*THEOREMS[crate], "--incremental", folder])
                if not said_by(words, os.path.join(TOP, "crates", crate))[0]:
                    raise NotProved(crate)
        return folder

    def close(self):
        shutil.rmtree(self.top, ignore_errors=True)


class Room:
    """A copy of a crate and of those that it stands on, in which one edit after another is made."""

    def __init__(self, crate, seeds):
        self.crate, self.seeds, self.top = crate, seeds, tempfile.mkdtemp(prefix="wrong-body-")
        shutil.copy(os.path.join(TOP, "HANDLES"), self.top)
        with open(os.path.join(self.top, "crates.txt"), "w", encoding="utf-8") as out:
            out.write("".join(f"{lines()[it][0]}\n" for it in stands_on(crate)))
        for name in stands_on(crate):
            self.copy(name, SOURCES)
            self.link(name, "rlib")

    def copy(self, name, parts):
        for part in parts:
            source, target = (os.path.join(it, "crates", name, part) for it in (TOP, self.top))
            shutil.rmtree(target, ignore_errors=True)
            if os.path.isdir(source):
                shutil.copytree(source, target)

    def link(self, name, part):
        linked(*(os.path.join(it, "crates", name, "out", part) for it in (TOP, self.top)))

    def check(self, edits, texts):
        """Checks the crate with these edits, and puts the room back as it was. Gives the crate at which that ended, whether it passed, and what
        was said."""
        touched = between({self.crate, *(it for edit in edits for it in edit.changed())}, self.crate)
        for name in touched:
            self.link(name, "incremental")
        try:
            for path, text in texts.items():
                if path.split("/")[1] in touched:
                    with open(os.path.join(self.top, path), "w", encoding="utf-8") as out:
                        out.write(text)
            if asked_of(edits[0]):
                return self.check_theorems(edits[0], touched)
            return self.crate, *self.check_code(edits)
        finally:
            for name in touched:
                shutil.rmtree(os.path.join(self.top, "crates", name, "out", "incremental"), ignore_errors=True)
                self.copy(name, SOURCES)
                self.link(name, "rlib")

    def check_code(self, edits):
        asked = bodies.asked_of(edits)
        if asked:
            passed, said = said_by(words_for(self.crate, set(), self.top, asked), os.path.join(self.top, "crates", self.crate))
            if "has no function" not in said:
                return passed, said
        return ran(self.crate, [], self.top)

    def check_theorems(self, edit, touched):
        for name in touched:
            if name in edit.changed() and name not in THEOREMS:
                passed, said = ran(name, [], self.top)
                if not passed:
                    return name, passed, said
        kept = os.path.join(self.top, "kept")
        linked(self.seeds.of(self.crate, touched), kept)
        words = words_for(self.crate, set(touched), self.top, [*THEOREMS[self.crate], "--incremental", kept])
        return self.crate, *said_by(words, os.path.join(self.top, "crates", self.crate))

    def close(self):
        shutil.rmtree(self.top, ignore_errors=True)


def tried(edit, room):
    """Puts an edit before the prover. Gives what is recorded of it."""
    began, (texts, why) = time.monotonic(), edit.made()
    if texts is None:
        at, verdict = edit.checked_crate(), ("DOES NOT FIT", why)
    else:
        at, passed, said = room.check([edit], texts)
        own = {path.removeprefix(f"crates/{at}/") for path in texts if path.startswith(f"crates/{at}/")}
        verdict = verdicts.of_row(passed, said) if edit.kind == "rows" else verdicts.of_code(passed, said, own)
    return {**sources_of(edit, at), "verdict": verdict[0], "by": verdict[1], "seconds": round(time.monotonic() - began, 1)}


def is_ready(crate):
    """Whether the crate is proved as it stands, with work that was kept."""
    return built(crate) and os.path.isdir(os.path.join(TOP, "crates", crate, "out", "incremental"))


def brought_up(edits):
    """Proves in the repository what the trials of these edits begin with, where that is not done. Gives a crate that is not proved, or None."""
    asked = {}
    for edit in (it for it in edits if not bodies.asked_of([it])):
        crate, words = edit.checked_crate(), asked_of(edit)
        asked[crate] = words if asked.get(crate, words) else []
    # from the highest on, since a check of a crate sees by their checksums whether those below are built
    for crate in sorted(asked, key=lambda it: -len(stands_on(it))):
        if not is_ready(crate):
            if not ran(crate, asked[crate])[0]:
                return crate
            known_built(crate)
    return None
