"""Edits: how they are read, found and made."""
import functools
import hashlib
import os
import re
import subprocess

from .crates import TOP, stands_on

FOLDER = os.path.join(TOP, "wrong-bodies")
# the crate with the theorems over all runs
LAWS = "tp_runs"


@functools.cache
def text_of(path):
    """A file of the repository as it stands, or None."""
    try:
        with open(os.path.join(TOP, path), encoding="utf-8") as it:
            return it.read()
    except OSError:
        return None


class Edit:
    """An edit: its kind (code, rows, or gate for those that the gate tries), the crate of its folder, its name, and its pairs
    (path from the top, old text, new text) in their order."""

    def __init__(self, path):
        within = os.path.relpath(path, TOP).split(os.sep)
        self.kind, self.crate = ("gate", within[1]) if within[0] == "crates" else (within[1], within[2])
        self.name = within[-1].removesuffix(".edit")
        self.label = f"{self.kind}/{self.crate}/{self.name}"
        with open(path, encoding="utf-8") as it:
            text = it.read()
        self.sum = hashlib.sha256(text.encode()).hexdigest()[:16]
        front = f"crates/{self.crate}/" if self.kind == "gate" else ""
        self.pairs, at, old = [], None, None
        for line in text.split("\n"):
            if line.startswith("file: "):
                at = front + line[6:].strip()
            elif line.startswith("old: "):
                old = line[5:].replace("⏎", "\n")
            elif line.startswith("new:"):
                self.pairs.append((at, old, line[4:].removeprefix(" ").replace("⏎", "\n")))

    def changed(self, ending=""):
        """The crates of which it changes a file with this ending."""
        return {path.split("/")[1] for path, _, _ in self.pairs if path.endswith(ending)}

    def checked_crate(self):
        """The crate that is checked with the edit."""
        return LAWS if self.kind == "rows" and self.crate in stands_on(LAWS) else self.crate

    def crates(self):
        """The crates whose change may change what comes of the edit."""
        return self.changed() | {self.checked_crate()}

    def made(self):
        """The texts of the files that it changes, by their paths, and None; or None and why it cannot be made."""
        texts = {}
        for path, old, new in self.pairs:
            text = texts.get(path) or text_of(path)
            if text is None:
                return None, f"there is no file {path}"
            if text.count(old) != 1:
                return None, f"an old text stands in {path} {text.count(old)} times: {old.strip()[:60]!r}"
            texts[path] = text.replace(old, new)
        return (texts, None) if texts else (None, "it changes nothing")


def all_edits():
    found = []
    for folder in (FOLDER, *(os.path.join(TOP, "crates", it, "must-fail") for it in sorted(os.listdir(os.path.join(TOP, "crates"))))):
        for at, folders, files in os.walk(folder):
            folders.sort()
            found += [Edit(os.path.join(at, it)) for it in sorted(files) if it.endswith(".edit")]
    return found


def edits_of(words, since):
    """The edits that these words and this commit ask for."""
    found = all_edits()
    if since:
        ran = subprocess.run(["git", "diff", "--name-only", since, "--", "crates"], cwd=TOP, capture_output=True, text=True, check=True)
        changed = {it.split("/")[1] for it in ran.stdout.split() if re.match(r"crates/\w+/(src|specs|proofs)/", it)}
        return [it for it in found if it.crates() & changed]
    return [it for it in found if it.name in words or it.label in words or it.crates() & set(words)] if words else found
