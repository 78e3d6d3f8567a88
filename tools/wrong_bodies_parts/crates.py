"""The crates of the repository: what each stands on, and the checksums of their sources."""
import functools
import hashlib
import os

TOP = os.path.dirname(os.path.dirname(os.path.dirname(os.path.abspath(__file__))))
SOURCES = ("src", "specs", "proofs")


@functools.cache
def lines():
    """The line of each crate in crates.txt, and the libraries that it names there."""
    with open(os.path.join(TOP, "crates.txt"), encoding="utf-8") as it:
        said = [line.rstrip("\n").partition(":") for line in it if ":" in line and not line.startswith("#")]
    return {name.split()[0]: (f"{name}:{below}", below.split()) for name, _, below in said}


@functools.cache
def stands_on(crate):
    """All crates of the repository that a crate stands on, each after those that it stands on itself, and at the end the crate."""
    found = []
    for name in lines()[crate][1]:
        if name in lines():
            found += [it for it in stands_on(name) if it not in found]
    return (*found, crate)


def kit_below(crate):
    """The libraries of the toolchain that the crate and those that it stands on name."""
    return sorted({it for name in stands_on(crate) for it in lines()[name][1] if it not in lines()} | {"core", "std"})


def between(changed, crate):
    """Of the crates that a crate stands on, and of itself, those that stand on one that is changed, lowest first."""
    return [it for it in stands_on(crate) if set(changed) & set(stands_on(it))]


def files_of(crate):
    """The source files of a crate, in a fixed order."""
    found = []
    for part in SOURCES:
        for at, folders, files in os.walk(os.path.join(TOP, "crates", crate, part)):
            folders.sort()
            found += [os.path.join(at, it) for it in sorted(files)]
    return found


@functools.cache
def sum_of(crate):
    """The checksum of a crate's sources."""
    total = hashlib.sha256()
    for file in files_of(crate):
        with open(file, "rb") as it:
            total.update(repr((os.path.relpath(file, TOP), it.read())).encode())
    return total.hexdigest()[:16]


def sum_below(crate, apart):
    """The checksum of the sources of all that a crate stands on, and of itself, but of those that stand apart."""
    total = "".join(f"{it} {sum_of(it)} " for it in sorted(stands_on(crate)) if it not in apart)
    return hashlib.sha256(total.encode()).hexdigest()[:16]


@functools.cache
def newest(crate):
    """When the sources of a crate and of all that it stands on were changed last."""
    return max(os.stat(it).st_mtime for name in stands_on(crate) for it in files_of(name))


def library(crate):
    return os.path.join(TOP, "crates", crate, "out", "rlib", f"{crate}.rlib")


def built(crate):
    """The folder of a library as it was built of its present sources, or None."""
    return library(crate) if os.path.isdir(library(crate)) and os.stat(library(crate)).st_mtime >= newest(crate) else None


def known_built(crate):
    """Notes that the libraries below a crate are those of their present sources, as a check of the crate has seen by their checksums."""
    for name in stands_on(crate)[:-1]:
        if os.path.isdir(library(name)):
            os.utime(library(name))
