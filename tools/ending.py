"""How each tool ends: `--help` prints its head, and where a stream fails a line says so and the status tells it."""
import os
import sys

STREAMS = "Status 3 says that the input cannot be read, and 4 that the output cannot be written.\n"
READ, WRITTEN = 3, 4


class InputFails(Exception):
    """Standard input cannot be read."""


def standard_input():
    """All bytes of standard input, or InputFails."""
    return input_up_to(-1)


def input_up_to(most):
    """The bytes of standard input, or its first ones; or InputFails."""
    if sys.stdin is None:
        raise InputFails("it is closed")
    try:
        return sys.stdin.buffer.read(most)
    except OSError as why:
        raise InputFails(why.strerror) from why


def say(words):
    """A line on standard error, where there is one."""
    try:
        os.write(2, (words + "\n").encode(errors="replace"))
    except OSError:
        pass


def run(main, head):
    """Does `main` on the words, or prints the head for `--help`, and ends the process with its status."""
    name = "tools/" + os.path.basename(sys.argv[0])
    if sys.stdout is None:
        give_up(f"{name}: the output cannot be written: it is closed", WRITTEN)
    try:
        status = answer(main, head, sys.argv[1:])
        sys.stdout.flush()
    except InputFails as why:
        give_up(f"{name}: the input cannot be read: {why}", READ)
    except KeyboardInterrupt:
        give_up(f"{name}: interrupted", 130)
    except OSError as why:
        # what cannot be opened has a name, and what cannot be written has none
        if why.filename is not None:
            give_up(f"{name}: {why.filename}: {why.strerror}", 2)
        give_up(f"{name}: the output cannot be written: {why.strerror}", WRITTEN)
    sys.exit(status)


def answer(main, head, words):
    """The status of `main`, also where it leaves by sys.exit."""
    if set(words) & {"-h", "--help"}:
        sys.stdout.write(f"{head.strip()}\n\n{STREAMS}")
        return 0
    try:
        return main(words)
    except SystemExit as end:
        if isinstance(end.code, str):
            say(end.code)
            return 1
        return end.code or 0


def give_up(words, status):
    """Ends without a look at what could not be written."""
    say(words)
    os._exit(status)
