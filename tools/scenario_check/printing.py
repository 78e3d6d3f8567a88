"""What is told of a place in a text: words, the text there with carets, and notes, in lines of 100 columns."""
import textwrap
import unicodedata

COLUMNS = 100
INDENT = "    "
BEFORE = 50
COLOURS = {"refused": "\033[1;31m", "warning": "\033[1;35m", "caret": "\033[1;32m", "bold": "\033[1m"}
PLAIN = "\033[0m"


def visible(letter):
    """A character that can be printed for a character of a text."""
    return letter if letter.isprintable() else " " if letter == "\t" else "?"


def cells(letter):
    """How many columns a character takes on a terminal."""
    if unicodedata.combining(letter):
        return 0
    return 2 if unicodedata.east_asian_width(letter) in ("W", "F") else 1


def width(text):
    return len(text) if text.isascii() else sum(map(cells, text))


class Printer:
    """Makes the blocks of a text. Its name is printed before each place."""

    def __init__(self, name, text, is_coloured=False):
        self.name, self.text, self.is_coloured = "".join(map(visible, name)), text, is_coloured
        self.counted_to, self.line = 0, 1

    def coloured(self, colour, words):
        return f"{COLOURS[colour]}{words}{PLAIN}" if self.is_coloured and words else words

    def line_of(self, at):
        """The number of the line in which a place stands."""
        if at >= self.counted_to:
            self.line += self.text.count("\n", self.counted_to, at)
        else:
            self.line -= self.text.count("\n", at, self.counted_to)
        self.counted_to = at
        return self.line

    def head(self, place, word, rest):
        """The first line of a block. Its word says of what kind it is."""
        return f"{self.coloured('bold', f'{self.name}:{place}')} {self.coloured(word, word)} {rest}"

    def block(self, place, word, rest, notes):
        """What is told of a place, which is a start and an end, with notes that have a head each."""
        start, end = place
        front = self.text.rfind("\n", 0, start) + 1
        behind = self.text.find("\n", start)
        behind = len(self.text) if behind < 0 else behind
        lines = [self.head(f"{self.line_of(start)}:{start - front + 1}:", word, rest)]
        lines += self.shown(front, behind, start, max(min(end, behind), start))
        for head, note in notes:
            if note:
                lines += wrapped(head, note)
        return "\n".join(lines) + "\n"

    def shown(self, front, behind, start, end):
        """The line of a text from a little before the place on, and carets below the place."""
        low = max(front, start - BEFORE)
        piece = "".join(map(visible, self.text[low:min(behind, low + COLUMNS)]))
        dots = ".." if low > front else ""
        room = COLUMNS - len(INDENT) - len(dots)
        while width(piece) > room:
            piece = piece[:-1]
        before, under = piece[:start - low], piece[start - low:end - low]
        carets = "^" * max(1, width(under))
        indent = INDENT + " " * (len(dots) + width(before))
        return [f"{INDENT}{dots}{piece}".rstrip(), indent + self.coloured("caret", carets)]


def wrapped(head, note):
    """The lines of a note behind its head."""
    head = INDENT + (f"{head}: " if head else "")
    return textwrap.wrap(note, COLUMNS, initial_indent=head, subsequent_indent=INDENT + "    ", break_on_hyphens=False)
