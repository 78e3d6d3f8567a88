"""JSON with places. The place of a fault is the first character at which no JSON text goes on.

Nodes are made where the rules ask for a value, so that a long text of something else takes no room.
"""
import re

DEPTH_MAX = 127
STRANGE_MAX = 1000
BLANKS = re.compile(r"[ \t\n\r]*")
PLAIN = re.compile(r'"[^"\\\x00-\x1f]*"')
PLAIN_PART = re.compile(r'[^"\\\x00-\x1f]+')
NUMBER = re.compile(r"-?(?:0|[1-9][0-9]*)(\.[0-9]+)?([eE][+-]?[0-9]+)?")
HALF = re.compile(r"[0-9a-fA-F]{0,4}")
# a member of a list that is a plain text or a short number, and what stands behind it; a key and its colon
MEMBER = re.compile(r'(?:"([^"\\\x00-\x1f]*)"|(0|-?[1-9][0-9]{0,17}))[ \t\n\r]*(,[ \t\n\r]*|\])')
KEY = re.compile(r'"([^"\\\x00-\x1f]*)"[ \t\n\r]*:[ \t\n\r]*')
ESCAPES = {'"': '"', "\\": "\\", "/": "/", "b": "\b", "f": "\f", "n": "\n", "r": "\r", "t": "\t"}
WORDS = {"t": "true", "f": "false", "n": "null"}


class NoJson(Exception):
    """The text goes on as no JSON here."""

    def __init__(self, at, wanted):
        super().__init__(wanted)
        self.at, self.wanted = at, wanted


class Node:
    """A value: a text, a whole number (None where it is no such number), or a word."""

    __slots__ = ("kind", "start", "end", "value")

    def __init__(self, kind, start, end, value=None):
        self.kind, self.start, self.end, self.value = kind, start, end, value


class Array(Node):
    """A list. The value has as many members as the rules ask for, and the count is that of all."""

    __slots__ = ("count",)

    def __init__(self, start, end, members, count):
        super().__init__("array", start, end, members)
        self.count = count


class Object(Node):
    """An object. The value has, by name, the key and the node of each key that the rules ask for (the last one)."""

    __slots__ = ("strange", "repeated")

    def __init__(self, start):
        super().__init__("object", start, start, {})
        self.strange, self.repeated = [], []


class Reader:
    """Reads a text from a place on."""

    def __init__(self, text, near):
        self.text, self.at, self.near = text, 0, near
        self.open = []

    def whole(self, rule):
        self.skip_blanks()
        node = self.value(rule, 0)
        self.skip_blanks()
        if self.at < len(self.text):
            raise NoJson(self.at, "the end of the text")
        return node

    def skip_blanks(self):
        self.at = BLANKS.match(self.text, self.at).end()

    def here(self):
        return self.text[self.at:self.at + 1]

    def value(self, rule, depth):
        """The node of a value, or None where no rule asks for one."""
        first, start = self.here(), self.at
        if first == '"':
            text = self.string(rule is not None)
            return None if rule is None else Node("string", start, self.at, text)
        if first in ("[", "{"):
            if depth == DEPTH_MAX:
                raise NoJson(start, f"at most {DEPTH_MAX} levels of lists and objects")
            wanted = rule and rule.fitting("array" if first == "[" else "map")
            return self.array(wanted, depth + 1) if first == "[" else self.object(wanted, depth + 1)
        if first in WORDS:
            return self.word(rule, WORDS[first])
        return self.number(rule)

    def word(self, rule, word):
        start = self.at
        for letter in word:
            if self.here() != letter:
                raise NoJson(self.at, f"the word {word}")
            self.at += 1
        return None if rule is None else Node(word, start, self.at)

    def number(self, rule):
        start = self.at
        found = NUMBER.match(self.text, start)
        if not found:
            minus = self.here() == "-"
            raise NoJson(start + minus, "a digit" if minus else "a value")
        self.at, digits = found.end(), found.group()
        if self.here() in (".", "e", "E"):
            self.broken_number(found)
        if len(digits) > 300 or found.group(2):
            if float(digits) in (float("inf"), float("-inf")):
                raise NoJson(start, "a smaller number: a double cannot hold this one")
        if rule is None:
            return None
        is_whole = found.lastindex is None and digits != "-0" and len(digits) < 25
        number = int(digits) if is_whole else None
        fits = is_whole and -2 ** 63 <= number < 2 ** 63
        return Node("number", start, self.at, number if fits else None)

    def broken_number(self, found):
        """Raises for a point or an exponent that no digit follows."""
        is_second = found.group(1) and self.here() == "." or found.group(2)
        if is_second:
            return
        self.at += 1
        if self.text[self.at - 1] != "." and self.here() in ("+", "-"):
            self.at += 1
        raise NoJson(self.at, "a digit")

    def string(self, is_wanted):
        """The text of a string, or None where it is not wanted."""
        found = PLAIN.match(self.text, self.at)
        if found:
            start, self.at = self.at, found.end()
            return self.text[start + 1:self.at - 1] if is_wanted else None
        self.at += 1
        parts = []
        while self.here() != '"':
            found = PLAIN_PART.match(self.text, self.at)
            if found:
                self.at = found.end()
                parts.append(found.group())
            elif self.here() == "\\":
                parts.append(self.escape())
            else:
                raise NoJson(self.at, 'a character of the text, or " at its end')
        self.at += 1
        return "".join(parts)

    def escape(self):
        self.at += 1
        letter = self.here()
        if letter in ESCAPES:
            self.at += 1
            return ESCAPES[letter]
        if letter != "u":
            raise NoJson(self.at, 'one of " \\ / b f n r t u')
        high = self.half()
        if not 0xD800 <= high < 0xE000:
            return chr(high)
        if high >= 0xDC00:
            raise NoJson(self.at - 3, "the first half of a character before the second")
        if self.text[self.at:self.at + 2] != "\\u":
            raise NoJson(self.at, "the second half of a character, as \\udc00")
        self.at += 1
        low = self.half()
        if not 0xDC00 <= low < 0xE000:
            is_begun = self.text[self.at - 4] in "dD"
            raise NoJson(self.at - 4 + is_begun, "the second half of a character, as \\udc00")
        return chr(0x10000 + ((high - 0xD800) << 10) + low - 0xDC00)

    def half(self):
        """The number behind a `u`."""
        digits = HALF.match(self.text, self.at + 1)
        self.at = digits.end()
        if len(digits.group()) < 4:
            raise NoJson(self.at, "a hexadecimal digit")
        return int(digits.group(), 16)

    def is_closed(self, end):
        """Whether a list or an object ends behind its bracket; else its first member stands here."""
        self.open.append(self.at)
        self.at += 1
        self.skip_blanks()
        if self.here() != end:
            return False
        self.open.pop()
        self.at += 1
        return True

    def is_last(self, end):
        """Whether a list or an object ends behind a member; else the next one stands here."""
        self.skip_blanks()
        sign = self.here()
        if sign not in (",", end):
            raise NoJson(self.at, f", or {end}")
        self.at += 1
        if sign == end:
            self.open.pop()
            return True
        self.skip_blanks()
        return False

    def array(self, rule, depth):
        start, members, count = self.at, [], 0
        member = rule.member if rule is not None and rule.kind == "array" else None
        most = rule.most if member is not None and rule.most is not None else float("inf")
        is_end = self.is_closed("]")
        while not is_end:
            wanted = member if count < most else None
            found = MEMBER.match(self.text, self.at)
            if found:
                is_end = self.plain(found, members if wanted is not None else None)
            else:
                node = self.value(wanted, depth)
                if node is not None:
                    members.append(node)
                is_end = self.is_last("]")
            count += 1
        return None if rule is None else Array(start, self.at, members, count)

    def plain(self, found, members):
        """Adds a plain member where members are wanted, and tells whether it is the last."""
        text, digits, sign = found.groups()
        self.at = found.end()
        if members is not None:
            at = 1 if digits is None else 2
            first, last = found.span(at)
            is_text = at == 1
            node = Node("string", first - 1, last + 1, text) if is_text else Node("number", first, last, int(digits))
            members.append(node)
        if sign != "]":
            return False
        self.open.pop()
        return True

    def object(self, rule, depth):
        made = Object(self.at) if rule is not None else None
        is_end = self.is_closed("}")
        while not is_end:
            self.member(made, rule, self.key(rule is not None), depth)
            is_end = self.is_last("}")
        if made is not None:
            made.end = self.at
        return made

    def key(self, is_wanted):
        """A key, or None where it is not wanted. Behind it and its colon stands its value."""
        start, found = self.at, KEY.match(self.text, self.at)
        if found:
            self.at = found.end()
            return Node("string", start, found.end(1) + 1, found.group(1)) if is_wanted else None
        if self.here() != '"':
            raise NoJson(start, 'a key in "')
        name = self.string(is_wanted)
        key = Node("string", start, self.at, name) if is_wanted else None
        self.skip_blanks()
        if self.here() != ":":
            raise NoJson(self.at, ":")
        self.at += 1
        self.skip_blanks()
        return key

    def member(self, made, rule, key, depth):
        """Reads the value of a key, and notes it where the rules ask for it or do not know the key."""
        if rule is None or rule.kind not in ("object", "map"):
            self.value(None, depth)
            return
        if rule.kind == "map" or key.value in rule.keys:
            if key.value in made.value:
                made.repeated.append(key)
            node = self.value(rule.keys.get(key.value, rule.member), depth)
            made.value[key.value] = (key, node)
            return
        meant = self.near(key.value, rule.keys) if len(made.strange) < STRANGE_MAX else None
        node = self.value(rule.keys.get(meant), depth)
        if len(made.strange) < STRANGE_MAX:
            made.strange.append((key, meant, node))


class Spots:
    """Where the characters of strings stand in the text. Those of the last string that has an escape are kept."""

    def __init__(self, text):
        self.text, self.node, self.spots = text, None, []

    def inside(self, node, start, end):
        """The place of a part of what a string says, which is at least a character long."""
        if node.end - node.start == len(node.value) + 2:
            first, last = node.start + 1 + start, node.start + 1 + end
        else:
            if node is not self.node:
                self.node, self.spots = node, spots_of(self.text, node)
            first, last = self.spots[start], self.spots[end]
        return first, min(max(last, first + 1), node.end)


def spots_of(text, node):
    """Where each character of a string begins in the text, and where its end stands."""
    reader, spots = Reader(text, None), []
    reader.at = node.start + 1
    while reader.at < node.end - 1:
        spots.append(reader.at)
        if reader.here() == "\\":
            reader.escape()
        else:
            reader.at += 1
    return [*spots, node.end - 1]
