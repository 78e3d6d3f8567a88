"""Damage at random: a scenario of which something is changed, as a value or as a text."""
import copy
import json

from .made import NAMES

NUMBERS = [
    -1, 0, 1, 2, 4, 5, 8, 16, 17, 64, 65, 255, 256, 10 ** 6, 10 ** 12, 10 ** 12 + 1, 10 ** 15 - 1, 10 ** 15,
    10 ** 15 + 1, 2 ** 63 - 1, 2 ** 63, 2 ** 64,
]
VALUES = [
    None, True, False, 1.5, -0.0, 1e3, "", " ", "X", "r1", [], {}, [1], {"a": 1}, "1", "a b", "_a", "9a", "a" * 33,
    "\u00e9", "\U0001f600",
]
WORDS = [
    "read", "write", "into", ":=", "+", "-", "r0", "r1", "r9", "r10", "0", "-0", "7", "-7", "00", "9" * 15,
    "1" + "0" * 15, "submit", "publish", "push", "revoke", "tick", "deliver", "lose", "crash", "boot", "timer", "in",
    "at", "fill", "5", "256", "1000000", "1000001", "allow", "any", "on", "if", "*", "true", "and", "or", "(", ")", ";",
    "h.role", "=", ">=", "<=", ">", "nurse", "\t", "\n", "",
]
LETTERS = list("{}[]\",:\\/ \t\n0123456789-+.eEnulltrfasdx_;*()=<>'#\u00e9\u0000")
BYTES = [
    b"\xff", b"\xc3", b"\xed\xa0\x80", b"\x00", b"\\u0061", b"\\ud83d\\ude00", b"\\ud800", b"\xef\xbb\xbf", b"1e999",
    b"// a\n", b"[" * 130, b"0" * 400,
]


class Damage:
    """Damages scenarios from one source of chance. Of other scenarios it takes parts."""

    def __init__(self, chance):
        self.chance, self.parts = chance, []

    def text(self, scenario):
        """The bytes of a scenario with one to three damages."""
        value = copy.deepcopy(scenario)
        for _ in range(self.chance.choice([0, 1, 1, 1, 2])):
            value = self.changed(value)
        indent = self.chance.choice([None, None, 1, 2])
        text = json.dumps(value, indent=indent, ensure_ascii=self.chance.random() < 0.5)
        data = text.encode("utf-8", "surrogatepass")
        for _ in range(self.chance.choice([0, 0, 0, 0, 1, 1, 2])):
            data = self.bytes_changed(data)
        return data

    def places(self, value, around=None, key=None):
        """All values in a value, each with what is around it and its key there."""
        found = [(around, key, value)]
        members = value.items() if isinstance(value, dict) else enumerate(value) if isinstance(value, list) else ()
        for inner_key, inner in members:
            found += self.places(inner, value, inner_key)
        return found

    def changed(self, value):
        """The value with something in it changed."""
        around, key, inner = self.chance.choice(self.places(value))
        if around is None or self.chance.random() < 0.3:
            texts = [it for it in self.places(value) if isinstance(it[2], str)]
            if not texts:
                return value
            around, key, inner = self.chance.choice(texts)
        self.parts = [*self.parts[-200:], copy.deepcopy(inner)]
        if around is not None:
            self.put(around, key, inner)
        return value

    def put(self, around, key, inner):
        kind = self.chance.randrange(6)
        if kind == 0 and isinstance(around, dict):
            self.change_key(around, key, inner)
        elif kind == 1:
            del around[key]
        elif kind == 2:
            around[key] = copy.deepcopy(self.chance.choice([*VALUES, *NUMBERS, *NAMES, *self.parts]))
        elif isinstance(inner, str):
            around[key] = self.words_changed(inner)
        elif isinstance(inner, list):
            around[key] = self.list_changed(inner)
        elif isinstance(inner, int):
            around[key] = self.chance.choice([inner + 1, inner - 1, -inner, str(inner), float(inner), *NUMBERS])

    def change_key(self, around, key, inner):
        del around[key]
        around[self.chance.choice([key + "s", key[:-1], key.upper(), key, "\u00e9", "hq", *NAMES])] = inner
        if self.chance.random() < 0.3:
            around[self.chance.choice(["extra", *NAMES])] = copy.deepcopy(inner)

    def list_changed(self, members):
        kind, members = self.chance.randrange(4), list(members)
        if kind == 0:
            return []
        if kind == 1 and members:
            return [*members, copy.deepcopy(self.chance.choice(members))]
        if kind == 2 and members:
            return (members * 300)[:self.chance.choice([9, 16, 17, 64, 65, 128, 129, 256, 257])]
        self.chance.shuffle(members)
        return members

    def words_changed(self, text):
        """A text with a word or a letter of it changed."""
        words = text.split(" ")
        at, kind = self.chance.randrange(len(words)), self.chance.randrange(6)
        if kind == 0:
            words[at:at + 1] = []
        elif kind == 1:
            words.insert(at, self.chance.choice([*WORDS, *NAMES]))
        elif kind == 2:
            words[at] = self.chance.choice([*WORDS, *NAMES])
        elif kind == 3:
            place = self.chance.randrange(len(words[at]) + 1)
            words[at] = words[at][:place] + self.chance.choice(LETTERS) + words[at][place + self.chance.randrange(2):]
        elif kind == 4:
            words = words * self.chance.choice([2, 3, 20])
        else:
            words[at] = "(" * self.chance.choice([1, 2, 16, 17]) + words[at]
        return " ".join(words)

    def bytes_changed(self, data):
        """Bytes of which some are left out, added or changed."""
        at, kind = self.chance.randrange(len(data) + 1), self.chance.randrange(5)
        if kind == 0:
            return data[:at] + data[at + self.chance.choice([1, 1, 2, 20]):]
        if kind == 1:
            return data[:at] + self.chance.choice(BYTES) + data[at:]
        if kind == 2:
            return data[:at]
        return data[:at] + self.chance.choice(LETTERS).encode() + data[at + kind - 3:]
