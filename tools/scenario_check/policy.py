"""The policy language, by bytes. The place of a fault is the first byte at which no text of the grammar goes on."""
import re

BLANKS = re.compile(r"[ \t\n\r]*")
LONGEST_NAME = re.compile(r"[a-z][a-z0-9_]{0,31}")
LETTERS = frozenset("abcdefghijklmnopqrstuvwxyz")
DIGITS = frozenset("0123456789")
WORD = LETTERS | DIGITS | {"_"}
NAME_MAX, DIGITS_MAX, DEPTH_MAX = 32, 15, 16


class NoPolicy(Exception):
    """The text is no policy: the word of the refusal, the place, what is wanted, and words that may have been meant."""

    def __init__(self, word, at, wanted, known=()):
        super().__init__(wanted)
        self.word, self.at, self.wanted, self.known = word, at, wanted, known


class Atom:
    """That a credential of an issuer has an attribute with such a value, and where this stands in the text."""

    def __init__(self, issuer, attr, sign, value, start, end):
        self.issuer, self.attr, self.sign, self.value = issuer, attr, sign, value
        self.start, self.end = start, end

    def atoms(self):
        return [self]

    def is_met_by(self, value):
        if self.sign == "=":
            return type(value) is type(self.value) and value == self.value
        if isinstance(value, str):
            return False
        return value >= self.value if self.sign == ">=" else value <= self.value


class Condition:
    """Atoms and conditions joined by `and` or `or`. The word `true` is an And of none."""

    def __init__(self, word, members):
        self.word, self.members = word, members

    def atoms(self):
        return [atom for member in self.members for atom in member.atoms()]


class Allowance:
    """A rule: an action, a pattern of items, and a condition. It has the start and the end of the pattern in the text, and
    those of an `and` beside an `or` without parentheses, or None."""

    def __init__(self, action, pattern, is_prefix, condition, about, beside=None):
        self.action, self.pattern, self.is_prefix, self.condition = action, pattern, is_prefix, condition
        self.about, self.beside = about, beside

    def is_about_item(self, item):
        return item.startswith(self.pattern) if self.is_prefix else item == self.pattern


class Parser:
    """Reads a policy from its first character on."""

    def __init__(self, text):
        self.text, self.at, self.depth, self.beside = text, 0, 0, None

    def policy(self):
        """The rules that the text says."""
        rules = []
        self.skip_blanks()
        while self.at < len(self.text):
            rules.append(self.rule())
            self.skip_blanks()
        return rules

    def here(self):
        return self.text[self.at:self.at + 1]

    def stop(self, wanted, known=()):
        raise NoPolicy("syntax", self.at, wanted, known)

    def skip_blanks(self):
        self.at = BLANKS.match(self.text, self.at).end()

    def word(self, *words):
        """One of these words, or signs."""
        for word in words:
            if self.is_word(word):
                return word
        return self.part_of_word(words)

    def part_of_word(self, words):
        """Stops behind as much of one of the words as stands here."""
        left, length = words, 0
        while True:
            letter = self.here()
            longer = [word for word in left if letter and word[length:length + 1] == letter]
            if longer:
                left, length, self.at = longer, length + 1, self.at + 1
                continue
            self.stop("one of " + "  ".join(words) if len(words) > 1 else f"the word {words[0]}", words)

    def name(self, wanted="a name"):
        found = LONGEST_NAME.match(self.text, self.at)
        if not found:
            self.stop(f"{wanted}: it begins with a lower-case letter")
        self.at = found.end()
        if self.here() in WORD:
            self.stop(f"a name of at most {NAME_MAX} letters, digits and _")
        return found.group()

    def rule(self):
        self.word("allow")
        action = self.word("read", "write", "any")
        self.word("on")
        self.skip_blanks()
        start = self.at
        pattern = "" if self.here() == "*" else self.name("an item, a prefix with * behind it, or *")
        is_prefix = self.here() == "*"
        self.at += is_prefix
        about = start, self.at
        self.word("if")
        self.beside = None
        condition = self.condition()
        self.word("and", "or", ";")
        return Allowance(action, pattern, is_prefix, condition, about, self.beside)

    def joined(self, word, member):
        """Members with a word between them; one alone is itself."""
        members = [member()]
        while self.is_word(word):
            members.append(member())
        return members[0] if len(members) == 1 else Condition(word, members)

    def is_word(self, word):
        """Whether the word, or sign, stands here; then it is passed."""
        self.skip_blanks()
        end = self.at + len(word)
        if not self.text.startswith(word, self.at) or word[-1] in WORD and self.text[end:end + 1] in WORD:
            return False
        self.at = end
        return True

    def condition(self):
        both = []
        condition = self.joined("or", lambda: self.conjunction(both))
        if isinstance(condition, Condition) and condition.word == "or" and both and self.beside is None:
            self.beside = both[0]
        return condition

    def conjunction(self, both):
        """Parts with `and` between them. Where there are several, their place is added to `both`."""
        self.skip_blanks()
        start, count = self.at, 0

        def part():
            nonlocal count
            count += 1
            return self.part()

        made = self.joined("and", part)
        if count > 1:
            both.append((start, self.at))
        return made

    def part(self):
        self.skip_blanks()
        if self.here() == "(":
            return self.inner()
        start = self.at
        issuer = self.name("an issuer, the word true, or (")
        if self.here() != "." and issuer == "true":
            return Condition("and", [])
        if self.here() != ".":
            self.stop(". and an attribute right behind the issuer, as in hospital.role = nurse", ("true",))
        self.at += 1
        attr = self.name("an attribute")
        sign = self.sign()
        self.skip_blanks()
        value = self.name() if sign == "=" and self.here() in LETTERS else self.integer(sign)
        return Atom(issuer, attr, sign, value, start, self.at)

    def inner(self):
        """A condition in parentheses."""
        if self.depth == DEPTH_MAX:
            raise NoPolicy("toodeep", self.at, f"at most {DEPTH_MAX} parentheses within one another")
        self.depth += 1
        self.at += 1
        condition = self.condition()
        self.word("and", "or", ")")
        self.depth -= 1
        return condition

    def sign(self):
        self.skip_blanks()
        first = self.here()
        if first not in ("=", ">", "<"):
            self.stop("one of the signs =  >=  <=")
        self.at += 1
        if first == "=":
            return first
        if self.here() != "=":
            self.stop(f"= right behind {first}: the signs are =, >= and <=")
        self.at += 1
        return first + "="

    def integer(self, sign):
        start = self.at
        self.at += self.here() == "-"
        is_minus, first = self.at > start, self.at
        if self.here() in ("=", "<", ">"):
            self.stop("a number or a name: the signs are =, >= and <=")
        if self.here() not in DIGITS:
            self.stop("a number or a name, without quotes" if sign == "=" and not is_minus else "a number")
        if is_minus and self.here() == "0":
            self.stop("a digit from 1 to 9")
        while self.here() in DIGITS:
            if self.text[first] == "0" and self.at > first:
                self.stop("a number without a zero in front")
            if self.at - first == DIGITS_MAX:
                self.stop(f"a number of at most {DIGITS_MAX} digits")
            self.at += 1
        if self.here() in WORD:
            self.stop("a blank, and then and, or, ) or ;")
        return int(self.text[start:self.at])


def policy_of(text):
    """The rules that a text says, or NoPolicy."""
    return Parser(text).policy()
