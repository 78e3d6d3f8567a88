"""Queries and steps, word by word. The schema's pattern says which are right; where one is not, the words say why."""
import re

from .slips import of_query, of_step, strange_blank

NUMBER = re.compile(r"(0|[1-9][0-9]{0,14})\Z")
REGISTER = re.compile(r"r[1-9]\Z")
NAMES = {"TXN": "transaction", "ADMIN": "admin", "SERVER": "server", "CRED": "credential", "ACTOR": "actor"}
TERM = "a register r1 to r9, or a number of at most 15 digits, with spaces around it"


class Misspelled(Exception):
    """The text is not spelled as it is to be, from one place of it to another. Known words may have been meant."""

    def __init__(self, start, end, wanted, known=(), slip=None):
        super().__init__(wanted)
        self.start, self.end, self.wanted, self.known, self.slip = start, end, wanted, known, slip


class Said:
    """What a query or a step says: its verb, and its other words with their places."""

    def __init__(self, verb, words, places):
        self.verb, self.words, self.places = verb, words, places

    def number(self, at):
        return int(self.words[at])

    def is_cut(self):
        """Whether this is a crash in the receipt of a mail."""
        return self.verb == "crash" and len(self.words) > 2


def said(text):
    """The words of a text whose spelling is right."""
    words, places, at = text.split(" "), [], 0
    for word in words:
        places.append(at)
        at += len(word) + 1
    if "" in words:
        places = [place for word, place in zip(words, places) if word]
        words = [word for word in words if word]
    return Said(words[0], words, places)


def split(text):
    """The words of a text with their places, where blanks stand as they are to."""
    for at, letter in enumerate(text):
        if letter in "\t\n\r" or strange_blank(letter):
            raise Misspelled(at, at + 1, "a space: words are separated by spaces alone")
    if text[:1] == " " or text[-1:] == " ":
        at = 0 if text[:1] == " " else len(text.rstrip(" "))
        raise Misspelled(at, at + 1, "no space at the ends")
    return [(word.group(), word.start()) for word in re.finditer("[^ ]+", text)]


class Steps:
    """The forms of steps, as the schema's descriptions show them."""

    def __init__(self, rules):
        self.rules = {name: rule for name, rule in rules.by_name.items() if name.endswith("step")}
        self.name = rules.by_name["name"].pattern
        self.forms = [form.split(" ") for form, _ in self.rules["step"].forms()]
        self.by_length = {(form[0], len(form)): form for form in self.forms}

    def uses(self, step):
        """The places of the names in a step, each with the kind of what it names."""
        form = self.by_length[step.verb, len(step.words)]
        return [(at, NAMES[word]) for at, word in enumerate(form) if word in NAMES]

    def read(self, text, rule):
        """What a step says, and why it is out of range, or None."""
        if rule.pattern.match(text):
            return said(text), None
        self.explain(text)
        return said(text), self.beyond(text.split(" ")[0], rule)

    def beyond(self, verb, rule):
        """What a step that is spelled as one has to be in range."""
        noted = [f"{form} ({note})" for form, note in rule.forms() if note and form.split(" ")[0] == verb]
        return noted[0] if noted else "one of the steps " + ", ".join(form for form, _ in rule.forms())

    def explain(self, text):
        """Raises where a text is no step."""
        words, forms, at = split(text), self.forms, 0
        for word, place in words:
            left = [form for form in forms if len(form) > at and self.fits(form[at], word)]
            if not left:
                self.stop(forms, at, place, place + len(word), of_step(word, text[:place].rstrip()))
            forms, at = left, at + 1
        if not any(len(form) == at for form in forms):
            self.stop(forms, at, len(text), len(text))

    def fits(self, form, word):
        if form in NAMES:
            return self.name.match(word)
        return NUMBER.match(word) if form.isupper() else form == word

    def stop(self, forms, at, start, end, slip=None):
        """Raises for a word that fits none of the forms, or for one that is missing."""
        nexts = [form[at] for form in forms if len(form) > at]
        shown = "one of the steps " if at == 0 else ""
        shown += ", ".join(dict.fromkeys(form[0] if at == 0 else " ".join(form) for form in forms))
        wanted = f"no further word: {shown}"
        if at == 0:
            wanted = shown
        elif nexts:
            wanted = f"{self.meant(nexts[0])}: {shown}"
        raise Misspelled(start, end, wanted, [word for word in nexts if word.islower()], slip)

    def meant(self, word):
        if word in NAMES:
            return "a server or a transaction, by name" if word == "ACTOR" else "a name"
        return "a number of at most 15 digits" if word.isupper() else f"the word {word}"


class Queries:
    """The two forms of a query."""

    def __init__(self, rules):
        self.rule, self.name = rules.by_name["query"], rules.by_name["name"].pattern
        self.forms = {form.split(" ")[0]: form for form, _ in self.rule.forms()}

    def read(self, text):
        """What a query says, and why it is out of range, or None."""
        if self.rule.pattern.match(text):
            return said(text), None
        self.explain(text)
        return said(text), "at most five terms, and at most one number among them: " + self.forms["write"]

    def explain(self, text):
        """Raises where a text is no query."""
        words = iter(split(text))
        verb = self.word(words, text, "the word read or write", self.forms.__contains__, tuple(self.forms))
        form = self.forms[verb]
        self.word(words, text, f"an item, by name, and a space behind it: {form}", self.name.match)
        if verb == "read":
            self.word(words, text, f"the word into: {form}", "into".__eq__, ("into",))
            self.word(words, text, f"a register r1 to r9: {form}", REGISTER.match)
        else:
            self.word(words, text, f"the sign := : {form}", ":=".__eq__, (":=",))
            self.sum(words, text, form)
        for word, place in words:
            raise Misspelled(place, place + len(word), f"no further word: {form}")

    def sum(self, words, text, form):
        """Terms with signs between them."""
        self.word(words, text, f"{TERM}: {form}", is_first_term)
        for sign, place in words:
            if sign not in ("+", "-"):
                wanted = f"+ or - between two terms, with a space on each side: {form}"
                raise Misspelled(place, place + len(sign), wanted, (), of_query(text, place, sign))
            self.word(words, text, f"{TERM}: {form}", is_term)

    def word(self, words, text, wanted, is_right, known=()):
        word, place = next(words, ("", len(text)))
        if not word or not is_right(word):
            raise Misspelled(place, place + len(word), wanted, known, of_query(text, place, word))
        return word


def is_first_term(word):
    return is_term(word) or word.startswith("-") and NUMBER.match(word[1:])


def is_term(word):
    return REGISTER.match(word) or NUMBER.match(word)
