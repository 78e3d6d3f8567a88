"""What people write where a policy, a query, a step or a JSON text goes on otherwise, each with what is meant by it."""
import re
import unicodedata

CURLY = "\u2018\u2019\u201a\u201b\u201c\u201d\u201e\u201f\u00ab\u00bb"
DENYING = ("deny", "forbid", "refuse", "reject", "disallow", "block", "prohibit", "except")
ALLOWING = ("permit", "grant", "let", "accept")
CHANGING = ("delete", "create", "update", "insert", "remove", "edit", "append", "set", "change")
NOTHING = ("None", "undefined", "nil", "NULL", "Null")


def strange_blank(letter):
    """What a blank that is none here is called, or None."""
    if letter in (" ", "\t", "\n", "\r") or not (letter.isspace() or unicodedata.category(letter) == "Cf"):
        return None
    return f"{unicodedata.name(letter, 'a blank').lower()} (U+{ord(letter):04X})"


def blank_slip(text, at):
    name = strange_blank(text[at]) if at < len(text) else None
    return f"a space in place of the {name} that stands here" if name else None


def word_around(text, at):
    """The word in which a place stands, or which ends there."""
    before = re.search(r"\w*$", text[:at]).group()
    return before + re.match(r"\w*", text[at:]).group()


def of_policy(text, at):
    """What is meant where a policy goes on as none at a place, or None."""
    rest, before = text[at:], text[:at].rstrip()
    word, found = word_around(text, at), text[at:at + 1]
    return blank_slip(text, at) or of_rule(word, found, before, rest) or of_condition(word, before, rest)


def of_rule(word, found, before, rest):
    """In the front of a rule, up to its condition."""
    at_pattern = re.search(r"\bon\s+[a-z0-9_]*\*?$", before)
    if word.lower() in ("unless", "where", "when", "provided"):
        return "if, and behind it what may be" if word.lower() == "unless" else "if"
    if word.lower() in DENYING and not before.endswith("if"):
        return "no rule denies: whatever no rule allows is denied, so leave this out and allow less"
    if word.lower() in ALLOWING:
        return "allow"
    if word.lower() in CHANGING:
        return "write: an item has one value, which is read or written"
    if at_pattern and found == "*":
        return "the * right behind the beginning of the names, without a blank"
    if at_pattern and found == ",":
        return "one item in each rule: write another rule for the next one"
    if at_pattern and found == ".":
        return "the item alone, without its server: no other has its name"
    if found == "," and re.search(r"\b(read|write|any)$", before):
        return "any, for both, or a rule for each"
    if at_pattern and found == ";":
        return "if true before the ;"
    if at_pattern and before.endswith("*"):
        return "a pattern that ends with its *: it says how names begin, and not how they end"
    return None


def of_condition(word, before, rest):
    """In a condition."""
    is_unequal = rest.startswith("!") or before.endswith("!") or before[-1:] + rest[:1] == "<>"
    if is_unequal or word.lower() == "not":
        return "what may be: nothing says what may not be, so list the values that are allowed"
    if word in ("is", "equals", "eq"):
        return "="
    if word == "in":
        return "a condition for each value, with or between them"
    for sign, meant in (("&", "and"), ("|", "or")):
        if rest.startswith(sign):
            return meant
    if rest.startswith("."):
        return "issuer.attribute, in two parts: whose credentials count needs no word, they are the subject's"
    if rest.startswith(","):
        return "a ; between two rules" if re.match(r",\s*allow\b", rest) else "and, or or"
    if rest.startswith("=") and before.endswith("="):
        return "one = alone"
    strict = re.match(r"\s*(-?\d{1,15})\b", rest)
    if before.endswith((">", "<")) and strict:
        return f">= {int(strict[1]) + 1}" if before.endswith(">") else f"<= {int(strict[1]) - 1}"
    if before.endswith((">=", "<=")) and re.match(r"\s*[a-z]", rest):
        return "=, since words have no order"
    if rest.startswith(('"', "'")):
        return re.match(r"[\"']?(\w*)", rest)[1] or None
    return None


def of_query(text, place, word):
    """What is meant where a query goes on as none, or None."""
    if word == "*":
        return "a sum of registers, as r1 + r1: nothing is multiplied"
    if word.startswith("*"):
        return "a sum: nothing is multiplied"
    if "." in word:
        return f"{word.rsplit('.', 1)[1]}: an item has no other of its name at any server" if word[-1] != "." else None
    is_in_sum = ":=" in text[:place]
    if is_in_sum and re.fullmatch("[a-qs-z][a-z0-9_]*", word):
        return f"a register: read {word} into r1 first, and add r1 here"
    return None


def of_step(word, before):
    """What is meant where a step goes on as none, or None."""
    if word.endswith((";", ",")) or before.endswith((";", ",")):
        return "one step in each text"
    if before.split(" ")[0] == "publish" and word.isdigit():
        return "no number: the next version is published"
    return None


def of_json(text, why, before):
    """What is meant where a text is no JSON, or None."""
    found = text[why.at:why.at + 1]
    wants_sign, wants_key = why.wanted.startswith(","), why.wanted.startswith("a key")
    wants_end = why.wanted == "the end of the text"
    word = re.match(r"[A-Za-z]*", text[why.at:]).group()
    line = text[text.rfind("\n", 0, why.at) + 1:why.at + 1]
    blank = strange_blank(found) if found else None
    hints = (
        (found == "\ufeff" and why.at == 0, "no byte order mark at the front"),
        (why.wanted.startswith("a character of") and found in ("\n", "\r"),
         "no line break within a text: a text ends in its line. A blank in its place says the same, or \\n"),
        (why.wanted.startswith("a character of") and found == "\t", "a blank, or \\t, in place of the tab"),
        (word in NOTHING, f"no {word}: a key that has no value is left out"),
        (word in ("True", "False", "NaN", "Infinity"), f"no {word}: values are texts and whole numbers"),
        (any(sign in line for sign in CURLY), 'straight quotes, ", in place of the curly ones'),
        (blank, f"a space in place of the {blank} that stands here"),
        (wants_end and found in ("{", "["), "one scenario in a file: here a second one begins"),
        (wants_end and found in ("}", "]"), f"no {found}: nothing is open any more"),
        (found in ("}", "]") and before == ",", f"no comma before the {found}"),
        (found in ("/", "#"), "no comment: JSON has none"),
        (found == "'", 'a text in " instead of \''),
        (wants_key and found.isalpha(), 'a key in "'),
        (wants_sign and found in ('"', "{", "["), "a comma before this"),
        (wants_sign and found.isdigit() and before == "0", "a number without a zero in front"),
        (why.wanted == "a value" and found.isalpha(), 'a text in ", or one of the words true, false and null'),
    )
    return next((hint for is_so, hint in hints if is_so), None)


def of_bytes(data):
    """What is meant by bytes that are no UTF-8, or None."""
    if data[:2] in (b"\xff\xfe", b"\xfe\xff"):
        return "the file saved as UTF-8: it is saved as UTF-16"
    return "the file saved as UTF-8: it may be saved as Latin-1, or as Windows does"
