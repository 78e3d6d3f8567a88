"""What docs/scenario.schema.json says of each value: its kind, keys, limits, default, and words for people."""
import json
import os
import re

TOP = os.path.dirname(os.path.dirname(os.path.dirname(os.path.abspath(__file__))))
SCHEMA = os.path.join(TOP, "docs/scenario.schema.json")


class Rule:
    """What the schema says of a value. The kind is object, map, array, whole, choice, text or either."""

    def __init__(self, kind, form, part):
        self.kind, self.form = kind, form
        self.title, self.description = part.get("title", ""), part.get("description", "")
        self.default = part.get("default")
        self.keys, self.needed = {}, part.get("required", ())
        self.member, self.others = None, ()
        self.least = part.get("minItems", part.get("minimum", 0))
        self.most = part.get("maxItems", part.get("maximum", part.get("maxLength")))
        self.pattern = re.compile(part["pattern"]) if "pattern" in part else None
        self.words = part.get("enum", ())

    def named(self):
        """What a person calls such a value, with an article."""
        return with_article(self.title.lower())

    def words_for_people(self):
        return self.description.rstrip(".")

    def fitting(self, kind):
        """This rule, or where it has others to choose from that of the kind."""
        return next((other for other in self.others if other.kind == kind), self)

    def forms(self):
        """The forms that the description shows, each with the note in parentheses behind it."""
        return re.findall(r"`([^`]+)`(?: \(([^)]+)\))?", self.description)


def with_article(words):
    return ("an " if words[:1] in "aeiou" else "a ") + words


def kind_of(part):
    if "oneOf" in part:
        return "either"
    if "enum" in part:
        return "choice"
    if part["type"] == "object":
        return "object" if "properties" in part else "map"
    return {"array": "array", "integer": "whole", "string": "text"}[part["type"]]


def rule_of(part, parts, form):
    """The rule of a part of the schema, with those of the parts in it."""
    if "$ref" in part:
        form = part["$ref"].rsplit("/", 1)[-1]
        part = {**parts[form], **part}
    rule = Rule(kind_of(part), form, part)
    rule.keys = {key: rule_of(inner, parts, None) for key, inner in part.get("properties", {}).items()}
    rule.others = [rule_of(inner, parts, None) for inner in part.get("oneOf", ())]
    inner = part.get("items" if rule.kind == "array" else "additionalProperties")
    if inner:
        rule.member = rule_of(inner, parts, None)
    return rule


class Rules:
    """The rules of a scenario, and by name those that stand in it more than once."""

    def __init__(self, path=SCHEMA):
        with open(path, encoding="utf-8") as file:
            schema = json.load(file)
        parts = schema["$defs"]
        self.whole = rule_of(schema, parts, "scenario")
        self.by_name = {name: rule_of({"$ref": "#/$defs/" + name}, parts, name) for name in parts}
