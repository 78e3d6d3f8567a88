"""The walk over a scenario, in the program's order: its first fault is the program's. It goes on behind it."""
import re

from . import slips
from .near import near
from .policy import NoPolicy, policy_of
from .reader import Spots
from .rules import with_article
from .words import Misspelled, Queries, Steps

FAULTS_MAX = 1000
SHOWN_MAX = 12

# what the schema does not say: the kind of what a name in such a place names
USES = {
    ("item", "admin"): "admin",
    ("transaction", "credentials"): "credential",
    ("scenario", "clients"): "transaction",
}


class Fault:
    """The words of a refusal, the place of what it is about, what is wanted there, and a likely spelling or None."""

    def __init__(self, words, start, end, wanted, hint):
        self.words, self.start, self.end, self.wanted, self.hint = words, start, end, wanted, hint


class Enough(Exception):
    """There are as many faults as are told."""


class Record(dict):
    """What was read of an object, by key: None for what could not be read."""

    def __init__(self, rule, path):
        super().__init__()
        self.rule, self.path = rule, path
        self.nodes, self.presented = {}, set()


class Walk:
    """One walk. `declared` has the records of each kind by name. Of a kind in `unsure` some could not be read, and what
    is in `taken` has the name of another one."""

    def __init__(self, text, rules):
        self.rules, self.faults = rules, []
        self.queries, self.steps = Queries(rules), Steps(rules)
        self.is_name = rules.by_name["name"].pattern.match
        kinds = [name for name, rule in rules.by_name.items() if "name" in rule.keys]
        self.declared, self.unsure, self.left = {kind: {} for kind in kinds}, set(), None
        self.taken = set()
        self.steps_read, self.repeated, self.inside = {}, [], Spots(text).inside

    def scenario(self, node):
        """What the whole says, or None where it is no object."""
        try:
            return self.record(node, self.rules.whole, "$")
        except Enough:
            return None

    def fault(self, kind, path, place, wanted, hint=None):
        """Notes a fault; the place is a node, or a start and an end."""
        start, end = place if isinstance(place, tuple) else (place.start, place.end)
        self.faults.append(Fault(f"{kind} {path}", start, end, wanted, hint))
        if len(self.faults) == FAULTS_MAX:
            raise Enough

    # objects

    def record(self, node, rule, path):
        """What an object says."""
        record = Record(rule, path)
        record.nodes = self.fields(node, rule, path)
        if record.nodes is None:
            self.unsure.update(kinds_in(rule))
            return None
        for key, inner in rule.keys.items():
            found = record.nodes.get(key)
            if found is not None:
                record[key] = self.value(found, inner, f"{path}.{key}", record, key)
            elif key not in rule.needed:
                record[key] = inner.default
            else:
                record[key] = None
                self.unsure.update({rule.form} if key == "name" else kinds_in(inner))
        return record

    def fields(self, node, rule, path):
        """The nodes of an object by key, or None where it is no object."""
        if node.kind != "object":
            self.fault("shape", path, node, f"{rule.named()}, as an object in {{ }}")
            return None
        self.repeated += [(key, path) for key in node.repeated]
        fields = {key: inner for key, (_, inner) in node.value.items()}
        for key, meant, inner in node.strange:
            likely = meant if meant is not None and meant not in fields else None
            wanted = f"no key of {rule.named()} is called so: its keys are {', '.join(rule.keys)}"
            left = [other for other in rule.keys if other not in fields]
            self.fault("shape", path, key, wanted, likely or near(key.value, left))
            if likely in rule.keys:
                fields[likely] = inner
        missing = [key for key in rule.needed if key not in fields]
        if missing:
            wanted = f"{rule.named()} needs the key{'s' * (len(missing) > 1)} {' and '.join(missing)}"
            self.fault("shape", path, (node.start, node.start + 1), wanted)
        return fields

    def map(self, node, rule, path, record, key):
        """What an object from the names of administrators to values says, by name."""
        if node.kind != "object":
            self.fault("shape", path, node, "an object in { } from names of administrators")
            return None
        self.repeated += [(key_node, path) for key_node in node.repeated]
        made = {}
        for name in sorted(node.value, key=lambda text: text.encode("utf-8", "surrogatepass")):
            name_node, inner = node.value[name]
            here = f"{path}.{name}" if self.is_name(name) else path
            if self.known(name, "admin", here, (name_node.start, name_node.end)):
                made[name] = self.value(inner, rule.member, here, record, (key, name))
        return made

    # values

    def value(self, node, rule, path, record, key):
        """What a value says, or None. The record is that of the object around it, and the key that of its place."""
        if rule.kind == "either":
            wanted = {"string": "text", "number": "whole", "object": "map"}.get(node.kind, "whole")
            if rule.fitting(wanted) is rule or wanted == "whole" and node.value is None:
                wanted = f"a whole number without point and exponent, or a text: {rule.words_for_people()}"
                return self.fault("shape", path, node, wanted)
            rule = rule.fitting(wanted)
        if rule.kind == "object":
            return self.record(node, rule, path)
        if rule.kind == "array":
            return self.array(node, rule, path, record, key)
        if rule.kind == "map":
            return self.map(node, rule, path, record, key)
        if rule.kind == "whole":
            return self.whole(node, rule, path, record, key)
        if node.kind != "string":
            what = "one of " + ", ".join(rule.words) if rule.words else rule.named()
            return self.fault("shape", path, node, f'{what}, as a text in ""')
        return self.text_value(node, rule, path, record, key)

    def array(self, node, rule, path, record, key):
        """What the members of a list say."""
        if node.kind != "array":
            self.unsure.update(kinds_in(rule))
            return self.fault("shape", path, node, f"a list in [ ]: {rule.words_for_people()}")
        if node.count < rule.least or rule.most is not None and node.count > rule.most:
            self.unsure.update(kinds_in(rule))
            most = f"{rule.least} to {rule.most:,} members" if rule.least else f"at most {rule.most:,} members"
            self.fault("range", path, (node.start, node.start + 1), f"{most}, and these are {node.count:,}")
        return [self.value(member, rule.member, f"{path}[{at}]", record, key) for at, member in enumerate(node.value)]

    def whole(self, node, rule, path, record, key):
        """A whole number of its range."""
        if node.kind != "number" or node.value is None:
            return self.fault("shape", path, node, "a whole number, without quotes, point and exponent")
        least, most, why = self.limits(rule, record, key)
        if not least <= node.value <= most:
            return self.fault("range", path, node, f"a number from {least:,} to {most:,}{why}")
        return node.value

    def limits(self, rule, record, key):
        """The range of a number, and why it is so, where it hangs on other values."""
        place = record.rule.form, key
        if place == ("admin", "opening"):
            policies = record.nodes.get("policies")
            count = policies.count if policies is not None and policies.kind == "array" else rule.most
            return rule.least, max(1, min(count, rule.most)), ": there are so many policies"
        if isinstance(key, tuple) and key[0] == "knows":
            opening = self.declared["admin"][key[1]]["opening"]
            return rule.least, opening or rule.most, f": the opening version of {key[1]}"
        least = record["min"] if place in (("item", "max"), ("item", "value")) else None
        most = record["max"] if place == ("item", "value") else None
        if place == ("item", "value") and most is None:
            # a fault of the value may only follow from that of max
            least = None
        why = ": the least value is min" * (least is not None) + ", and the greatest is max" * (most is not None)
        return rule.least if least is None else least, rule.most if most is None else most, why

    # texts

    def text_value(self, node, rule, path, record, key):
        """What a text says, by the form that it has to have."""
        if rule.kind == "choice":
            if node.value in rule.words:
                return node.value
            return self.fault("range", path, node, "one of " + ", ".join(rule.words), near(node.value, rule.words))
        if rule.form == "policy":
            return self.policy(node, rule, path)
        if rule.form == "query":
            return self.query(node, path)
        if rule.form in self.steps.rules:
            return self.step(node, rule, path, key)
        return self.name(node, path, record, key)

    def name(self, node, path, record, key):
        """A name, which is declared or used in some places."""
        name, form = node.value, record.rule.form
        if not self.is_name(name):
            self.unsure.update({form} if key == "name" else ())
            made = re.sub("[^a-z0-9_]", "_", name.lower())
            rule = self.rules.by_name["name"]
            likely = made if self.is_name(made) else None
            return self.fault("range", path, node, f"a name: {rule.words_for_people()}", likely)
        if key == "name":
            return self.declare(name, form, node, path, record)
        kind = USES.get((form, key))
        if kind is None:
            return name
        if name in record.presented:
            return self.fault("range", path, node, f"each {kind} once: {name} stands before this")
        record.presented.add(name)
        return name if self.known(name, kind, path, (node.start, node.end)) else None

    def declare(self, name, kind, node, path, record):
        """Notes a new name of its kind."""
        others = ["transaction", "server"] if kind == "transaction" else [kind]
        for other in others:
            if name in self.declared[other]:
                self.taken.add((kind, name))
                where = self.declared[other][name].path
                wanted = f"another name: {where} is {with_article(self.title(other))} that is called {name}"
                return self.fault("range", path, node, wanted)
        self.declared[kind][name] = record
        return name

    def title(self, kind):
        return self.rules.by_name[kind].title.lower()

    def known(self, name, kind, path, place):
        """Whether there is one of the kind of this name. Where some of the kind could not be read it is not told."""
        kinds = ("server", "transaction") if kind == "actor" else (kind,)
        for each in kinds:
            if name in self.declared[each]:
                return True
        is_told = any((each, name) in self.taken for each in kinds)
        if not is_told and not self.unsure.intersection(kinds):
            names = [other for each in kinds for other in self.declared[each]]
            what = " or ".join(with_article(self.title(each)) for each in kinds)
            self.fault("unknown", path, place, f"{what} that is declared: {some_of(names)}", near(name, names))
        return False

    def policy(self, node, rule, path):
        """The rules of a policy."""
        text, length = node.value, len(node.value.encode())
        if length > rule.most:
            wanted = f"at most {rule.most:,} bytes, and these are {length:,}"
            return self.fault("policy", f"{path} toolong {rule.most}", node, wanted)
        try:
            return policy_of(text)
        except NoPolicy as why:
            word = slips.word_around(text, why.at)
            hint = slips.of_policy(text, why.at) or (near(word, why.known) if word else None)
            place = self.inside(node, why.at, min(why.at + 1, len(text)))
            return self.fault("policy", f"{path} {why.word} {len(text[:why.at].encode())}", place, why.wanted, hint)

    def query(self, node, path):
        """A query, and the item that it names."""
        try:
            query, beyond = self.queries.read(node.value)
        except Misspelled as why:
            return self.misspelled(node, path, why)
        if beyond:
            return self.fault("range", path, node, beyond)
        return query if self.is_used(node, path, query, [(1, "item")]) else None

    def step(self, node, rule, path, key):
        """A step, and the names that it uses. One that stands for the second time is not read again."""
        step = self.steps_read.get((rule.form, node.value))
        if step is None:
            step = self.new_step(node, rule, path)
        if step and key == "publishers" and step.verb == "publish" and not self.takes_version(step.words[1]):
            wanted = f"no more publications of {step.words[1]} than it has versions after the opening one"
            return self.fault("range", path, node, wanted)
        return step

    def new_step(self, node, rule, path):
        try:
            step, beyond = self.steps.read(node.value, rule)
        except Misspelled as why:
            return self.misspelled(node, path, why)
        if beyond:
            return self.fault("range", path, node, beyond)
        if not self.is_used(node, path, step, self.steps.uses(step)):
            return None
        self.steps_read[rule.form, node.value] = step
        return step

    def misspelled(self, node, path, why):
        word = node.value[why.start:why.end]
        hint = slips.blank_slip(node.value, why.start) or why.slip or near(word, why.known)
        return self.fault("shape", path, self.inside(node, why.start, why.end), why.wanted, hint)

    def is_used(self, node, path, said, uses):
        """Whether each name in a query or a step is declared. The first that is not is told."""
        for at, kind in uses:
            name = said.words[at]
            if name in self.declared.get(kind, ()):
                continue
            place = said.places[at]
            if not self.known(name, kind, path, self.inside(node, place, place + len(name))):
                return False
        return True

    def takes_version(self, name):
        """Whether a version of an administrator is left for a publisher; then it is taken."""
        if self.left is None:
            self.left = {name: versions_left(admin) for name, admin in self.declared["admin"].items()}
        self.left[name] -= 1
        return self.left[name] >= 0


def some_of(names):
    """The names, or the first of many."""
    more = f" and {len(names) - SHOWN_MAX} more" if len(names) > SHOWN_MAX else ""
    return ", ".join(names[:SHOWN_MAX]) + more if names else "there is none"


def versions_left(admin):
    """How many versions of an administrator come after its opening one."""
    if admin["policies"] is None or admin["opening"] is None:
        return float("inf")
    return len(admin["policies"]) - admin["opening"]


def kinds_in(rule):
    """The kinds of what a list or its members declare."""
    kinds = set()
    while rule is not None:
        kinds.update({rule.form} if "name" in rule.keys else ())
        kinds.update(*(kinds_in(inner) for inner in rule.keys.values()))
        rule = rule.member
    return kinds
