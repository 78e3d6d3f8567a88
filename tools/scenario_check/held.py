"""What policies say of credentials, at whatever time, for all transactions at once.

A set of holders is a number with a bit for each of them: for each transaction, which holds what it presents, and for
each subject, which holds all of its own.
"""
from .policy import Atom


class Holders:
    """Who holds which credentials. Only those of a transaction's own subject count."""

    def __init__(self, transactions, credentials):
        self.presenting = {transaction["name"]: 1 << at for at, transaction in enumerate(transactions)}
        subjects = dict.fromkeys(transaction["subject"] for transaction in transactions)
        self.having = {subject: 1 << len(transactions) + at for at, subject in enumerate(subjects)}
        self.all = (1 << len(transactions) + len(subjects)) - 1
        self.held, self.found = {}, {}
        presenters = {}
        for transaction in transactions:
            for name in transaction["credentials"]:
                presenters.setdefault((name, transaction["subject"]), []).append(self.presenting[transaction["name"]])
        for it in credentials:
            holders = sum(presenters.get((it["name"], it["subject"]), ())) | self.having.get(it["subject"], 0)
            self.held.setdefault((it["issuer"], it["attr"]), []).append((it["name"], it["value"], holders))

    def of_atom(self, atom):
        """The credentials that make an atom true, with who holds each."""
        named = self.held.get((atom.issuer, atom.attr), ())
        return [(name, holders) for name, value, holders in named if atom.is_met_by(value)]

    def satisfying(self, condition):
        """Who satisfies a condition. What was found of it once is kept."""
        if condition not in self.found:
            if isinstance(condition, Atom):
                made = any_of(holders for _, holders in self.of_atom(condition))
            elif condition.word == "and":
                made = self.all & ~any_of(self.all & ~self.satisfying(member) for member in condition.members)
            else:
                made = any_of(map(self.satisfying, condition.members))
            self.found[condition] = made
        return self.found[condition]

    def used_by(self, condition, holder, better):
        """Credentials by which a holder satisfies a condition, of equal ones those that a better holder has too."""
        if isinstance(condition, Atom):
            able = [(name, holders) for name, holders in self.of_atom(condition) if holders & holder]
            return [next((name for name, holders in able if holders & better), able[0][0])]
        members = [member for member in condition.members if self.satisfying(member) & holder]
        members = members if condition.word == "and" else members[:1]
        return [name for member in members for name in self.used_by(member, holder, better)]


def any_of(sets):
    """Who is in some of the sets."""
    made = 0
    for holders in sets:
        made |= holders
    return made


class Library:
    """Versions of an administrator's policy together, from one up to another."""

    def __init__(self, admin, holders, first, last):
        self.name, self.holders, self.groups, self.found = admin["name"], holders, {}, {}
        for rule in (rule for rules in admin["policies"][first - 1:last] for rule in rules):
            self.groups.setdefault((rule.pattern, rule.is_prefix, rule.action), []).append(rule.condition)

    def about(self, action, item):
        """Groups of conditions under which some of the versions allow an action on an item."""
        patterns = [(item, False), *((item[:length], True) for length in range(len(item) + 1))]
        keys = [(*pattern, word) for pattern in patterns for word in (action, "any")]
        return [key for key in keys if key in self.groups]

    def allowed(self, action, item):
        """Who is allowed an action on an item by some of the versions."""
        return any_of(map(self.holders_of, self.about(action, item)))

    def holders_of(self, key):
        """Who satisfies some condition of a group."""
        if key not in self.found:
            self.found[key] = any_of(map(self.holders.satisfying, self.groups[key]))
        return self.found[key]

    def lacking(self, action, item, transaction):
        """Credentials that a transaction does not present, and with which its subject would be allowed; or none."""
        subject, presenting = self.holders.having[transaction["subject"]], self.holders.presenting[transaction["name"]]
        for key in self.about(action, item):
            able = self.holders_of(key) & subject and self.groups[key]
            for condition in able or ():
                if self.holders.satisfying(condition) & subject:
                    used = dict.fromkeys(self.holders.used_by(condition, subject, presenting))
                    return [name for name in used if name not in transaction["credentials"]]
        return []
