"""What is probably not meant in a scenario that the program reads.

Each kind is a function of the scenario, and none needs a run. What `denied`, `outside`, `nevervalid`, `stranger`,
`refusal`, `unpushed`, `pushed` and `last` say is so of every run.
"""
from .held import Holders, Library
from .near import near
from .refusals import refusals_of
from .walk import some_of

KINDS = (
    "repeated", "noitem", "precedence", "denied", "outside", "nevervalid", "stranger", "unset", "noattr", "novalue",
    "norule",
    "late", "unpublished", "older", "unpresented", "none", "refusal", "pushed", "unpushed", "last", "script",
)
ACTING = ("tick", "revoke", "publish", "push")


class Told:
    """A kind, the path and the place of what it is about, words, and a word with those that may have been meant."""

    def __init__(self, kind, path, place, words, word="", known=()):
        self.kind, self.path, self.place, self.words = kind, path, place, words
        self.word, self.known = word, known

    def hint(self):
        """A likely spelling, or None. Where one alone is known that is no word, it is meant."""
        return "*" if self.known == ["*"] else near(self.word, self.known)


def place_of(node):
    return node.start, node.end


class Scenario:
    """What was read, with what the kinds look up in it."""

    def __init__(self, walk, whole):
        self.whole, self.repeated, self.inside = whole, walk.repeated, walk.inside
        self.admins, self.credentials = whole["admins"], whole["credentials"]
        self.servers, self.transactions, self.steps = whole["servers"], whole["transactions"], whole["steps"]
        self.items = [item for server in self.servers for item in server["items"]]
        self.by_name = walk.declared
        self.holders = Holders(self.transactions, self.credentials)
        self.libraries = {}
        self.server_of = {item["name"]: server for server in self.servers for item in server["items"]}
        self.submitted = {step.words[1] for step in self.steps if step.verb == "submit"}
        self.attributes, self.published = {}, {}
        for credential in self.credentials:
            self.attributes.setdefault((credential["issuer"], credential["attr"]), []).append(credential["value"])
        self.named = [f"{issuer}.{attr}" for issuer, attr in self.attributes]

    def library(self, name, first=1, last=None):
        """The versions of an administrator's policy from one up to another, or up to the last."""
        if (name, first, last) not in self.libraries:
            self.libraries[name, first, last] = Library(self.by_name["admin"][name], self.holders, first, last)
        return self.libraries[name, first, last]

    def library_at(self, item):
        """The versions of an item's administrator that its server can come to know."""
        name = item["admin"]
        opening = self.by_name["admin"][name]["opening"]
        first = self.server_of[item["name"]]["knows"].get(name, opening)
        return self.library(name, first, opening + self.publications(name))

    def ticks(self):
        """By how much all listed steps and all officers move the clock."""
        scripts = [self.steps, *self.whole["officers"]]
        return sum(step.number(1) for script in scripts for step in script if step.verb == "tick")

    def publications(self, admin):
        """How many versions of an administrator the listed steps and all publishers publish."""
        if admin not in self.published:
            scripts = [self.steps, *self.whole["publishers"]]
            self.published[admin] = sum(step.words == ["publish", admin] for script in scripts for step in script)
        return self.published[admin]


def warnings_of(walk, whole):
    """All warnings, in the order of the walk."""
    scenario = Scenario(walk, whole)
    made = []
    for kinds in (of_keys, of_policies, of_credentials, of_servers, of_transactions, of_steps, of_scripts):
        made += kinds(scenario)
    return made


def of_keys(scenario):
    for key, path in scenario.repeated:
        words = f"{key.value} stands here once more, and its last value counts alone"
        yield Told("repeated", path, place_of(key), words)


def of_policies(scenario):
    for admin in scenario.admins:
        items = [item["name"] for item in scenario.items if item["admin"] == admin["name"]]
        nodes = admin.nodes["policies"].value
        for at, (rules, node) in enumerate(zip(admin["policies"], nodes)):
            path = f"{admin.path}.policies[{at}]"
            for rule in rules:
                yield from of_pattern(scenario, admin["name"], items, rule, path, node)
                yield from of_precedence(scenario, rule, path, node)
            for atom in (atom for rule in rules for atom in rule.condition.atoms()):
                yield from of_atom(scenario, atom, path, scenario.inside(node, atom.start, atom.end))
        published = admin["opening"] + scenario.publications(admin["name"])
        if published < len(nodes):
            versions = f"versions {published + 1} to {len(nodes)} are"
            if published + 1 == len(nodes):
                versions = f"version {len(nodes)} is"
            words = f"{versions} published by no step: add publish {admin['name']}"
            yield Told("unpublished", admin.path, place_of(nodes[published]), words)


def of_pattern(scenario, admin, items, rule, path, node):
    """Of a rule that is about no item of its administrator, who has some."""
    if items and not any(map(rule.is_about_item, items)):
        words = f"no item of {admin} is called {rule.pattern}, so this rule allows nothing"
        if rule.is_prefix:
            words = f"no item of {admin} begins with {rule.pattern}, so this rule allows nothing"
        known = ["*"] if rule.pattern in ("any", "all") else items
        yield Told("noitem", path, scenario.inside(node, *rule.about), words, rule.pattern, known)


def of_precedence(scenario, rule, path, node):
    """Of an `and` beside an `or`, without parentheses."""
    if rule.beside is not None:
        said = " ".join(node.value[slice(*rule.beside)].split())
        words = f"and binds before or, so one side of the or is: {said}. Parentheses say which is meant"
        yield Told("precedence", path, scenario.inside(node, *rule.beside), words)


def of_atom(scenario, atom, path, place):
    """Of an atom that no credential makes true."""
    named = f"{atom.issuer}.{atom.attr}"
    values = scenario.attributes.get((atom.issuer, atom.attr))
    if values is None:
        yield Told("noattr", path, place, f"no credential has {named}", named, scenario.named)
    elif not any(map(atom.is_met_by, values)):
        texts = list(dict.fromkeys(map(str, values)))
        words = f"no credential makes this true: {named} is {some_of(texts)}"
        yield Told("novalue", path, place, words, str(atom.value), texts)


def of_credentials(scenario):
    clock, last = scenario.whole["clock"], scenario.whole["clock"] + scenario.ticks()
    presented = {name for transaction in scenario.transactions for name in transaction["credentials"]}
    for credential in scenario.credentials:
        name, first, until = credential["name"], credential["from"], credential["until"]
        place = place_of(credential.nodes["name"])
        why, key = None, "until"
        if first > until:
            why = f"from is {first}, and until is {until}"
        elif until < clock:
            why = f"until is {until}, and the clock begins at {clock}"
        elif first > last:
            why, key = f"from is {first}, and the clock comes to {last}", "from"
        if why:
            node = credential.nodes.get(key) or credential.nodes["from"]
            words = f"{name} is never valid, so it is never used: {why}"
            yield Told("nevervalid", credential.path, place_of(node), words)
        if name not in presented:
            yield Told("unpresented", credential.path, place, f"no transaction presents {name}")
        if name == "none":
            words = "in a report a credential called none prints like no credential"
            yield Told("none", credential.path, place, words)


def of_servers(scenario):
    for server in scenario.servers:
        for admin, version in server["knows"].items():
            opening = scenario.by_name["admin"][admin]["opening"]
            if version < opening:
                node = server.nodes["knows"].value[admin][1]
                words = f"{server['name']} begins with version {version} of {admin}, and the newest is {opening}"
                yield Told("older", f"{server.path}.knows.{admin}", place_of(node), words)
        for item in server["items"]:
            library = scenario.library(item["admin"])
            if not library.about("read", item["name"]) and not library.about("write", item["name"]):
                words = f"no rule of {item['admin']} is about {item['name']}, so nobody may read or write it"
                yield Told("norule", item.path, place_of(item.nodes["name"]), words)


def of_steps(scenario):
    nodes = scenario.whole.nodes["steps"].value if scenario.steps else ()
    refused = list(refusals_of(scenario))
    for at, why in refused:
        yield Told("refusal", f"$.steps[{at}]", place_of(nodes[at]), f"this step is refused: {why}")
    left_out = {at for at, _ in refused}
    for kind, at, words in [*of_versions(scenario, left_out), *of_last_steps(scenario)]:
        if at not in left_out:
            yield Told(kind, f"$.steps[{at}]", place_of(nodes[at]), words)


def of_versions(scenario, left_out):
    """Of pushes that tell nothing new, and of publications that no server can come to know of."""
    newest, unpushed = {admin["name"]: admin["opening"] for admin in scenario.admins}, {}
    is_view = all(transaction["level"] == "view" for transaction in scenario.transactions)
    for at, step in enumerate(scenario.steps):
        if at in left_out or step.verb not in ("publish", "push"):
            continue
        admin = step.words[1]
        if step.verb == "publish":
            newest[admin] += 1
            unpushed.setdefault(admin, []).append((at, newest[admin]))
            continue
        unpushed.pop(admin, None)
        opening, server = scenario.by_name["admin"][admin]["opening"], step.words[2]
        if newest[admin] == opening == scenario.by_name["server"][server]["knows"].get(admin, opening):
            words = f"{server} knows version {opening} of {admin} already, and no newer one is published by now"
            yield "pushed", at, words
    for admin, published in unpushed.items() if is_view else ():
        for at, version in published:
            words = f"no server comes to know version {version} of {admin}: no step pushes it behind this"
            yield "unpushed", at, f"{words}, and no transaction under global consistency asks the master"


def of_last_steps(scenario):
    """Of revocations behind all that is listed, while who presents the credential surely runs."""
    delivered, needed, last = 0, {}, len(scenario.steps)
    while last and scenario.steps[last - 1].verb in ACTING:
        last -= 1
    queries = {transaction["name"]: len(transaction["queries"]) for transaction in scenario.transactions}
    for step in scenario.steps[:last]:
        if step.verb == "submit":
            # a transaction that commits takes two mails for each query, and a request and a vote at least
            needed[step.words[1]] = delivered + 2 * queries[step.words[1]] + 2
        elif step.verb == "deliver" or step.is_cut():
            delivered += 1
    for at in range(last, len(scenario.steps)):
        step = scenario.steps[at]
        names = [
            transaction["name"] for transaction in scenario.transactions
            if needed.get(transaction["name"], 0) > delivered and step.words[1] in transaction["credentials"]
        ]
        if step.verb == "revoke" and names:
            so = f"{' and '.join(names)} cannot have committed by now, and present{'s' * (len(names) == 1)}"
            yield "last", at, f"what comes by itself comes behind the last step, so {so} {step.words[1]}"


def of_scripts(scenario):
    """Of the scripts of a race, beside listed steps."""
    for key in ("clients", "publishers", "officers"):
        if scenario.steps and any(scenario.whole[key]):
            words = f"run does nothing of {key}, which are scripts of a race, and race refuses a scenario that lists"
            yield Told("script", f"$.{key}", place_of(scenario.whole.nodes[key]), f"{words} steps")


def of_transactions(scenario):
    submitted = scenario.submitted.union(*scenario.whole["clients"])
    acting = next((at for at, step in enumerate(scenario.steps) if step.verb in ACTING), None)
    for transaction in scenario.transactions:
        name = transaction["name"]
        if acting is not None and name not in submitted:
            words = f"no step submits {name}, so it begins after all listed steps, $.steps[{acting}] among them"
            yield Told("late", transaction.path, place_of(transaction.nodes["name"]), words)
        yield from of_strangers(scenario, transaction)
        yield from of_queries(scenario, transaction)


def of_strangers(scenario, transaction):
    """Of presented credentials of somebody else."""
    for at, name in enumerate(transaction["credentials"]):
        subject = scenario.by_name["credential"][name]["subject"]
        if subject != transaction["subject"]:
            words = f"{name} is of {subject}, and the subject is {transaction['subject']}: it never counts"
            node = transaction.nodes["credentials"].value[at]
            yield Told("stranger", f"{transaction.path}.credentials[{at}]", place_of(node), words)


def of_queries(scenario, transaction):
    read, holder = set(), scenario.holders.presenting[transaction["name"]]
    last = {query.words[1]: at for at, query in enumerate(transaction["queries"]) if query.verb == "write"}
    for at, (query, node) in enumerate(zip(transaction["queries"], transaction.nodes["queries"].value)):
        path, item = f"{transaction.path}.queries[{at}]", scenario.by_name["item"][query.words[1]]
        yield from of_registers(scenario, query, node, path, read)
        if query.verb == "read":
            read.add(query.words[3])
        library = scenario.library_at(item)
        if not library.allowed(query.verb, item["name"]) & holder:
            server = scenario.server_of[item["name"]]["name"]
            yield Told("denied", path, place_of(node), denial_of(library, query, transaction, server))
        if last.get(item["name"]) == at and is_outside(query, item):
            values = f"{sum_of(query)} is not from {item['min']} to {item['max']}"
            words = f"{values}, so {transaction['name']} never commits"
            yield Told("outside", path, place_of(node), words)


def of_registers(scenario, query, node, path, read):
    """Of registers in a write that nothing was read into."""
    for word, place in zip(query.words[3:], query.places[3:]):
        if query.verb == "write" and word.startswith("r") and word not in read:
            words = f"{word} is 0 here: no earlier query reads into it"
            yield Told("unset", path, scenario.inside(node, place, place + len(word)), words, word, sorted(read))


def denial_of(library, query, transaction, server):
    """Why a query is never allowed, with what the subject could present as well."""
    words = f"no version of {library.name} that {server} can come to know allows this with what {transaction['name']}"
    words += " presents, so it never commits"
    lacking = library.lacking(query.verb, query.words[1], transaction)
    return f"{words}; with {' and '.join(lacking)} too one would" if lacking else words


def sum_of(query):
    """The sum of a write without registers, or None."""
    total, sign = 0, "+"
    for word in query.words[3:]:
        if word.startswith("r"):
            return None
        if word in ("+", "-"):
            sign = word
        else:
            total += int(word) if sign == "+" else -int(word)
    return total


def is_outside(query, item):
    total = sum_of(query)
    return total is not None and not item["min"] <= total <= item["max"]
