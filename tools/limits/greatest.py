"""The greatest scenario that the limits allow, and what has one more of something, with the refusal of each."""
import copy
import json

ADMINS, VERSIONS, POLICY_BYTES = 16, 64, 4096
CREDENTIALS, SERVERS, ITEMS = 256, 16, 64
TRANSACTIONS, QUERIES, STEPS = 128, 16, 100_000
NAME_BYTES, NUMBER, CLOCK, ROUNDS = 32, 10**15, 10**12, 16
BYTES = 16 * 1024 * 1024


def name(kind, at):
    """A name of the greatest length."""
    return f"{kind}{at}_".ljust(NAME_BYTES, kind)


def policy(spare=0):
    """A text of the greatest length: as many atoms as fit, of which the last is true."""
    front, last, end = "allow any on * if ", "a.b = 1", ";"
    atoms = []
    while len(front) + sum(map(len, atoms)) + len(last) + len(end) + len("a.b = 0 or ") <= POLICY_BYTES:
        atoms.append("a.b = 0 or ")
    return (front + "".join(atoms) + last + end).ljust(POLICY_BYTES + spare)


def credential(at):
    return {
        "name": name("c", at), "issuer": "a", "subject": name("u", 0), "attr": "b", "value": 1 if at == CREDENTIALS - 1 else 2,
        "from": CLOCK, "until": CLOCK,
    }


def item(at):
    return {"name": name("x", at), "admin": name("a", at % ADMINS), "min": -NUMBER, "max": NUMBER, "value": NUMBER if at % 2 else -NUMBER}


def server(at):
    return {
        "name": name("s", at),
        "knows": {name("a", admin): 1 for admin in range(ADMINS)},
        "items": [item(at * ITEMS + place) for place in range(ITEMS)],
    }


def queries(at):
    """Reads and writes of items that no other transaction uses, by turns, each at another server."""
    for query in range(QUERIES):
        place = name("x", (query * ITEMS + at // 2) % (SERVERS * ITEMS) if at % 2 == 0 else (query * ITEMS + ITEMS - 1 - at // 2) % (SERVERS * ITEMS))
        yield f"write {place} := r1 - r1 + r1 - r1 + {NUMBER - 1}" if query % 2 else f"read {place} into r1"


def transaction(at):
    return {
        "name": name("t", at), "subject": name("u", 0), "scheme": "continuous", "level": "global", "rounds": ROUNDS,
        "credentials": [name("c", place) for place in range(CREDENTIALS)],
        "queries": list(queries(at)),
    }


def step(at):
    """Publications of all versions, and then pushes of them, each with the longest text."""
    if at < ADMINS * (VERSIONS - 1):
        return "publish " + name("a", at % ADMINS)
    return f"push {name('a', at % ADMINS)} {name('s', at // ADMINS % SERVERS)}"


def greatest():
    return {
        "admins": [{"name": name("a", at), "policies": [policy()] * VERSIONS, "opening": 1} for at in range(ADMINS)],
        "clock": CLOCK,
        "credentials": [credential(at) for at in range(CREDENTIALS)],
        "servers": [server(at) for at in range(SERVERS)],
        "transactions": [transaction(at) for at in range(TRANSACTIONS)],
        "steps": [step(at) for at in range(STEPS)],
    }


def text_of(scenario):
    return json.dumps(scenario, separators=(",", ":")).encode()


def one_more(whole):
    """Scenarios with one more of something than the limits allow: what it is, the scenario, and the line of its refusal."""
    last, spare = 10**6, ADMINS * ITEMS * SERVERS
    changes = [
        ("administrator", "range $.admins", lambda it: it["admins"].append({"name": name("a", last), "policies": [policy()]})),
        ("version", "range $.admins[15].policies", lambda it: it["admins"][15]["policies"].append(policy())),
        ("byte of a policy", "policy $.admins[15].policies[63] toolong 4096", lambda it: it["admins"][15]["policies"].__setitem__(63, policy(1))),
        ("opening version", "range $.admins[15].opening", lambda it: it["admins"][15].update(opening=VERSIONS + 1)),
        ("tick of the clock", "range $.clock", lambda it: it.update(clock=CLOCK + 1)),
        ("credential", "range $.credentials", lambda it: it["credentials"].append(credential(last))),
        ("tick of a credential", "range $.credentials[255].until", lambda it: it["credentials"][255].update(until=CLOCK + 1)),
        ("number of a credential", "range $.credentials[255].value", lambda it: it["credentials"][255].update(value=NUMBER)),
        ("server", "range $.servers", lambda it: it["servers"].append({"name": name("s", last), "items": []})),
        ("known version", f"range $.servers[15].knows.{name('a', 0)}", lambda it: it["servers"][15]["knows"].update({name("a", 0): 2})),
        ("item", "range $.servers[15].items", lambda it: it["servers"][15]["items"].append(item(spare))),
        ("byte of a name", "range $.servers[15].items[63].name", lambda it: it["servers"][15]["items"][63].update(name=name("x", spare) + "x")),
        ("greatest number", "range $.servers[15].items[63].max", lambda it: it["servers"][15]["items"][63].update(max=NUMBER + 1)),
        ("least number", "range $.servers[15].items[63].min", lambda it: it["servers"][15]["items"][63].update(min=-NUMBER - 1)),
        ("value", "range $.servers[15].items[63].value", lambda it: it["servers"][15]["items"][63].update(value=NUMBER + 1)),
        ("transaction", "range $.transactions", lambda it: it["transactions"].append(transaction(last))),
        ("round", "range $.transactions[127].rounds", lambda it: it["transactions"][127].update(rounds=ROUNDS + 1)),
        ("credential of a transaction", "range $.transactions[127].credentials", lambda it: it["transactions"][127]["credentials"].append(name("c", 0))),
        ("query", "range $.transactions[127].queries", lambda it: it["transactions"][127]["queries"].append("read x into r1")),
        ("term", "range $.transactions[127].queries[15]", lambda it: it["transactions"][127]["queries"].__setitem__(15, f"write {name('x', 0)} := r1 + r1 + r1 + r1 + r1 + 1")),
        ("digit", "shape $.transactions[127].queries[15]", lambda it: it["transactions"][127]["queries"].__setitem__(15, f"write {name('x', 0)} := {NUMBER}")),
        ("step", "range $.steps", lambda it: it["steps"].append(step(STEPS))),
        ("tick of a step", "range $.steps[99999]", lambda it: it["steps"].__setitem__(STEPS - 1, f"tick {10**6 + 1}")),
        ("call of a disk", "range $.steps[99999]", lambda it: it["steps"].__setitem__(STEPS - 1, f"crash {name('s', 0)} in 0 at 5 fill 0")),
        ("fill", "range $.steps[99999]", lambda it: it["steps"].__setitem__(STEPS - 1, f"crash {name('s', 0)} in 0 at 0 fill 256")),
    ]
    for what, line, change in changes:
        made = dict(whole)
        for key in ("admins", "credentials", "servers", "transactions", "steps"):
            made[key] = copy.copy(whole[key])
        for key, place in (("admins", 15), ("credentials", 255), ("servers", 15), ("transactions", 127)):
            made[key][place] = copy.deepcopy(whole[key][place])
        change(made)
        yield what, made, line
