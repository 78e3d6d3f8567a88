"""Scenarios made at random, of few names, so that they meet."""

NAMES = ["x", "y", "stock", "s0", "s1", "hr", "ward", "t1", "t2", "ann", "bob", "role", "none", "a" * 32]
SUBJECTS, ISSUERS, ATTRS = ["ann", "ann", "bob"], ["h", "h", "board"], ["role", "grade"]
WORDS = ["nurse", "doctor"]


class Maker:
    """Makes parts of a scenario from one source of chance."""

    def __init__(self, chance):
        self.chance = chance
        self.admins, self.servers, self.items, self.credentials, self.transactions = [], [], [], [], []

    def number(self, least, most):
        return self.chance.randint(least, most)

    def one(self, members):
        return self.chance.choice(members)

    def is_so(self, part):
        return self.chance.random() < part

    def names(self, front, least, most):
        return [f"{front}{at}" for at in range(1, self.number(least, most) + 1)]

    def scenario(self):
        """A scenario that the program reads; some of its steps may be refused."""
        self.admins, self.servers = self.names("admin", 1, 3), self.names("s", 1, 3)
        self.items = [f"{self.one(['stock', 'dose'])}{at}" for at in range(self.number(1, 5))]
        self.credentials = self.names("c", 0, 6)
        if self.credentials and self.is_so(0.1):
            self.credentials[0] = "none"
        self.transactions = self.names("t", 0, 4)
        admins = [self.admin(name) for name in self.admins]
        made = {"admins": admins, "servers": self.all_servers(admins)}
        made["transactions"] = [self.transaction(name) for name in self.transactions]
        if self.is_so(0.5):
            made["clock"] = self.number(0, 12)
        if self.credentials or self.is_so(0.3):
            made["credentials"] = [self.credential(name) for name in self.credentials]
        made["steps"] = [self.step() for _ in range(self.number(0, 25))]
        if self.is_so(0.2):
            self.add_scripts(made)
        keys = list(made)
        self.chance.shuffle(keys)
        return {key: made[key] for key in keys}

    def admin(self, name):
        made = {"name": name, "policies": [self.policy() for _ in range(self.number(1, 3))]}
        if self.is_so(0.4):
            made["opening"] = self.number(1, len(made["policies"]))
        return made

    def policy(self):
        front = "allow any on * if true; " if self.is_so(0.3) else ""
        return front + " ".join(self.rule() for _ in range(self.number(1, 4)))

    def rule(self):
        pattern = self.one(["*", "*", "*", "stock*", "dose*", *self.items])
        return f"allow {self.one(['read', 'write', 'any', 'any', 'any'])} on {pattern} if {self.condition(2)};"

    def condition(self, depth):
        kind = self.number(0, 9)
        if kind < 4:
            return "true"
        if kind < 8 or depth == 0:
            return self.atom()
        joined = self.one([" and ", " or "]).join(self.condition(depth - 1) for _ in range(2))
        return f"({joined})" if self.is_so(0.5) else joined

    def atom(self):
        named = f"{self.one(ISSUERS)}.{self.one(ATTRS)}"
        if self.is_so(0.5):
            return f"{named} = {self.one(WORDS)}"
        return f"{named} {self.one(['=', '>=', '<='])} {self.number(-1, 3)}"

    def credential(self, name):
        made = {"name": name, "issuer": self.one(ISSUERS), "subject": self.one(SUBJECTS)}
        made["attr"], made["value"] = self.one(ATTRS), self.one([*WORDS, 0, 1, 2, 3])
        if self.is_so(0.2):
            made["from"] = self.number(0, 15)
        if self.is_so(0.2):
            made["until"] = self.number(0, 30)
        return made

    def all_servers(self, admins):
        made = [{"name": name, "items": []} for name in self.servers]
        for name in self.items:
            least = self.number(-40, 0)
            value = least + self.number(0, 20)
            item = {"name": name, "admin": self.one(self.admins), "min": least, "value": value}
            self.one(made)["items"].append({**item, "max": value + self.number(0, 40)})
        for server in made:
            if self.is_so(0.4):
                known = [admin for admin in admins if self.is_so(0.6)]
                server["knows"] = {admin["name"]: self.number(1, admin.get("opening", 1)) for admin in known}
        return made

    def transaction(self, name):
        made = {"name": name, "subject": self.one(SUBJECTS)}
        made["queries"] = [self.query() for _ in range(self.number(1, 4))]
        if self.credentials:
            made["credentials"] = self.chance.sample(self.credentials, self.number(0, len(self.credentials)))
        if self.is_so(0.6):
            made["scheme"] = self.one(["deferred", "punctual", "incremental", "continuous"])
        if self.is_so(0.4):
            made["level"] = self.one(["view", "global"])
        if self.is_so(0.2):
            made["rounds"] = self.number(1, 16)
        return made

    def query(self):
        if self.is_so(0.4):
            return f"read {self.one(self.items)} into r{self.number(1, 3)}"
        terms = [f"r{self.number(1, 3)}" for _ in range(self.number(0, 2))]
        terms += [str(self.number(0, 25))] * self.is_so(0.7)
        self.chance.shuffle(terms)
        return f"write {self.one(self.items)} := " + self.one([" + ", " - "]).join(terms or ["r1"])

    def step(self):
        admin, actor = self.one(self.admins), self.one([*self.servers, *self.transactions])
        made = [f"tick {self.number(1, 9)}", f"publish {admin}", f"push {admin} {self.one(self.servers)}"]
        made += [f"deliver {self.number(0, 12)}"] * 4 + [f"lose {self.number(0, 9)}", f"crash {actor}", f"boot {actor}"]
        made.append(f"crash {actor} in {self.number(0, 9)} at {self.number(0, 4)} fill {self.number(0, 255)}")
        if self.transactions:
            made += [f"submit {self.one(self.transactions)}"] * 4 + [f"timer {self.one(self.transactions)}"]
        if self.credentials:
            made.append(f"revoke {self.one(self.credentials)}")
        return self.one(made)

    def add_scripts(self, made):
        """Scripts of a race, which a run reads and leaves."""
        names = self.chance.sample(self.transactions, self.number(0, len(self.transactions)))
        made["clients"] = [names[:2], names[2:]]
        steps = [f"push {self.one(self.admins)} {self.one(self.servers)}" for _ in range(self.number(0, 2))]
        for admin in made["admins"]:
            left = len(admin["policies"]) - admin.get("opening", 1)
            steps += [f"publish {admin['name']}"] * self.number(0, left)
        self.chance.shuffle(steps)
        made["publishers"] = [steps[:2], steps[2:]]
        made["officers"] = [[f"tick {self.number(1, 9)}", *[f"revoke {name}" for name in self.credentials[:2]]]]
