"""Listed steps that the machine surely refuses, unless it refuses an earlier one."""


# of steps that send no more mails than that
MAILS = {"submit": 1, "push": 1, "tick": 0, "revoke": 0, "publish": 0, "lose": 0, "crash": 0}


class Cluster:
    """What the listed steps so far say of a run: who was submitted, who is down, which versions are left, and how many
    mails there can be at most.

    A submission and a push send one mail. Where a mail is taken, an actor boots or a timer fires, a coordinator writes
    at most once to each server, and a server at most once to each coordinator. No other step sends any.
    """

    def __init__(self, scenario):
        self.left = {admin["name"]: len(admin["policies"]) - admin["opening"] for admin in scenario.admins}
        self.transactions = {transaction["name"] for transaction in scenario.transactions}
        self.submitted, self.down, self.unsure = set(), set(), set()
        self.most = max(len(scenario.servers), len(scenario.transactions), 1)
        self.mails = 0

    def refusal(self, step):
        """Why a step is refused, or None where it may be done."""
        verb, name = step.verb, step.words[1]
        if verb in ("deliver", "lose") or step.is_cut():
            mail = step.number(1 if verb in ("deliver", "lose") else 3)
            if mail >= self.mails:
                return f"there can be no mail {mail} yet"
        if verb == "publish":
            return None if self.left[name] else f"{name} has no version left to publish"
        if verb == "submit":
            return f"{name} was submitted before" if name in self.submitted else None
        return self.refusal_of_actor(verb, name) if verb in ("timer", "crash", "boot") else None

    def refusal_of_actor(self, verb, name):
        """Why a timer, a crash or a boot is refused, or None."""
        if name in self.transactions and name not in self.submitted:
            return f"{name} was not submitted before"
        if name not in self.unsure and (name in self.down) != (verb == "boot"):
            return f"{name} is {'up' if verb == 'boot' else 'down'}"
        return None

    def follow(self, step):
        """Goes on behind a step that is done."""
        verb, name = step.verb, step.words[1]
        self.mails += MAILS.get(verb, self.most)
        if verb == "publish":
            self.left[name] -= 1
        elif verb == "submit":
            self.submitted.add(name)
        elif verb in ("crash", "boot"):
            (self.down.add if verb == "crash" else self.down.discard)(name)
            self.unsure.discard(name)
        elif verb not in ("tick", "revoke", "push", "deliver", "lose", "timer"):
            self.unsure.update(step.words)


def refusals_of(scenario):
    """The places of the steps that are refused, each with why. Later ones are judged as though it was left out."""
    cluster = Cluster(scenario)
    for at, step in enumerate(scenario.steps):
        why = cluster.refusal(step)
        if why:
            yield at, why
        else:
            cluster.follow(step)
