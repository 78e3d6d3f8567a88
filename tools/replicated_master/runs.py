"""Runs of a replicated master: how they are spelled, how they are made at random, and what the model says of one."""
from replicated_master.model import Master

LISTED_MAX = 60
KINDS = ("publish", "read", "deliver", "lose", "crash", "cut", "boot", "timer")


def spelled(step):
    """A step as the case program reads it."""
    if step[0] == "crash" and step[2] is None:
        return f"crash {step[1]}"
    if step[0] == "crash":
        mail, calls, fill = step[2]
        return f"crash {step[1]} in {mail} at {calls} fill {fill}"
    return " ".join(str(word) for word in step)


def line_of(sizes, steps):
    return "; ".join([" ".join(str(size) for size in sizes), *(spelled(step) for step in steps)])


def is_there(sizes, step):
    """Whether the administrator, reader and replica that a step names are there."""
    replicas, admins, readers = sizes
    if step[0] == "publish":
        return step[1] < admins
    if step[0] == "read":
        return step[1] < readers and step[2] < admins
    return step[0] not in ("crash", "boot") or step[1] < replicas


def answers(master):
    for op, operation in enumerate(master.operations):
        yield f"{op} pending" if operation.runs() else f"{op} done {operation.version}"


def told_next(master):
    step = master.next()
    return "next none" if step is None else f"next {step[0]} {step[1]}"


class Run:
    """One run on the model, as it goes: its parts, as the case program writes them."""

    def __init__(self, sizes):
        self.sizes, self.master = sizes, Master(sizes[0], sizes[1])
        self.steps, self.parts = [], []

    def take(self, step):
        if not is_there(self.sizes, step):
            self.parts.append(f"missing {len(self.steps)}")
        else:
            why = self.master.do(step)
            if why is not None:
                self.parts.append(f"refused {len(self.steps)} {why}")
        self.steps.append(step)

    def ended(self):
        """The whole line, and how many automatic steps there were of how many that there may be."""
        master = self.master
        self.parts += [told_next(master), *answers(master)]
        bound = master.bound()
        taken = master.drain()
        self.parts += [" ".join(str(word) for word in fact) for fact in master.facts]
        self.parts += answers(master)
        self.parts += [f"newest {admin} {version}" for admin, version in enumerate(master.last)]
        self.parts += [told_next(master), f"quiet {master.steps} {len(master.mails)}"]
        return "; ".join(self.parts), taken, bound


def run_of(line):
    """The run that a line says."""
    first, *others = line.split(";")
    run = Run(tuple(int(word) for word in first.split()))
    for other in others:
        words = other.split()
        if words[0] == "crash":
            cut = (int(words[3]), int(words[5]), int(words[7])) if len(words) > 2 else None
            run.take(("crash", int(words[1]), cut))
        else:
            run.take((words[0], *(int(word) for word in words[1:])))
    return run


class Maker:
    """Makes runs by a source of chance. Steps are looked at while they are made, so that most of them are done."""

    def __init__(self, chance):
        self.chance = chance

    def mail(self, master):
        """Mostly one that is undelivered, else any, and now and then one of no number."""
        if self.chance.random() < 0.02 or not master.mails:
            return len(master.mails) + self.chance.randrange(2)
        if self.chance.random() < 0.75 and master.undelivered:
            return self.chance.choice(list(master.undelivered))
        return self.chance.randrange(len(master.mails))

    def replica(self, master, up):
        fit = [number for number, replica in enumerate(master.replicas) if replica.is_up() == up]
        if fit and self.chance.random() < 0.95:
            return self.chance.choice(fit)
        return self.chance.randrange(len(master.replicas) + (self.chance.random() < 0.1))

    def cut(self, master):
        """A crash in the receipt of a mail, mostly of one of the replica's own."""
        number = self.mail(master)
        calls = self.chance.choice((0, 1, 2, 3, 3, 3, 4, 4))
        fill = self.chance.choice((0, 1, 1, 2, 255))
        if number < len(master.mails) and self.chance.random() < 0.95:
            return "crash", master.mails[number][1], (number, calls, fill)
        return "crash", self.replica(master, True), (number, calls, fill)

    def step(self, run, weights):
        master, (_replicas, admins, readers) = run.master, run.sizes
        kind = self.chance.choices(KINDS, weights)[0]
        if not master.mails and kind not in ("publish", "read") and self.chance.random() < 0.9:
            kind = "publish"
        if kind == "publish":
            return "publish", self.chance.randrange(admins + (self.chance.random() < 0.02))
        if kind == "read":
            reader = self.chance.randrange(max(1, readers + (self.chance.random() < 0.02)))
            return "read", reader, self.chance.randrange(admins)
        if kind in ("deliver", "lose"):
            return kind, self.mail(master)
        if kind == "crash":
            return "crash", self.replica(master, True), None
        if kind == "cut":
            return self.cut(master)
        if kind == "boot":
            return "boot", self.replica(master, False)
        return "timer", self.chance.randrange(len(master.operations) + 1)

    def run(self):
        chance = self.chance
        sizes = chance.choice((1, 2, 3, 3, 3, 4, 5, 7)), chance.randint(1, 3), chance.randint(0, 3)
        # each run has its own mixture, so that some lose nearly all mails and some lose none
        weights = [2, 3, 12 * chance.random() + 4, 3 * chance.random(), chance.random(), 2 * chance.random(), 1, 1]
        run = Run(sizes)
        for _step in range(chance.randint(0, LISTED_MAX)):
            run.take(self.step(run, weights))
        return run
