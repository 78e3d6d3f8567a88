"""A plain replicated master: the table of docs/MACHINE.md done step by step on plain lists.

It was written from the table alone, and shares nothing with the program: no record is spelled, no disk is written, and
what a step changes is changed in place.
"""

FIRST_VERSION = 1


class Replica:
    """What a replica knows while it is up, and the versions that its log tells, in order."""

    def __init__(self):
        self.known = {}
        self.log = []

    def is_up(self):
        return self.known is not None

    def version_known(self, admin):
        return self.known.get(admin, FIRST_VERSION)

    def forced_by(self, body):
        """What its log gains by a request: an administrator and a version, or None."""
        if body[0] == "store" and self.version_known(body[1]) < body[2]:
            return body[1], body[2]
        return None

    def take(self, body):
        """What it replies to a request."""
        if body[0] == "fetch":
            return "has", self.version_known(body[1])
        forced = self.forced_by(body)
        if forced is not None:
            self.log.append(forced)
            self.known[forced[0]] = forced[1]
        return ("stored",)

    def boot(self):
        self.known = {}
        for admin, version in self.log:
            self.known[admin] = max(version, self.version_known(admin))


class Operation:
    """A publication, of reader None, or a reading. It fetches, stores, or has ended with its version."""

    def __init__(self, admin, reader, phase, version):
        self.admin, self.reader, self.phase, self.version = admin, reader, phase, version
        self.answered = set()

    def runs(self):
        return self.phase != "ended"

    def request(self):
        return ("fetch", self.admin) if self.phase == "fetches" else ("store", self.admin, self.version)


class Master:
    """Replicas, operations, mails and facts, and how many steps were done."""

    def __init__(self, replicas, admins):
        self.replicas = [Replica() for _ in range(replicas)]
        self.last = [FIRST_VERSION] * admins
        self.operations, self.mails, self.facts = [], [], []
        self.undelivered = {}
        self.steps = 0

    # ---- mails

    def send(self, op, replica, body):
        self.undelivered[len(self.mails)] = True
        self.mails.append((op, replica, body))

    def ask(self, op):
        """The request of its phase, to each replica that has not answered it, by number."""
        operation = self.operations[op]
        for replica in range(len(self.replicas)):
            if replica not in operation.answered:
                self.send(op, replica, operation.request())

    def tell(self, *what):
        self.facts.append((self.steps, *what))

    # ---- steps

    def publish(self, admin):
        op = len(self.operations)
        self.last[admin] += 1
        self.operations.append(Operation(admin, None, "stores", self.last[admin]))
        self.tell("begin", op, "publish", admin, self.last[admin])
        self.ask(op)

    def read(self, reader, admin):
        op = len(self.operations)
        self.operations.append(Operation(admin, reader, "fetches", FIRST_VERSION))
        self.tell("begin", op, "read", reader, admin)
        self.ask(op)

    def deliver(self, number):
        self.undelivered.pop(number, None)
        op, replica, body = self.mails[number]
        if body[0] in ("fetch", "store"):
            if self.replicas[replica].is_up():
                self.send(op, replica, self.replicas[replica].take(body))
        else:
            self.hear(op, replica, body)

    def hear(self, op, replica, body):
        """An answer counts once for each replica, in the phase that it answers."""
        operation = self.operations[op]
        awaited = {"has": "fetches", "stored": "stores"}[body[0]]
        if operation.phase != awaited or replica in operation.answered:
            return
        operation.answered.add(replica)
        if body[0] == "has":
            operation.version = max(operation.version, body[1])
        if 2 * len(operation.answered) <= len(self.replicas):
            return
        if body[0] == "has":
            operation.phase, operation.answered = "stores", set()
            self.ask(op)
        else:
            operation.phase = "ended"
            self.tell("end", op, operation.version)

    def crash(self, replica, cut):
        """With a cut, a mail, a number of calls and a fill, the record of that receipt may be on the log."""
        found = self.replicas[replica]
        if cut is not None:
            number, calls, fill = cut
            self.undelivered.pop(number, None)
            forced = found.forced_by(self.mails[number][2])
            if forced is not None and (calls == 4 or (calls == 3 and fill == 1)):
                found.log.append(forced)
        found.known = None

    def refusal(self, step):
        """Why a step is refused, or None."""
        kind = step[0]
        if kind in ("deliver", "lose"):
            return self.no_mail(step[1])
        if kind in ("publish", "read"):
            return self.busy(None if kind == "publish" else step[1], step[-1])
        if kind == "timer":
            there = step[1] < len(self.operations) and self.operations[step[1]].runs()
            return None if there else f"idle {step[1]}"
        if kind == "boot":
            return f"notdown {step[1]}" if self.replicas[step[1]].is_up() else None
        return self.no_crash(step[1], step[2])

    def no_mail(self, number):
        return None if number < len(self.mails) else f"nomail {number} {len(self.mails)}"

    def busy(self, reader, admin):
        """A publisher goes by its administrator, and a reader by its number."""
        for op, operation in enumerate(self.operations):
            if operation.runs() and operation.reader == reader and (reader is not None or operation.admin == admin):
                return f"busy {op}"
        return None

    def no_crash(self, replica, cut):
        if cut is not None and cut[0] >= len(self.mails):
            return self.no_mail(cut[0])
        if not self.replicas[replica].is_up():
            return f"isdown {replica}"
        if cut is not None:
            _op, to, body = self.mails[cut[0]]
            if to != replica or body[0] not in ("fetch", "store"):
                return f"notitsmail {cut[0]}"
        return None

    def do(self, step):
        """Does a step, or answers why it is refused."""
        why = self.refusal(step)
        if why is not None:
            return why
        kind = step[0]
        if kind == "publish":
            self.publish(step[1])
        elif kind == "read":
            self.read(step[1], step[2])
        elif kind == "deliver":
            self.deliver(step[1])
        elif kind == "lose":
            self.undelivered.pop(step[1], None)
        elif kind == "crash":
            self.crash(step[1], step[2])
        elif kind == "boot":
            self.replicas[step[1]].boot()
        else:
            self.ask(step[1])
        self.steps += 1
        return None

    # ---- the automatic phase

    def next(self):
        for number, replica in enumerate(self.replicas):
            if not replica.is_up():
                return "boot", number
        for number in self.undelivered:
            return "deliver", number
        for op, operation in enumerate(self.operations):
            if operation.runs():
                return "timer", op
        return None

    def bound(self):
        running = sum(operation.runs() for operation in self.operations)
        return len(self.replicas) + 2 * len(self.undelivered) + running * (4 * len(self.replicas) + 1)

    def drain(self):
        """Takes the automatic steps, and answers how many there were."""
        taken = 0
        while (step := self.next()) is not None:
            if self.do(step) is not None:
                raise SystemExit(f"the model refuses its own step {step}")
            taken += 1
        return taken
