"""Holds warnings against what happened in a run."""
import re

# why a step is refused that only a run can tell: which mails there are, and whose
OF_MAILS = ("nomail", "notitsmail")


class Run:
    """What a report or the refusal of a step says: who committed with which credentials, and which step was refused."""

    def __init__(self, answer):
        self.used, self.committed_at, self.proved_by = {}, {}, set()
        self.refused_at, self.reason = None, None
        found = re.match(r"(?:refused )?step (\d+) (\w+) ", answer)
        if found:
            self.refused_at, self.reason = int(found.group(1)), found.group(2)
        name = None
        for line in answer.split("\n"):
            words = line.split()
            if words[1:2] == ["commit"]:
                name = words[2]
                self.used[name] = set()
                self.committed_at[name] = int(words[0])
            elif words[:1] == ["proof"]:
                self.proved_by.add((words[3], int(words[4])))
                # a credential called none prints like no credential, so nothing is known of it
                self.used[name].update(set(words[words.index("uses") + 1:]) - {"none"})


def errors(warnings, scenario, run):
    """What the run shows to be wrong, in words: warnings, or the lack of one."""
    for told in warnings:
        if is_wrong(told, scenario, run):
            yield f"a wrong warning: {told.kind} {told.path}"
    if run.refused_at is not None and run.reason not in OF_MAILS:
        path = f"$.steps[{run.refused_at}]"
        if not any(told.kind == "refusal" and told.path == path for told in warnings):
            yield f"a refusal that is not foreseen: {path} {run.reason}"


def trace_errors(warnings, trace):
    """Of the warnings that a trace can show to be wrong: pushes from which a server learnt something."""
    pushed = {re.search(r"\[(\d+)\]", told.path)[1]: told for told in warnings if told.kind == "pushed"}
    mails = dict(re.findall(r"^(\d+) sent (\d+) Master \S+ push ", trace, re.M))
    for place, told in pushed.items():
        for took, server in re.findall(rf"^(\d+) took {mails.get(place)} Master (\S+) push ", trace, re.M):
            if re.search(rf"^{took} knows {server} ", trace, re.M):
                yield f"a wrong warning: {told.kind} {told.path}"


def is_wrong(told, scenario, run):
    places = list(map(int, re.findall(r"\[(\d+)\]", told.path)))
    if told.kind == "refusal":
        return run.refused_at is None or places[0] < run.refused_at
    if run.refused_at is not None:
        return False
    if told.kind in ("denied", "outside"):
        return scenario["transactions"][places[0]]["name"] in run.used
    if told.kind == "unpushed":
        version, admin = re.search(r"version (\d+) of (\w+)", told.words).groups()
        return (admin, int(version)) in run.proved_by
    if told.kind == "last":
        # a listed step is done at its own place
        names = re.search(r" so (.*) cannot ", told.words)[1].split(" and ")
        return any(run.committed_at.get(name, places[0]) < places[0] for name in names)
    if told.kind == "nevervalid":
        return any(scenario["credentials"][places[0]]["name"] in used for used in run.used.values())
    if told.kind == "stranger":
        transaction = scenario["transactions"][places[0]]
        return transaction["credentials"][places[1]] in run.used.get(transaction["name"], ())
    return False
