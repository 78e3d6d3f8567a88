"""Scenarios with one mistake each: mistakes.json has the scenario that they are made from, and each one's change.

Of each it is said by hand which kind of fault or warning leads to it (`ok`: none does), what has to be said, where the
carets begin where that is not at the change, and of those that only a run can tell what its trace has to say.
"""
import json
import os
import re

from .rules import TOP

PATH = os.path.join(TOP, "tools/scenario_check/mistakes.json")
NEXT_TO = 1


class Mistake:
    """A mistake: its name, its bytes, and what has to be told of it."""

    def __init__(self, base, said):
        self.name, self.told = said["name"], said["told"]
        self.says, self.trace = said.get("says", ""), said.get("trace")
        old, new = said["old"], said["new"]
        if old == "*":
            # the whole
            self.text, self.changed = new.replace("*", base), None
        else:
            start = base.index(old)
            self.text = base.replace(old, new)
            self.changed = (start, start + len(new))
        if "at" in said:
            at = self.text.index(said["at"])
            self.changed = (at, at + 1)
        self.data = self.text.encode({"crlf": "utf-8"}.get(said.get("saved"), said.get("saved", "utf-8")))
        if said.get("saved") == "crlf":
            self.data = self.data.replace(b"\n", b"\r\n")

    def is_at(self, place):
        """Whether carets stand at the mistake, or right beside it."""
        start, end = self.changed or (0, len(self.text))
        return place[0] <= end + NEXT_TO and place[1] >= start - NEXT_TO


def mistakes():
    with open(PATH, encoding="utf-8") as file:
        read = json.load(file)
    base = "\n".join(read["base"]) + "\n"
    return [Mistake(base, said) for said in read["mistakes"]]


def told_of(reading):
    """What is told of a scenario: each kind with its place."""
    if reading.no_text:
        return [("badjson", (0, len(reading.data)))]
    if reading.no_json:
        return [("badjson", (reading.no_json.at, reading.no_json.at + 1))]
    if reading.faults:
        return [(fault.words.split(" ")[0], (fault.start, fault.end)) for fault in reading.faults]
    return [(told.kind, told.place) for told in reading.warnings()]


def wrong_of(mistake, reading, text):
    """What is wrong in what is told of a mistake, which is this text."""
    kinds = [kind for kind, place in told_of(reading) if mistake.is_at(place)]
    refusal = reading.refusal().split(" ")[0]
    if mistake.told == "ok":
        if refusal != "ok":
            yield f"it is refused as {refusal}"
        return
    if mistake.told not in kinds:
        yield f"no {mistake.told} is told at it, but {kinds}"
    if mistake.says not in re.sub(r"\s+", " ", text):
        yield f"`{mistake.says}` is not said"
    if refusal != "ok" and not text.endswith("\n1 fault\n"):
        yield "more than one fault is told"
