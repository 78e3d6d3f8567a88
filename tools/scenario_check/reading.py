"""What is found in the bytes of a scenario, without its telling."""
from .near import only_near
from .reader import NoJson, Reader
from .walk import Walk
from .warnings import warnings_of

BYTES_MAX = 16_777_216


class Reading:
    """Bytes, and their text where they are one; why they are no text or no JSON; else the faults, or the scenario."""

    def __init__(self, data, rules):
        self.data, self.text, self.reader, self.walk, self.scenario = data, None, None, None, None
        self.no_text, self.no_json, self.faults = None, None, []
        if self.is_too_long():
            return
        try:
            self.text = data.decode("utf-8")
        except UnicodeDecodeError as why:
            self.no_text = why
            return
        self.reader = Reader(self.text, only_near)
        try:
            node = self.reader.whole(rules.whole)
        except NoJson as why:
            self.no_json = why
            return
        self.walk = Walk(self.text, rules)
        self.scenario = self.walk.scenario(node)
        self.faults = self.walk.faults

    def is_too_long(self):
        return len(self.data) > BYTES_MAX

    def refusal(self):
        """The first fault in the program's words, or ok."""
        if self.is_too_long():
            return "toolong"
        if self.no_text or self.no_json:
            return "badjson"
        return self.faults[0].words if self.faults else "ok"

    def warnings(self):
        """What is probably not meant in a scenario without a fault."""
        return warnings_of(self.walk, self.scenario)
