"""What is told of the bytes of a scenario: its faults, or where there is none what is probably not meant."""
from .printing import Printer
from .reading import BYTES_MAX, Reading
from . import slips
from .rules import Rules
from .walk import FAULTS_MAX


def diagnosis_of(name, data, is_coloured=False):
    """The text that is told, and whether the scenario is refused."""
    reading = Reading(data, Rules())
    printer = Printer(name, reading.text or "", is_coloured)
    if reading.is_too_long():
        return printer.head("", "refused", "toolong") + f"\n    wanted: at most {BYTES_MAX:,} bytes\n1 fault\n", True
    if reading.no_text:
        return of_bytes(printer, data, reading.no_text.start), True
    if reading.no_json:
        return of_json(printer, reading.reader, reading.no_json), True
    if reading.faults:
        return of_faults(printer, reading.faults), True
    return of_warnings(printer, reading.warnings()), False


def of_bytes(printer, data, at):
    """Of bytes that are no UTF-8: the text up to the first such byte, and a sign for it."""
    printer.text = data[:at].decode("utf-8") + "\ufffd"
    at = len(printer.text) - 1
    notes = [("wanted", "a character in UTF-8: this byte is part of none"), ("perhaps", slips.of_bytes(data))]
    return printer.block((at, at + 1), "refused", "badjson", notes) + "1 fault\n"


def of_json(printer, reader, why):
    """Of a text that is no JSON: where it goes on as none."""
    notes = [("wanted", why.wanted)]
    if why.at == len(reader.text) and reader.open:
        start = reader.open[-1]
        what = "list" if reader.text[start] == "[" else "object"
        line = printer.line_of(start)
        notes.append(("", f"the text ends here, and the {what} that begins in line {line} is not closed"))
    notes.append(("perhaps", hint_of(reader.text, why)))
    return printer.block((why.at, why.at + 1), "refused", "badjson", notes) + "1 fault\n"


def hint_of(text, why):
    """What probably is meant where a text is no JSON, or None."""
    return slips.of_json(text, why, text[max(0, why.at - 1000):why.at].rstrip()[-1:])


def of_faults(printer, faults):
    """The faults in the order of the walk, and how many there are."""
    blocks = []
    for fault in faults:
        notes = [("wanted", fault.wanted), ("perhaps", fault.hint)]
        blocks.append(printer.block((fault.start, fault.end), "refused", fault.words, notes))
    return "".join(blocks) + counted(len(faults), "fault", "or more " if len(faults) == FAULTS_MAX else "")


def of_warnings(printer, warnings):
    """The warnings in the order of the walk, and how many there are."""
    blocks = []
    for told in warnings[:FAULTS_MAX]:
        notes = [("", told.words), ("perhaps", told.hint())]
        blocks.append(printer.block(told.place, "warning", f"{told.kind} {told.path}", notes))
    return "".join(blocks) + counted(len(warnings), "warning", "")


def counted(count, what, more):
    return f"{count} {more}{what}{'' if count == 1 else 's'}\n"
