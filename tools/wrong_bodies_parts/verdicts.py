"""What a check of a crate with an edit says of that edit."""
import re

# the analysis of a row's cases
CASES = re.compile(r"proofs/Rows\.antt")
# what a check says where a file cannot be read, rather than where a lemma fails
UNREADABLE = re.compile(r"is not in scope|can be named from here|no clause covers|write the clause|parse|unknown module|cannot be read")
UNREAD = re.compile(r"is not in scope|has no field|is no name|operand is missing|expected the end|cannot continue")
ERROR = re.compile(r"^(?:\S*/)?(proofs/\S+?\.antt):\d+:\d+: error: (?:`([^`]+)`: )?(.*)$", re.M)
# the place of a note or an error, what it speaks of, and what it says
TOLD = re.compile(r"^(note: )?(?:\./)?(\S+?):\d+:\d+: (error: |note: )?(?:`([^`]*)`: )?(.*)$")
TAKEN_AWAY = re.compile(r"has no field|is not in scope|has no `|was not admitted")
STALE = re.compile(r"module .Rattle-(\w+)-.*Run the lower steps again")


def of_code(passed, said, changed):
    """A verdict on an edit of code alone, which changes these files of the crate, and why."""
    if passed:
        return "PROVED", "nothing refuses it"
    told = [it for it in map(TOLD.match, said.split("\n")) if it and (it[1] or it[3] == "error: ")]
    for it in told:
        names_it = it[4] is not None
        if not it[1] and (it[2] in changed or it[2].startswith(("src/", "specs/"))) and (not names_it or UNREAD.search(re.sub(r"`[^`]*`", "", it[5]))):
            return "DOES NOT FIT", it[0][:160]
    if STALE.search(said):
        return "DOES NOT FIT", "the kept work of a library could not be used"
    if not re.search(r"^(?:logic=not-proved|only=)", said, re.M):
        first = next((it for it in said.split("\n") if "error" in it), said.strip().split("\n")[-1] if said.strip() else "no answer")
        return "DOES NOT FIT", first[:160]
    first = next((it for it in told if not (it[2].startswith("proofs/") and TAKEN_AWAY.search(it[5]))), None)
    if told and first is None:
        return "LOOK", f"only because a proof names what the edit took away: {told[0][0][:120]}"
    return "refused", first[0].removeprefix("note: ").removeprefix("./")[:160] if first else "not proved"


def of_row(passed, said):
    """A verdict on an edit of a row with its code, and why. A check says of each crate below what came of that one as well."""
    if passed:
        return "PROVED", "nothing refuses it"
    errors = [(file, name, text) for file, name, text in ERROR.findall(said) if "depend" not in text]
    lemmas = [it for it in errors if it[1] and not UNREADABLE.search(it[2])]
    if lemmas:
        file, name, _ = lemmas[0]
        return ("LOOK" if CASES.match(file) else "refused"), f"{name} in {file}"
    if errors:
        file, name, text = errors[0]
        return "DOES NOT FIT", f"{file}: {text[:120]}"
    code = re.search(r"^note: (src/\S+): it is not proved (.*)$", said, re.M)
    if code:
        return "CODE", f"{code[1]} {code[2][:120]}"
    return "DOES NOT FIT", (next((it for it in said.split("\n") if "error" in it), None) or said.strip().split("\n")[-1] or "no answer")[:160]
