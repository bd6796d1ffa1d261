"""The judge of what the prover says of an edit: which of its errors are facts, and which declarations of a contract it refuses.

A fact is a statement that no longer follows. What is no fact:
  - an error in src/ or specs/, where no proof stands: the edit itself does not parse, resolve or fit its types;
  - a proof that no longer fits the code: it names what is not there any more, has another number of arguments, rewrites what does not occur, or answers one
    need at the place of another;
  - that the prover gave up: at its limit of steps, or in a search;
  - that something else was not admitted.
A proof refuses what it does not fit, right or wrong. So this alone passes no edit of code: that is for a run to tell (scripts/byrun.py).
"""

import re
from dataclasses import dataclass
from pathlib import Path

REFUSED = re.compile(r"^logic=not-proved", re.M)

# Said of whatever rests on a declaration that was refused.
KNOCK_ON = re.compile(r"was not admitted\b|declarations? that depends? on .* was not checked|declarations? that depends? on .* were not checked")

# An answer inlined into its function's theorem says `F_spec` where it stands at another need's place; κs is what the answers to a call's needs bind; `Lts` has
# what is known at a place of the code.
# Of a name in a term that it shows antt says that it "is not in scope here, so what is shown does not paste back": that is advice.
UNFIT = re.compile(
    r"has no (field )?`|can be named from here|is not in scope(?! here)|is in a cycle of calls|λ has \d+ binders|has \d+ arguments|`rw`: no occurrence"
    r"|`[^` ]*_spec`: .*expected type `([^` ]*\.)?[Tt]ie\.Need-|on the face `κs = |expected type `([^` ]*\.)?[Tt]ie\.((Need|After)-|Start\b)"
)
GAVE_UP = re.compile(r"step limit|broke off|no proof of `([^` ]*\.)?[Tt]ie\.After-|`search` did not prove")

# What the numbers are at which a goal fails, which `omega` tells: of a declaration that has its goal as its type, that is a fact whatever else does not fit.
COUNTERED = re.compile(r"All of that holds, and the (goal|part) fails, at ")

# A goal without an answer that the check itself finds false, by values that it has tried.
FALSE = re.compile(r"^note: \S+: it is not proved that .*\(`([^`]+)`\); the facts known there allow values at which this goal is false", re.M)

# Where the demands on contracts stand: that each allows one outcome, that none asks anything of its caller, and what it says.
DEMANDS = ("proofs/Determined.antt", "proofs/Demands.antt", "proofs/Contracts.antt")


@dataclass(frozen=True)
class Run:
    """A check of a crate: the prover's status, what it printed, and the folder of the crate that it read."""

    status: int
    log: str
    folder: str


@dataclass(frozen=True)
class Error:
    """Where it stands, below the crate's folder, and the whole message on one line."""

    place: str
    message: str

    @property
    def file(self) -> str:
        return self.place.split(":")[0]

    @property
    def declaration(self) -> str:
        name = re.match(r"error(?:\[[\w-]+\])?: `([^`]+)`:", self.message)
        return name[1] if name else ""

    def short(self, most: int) -> str:
        text = f"{self.place}: {self.message}"
        return text if len(text) <= most else text[:most] + " .."


@dataclass(frozen=True)
class Verdict:
    passed: bool
    words: str


def errors(run: Run) -> list[Error]:
    """All errors but those that only follow from others. A long message goes on in lines that are indented."""
    found: list[Error] = []
    goes_on = False
    for line in run.log.split("\n"):
        if goes_on and line.startswith("  "):
            found[-1] = Error(found[-1].place, f"{found[-1].message} {line.strip()}")
            continue
        error = _error(line, run.folder)
        goes_on = error is not None
        if error:
            found.append(error)
    return [error for error in found if not KNOCK_ON.search(error.message)]


def _error(line: str, folder: str) -> Error | None:
    if match := re.match(r"(/.+?)((?::\d+:\d+)?): (error(?:\[[\w-]+\])?: .*)", line):
        return Error(match[1].removeprefix(folder + "/") + match[2], match[3])
    if match := re.match(r"fn (\w+)::(\S+): (no proof: .*`search` did not prove .*)", line):
        return Error(f"proofs/{match[2].replace('::', '/')}/Proof.antt", match[3])
    return None


def _of_proof(error: Error, function: str) -> bool:
    return error.file in [f"proofs/{function}/{name}.antt" for name in ("Proof", "Answers", "Invariants")]


def no_fact(error: Error) -> str | None:
    """Why an error is no fact; None where it is one."""
    if not error.place.startswith("proofs/"):
        return "the edit does not parse, resolve or fit its types"
    if UNFIT.search(error.message):
        return "refused only because the proof no longer fits the code"
    if GAVE_UP.search(error.message):
        return "the prover gave up, which shows nothing"
    return None


def unheard(run: Run) -> str | None:
    """Why a check says nothing of an edit."""
    if run.status == 0:
        return "not refused"
    if run.status != 1:
        return f"the prover ended with status {run.status}: {(run.log.strip().split(chr(10)) or [''])[-1][:300]}"
    if not REFUSED.search(run.log):
        first = next(iter(errors(run)), None)
        return "it did not reach the prover" + (f": {first.short(600)}" if first else "")
    return next((f"{no_fact(error)}: {error.short(600)}" for error in errors(run) if not error.place.startswith("proofs/")), None)


def proved(run: Run) -> Verdict:
    """Of the crate as it is."""
    lines = run.log.strip().splitlines() or [""]
    return Verdict(run.status == 0 and lines[-1].startswith("logic=proved "), next((error.short(300) for error in errors(run)), lines[-1][:300]))


def false_goals(run: Run, function: str) -> list[str]:
    """The goals of a function, which has no answer to them, that the check finds false."""
    left = re.search(rf"^fn \w+::{re.escape(function.replace('/', '::'))}: no proof: .*`search` did not prove (.*)", run.log, re.M)
    return [goal for goal in FALSE.findall(run.log) if left and f"`{goal}`" in left[1]]


def refused(run: Run, function: str | None) -> Verdict:
    """On an edit of code, of that function's body where one is named: the first error of what was edited must be a fact, or one of them one with the numbers at
    which its goal fails; or a goal that needed no answer is false. What a callee asks for does not count: its answer is of the argument that stood there."""
    if why := unheard(run):
        return Verdict(False, why)
    if function and (goals := false_goals(run, function)):
        return Verdict(True, f"refused: {function}: `{goals[0]}`: the facts known there allow values at which this goal is false")
    found = [error for error in errors(run) if function is None or _of_proof(error, function)]
    found = [error for error in found if not re.search(r"-requires(-\d+)?$", error.declaration)]
    if not found:
        return Verdict(False, "refused, and no error of what was edited is found")
    countered = [error for error in found if COUNTERED.search(error.message) and not error.declaration.endswith("_spec")]
    if no_fact(found[0]) and countered:
        found = countered
    why = no_fact(found[0])
    return Verdict(why is None, f"{why or 'refused'}: {found[0].short(160 if why is None else 600)}")


def demand(run: Run, crate: Path, function: str | None, others: set[str]) -> Verdict:
    """On an edit of a contract, of that function where one is told, beside those of others: a demand over it must be refused."""
    if why := unheard(run):
        return Verdict(False, why)
    for error in errors(run):
        if error.file not in DEMANDS or no_fact(error):
            continue
        read = functions_read((crate / error.file).read_text(), error.declaration)
        if function is None or (function in read and not read & others):
            return Verdict(True, error.short(160))
    return Verdict(False, "neither `Determined` nor a demand over the contract is refused")


def functions_read(text: str, name: str) -> set[str]:
    """The functions whose contracts the type of a declaration reads."""
    named = re.findall(r"^use Rattle\.\w+\.proofs\.(\S+)\.(?:Kinds|Reads) as (\S+)$", text, re.M)
    aliases = {alias: path.replace(".", "/") for path, alias in named}
    declared = re.search(rf"^(?:pub )?{re.escape(name)} :.*?^(?={re.escape(name)}\b)", text, re.M | re.S)
    return {path for alias, path in aliases.items() if declared and f"{alias}." in declared[0]}
