"""Edits of a crate, as the files of its trials/ have them: what an edit says, what it is an edit of, and how it is applied.

A file's lines: `file: PATH`, then pairs `old: TEXT` and `new: TEXT` that hold for that file; any other line is a comment, but for
  case: KIND NUMBER    a case of the comparison that tells it (tests/independent)
  case: cycles         the built-in and the scaled cycle tell it
  case: PROGRAM        a program tells it: `runs`, or `leaf` (scripts/byrun.py)
  prover: refuses      the prover must refuse it besides, for a fact
The old text must stand exactly once in its file. PATH lies in src/ or specs/: an edit of a proof shows nothing.
"""

import re
from dataclasses import dataclass
from pathlib import Path

CODE, CONTRACT, DEFINITION = "code", "contract", "definition"


class BadEdit(Exception):
    """An edit that cannot be tried, and why."""


@dataclass(frozen=True)
class Pair:
    file: str
    old: str
    new: str


@dataclass(frozen=True)
class Edit:
    label: str
    pairs: tuple[Pair, ...]
    case: tuple[str, ...] = ()
    prover: bool = False


def read(path: Path) -> Edit:
    pairs: list[Pair] = []
    file, old, case, prover = "", "", "", False
    for line in path.read_text().split("\n"):
        word, _, rest = line.partition(": ")
        if word == "file":
            file = rest
        elif word == "old":
            old = rest
        elif line.startswith("new:"):
            pairs.append(Pair(file, old, line.removeprefix("new:").removeprefix(" ")))
        elif word == "case":
            case = rest
        elif line == "prover: refuses":
            prover = True
    return Edit(path.stem, tuple(pairs), tuple(case.split()), prover)


def edited(edit: Edit, crate: Path) -> dict[str, str]:
    """The new text of each file that the edit changes."""
    texts: dict[str, str] = {}
    if not edit.pairs:
        raise BadEdit("it has no pair of old and new")
    for pair in edit.pairs:
        if pair.file not in texts:
            texts[pair.file] = source(crate, pair.file)
        if not pair.old or texts[pair.file].count(pair.old) != 1:
            raise BadEdit(f"'{pair.old}' does not stand once in {pair.file}")
        texts[pair.file] = texts[pair.file].replace(pair.old, pair.new)
    if all(text == source(crate, file) for file, text in texts.items()):
        raise BadEdit("it changes nothing")
    return texts


def source(crate: Path, file: str) -> str:
    if not re.fullmatch(r"(src/(\w+/)*\w+\.rt|specs/(\w+/)*\w+\.antt)", file):
        raise BadEdit(f"'{file}' names no file of src/ or specs/")
    try:
        return (crate / file).read_text()
    except OSError as error:
        raise BadEdit(f"{file} cannot be read") from error


# ---------------------------------------------------------------- functions, as rt fmt lays them out

# A function: its head, in one line or with a line for each parameter, its contract, then its body from the `{` that ends a line to the `}` below its head.
FUNCTION = re.compile(
    r'^(?P<indent> *)(?P<head>(?:pub )?(?:extern "C" )?fn (?P<name>\w+)(?:[^\n{]*\((?:\n(?P=indent)    [^\n]*)+\n(?P=indent)\)[^\n{]*?|[^\n{]*?)'
    r"(?P<clauses>(?:\n *(?:requires|ensures|ghost)\b[^\n]*(?:\n +(?!(?:requires|ensures|ghost)\b|\{)[^\n ][^\n]*)*)*))"
    r"\s*\{\n(?P<body>.*?)^(?P=indent)\}\n",
    re.M | re.S,
)


def functions(text: str) -> list[re.Match[str]]:
    return list(FUNCTION.finditer(text))


def path_of(file: str, text: str, function: re.Match[str]) -> str:
    """Where its proof stands below proofs/."""
    module = [part for part in Path(file).with_suffix("").parts[1:] if part not in ("lib", "main")]
    owners = re.findall(r"^impl (\w+)", text[: function.start()], re.M) if function["indent"] else []
    return "/".join([*module, *owners[-1:], function["name"]])


def function_of(edit: Edit, crate: Path) -> str | None:
    """The one function whose body holds all that the edit changes; None where there is no such one."""
    found = set()
    for pair in edit.pairs:
        text = source(crate, pair.file)
        at = text.find(pair.old)
        inside = [f for f in functions(text) if f.start("body") <= at and at + len(pair.old) <= f.end("body")]
        found.add(path_of(pair.file, text, inside[0]) if inside else None)
    return found.pop() if len(found) == 1 else None


# ---------------------------------------------------------------- what it is an edit of

# A clause that says nothing: both sides are one.
EMPTY = re.compile(r"(?:(?:pub )?\w[\w'-]* : )?(.+) ≡ \1")
# A clause that asks something of the caller, with or without a name.
ASKS = re.compile(r"\brequires (?:\w+ )?\{")


def _of_contract(pair: Pair) -> bool:
    return bool(EMPTY.fullmatch(pair.new.strip())) or bool(ASKS.search(pair.new)) or pair.old.startswith("ghost ")


def kind(edit: Edit, crate: Path) -> str:
    """An edit of a contract empties a clause, or asks the caller for something: any other change of a contract may be harmless."""
    if all(_of_contract(pair) for pair in edit.pairs):
        return CONTRACT
    if all(pair.file.startswith("specs/") for pair in edit.pairs):
        return DEFINITION
    if any(pair.file.startswith("specs/") for pair in edit.pairs):
        raise BadEdit("it is of code and of a definition")
    for pair in edit.pairs:
        text = source(crate, pair.file)
        at = text.find(pair.old)
        if any(f.start("clauses") <= at < f.end("clauses") for f in functions(text)):
            raise BadEdit("of a contract it neither empties a clause nor asks for something")
    return CODE


def contract_of(edit: Edit, crate: Path) -> str | None:
    """The one function whose contract the edit is of; None where it is of a record that contracts are made of."""
    found = set()
    for pair in edit.pairs:
        if pair.file.startswith("specs/"):
            return None
        text = source(crate, pair.file)
        at = text.find(pair.old)
        found |= {path_of(pair.file, text, f) for f in functions(text) if f.start("clauses") <= at < f.end("clauses")}
    return found.pop() if len(found) == 1 else None


def together(several: list[Edit], crate: Path) -> dict[str, str]:
    """The new text of each file that some of the edits change, all made one after the other."""
    texts: dict[str, str] = {}
    for edit in several:
        for pair in edit.pairs:
            text = texts.get(pair.file) or source(crate, pair.file)
            texts[pair.file] = text.replace(pair.old, pair.new)
    return texts
