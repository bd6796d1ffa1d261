"""Definitions that were edited: a sum that is worked out in the crate's table of rows (proofs/Cases.antt) must come out otherwise.

The crate is cut down to its definitions and the table (scripts/cut.py). In place of its theorem, that the sums are those on paper, it has the opposite: that
some row is not the paper's. An edit passes where this is proved, by computing it. So a definition that is written otherwise and means the same does not pass,
nor does one that the prover only cannot compute.
"""

import re
from pathlib import Path

import cut
import judge

TABLE = "proofs/Cases.antt"
ROOTS = ["Cases"]
PROVED = re.compile(r"^logic=proved", re.M)
# The theorem over a table: its name, the table, the definitions that it computes with.
THEOREM = re.compile(r"^(?:pub )?([\w-]+) : sums (\S+) ≡ papers \2\nunfolding (.*(?:\n +.*)*)\n\1 = refl\n", re.M)


def write(crate: Path, where: Path, changed: dict[str, str], right: bool) -> None:
    """The crate cut down, with another theorem: that it is true, or false, that all rows are right."""
    cut.write(crate, ROOTS, where, changed)
    file = where / TABLE
    text = file.read_text()
    found = THEOREM.findall(text)
    if not found:
        raise ValueError(f"{crate.name} has no table of sums")
    taken = "use Rattle.rules.proofs.Cases.Rows.{all_right, right, same, written}\nuse mathlib.Core.Bool.{true as each_row_right, false as some_row_wrong}\n"
    text = re.sub(r"^use ", f"{taken}use ", THEOREM.sub("", text), count=1, flags=re.M)
    tables = " ∷ ".join([*(table for _, table, _ in found), "[]"])
    opened = " ".join(dict.fromkeys(" ".join([*(names for _, _, names in found), "all_right right same written"]).split()))
    file.write_text(f"{text}\nrows_are : all_right ({tables}) ≡ {'each_row_right' if right else 'some_row_wrong'}\nunfolding {opened}\nrows_are = refl\n")


def has_table(crate: Path) -> bool:
    return (crate / TABLE).exists() and bool(THEOREM.search((crate / TABLE).read_text()))


def verdict(run: judge.Run) -> judge.Verdict:
    """On an edit, checked with False; on the crate as it is, checked with True."""
    if run.status == 0 and PROVED.search(run.log):
        return judge.Verdict(True, f"a row of {TABLE} is not the paper's")
    first = next(iter(judge.errors(run)), None)
    if first is None:
        return judge.Verdict(False, f"the prover ended with status {run.status}: {run.log.strip()[-300:]}")
    if not first.place.startswith("proofs/"):
        return judge.Verdict(False, f"the edit does not parse, resolve or fit its types: {first.short(600)}")
    return judge.Verdict(False, f"no sum is shown to come out otherwise, so it is harmless, or its row is missing: {first.short(300)}")
