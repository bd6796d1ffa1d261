"""The kit's prover and compiler on a crate, with the words that `rt` gives them, but for the places of the crate and of the libraries."""

import os
import re
import subprocess
from collections.abc import Callable
from functools import cache
from pathlib import Path

import crates

TOP = Path(__file__).resolve().parents[1]


@cache
def kit() -> Path:
    return Path(subprocess.run(["rt", "doc"], capture_output=True, text=True, check=True).stdout.strip()).parent


def built(name: str) -> Path:
    """The library of a crate, as rt builds it."""
    return TOP / f"crates/{name}/out/rlib/{name}.rlib"


def words(verb: str, name: str, crate: Path, uses: dict[str, list[str]], rlib: Callable[[str], Path] = built) -> list[str | Path]:
    """rattle VERB on the crate in that folder, over the libraries."""
    said: list[str | Path] = [kit() / "bin/rattle", verb, "--crate-name", name, crates.root_of(crate)]
    for each in ["std", *uses[name]]:
        said += ["--extern", f"{each}={rlib(each) if each in uses else kit() / 'rlibs' / (each + '.rlib')}"]
    said += ["-L", f"dependency={kit()}/rlibs"]
    for each in crates.below(uses, name):
        said += ["-L", f"dependency={rlib(each).parent}"]
    said += ["--antt-project", kit() / "rattle/logic/antt-project.json", "--logic-built", kit() / "logic_built", "--links", f"{name}="]
    return said + (["--crate-type", "staticlib"] if crates.is_static(TOP, name) else [])


def sources(names: list[str]) -> list[str]:
    """The words that pass these libraries of the kit, and those that they use, as source."""
    said, todo = [], list(dict.fromkeys(names))
    for name in todo:
        uses = re.findall(r"^dep (\w+)$", (kit() / "rlibs" / f"{name}.rlib/format").read_text(), re.M)
        todo += [each for each in uses if each not in todo]
        said += ["--lib", f"{name}:{','.join(uses)}={kit()}/rattle/{name}/src/lib.rt"]
    return said


def toolchain(folder: Path, clang: str) -> Path:
    """The kit's toolchain by links, in a folder that is made, but for its clang, which is that script."""
    kept = kit() / "toolchain"
    (folder / "bin").mkdir(parents=True)
    for path in [*kept.iterdir(), *(kept / "bin").iterdir()]:
        if path.name not in ("bin", "clang"):
            (folder / path.relative_to(kept)).symlink_to(path)
    (folder / "bin/clang").write_text(clang)
    (folder / "bin/clang").chmod(0o755)
    return folder


def run(said: list[str | Path], where: Path | None = None) -> tuple[int, str, float]:
    """Status, what was printed, whole, and seconds of processor time."""
    done = subprocess.Popen(said, cwd=where, stdin=subprocess.DEVNULL, stdout=subprocess.PIPE, stderr=subprocess.STDOUT)
    assert done.stdout is not None
    with done.stdout:
        printed = done.stdout.read().decode(errors="replace")
    _, status, usage = os.wait4(done.pid, 0)
    done.returncode = os.waitstatus_to_exitcode(status)
    return done.returncode, printed, usage.ru_utime + usage.ru_stime
