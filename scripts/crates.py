"""The crates of a repository, as its crates.txt lists them."""

import os
import re
from pathlib import Path


def _lines(top: Path) -> list[tuple[str, str, str]]:
    """Of each line the crate's name, the word after it (`staticlib`, or none), and what it uses."""
    lines = (line.partition("#")[0].partition(":") for line in (top / "crates.txt").read_text().splitlines())
    return [((head := name.split())[0], " ".join(head[1:]), below) for name, _, below in lines if name.strip()]


def uses(top: Path) -> dict[str, list[str]]:
    """What each crate uses, of the repository and of the kit."""
    return {name: below.split() for name, _, below in _lines(top)}


def is_static(top: Path, name: str) -> bool:
    """Whether it is a static library, for C to link."""
    return (name, "staticlib") in [line[:2] for line in _lines(top)]


def below(used: dict[str, list[str]], name: str) -> list[str]:
    """The crates of the repository below one, each after those that it uses."""
    found: list[str] = []
    for each in used[name]:
        if each in used:
            found += [it for it in [*below(used, each), each] if it not in found]
    return found


def root_of(crate: Path) -> Path:
    """The root file of a crate's code: src/main.rt of a program, src/lib.rt of a library."""
    program = crate / "src/main.rt"
    return program if program.exists() else program.with_name("lib.rt")


def is_library(crate: Path) -> bool:
    return root_of(crate).name == "lib.rt"


def promises(crate: Path) -> bool:
    """Whether it is a library with a function whose contract says something of its answer."""
    return is_library(crate) and any(re.search(r"^\s*ensures\b", source.read_text(), re.M) for source in crate.glob("src/**/*.rt"))


def jobs() -> int:
    """How many checks run beside each other: as rt has it."""
    return int(os.environ.get("RT_JOBS") or min(os.cpu_count() or 1, 4))
