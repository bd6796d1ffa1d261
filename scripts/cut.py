"""A crate cut down to its types, its definitions and some modules of its proofs: what the prover then says hangs on no function.

Of proofs/ the modules asked for stay, and all that these name.
"""

import re
import shutil
from pathlib import Path

import edits

USE = re.compile(r"^(?:pub )?(?:unfoldable )?use Rattle\.(\w+)\.proofs\.([^\s{]+)", re.M)
CHILD = re.compile(r"^(?:pub )?mod (\w+)$", re.M)
TAKEN = re.compile(r"^((?:pub )?use \S*::)(?:(\w+)|\{([^{}]*)\});\n", re.M)


def _types(taken: re.Match[str]) -> str:
    """What is taken from a module, without its functions: a type or a constant has a capital."""
    names = [name for name in re.findall(r"\w+", taken[2] or taken[3]) if re.search("[A-Z]", name)]
    return f"{taken[1]}{{{', '.join(names)}}};\n" if len(names) > 1 else f"{taken[1]}{names[0]};\n" if names else ""


def bare(text: str) -> str:
    """A source without its functions, and without what it takes from other modules but types and constants."""
    text = edits.FUNCTION.sub("", text)
    text = re.sub(r"^ *#\[tactic\b.*\]\n", "", text, flags=re.M)
    text = re.sub(r"^impl \w+ \{\n(?:\s*(?://.*)?\n)*\}\n", "", text, flags=re.M)
    return TAKEN.sub(_types, text)


def _named(proofs: Path, crate: str, module: str) -> list[str]:
    """The modules, of those that are files, that a module names: those that it takes from, those that it declares, and those that declare it."""
    text = (proofs / f"{module}.antt").read_text()
    found = [f"{module}/{child}" for child in CHILD.findall(text)]
    found += [str(parent) for parent in Path(module).parents if str(parent) != "."]
    for owner, path in USE.findall(text):
        parts = path.rstrip(".").split(".")
        if owner == crate:
            found += ["/".join(parts[:count]) for count in range(1, len(parts) + 1)]
    return [each for each in found if (proofs / f"{each}.antt").exists()]


def modules(crate: Path, roots: list[str]) -> set[str]:
    """The modules of proofs/ that these ones reach."""
    proofs = crate / "proofs"
    todo, found = [root for root in roots if (proofs / f"{root}.antt").exists()], set()
    while todo:
        module = todo.pop()
        if module not in found:
            found.add(module)
            todo += _named(proofs, crate.name, module)
    return found


def write(crate: Path, roots: list[str], where: Path, changed: dict[str, str]) -> None:
    """The cut crate, some of its sources or definitions changed."""
    shutil.copytree(crate / "src", where / "src")
    if (crate / "specs").exists():
        shutil.copytree(crate / "specs", where / "specs")
    for file, text in changed.items():
        (where / file).write_text(text)
    for path in (where / "src").rglob("*.rt"):
        path.write_text(bare(path.read_text()))
    kept = modules(crate, roots)
    for module in kept:
        copy = where / "proofs" / f"{module}.antt"
        copy.parent.mkdir(parents=True, exist_ok=True)
        shutil.copy(crate / "proofs" / f"{module}.antt", copy)
    (where / "proofs/Lib.antt").write_text("".join(f"pub mod {module}\n" for module in sorted(kept) if "/" not in module))
