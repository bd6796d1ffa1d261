"""Writes target/release: what ./release says."""

from __future__ import annotations

import hashlib
import json
import re
import shutil
import subprocess
import sys
from typing import NoReturn

from archives import TOP, VERSION, File, Files, below, commit, tar, zipped
from wheels import page, wheel

OUT = TOP / "target/release"
PROCESSORS = ("x86_64", "aarch64")

PKG_CONFIG = """\
prefix=${pcfiledir}/../..
includedir=${prefix}/include
libdir=${prefix}/lib

Name: gearcard
Description: The gear card, the proved engine of a driver's aid for chassis dynamometers
Version: %s
Cflags: -I${includedir}
Libs: -L${libdir} -lgearcard
"""


def fail(words: str) -> NoReturn:
    print(f"release: {words}", file=sys.stderr)
    raise SystemExit(2)


def refusals() -> bytes:
    """The README's own table."""
    found = re.search(r"^## Refusals\n.*?(?=^## )", (TOP / "README.md").read_text(), re.M | re.S)
    if found is None:
        fail("README.md has no part on refusals")
    return found[0].replace("## ", "# ", 1).rstrip().encode() + b"\n"


def for_c(processor: str) -> None:
    """The tarball for C."""
    built, shared = TOP / "target/lib" / processor, f"libgearcard.so.{VERSION}"
    soname = f"libgearcard.so.{VERSION.split('.')[0]}"
    files: Files = {f"examples/{name}": file for name, file in below(TOP / "examples").items() if name.endswith((".c", ".cpp", ".job", ".txt", ".export"))}
    files |= {name: File((TOP / name).read_bytes()) for name in ("include/gearcard.h", "VERSION", "CHANGELOG.md")}
    files["REFUSALS.md"] = File(refusals())
    files["lib/libgearcard.a"] = File((built / "libgearcard.a").read_bytes())
    files[f"lib/{shared}"] = File((built / "libgearcard.so").read_bytes(), program=True)
    files[f"lib/{soname}"] = File(link=shared)
    files["lib/libgearcard.so"] = File(link=soname)
    files["lib/pkgconfig/gearcard.pc"] = File((PKG_CONFIG % VERSION).encode())
    name = f"gearcard-{VERSION}-linux-{processor}"
    tar(OUT / f"{name}.tar.gz", name, files)


def for_windows(processor: str) -> None:
    """The zip file for C and what calls it on Windows."""
    built = TOP / "target/lib" / f"windows-{processor}"
    kept = (".c", ".cpp", ".job", ".txt", ".export")
    files: Files = {f"examples/{name}": file for name, file in below(TOP / "examples").items() if name.endswith(kept) and "/" not in name}
    files |= {f"examples/{name}": file for name, file in below(TOP / "examples/windows").items()}
    files |= {name: File((TOP / name).read_bytes()) for name in ("include/gearcard.h", "VERSION", "CHANGELOG.md")}
    files["REFUSALS.md"] = File(refusals())
    files["bin/gearcard.dll"] = File((built / "gearcard.dll").read_bytes(), program=True)
    files |= {f"lib/{name}": File((built / name).read_bytes()) for name in ("gearcard.lib", "libgearcard.dll.a", "gearcard.def")}
    name = f"gearcard-{VERSION}-windows-{processor}"
    zipped(OUT / f"{name}.zip", {f"{name}/{each}": file for each, file in sorted(files.items())})


def for_javascript() -> None:
    """The package as npm has it, with the version and the WebAssembly put in."""
    files = below(TOP / "js/gearcard")
    if "package.json" not in files:
        fail("there is no js/gearcard/package.json")
    package = json.loads(files["package.json"].data)
    files["package.json"] = File((json.dumps({"name": package.pop("name"), "version": VERSION, **package}, indent=2) + "\n").encode())
    files["gearcard.wasm"] = File((TOP / "target/lib/gearcard.wasm").read_bytes())
    tar(OUT / f"gearcard-{VERSION}-js.tgz", "package", files)


def verdict_of(crate: str) -> list[str]:
    """The last line of a crate's proof, and of each library with C functions which of them anything that it is made of rests on: none."""
    said = (TOP / f"target/staticlib/lib{crate}.say").read_text()
    lines: list[str] = re.findall(r"^logic=.*", said, re.M)
    if not lines or not lines[-1].startswith("logic=proved "):
        fail(f"{crate} is not proved")
    return [f"{crate}: {lines[-1]}", *re.findall(r"^axioms \w+: .*", said, re.M)]


def verdict(crate: str) -> None:
    kit = subprocess.run(["rt", "version"], capture_output=True, text=True, check=True).stdout.strip()
    lines = [f"gearcard {VERSION}", f"commit: {commit()[0]}", f"kit: {kit}", *verdict_of(crate)]
    (OUT / "VERDICT.txt").write_text("".join(f"{line}\n" for line in lines))


def main(crate: str) -> None:
    shutil.rmtree(OUT, ignore_errors=True)
    OUT.mkdir(parents=True)
    for processor in PROCESSORS:
        for_c(processor)
        wheel(OUT, processor, TOP / "target/lib" / processor / "libgearcard.so")
        for_windows(processor)
        wheel(OUT, processor, TOP / "target/lib" / f"windows-{processor}" / "gearcard.dll")
    for_javascript()
    (OUT / f"gearcard-{VERSION}.html").write_bytes(page())
    verdict(crate)
    sums = [f"{hashlib.sha256(path.read_bytes()).hexdigest()}  {path.name}\n" for path in sorted(OUT.iterdir())]
    (OUT / "SHA256SUMS").write_text("".join(sums))


main(sys.argv[1])
