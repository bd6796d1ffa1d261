"""The module of a program with the library below it, as text, made the module of the C library: without main and what nothing reaches, and with the C function
of each `#[unsafe(no_mangle)] pub extern "C" fn`.

A C function of x86-64 on Linux hands on what it gets: numbers, and a slice as its pointer and its length. A struct of more than 16 bytes comes on the stack
(byval), and the function itself, which takes a pointer, copies it first to a place of its own, by which it is known here. It answers such a struct through a
pointer that is its first argument, and one of two numbers in two registers. Another form of a struct is not known here: the project has none.
"""

import re
from dataclasses import dataclass

MARK = re.compile(r'^#\[unsafe\(no_mangle\)\]\s*\n\s*pub extern "C" fn (\w+)', re.M)
HEAD = re.compile(r'define internal (?P<returns>.+) (?P<inner>@"[^"]+")\((?P<given>.*)\) (?P<attributes>#\d+) \{$')
PLACE = re.compile(r"  (%r\d+) = alloca \[(\d+) x i8\], align (\d+)$")
COPY = re.compile(r"  call void @llvm\.memmove\.p0\.p0\.i64\(ptr (%\w+), ptr (%\w+), i64 (\d+), ")
SMALL = 16


class UnknownForm(Exception):
    """A function that is not of a form known here."""


@dataclass(frozen=True)
class Place:
    size: int
    align: int


def placed(name: str, body: list[str]) -> tuple[dict[str, Place], bool]:
    """What each argument that is a struct is copied to, and whether the first one is where the answer is put."""
    places: dict[str, Place] = {}
    copies: dict[str, Place] = {}
    for line in body:
        if found := PLACE.match(line):
            places[found[1]] = Place(int(found[2]), int(found[3]))
        if (copy := COPY.match(line)) and copy[1] in places and copy[2].startswith("%a") and places[copy[1]].size == int(copy[3]):
            copies.setdefault(copy[2], places[copy[1]])
    if small := [place for place in copies.values() if place.size <= SMALL]:
        raise UnknownForm(f"{name}: how a struct of {small[0].size} bytes is passed is not known here")
    answers = "%a0" not in copies and any((copy := COPY.match(line)) and copy[1] == "%a0" and int(copy[3]) > SMALL for line in body)
    return copies, answers


def c_function(name: str, text: list[str]) -> list[str]:
    """The C function of the function that the text is of."""
    head = HEAD.match(text[0])
    if not head:
        raise UnknownForm(f"{name}: its first line is not known here: {text[0]}")
    copies, answers = placed(name, text[1:])
    given = [part for part in head["given"].split(", ") if part]
    params = []
    for part in given:
        place = copies.get(part.split()[-1])
        params.append(part if place is None else f"ptr noundef byval([{place.size} x i8]) align {place.align} {part.split()[-1]}")
    passed = ", ".join(f"{part.split()[0]} {part.split()[-1]}" for part in given)
    kind = re.sub(r"^(?:noundef |zeroext |signext )+", "", head["returns"])
    if kind == "void" and not answers:
        raise UnknownForm(f"{name}: what it answers is not known here")
    call = f"call {kind} {head['inner']}({passed})"
    lines = [f"  {call}", "  ret ptr %a0"] if answers else [f"  %answer = {call}", f"  ret {kind} %answer"]
    returns = "noundef ptr" if answers else head["returns"]
    return [f"define {returns} @{name}({', '.join(params)}) {head['attributes']} {{", "start:", *lines, "}"]


def split(text: str) -> tuple[list[str], dict[str, list[str]]]:
    """The lines of no function, and each function's lines by its name."""
    lines, rest, found, at = text.split("\n"), [], {}, 0
    while at < len(lines):
        end = at
        if lines[at].startswith("define "):
            end = lines.index("}", at)
            if name := re.match(r'define [^@]*@"([^"]+)"\(', lines[at]):
                found[name[1]] = lines[at : end + 1]
        elif not lines[at].startswith("; Function Attrs"):
            rest.append(lines[at])
        at = end + 1
    return rest, found


def reached(found: dict[str, list[str]], roots: list[str]) -> set[str]:
    seen: set[str] = set()
    todo = list(roots)
    while todo:
        name = todo.pop()
        if name not in seen:
            seen.add(name)
            todo += re.findall(r'@"([^"]+)"', "\n".join(found[name][1:]))
    return seen


def library(text: str, crate: str, sources: list[str]) -> str:
    """The C library of the crate whose sources are given, out of the module of a program that stands above it."""
    rest, found = split(text)
    marked = {name for each in sources for name in MARK.findall(each)}
    roots = [name for name in found if name.startswith(crate + "::") and name.rsplit("::", 1)[1] in marked]
    if not marked or len(roots) != len(marked):
        raise UnknownForm(f"the module has {len(roots)} functions of the {len(marked)} for C")
    kept = reached(found, roots)
    parts = [lines for name, lines in found.items() if name in kept]
    parts += [c_function(name.rsplit("::", 1)[1], found[name]) for name in roots]
    return "\n".join([*rest, *("\n".join(lines) for lines in parts)]) + "\n"
