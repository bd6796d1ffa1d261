"""Bad input of every kind: one line on standard error that a terminal shows as it is, a status that says so, no traceback, and an end in time."""

from __future__ import annotations

import collections
import os
import random
import re
import shutil
import subprocess
import time
import unicodedata
from typing import Callable

from gearcard.files import JOB_MOST, TEXT_MOST

from .texts import TEXT
from .words import EXAMPLES, TOP, Words

#: Seconds that one input may take; the longest took a fifth of it on an idle machine.
LONGEST = 10.0

HEAD = TEXT[: TEXT.index("speeds = [")]
VAST = "1e9999999999999999999"

#: What a text has in place of what, or as its trace, and whether it is read all the same.
TEXTS: tuple[tuple[str, str], ...] = (
    ("arrays 500 deep", TEXT.replace("idle = 800", f"idle = {'[' * 500}{']' * 500}")),
    ("tables 500 deep", TEXT.replace("idle = 800", f"idle = {'{a=' * 500}1{'}' * 500}")),
    ("an integer of 4,301 digits", TEXT.replace("idle = 800", f"idle = {'1' * 4301}")),
    ("a hexadecimal of 4,301 digits", TEXT.replace("idle = 800", f"idle = 0x{'f' * 4301}")),
    ("a hexadecimal of 900 digits", TEXT.replace("version = 1\n", f"version = 0x{'f' * 900}\n")),
    ("a hold in a gear of 900 digits", TEXT.replace("2 = 3", f"2 = 0x{'f' * 900}")),
    ("a decimal of 900 digits", TEXT.replace("idle = 800", f"idle = 0.{'1' * 900}")),
    ("a vast number", TEXT.replace("idle = 800", f"idle = {VAST}")),
    ("a vast speed", HEAD + f"speeds = [0, {VAST}, 0]\n"),
    ("a number of 10^9 digits", TEXT.replace("idle = 800", "idle = 1e999999999")),
    ("70,000 ratios", TEXT.replace("ratios = [", "ratios = [" + "1," * 70000)),
    ("65,536 curve points", TEXT.replace("curve = [", "curve = [" + "[1,1]," * 65536)),
    ("70,000 speeds", HEAD + f"speeds = [{'0,' * 70000}]\n"),
    ("a zero in a name", HEAD + 'csv = "a\\u0000b"\n'),
    ("a long name", HEAD + f"csv = '{'a' * 5000}'\n"),
    ("a folder as CSV", HEAD + "csv = '.'\n"),
    ("a device without an end as CSV", HEAD + "csv = '/dev/zero'\n"),
    ("a key of 20,000 parts", "a" + ".a" * 20000 + " = 1\n" + TEXT),
    ("a table of 20,000 parts", TEXT + "[a" + ".a" * 20000 + "]\n"),
    ("a key of 100,000 characters", TEXT.replace("idle = 800", f"{'i' * 100000} = 800")),
    ("a newline in a key", TEXT.replace("idle = 800", '"id\\nle" = 800')),
    ("an escape sequence in a key", TEXT.replace("idle = 800", '"\\u001b[31mred" = 800')),
    ("a line separator in a key", TEXT.replace("idle = 800", '"\\u2028\\u202eidle" = 800')),
    ("an escape sequence as a cycle", HEAD + 'cycle = "\\u001b]0;title\\u0007"\n'),
    ("an escape sequence as a decimal mark", HEAD + 'csv = "a.csv"\ndecimal = "\\u001b[2J"\n'),
    ("an escape sequence as a second", TEXT.replace("2 = 3", '"\\u001b[2J" = 3')),
    ("quotation marks without an end", TEXT + '"""' + '\\"' * 50000),
    ("nothing", ""),
    ("a byte-order mark alone", "\ufeff"),
)

#: A CSV file; the text asks for its column `speed`, or for the only one.
SHEETS: tuple[tuple[str, bytes], ...] = (
    ("1,048,577 rows", b"0\n" * 1048577),
    ("a vast speed", f"speed\n0\n{VAST}\n0\n".encode()),
    ("a speed of 10^9 digits", b"speed\n0\n1e999999999\n0\n"),
    ("a newline in a cell", b'speed\n0\n"a\nb"\n0\n'),
    ("an escape sequence in a cell", b"speed\n0\n\x1b[31mred\n0\n"),
    ("an escape sequence of eight bits in a cell", b"speed\n0\n\x9b31mred\n0\n"),
    ("an escape sequence in a header", b"\xe2\x80\xaespeed,b\n0,0\n"),
    ("a cell of 200,000 characters", b"speed\n0\n" + b"a" * 200000 + b"\n0\n"),
    ("100,000 columns", b"," * 100000 + b"\n" + b"," * 99999 + b"0\n"),
    ("zeros", bytes(1000)),
    ("half of UTF-16", b"\xff\xfe0"),
)

#: Words, with {} for a folder that has the examples.
WORDS: tuple[tuple[str, ...], ...] = (
    ("make", "."),
    ("make", ""),
    ("make", ".."),
    ("make", "/"),
    ("picture", "."),
    ("picture", ""),
    ("card", "/dev/zero"),
    ("make", "/dev/zero"),
    ("show", "/dev/zero"),
    ("hold", "/dev/zero", "1", "1"),
    ("hold", ".", "1", "1"),
    ("edit", "car-z.job", "/dev/zero"),
    ("export", "car-z.job", "/dev/zero"),
    ("coefficients", "/dev/zero"),
    ("cycle", "--part=--"),
    ("cycle", "--downscale=--"),
    ("cycle", "--downscale", VAST),
    ("cycle", "--part", "9" * 5000),
    ("mend", "car-z.job", "1", VAST),
    ("mend", "car-z.job", "1", "1e999999999"),
    ("mend", "car-z.job", "1", "9" * 5000),
    ("mend", "car-z.job", "1", "٥"),
    ("hold", "car-z.job", "١", "2"),
    ("hold", "car-z.job", "2", "--wait=--"),
    ("hold", "car-z.job", "2", "3", "--wait", "nan"),
    ("hold", "car-z.job", "2", "3", "--wait", "1e999999999"),
    ("hold", "car-z.job", "0-99999999999999999999", "3"),
    ("hold", "car-z.job", "--", "2"),
    ("card", "--", "--"),
    ("card", "a\nb.job"),
    ("card", "\x1b]0;title\x07.job"),
    ("card", "\udcff\udcfe.job"),
    ("make", "\udcff.toml"),
    ("card", "\u202egnp.job"),
    ("draw\x1b[2J\n",),
    ("card", "car-z.job", "more\n\x1b[2J"),
    ("hold", "car-z.job", "\x1b[2J", "\n"),
    ("card", "x" * 5000),
    ("make", "car-z.toml", "-o", "x" * 300),
    ("make", "car-z.toml", "-o", ""),
    ("make", "car-z.toml", "-o", "none/x.job"),
    ("make", "car-z.toml", "-o", "/proc/x.job"),
    ("compare", "car-z.job", ""),
    ("help", "\x1b[2J"),
    ("--help", "--help"),
    ("-",),
    ("",),
)


class Hostile(Words):
    def setUp(self) -> None:
        super().setUp()
        self.longest = 0.0
        for path in (*EXAMPLES.glob("*.toml"), *EXAMPLES.glob("*.export")):
            shutil.copy(path, self.folder)
        self.before = {path.name: path.read_bytes() for path in self.folder.glob("*.job")}

    def tried(self, *words: str) -> int:
        """The status of a tool; whatever it is given, it ends well and in time."""
        begun = time.monotonic()
        status, out, said = self.run_words(*words)
        took = time.monotonic() - begun
        self.longest = max(self.longest, took)
        shown = [word[:100] for word in words]
        self.assertLess(took, LONGEST, shown)
        self.looked_at(status, out, said, shown)
        return status

    def looked_at(self, status: int, out: str, said: str, words: object) -> None:
        self.assertIn(status, (0, 1, 2), words)
        self.assertNotIn("Traceback", out + said, words)
        self.assertNotIn("should not have happened", said, words)
        if status:
            self.assertTrue(out == "" or status == 1, words)
            self.assertEqual((said.count("\n"), said[-1:]), (1, "\n"), (words, said[:300]))
        self.assertLess(len(said), 2000, words)
        for text in (out.replace("\n", ""), said[:-1]):
            self.assertTrue(text.isprintable() or not any(unicodedata.category(each) in ("Cc", "Cf", "Cs", "Zl", "Zp") for each in text), (words, text[:300]))

    def test_known(self) -> None:
        """All that was found to end in a traceback, in minutes, or in a line that steers the terminal."""
        for what, text in TEXTS:
            with self.subTest(what):
                self.file("bad.toml", text)
                self.assertIn(self.tried("card", "bad.toml"), (1, 2))
        for what, sheet in SHEETS:
            with self.subTest(what):
                self.file("bad.csv", sheet)
                self.file("bad.toml", HEAD + "csv = 'bad.csv'\n")
                self.assertIn(self.tried("card", "bad.toml"), (1, 2))
        for words in WORDS:
            with self.subTest(words):
                self.assertIn(self.tried(*words), (1, 2))
        for name, size in (("long.toml", TEXT_MOST + 1), ("long.job", JOB_MOST + 1)):
            self.file(name, b"#" * size)
            self.assertEqual(self.tried("card", name), 2)
        for name, made in self.before.items():
            self.assertEqual((self.folder / name).read_bytes(), made, name)

    def test_messages(self) -> None:
        """What is shown of a name, a key, a cell or a word is escaped."""
        self.ends(2, r"gearcard: a\x0ab.job could not be read: No such file or directory", "card", "a\nb.job")
        self.ends(2, r"gearcard: \x1b[2J.job could not be read: No such file or directory", "card", "\x1b[2J.job")
        self.ends(2, r"gearcard: \xff.job could not be read: No such file or directory", "card", "\udcff.job")
        self.ends(2, r"gearcard: it does not know what to do with 'x\x0a\x1b' (--help says what it takes)", "x\n\x1b")
        self.file("bad.toml", TEXT.replace("idle = 800", '"\\u001b[31m\\nid" = 800'))
        there_are = "ratios, idle, rated, nmax, f0, f1, f2, mass, margin, profile, curve"
        self.ends(2, rf"gearcard: bad.toml line 5: there is no key vehicle.\x1b[31m\x0aid (there are {there_are})", "card", "bad.toml")
        shutil.copy(os.fsencode(EXAMPLES / "car-z.job"), os.fsencode(self.folder) + b"/\xff\x1b.job")
        self.assertEqual(self.answers("compare", "\udcff\x1b.job", "car-z.job"), "\\xff\\x1b.job and car-z.job have the same card\n")
        self.assertIn(r">\xff\x1b.job<", self.answers("picture", "\udcff\x1b.job", "-o", "-"))

    def test_sizes(self) -> None:
        self.ends(2, "gearcard: /dev/zero has more than 1,048,576 bytes, which is more than such a file can have", "card", "/dev/zero")
        self.file("bad.toml", HEAD + "csv = '/dev/zero'\n")
        said = "gearcard: bad.toml line 21: /dev/zero has more than 16,777,216 bytes, which is more than such a file can have"
        self.ends(2, said, "card", "bad.toml")
        # the longest job is a job
        longest = [0, *[150] * 16382, 0]
        held = "".join(f"{k} = 5\n" for k in range(1, 16383))
        self.file("longest.toml", TEXT[: TEXT.index("[trace]")] + f"[trace]\nspeeds = {[each / 10 for each in longest]}\n[holds]\n{held}")
        self.answers("make", "longest.toml")
        self.assertGreater((self.folder / "longest.job").stat().st_size, 81000)
        self.assertEqual(len(self.answers("card", "longest.job").splitlines()), 16385)

    def test_seeded(self) -> None:
        """5,000 inputs of a seed, by kind."""
        r = random.Random(36)
        counts: collections.Counter[str] = collections.Counter()
        ended: collections.Counter[int] = collections.Counter()
        begun = time.process_time()
        for kind, make in KINDS.items():
            for _ in range(SEEDED[kind]):
                ended[self.tried(*make(self, r))] += 1
                counts[kind] += 1
        self.assertEqual(counts.total(), 5000)
        took = time.process_time() - begun
        print(f"tools: bad inputs: {', '.join(f'{count} {kind}' for kind, count in counts.items())}; tracebacks 0; ", end="")
        print(f"status 0, 1 and 2: {ended[0]}, {ended[1]} and {ended[2]}; {took:.0f} s of processor time, the longest {self.longest:.2f} s")

    def test_as_processes(self) -> None:
        """Some of them as commands."""
        r = random.Random(37)
        cases = [words for words in WORDS if "\0" not in "".join(words)][::4] + [make(self, r) for make in KINDS.values()]
        for words in cases:
            ran = subprocess.run([TOP / "gearcard", *map(os.fsencode, words)], cwd=self.folder, stdin=subprocess.DEVNULL, capture_output=True)
            out, said = ran.stdout.decode(errors="surrogateescape"), ran.stderr.decode(errors="surrogateescape")
            self.looked_at(ran.returncode, out, said, words)
        print(f"tools: bad inputs as processes: {len(cases)}")


#: Pieces that are put into other things.
PIECES = (
    *("[", "]", "{", "}", '"', "'", "#", "=", ",", ".", "\n", "\r", "\t", ";", "-", "+", "_", "\\", "\0", "\x1b[2J"),
    *("\u2028", "\ufeff", "é", "٥", "５", "\U0001f697"),
    *("[[", '"""', "'''", "1e999", VAST, "-0", "0x", "0b2", "inf", "nan", "true", "2000-01-01", "1_000", "00"),
    *("9" * 30, "9" * 1200, "0.05", "65536", "-1", "a.b.c"),
    *("[holds]", "[trace]", "[vehicle]", "[about]\nname = 'x'\n", "profile = 1\n", "csv = 'x.csv'\n", "cycle = 'class 3'\n"),
    *("part = 9\n", "hertz = 10\n", "decimal = ','\n"),
)


def mutated(r: random.Random, text: str) -> str:
    """The text with some of it cut out, put in, doubled or moved."""
    for _ in range(r.choice((1, 1, 1, 2, 5))):
        a, b = sorted(r.randrange(len(text) + 1) for _ in range(2))
        b = min(b, a + r.choice((0, 1, 3, 20)))
        put_in = text[:a] + r.choice(PIECES) + text[b:]
        text = r.choice((text[:a] + text[b:], put_in, text[:b] + text[a:], text[:a] + text[a:b][::-1] + text[b:], text[: max(a, 1)]))
    return text


#: What may stand for a number.
NUMBERS = (
    *(VAST, f"-{VAST}", "1e-9999999999999999999", "1e999999999", "9" * 5000, "0x" + "f" * 5000, "0x" + "f" * 300),
    *("1e400", "nan", "-inf", "-1", "65536", "0.05", "1,5", "٥"),
)


def mutated_number(r: random.Random, text: str) -> str:
    """The text with another number in place of one."""
    found = r.choice(list(re.finditer(r"\d+(\.\d+)?", text)))
    return text[: found.start()] + r.choice((*NUMBERS, "[" * 300 + "]" * 300, '"\\u001b[2J"', "{" * 40)) + text[found.end() :]


def mutated_bytes(r: random.Random, data: bytes) -> bytes:
    for _ in range(r.choice((1, 2, 8))):
        a = r.randrange(len(data) + 1)
        piece = bytes(r.randrange(256) for _ in range(r.choice((0, 1, 2, 40))))
        data = r.choice((data[:a] + piece + data[a + len(piece) :], data[:a] + piece + data[a:], data[:a] + data[a + 1 :], data[:a] or b"\1"))
    return data


def texts(case: Hostile, r: random.Random) -> tuple[str, ...]:
    source = r.choice((TEXT, TEXT, (EXAMPLES / "van.toml").read_text(), (EXAMPLES / "class-3.toml").read_text()))
    case.file("seeded.toml", r.choice((mutated, mutated_number))(r, source).encode(errors="replace"))
    make = ("make", "seeded.toml", "-o", "made.job", "--force", "--drop-holds")
    return r.choice((("card", "seeded.toml"), make, ("holds", "seeded.toml"), ("compare", "seeded.toml", "car-z.job")))


SHEET = "time;speed;gear\ns;km/h;-\n0;0,0;1\n1;5,0;1\n2;15,3;2\n3;0,0;0\n"


def sheets(case: Hostile, r: random.Random) -> tuple[str, ...]:
    text = r.choice((mutated, mutated_number))(r, r.choice((SHEET, SHEET.replace(";", ",").replace(",0,", ".0,").replace("15,3", "15.3"), "0\n5\n15.3\n0\n")))
    case.file("seeded.csv", text.encode(r.choice(("utf-8", "utf-8", "utf-8-sig", "utf-16", "latin-1", "utf-16-le")), errors="replace"))
    all_keys = ("column = 2\n", "column = 'speed'\n", "time = 'time'\n", "time = 1\n", "hertz = 2\n", "decimal = ','\n", "decimal = '.'\n", "skip = 1\n")
    keys = r.sample(all_keys, r.randrange(3))
    case.file("sheet.toml", HEAD + "csv = 'seeded.csv'\n" + "".join({key.split()[0]: key for key in keys}.values()))
    return "card", "sheet.toml"


def jobs(case: Hostile, r: random.Random) -> tuple[str, ...]:
    name = r.choice(("car-z", "car-z-held", "van", "refused"))
    case.file("seeded.job", mutated_bytes(r, (EXAMPLES / f"{name}.job").read_bytes()))
    word = r.choice(("card", "show", "holds", "summary", "hold", "release", "mend", "picture"))
    more = {"hold": ("2", "3"), "release": ("0-3",), "mend": ("2", "14.5"), "picture": ("-o", "-")}
    return word, "seeded.job", *more.get(word, ())


def edits(case: Hostile, r: random.Random) -> tuple[str, ...]:
    lines = (f"hold {r.randrange(40)}-{r.randrange(40)} {r.randrange(9)}", f"release {r.randrange(40)}", f"mend {r.randrange(40)} {r.randrange(300) / 10}")
    text = "\n".join(r.choice(lines) for _ in range(r.randrange(1, 9)))
    case.file("edits.txt", r.choice((mutated, mutated_number))(r, text).encode(errors="replace"))
    return "edit", r.choice(("car-z.job", "van.job", "refused.job", "class-3.job")), "edits.txt", "--dry-run"


def exports(case: Hostile, r: random.Random) -> tuple[str, ...]:
    case.file("seeded.export", mutated_bytes(r, (EXAMPLES / "loaded.export").read_bytes()))
    return r.choice((("coefficients", "seeded.export"), ("export", "van.job", "seeded.export", "--dry-run")))


def commands(case: Hostile, r: random.Random) -> tuple[str, ...]:
    names = ("make", "show", "card", "summary", "holds", "compare", "picture", "hold", "release", "mend", "edit", "export", "cycle", "coefficients", "help")
    given = (
        *("car-z.job", "car-z.toml", "none", "", ".", "2", "3", "1-2", "9.5"),
        *("--csv", "--json", "--dry-run", "-h", "--part", "--downscale", "0.1", "--wait", "0", "--", "--force"),
    )
    words = [r.choice(names), *(r.choice((*given, *PIECES, *NUMBERS)) for _ in range(r.randrange(4)))]
    # a file that is made or changed would be another for the next case, and standard input is the tests' own
    keep = {"hold": ("--dry-run",), "release": ("--dry-run",), "mend": ("--dry-run",), "edit": ("--dry-run",), "export": ("--dry-run",)}
    words += {"make": ("-o", "made.job", "--force", "--drop-holds"), "picture": ("-o", "-")}.get(words[0], keep.get(words[0], ()))
    return tuple("none" if word in ("-", "\0") else word for word in words)


KINDS: dict[str, Callable[[Hostile, random.Random], tuple[str, ...]]] = {
    "texts": texts,
    "sheets": sheets,
    "jobs": jobs,
    "lists of edits": edits,
    "exports": exports,
    "commands": commands,
}
SEEDED = {"texts": 1400, "sheets": 1400, "jobs": 800, "lists of edits": 500, "exports": 300, "commands": 600}
