"""Where in a TOML text each key and each value stands. `tomllib` reads a text and does not say; this goes over a text that it has read. And what is
looked at before: `tomllib` goes into a text as deep as it is, and takes long over a long key."""

from __future__ import annotations

import re
import tomllib

#: A value's way through the text: keys, and places in lists.
Path = tuple[str | int, ...]

_SPACE = " \t"
_BARE_END = set(" \t\r\n=,.#[]{}")

#: How deep lists, tables and keys may go; a job's go to three.
_DEEP = 16

#: Digits of a whole number that Python takes in reasonable time.
_DIGITS = 1000

_WORD = "[A-Za-z0-9_-]"
_PART = rf"""(?:{_WORD}++|"[^"\n]*+"|'[^'\n]*+')"""

#: What decides how deep a text is; strings and comments are matched to be passed over. Each alternative begins where a word does and gives nothing
#: back, so that a long text is gone over once.
_SHAPE = re.compile(
    rf"""(?<!{_WORD})(?:(?P<key>{_PART}(?:[ \t]*+\.[ \t]*+{_PART}){{{_DEEP},}})|(?P<digits>[0-9_]{{{_DIGITS},}}+))"""
    r"""|\"\"\"(?s:\\.|[^\\])*?(?:\"\"\"|\Z)|\'\'\'(?s:.)*?(?:\'\'\'|\Z)|"(?:\\.|[^"\\\n])*+"?|'[^'\n]*+'?"""
    r"""|\#[^\n]*+|(?P<open>[\[{])|(?P<close>[\]}])"""
)


def outsized(text: str) -> tuple[int, str] | None:
    """The line of what is deeper or longer than anything that a job's text has, and what it is; None where there is no such thing."""
    depth = 0
    for found in _SHAPE.finditer(text):
        depth += (found["open"] is not None) - (found["close"] is not None)
        what = "a key of too many parts" if found["key"] else "a number of too many digits" if found["digits"] else "a list or a table too deep"
        if found["key"] or found["digits"] or depth > _DEEP:
            return text.count("\n", 0, found.start()) + 1, what
    return None


class _Scan:
    """A pass over a valid text that notes the line of each key, of each value in a list and of each table."""

    def __init__(self, text: str) -> None:
        self.text = text + "\n"
        self.at = 0
        self.lines: dict[Path, int] = {}
        self.counts: dict[Path, int] = {}
        self.counted = (0, 1)

    def line(self) -> int:
        """The line reached; lines are counted once each."""
        at, line = self.counted
        self.counted = (self.at, line + self.text.count("\n", at, self.at))
        return self.counted[1]

    def peek(self, ahead: str) -> bool:
        return self.text.startswith(ahead, self.at)

    def skip(self, also: str = "") -> None:
        """Past spaces, and where `also` has a line's end past that and comments."""
        while self.at < len(self.text):
            if self.text[self.at] in _SPACE + also:
                self.at += 1
            elif self.text[self.at] == "#" and "\n" in also:
                self.at = self.text.index("\n", self.at)
            else:
                return

    def string(self) -> str:
        """Past a string; its text as written."""
        start, quote = self.at, self.text[self.at]
        mark = quote * 3 if self.peek(quote * 3) else quote
        self.at += len(mark)
        while not self.peek(mark):
            self.at += 2 if quote == '"' and self.peek("\\") else 1
        self.at += len(mark)
        while len(mark) == 3 and self.peek(quote):
            self.at += 1
        return self.text[start : self.at]

    def key(self) -> Path:
        """Past a key, dotted or not."""
        path: list[str | int] = []
        while True:
            self.skip()
            if self.text[self.at] in "\"'":
                path.append(tomllib.loads(f"x = {self.string()}")["x"])
            else:
                start = self.at
                while self.text[self.at] not in _BARE_END:
                    self.at += 1
                path.append(self.text[start : self.at])
            self.skip()
            if not self.peek("."):
                return tuple(path)
            self.at += 1

    def pair(self, table: Path) -> None:
        line, path = self.line(), table + self.key()
        self.lines.setdefault(path, line)
        for end in range(len(table) + 1, len(path)):
            self.lines.setdefault(path[:end], line)
        self.at += 1  # the equals sign
        self.skip()
        self.value(path)

    def value(self, path: Path) -> None:
        self.lines.setdefault(path, self.line())
        if self.text[self.at] in "\"'":
            self.string()
        elif self.peek("["):
            self.within(path, "]")
        elif self.peek("{"):
            self.within(path, "}")
        else:
            while self.text[self.at] not in ",]}#\r\n":
                self.at += 1

    def within(self, path: Path, end: str) -> None:
        """Past a list, or a table in braces."""
        self.at += 1
        count = 0
        self.skip(",\r\n")
        while not self.peek(end):
            if end == "]":
                self.value(path + (count,))
            else:
                self.pair(path)
            count += 1
            self.skip(",\r\n")
        self.at += 1

    def header(self) -> Path:
        """Past a table's head; the table."""
        line, many = self.line(), self.peek("[[")
        self.at += 2 if many else 1
        table = self.key()
        self.at = self.text.index("\n", self.at)
        if many:
            self.lines.setdefault(table, line)
            self.counts[table] = self.counts.get(table, -1) + 1
            table += (self.counts[table],)
        self.lines.setdefault(table, line)
        return table

    def whole(self) -> dict[Path, int]:
        table: Path = ()
        self.skip("\r\n")
        while self.at < len(self.text):
            if self.peek("["):
                table = self.header()
            else:
                self.pair(table)
            self.skip("\r\n")
        return self.lines


def lines_of(text: str) -> dict[Path, int]:
    """The line, from 1, of each key and each value of a text that `tomllib` has read; of a table the line of its head."""
    return _Scan(text).whole()
