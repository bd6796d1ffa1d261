"""What reaches the disk, and in which order: a machine that stops at any moment leaves the old job or the new one."""

from __future__ import annotations

import os
import stat
import unittest.mock
from pathlib import Path
from typing import Any, Callable

from gearcard.store import change

from .words import EXAMPLES, Words


class Synced(Words):
    def order(self, path: Path, new: bytes, create: bool) -> list[Any]:
        """What the disk is told: a file with as many bytes as it has by then, a new name, a folder."""
        told: list[Any] = []
        sync, replace, link = os.fsync, os.replace, os.link

        def fsync(file: int) -> None:
            found = os.fstat(file)
            told.append(("folder", os.path.samestat(found, os.stat(path.parent))) if stat.S_ISDIR(found.st_mode) else ("file", found.st_size))
            sync(file)

        def named(rename: Callable[[str | Path, str | Path], None]) -> Callable[[str | Path, str | Path], None]:
            def tell(a: str | Path, b: str | Path) -> None:
                told.append(("name", Path(a).read_bytes(), Path(b).name))
                rename(a, b)

            return tell

        with unittest.mock.patch.multiple(os, fsync=fsync, replace=named(replace), link=named(link)):
            change(path, 5, lambda old: new, create=create)
        return told

    def test_bytes_then_name_then_folder(self) -> None:
        new = bytes(range(256)) * 40
        for name, create in (("car-z.job", False), ("new.job", True), ("car-z.job", True)):
            told = self.order(self.folder / name, new, create)
            self.assertEqual(told, [("file", len(new)), ("name", new, name), ("folder", True)], name)

    def test_a_folder_that_cannot_be_synced(self) -> None:
        """The file is written, and it is said that it may be lost; a file system that has nothing to sync there says so, and that is no fault."""
        real = os.fsync
        for number, said in ((5, "car-z.job is written, but may be lost where the machine stops now: Input/output error"), (22, "")):

            def fsync(file: int) -> None:
                if stat.S_ISDIR(os.fstat(file).st_mode):
                    raise OSError(number, os.strerror(number))
                real(file)

            with unittest.mock.patch("os.fsync", fsync):
                status, _, line = self.run_words("hold", "car-z.job", 2, 3)
            self.assertEqual((status, said in line, line == ""), (2 if said else 0, True, not said))
            self.assertEqual((self.folder / "car-z.job").read_bytes(), (EXAMPLES / "car-z-held.job").read_bytes())
            self.answers("release", "car-z.job", 2)
