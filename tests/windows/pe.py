"""What gearcard.dll must be, by reading the file.

    tests/windows/pe.py DLL PROCESSOR EXPORTS..     PROCESSOR is x86_64 or aarch64; EXPORTS the names that it has to have, and no others

It imports nothing, is relocated nowhere, has no entry point, no section that is written, none that is both run and written, no date, and a table for
unwinding. What is amiss is printed; the last line is 'N passed, M failed'.
"""

from __future__ import annotations

import struct
import sys
from pathlib import Path

MACHINES = {"x86_64": 0x8664, "aarch64": 0xAA64}

#: The directories of an optional header that are looked at, by their places.
EXPORTS, IMPORTS, EXCEPTIONS, RELOCATIONS, LATE, DELAYED = 0, 1, 3, 5, 11, 13

#: What a section may be.
EXECUTE, WRITE = 0x20000000, 0x80000000


class Dll:
    """The parts of a PE file that are asked for here."""

    def __init__(self, data: bytes) -> None:
        self.data = data
        (head,) = struct.unpack_from("<I", data, 0x3C)
        if data[:2] != b"MZ" or data[head : head + 4] != b"PE\0\0":
            raise ValueError("it is no PE file")
        self.machine, count, self.date, _, _, size, self.flags = struct.unpack_from("<HHIIIHH", data, head + 4)
        at = head + 24
        (self.magic,) = struct.unpack_from("<H", data, at)
        (self.entry,) = struct.unpack_from("<I", data, at + 16)
        (self.characteristics,) = struct.unpack_from("<H", data, at + 70)
        (directories,) = struct.unpack_from("<I", data, at + 108)
        self.directories = [struct.unpack_from("<II", data, at + 112 + 8 * k) for k in range(directories)]
        self.sections = [struct.unpack_from("<8sIIIIIIHHI", data, at + size + 40 * k) for k in range(count)]

    def at(self, address: int) -> int:
        """The place in the file of an address in the image."""
        for _, size, start, kept, place, *_ in self.sections:
            if start <= address < start + max(size, kept):
                return int(place + address - start)
        raise ValueError(f"no section has {address:#x}")

    def size_of(self, directory: int) -> int:
        return int(self.directories[directory][1]) if directory < len(self.directories) else 0

    def exports(self) -> list[str]:
        table = self.at(self.directories[EXPORTS][0])
        count, _, names = struct.unpack_from("<III", self.data, table + 24)
        places = struct.unpack_from(f"<{count}I", self.data, self.at(names))
        return [self.data[self.at(each) : self.data.index(b"\0", self.at(each))].decode() for each in places]


def main(path: str, processor: str, *exports: str) -> int:
    dll = Dll(Path(path).read_bytes())
    checks = {
        f"it is for {processor}, of 64 bits": dll.machine == MACHINES[processor] and dll.magic == 0x20B,
        "it is a DLL": dll.flags & 0x2000 != 0,
        "it may stand anywhere, and its data is not run": dll.characteristics & 0x160 == 0x160,
        "it imports nothing": dll.size_of(IMPORTS) == dll.size_of(LATE) == dll.size_of(DELAYED) == 0,
        "nothing in it is relocated": dll.size_of(RELOCATIONS) == 0,
        "it has no entry point": dll.entry == 0,
        "no section is written": all(not flags & WRITE for *_, flags in dll.sections),
        "one section is run": sum(flags & EXECUTE != 0 for *_, flags in dll.sections) == 1,
        "it has a table for unwinding": dll.size_of(EXCEPTIONS) > 0,
        "it exports the header's names and no others": sorted(dll.exports()) == sorted(exports),
    }
    for what, good in checks.items():
        if not good:
            print(f"windows: FAILED: {path}: not so: {what}")
    failed = sum(not good for good in checks.values())
    print(f"{len(checks) - failed} passed, {failed} failed")
    return 1 if failed else 0


sys.exit(main(*sys.argv[1:]))
