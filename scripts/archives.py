"""Archives of files, whose bytes hang on the files alone: names in order, one date, one owner."""

from __future__ import annotations

import gzip
import io
import os
import subprocess
import tarfile
import time
import zipfile
from pathlib import Path
from typing import NamedTuple

TOP = Path(__file__).resolve().parents[1]
VERSION = (TOP / "VERSION").read_text().strip()


class File(NamedTuple):
    """What a file of an archive has; or, for a link, where it leads."""

    data: bytes = b""
    link: str = ""
    program: bool = False


Files = dict[str, File]


def commit() -> tuple[str, int]:
    """The commit that is checked out, with its date; without one, the earliest date that all archives have."""
    ran = subprocess.run(["git", "-C", TOP, "log", "-1", "--format=%H %ct"], capture_output=True, text=True)
    if ran.returncode != 0:
        return "unknown", 315532800
    name, date = ran.stdout.split()
    changed = subprocess.run(["git", "-C", TOP, "status", "--porcelain"], capture_output=True, text=True).stdout
    return name + (", and changes that no commit has" if changed else ""), int(date)


def below(folder: Path) -> Files:
    """The files below a folder that are the project's, by their names there."""
    named = subprocess.run(["git", "-C", folder, "ls-files", "-z", "--cached", "--others", "--exclude-standard"], capture_output=True, text=True)
    if named.returncode == 0:
        names = [name for name in named.stdout.split("\0") if name]
    else:
        names = [str(each.relative_to(folder)) for each in folder.rglob("*") if each.is_file() and "__pycache__" not in each.parts]
    return {name: File((folder / name).read_bytes()) for name in names}


def tar(path: Path, root: str, files: Files) -> None:
    """A .tar.gz of the files, below one folder."""
    packed, date = io.BytesIO(), commit()[1]
    with tarfile.open(fileobj=packed, mode="w", format=tarfile.USTAR_FORMAT) as archive:
        for name, file in sorted(files.items()):
            entry = tarfile.TarInfo(f"{root}/{name}")
            entry.mtime, entry.mode, entry.size = date, 0o755 if file.program else 0o644, len(file.data)
            if file.link:
                entry.type, entry.linkname = tarfile.SYMTYPE, file.link
            archive.addfile(entry, io.BytesIO(file.data))
    with path.open("wb") as out, gzip.GzipFile(filename="", fileobj=out, mode="wb", mtime=0) as gzipped:
        gzipped.write(packed.getvalue())


def zipped(path: Path, files: Files) -> None:
    """A zip file of the files, in the order given."""
    date = time.gmtime(commit()[1])[:6]
    with zipfile.ZipFile(path, "w", zipfile.ZIP_DEFLATED) as archive:
        for name, file in files.items():
            entry = zipfile.ZipInfo(name, date)
            entry.compress_type, entry.external_attr, entry.create_system = zipfile.ZIP_DEFLATED, (0o755 if file.program else 0o644) << 16, 3
            archive.writestr(entry, file.data)


def run_library(*words: str) -> None:
    """`./library`, which says by itself what fails."""
    status = subprocess.run([os.path.join(TOP, "library"), *words], stdout=subprocess.DEVNULL).returncode
    if status != 0:
        raise SystemExit(status)
