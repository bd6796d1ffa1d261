"""`./gearcard page`: the screen as one HTML file, with a job in it.

The page is made by web/build, and stands beside this module where the package is installed. Here only the job in it is put in place of the example's.
"""

from __future__ import annotations

import argparse
import base64
import html
import os
import re
import subprocess
import sys
from pathlib import Path

from .engine import TOP, functions
from .errors import Misuse
from .files import load
from .output import plain
from .outputs import beside, put
from .verbs import made, worked

#: The page of an installed package, and what makes it in the project's folder.
INSTALLED = Path(__file__).with_name("page.html")
BUILD = TOP / "web" / "build"
BUILT = TOP / "target" / "web" / "gearcard.html"

#: Where the job stands in the page: its name, and its bytes as base64.
_JOB = re.compile(r'(<script type="text/plain" id="job" data-name=")[^"]*(">)[^<]*(</script>)')


def run_page(args: argparse.Namespace) -> None:
    page = _page()
    if args.file is not None:
        # The page is UTF-8, whatever the locale says of names.
        name = os.fsencode(beside(args.file, ".job").name).decode("utf-8", "surrogateescape")
        page = with_job(page, plain(name), _job(args.file))
    put(args, ".html", page.encode(), lambda old: b"<!doctype html" in old[:200].lower(), "page")


def _job(path: Path) -> bytes:
    """The bytes of a job that has a card: the page opens on nothing else."""
    draft = load(path)
    data = made(path, draft)
    worked(path, draft)
    return data


def with_job(page: str, name: str, data: bytes) -> str:
    text = base64.b64encode(data).decode()
    found, count = _JOB.subn(lambda part: f"{part[1]}{html.escape(name)}{part[2]}{text}{part[3]}", page)
    if count != 1:
        raise Misuse("the page has no place for a job")
    return found


def _page() -> str:
    """The page as it was made; in the project's folder it is made anew after a change."""
    if INSTALLED.exists():
        return INSTALLED.read_text(encoding="utf-8")
    if not BUILD.exists():
        raise Misuse("this package has no page")
    # The engine that goes into it, proved and built where it is not.
    functions()
    done = subprocess.run([sys.executable, BUILD], capture_output=True, encoding="utf-8", errors="replace")
    if done.returncode != 0:
        raise Misuse(f"the page could not be made: {' '.join(done.stderr.removeprefix('web/build: ').split())}")
    return BUILT.read_text(encoding="utf-8")
