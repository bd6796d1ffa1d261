"""Jobs and texts as the tools read them: told apart, and each whole."""

from __future__ import annotations

from pathlib import Path

from .calls import Job, read
from .errors import BadText, Misuse
from .names import Draft, Names, named
from .reading import bytes_of, shown
from .refusals import Refused

#: Bytes that a text may have, and a job. The longest job that the working takes, 16,384 seconds of which all that move are held, has some 82,000.
TEXT_MOST = 1 << 20
JOB_MOST = 1 << 17


class Unread(Exception):
    """A file that is no job: its refusal, and how long it is."""

    def __init__(self, refused: Refused, length: int) -> None:
        super().__init__(refused, length)
        self.refused, self.length = refused, length


def is_text(path: Path, data: bytes) -> bool:
    """Whether a file is a text: by its name, or else by its first byte, which in a job is the version."""
    if path.suffix in (".toml", ".job"):
        return path.suffix == ".toml"
    return data[:1] >= b" " or data[:1] in (b"\t", b"\n", b"\r")


def _bytes_and_kind(path: Path) -> tuple[bytes, bool]:
    data = bytes_of(path, TEXT_MOST)
    text = is_text(path, data)
    if not text and len(data) > JOB_MOST:
        raise Misuse(f"{path} has more than {JOB_MOST:,} bytes, which is more than a job can have")
    return data, text


def load(path: Path) -> Draft:
    """A job, from its file or from a text."""
    data, text = _bytes_and_kind(path)
    return _parse(path, data) if text else Draft(job_of(path, data), Names())


def load_job(path: Path) -> Job:
    """A job from its file alone."""
    return job_of(path, _bytes_and_kind(path)[0])


def job_of(path: Path, data: bytes) -> Job:
    """The job that a job file's bytes are."""
    if is_text(path, data):
        raise Misuse(f"{path} is a text, and not a job")
    try:
        return read(data)
    except Refused as refused:
        raise Unread(named(refused, None, Names(), shown(path)), len(data)) from None


def load_text(path: Path) -> Draft:
    """A job from its text alone."""
    data, text = _bytes_and_kind(path)
    if not text:
        raise Misuse(f"{path} is a job already, and not a text")
    return _parse(path, data)


def _parse(path: Path, data: bytes) -> Draft:
    try:
        text = data.decode("utf-8-sig")
    except UnicodeDecodeError as why:
        raise BadText(shown(path), data.count(b"\n", 0, why.start) + 1, "it is no text in UTF-8") from None
    # Only here, for what reads texts takes as long to load as all the rest.
    from . import jobtext

    return jobtext.parse(text, shown(path), path.parent)
