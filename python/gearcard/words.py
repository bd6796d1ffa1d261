"""words.toml, which stands beside this file: the words for people, once, with the units that they are said in."""

from __future__ import annotations

import tomllib
from pathlib import Path
from typing import Any, NamedTuple

_TABLE: dict[str, Any] = tomllib.loads(Path(__file__).with_name("words.toml").read_text(encoding="utf-8"))


class Refusal(NamedTuple):
    """A row of the table of refusals; words.toml says what each is."""

    number: int
    words: str
    place: str
    given: str
    at: str
    told: str = ""


class Field(NamedTuple):
    """A field of the vehicle, as refusal 3 numbers it; words.toml says what each is."""

    number: int
    key: str
    bounds: str = ""
    name: str = ""
    unit: str = ""
    since: int = 1
    title: str = ""
    hint: str = ""


REFUSALS = tuple(Refusal(**each) for each in _TABLE["refusal"])
FIELDS = tuple(Field(**each) for each in _TABLE["field"])
UNITS: dict[str, dict[str, Any]] = _TABLE["unit"]
WHY: dict[str, tuple[str, ...]] = {name: tuple(said) for name, said in _TABLE["why"].items()}
