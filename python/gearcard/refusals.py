"""The table of refusals, in the words of words.toml: what each number says, and which bound each field of the vehicle has."""

from __future__ import annotations

from . import words

#: What each number says, in the table's order. `{place}` is the refusal's place.
WORDS: dict[int, str] = {each.number: each.words for each in words.REFUSALS}

#: What each says where the job is at hand.
TOLD: dict[int, str] = {each.number: each.told for each in words.REFUSALS if each.told}

#: The vehicle's fields, as refusal 3 numbers them: the key in a text, and what document 01 asks of it, in a text's units.
FIELDS: dict[int, tuple[str, str]] = {each.number: (each.key, each.bounds) for each in words.FIELDS if each.bounds}

#: What a place is: a second of the trace, a byte of the file, a field of the vehicle. The numbers left out have no place of their own.
SECONDS = frozenset(each.number for each in words.REFUSALS if each.place == "second")
BYTES = frozenset(each.number for each in words.REFUSALS if each.place == "byte")


def in_words(number: int, place: int) -> str:
    """The table's words for a refusal; a number that the table does not have is said to be so."""
    if number not in WORDS:
        return "a number that the table of refusals does not have"
    key, bounds = FIELDS.get(place, ("unknown", "document 01 has no such field"))
    return WORDS[number].format(place=place, field=f"{key}, {bounds}")


class Refused(Exception):
    """The engine refuses, by the number and the place of the table; nothing was changed. `words` says it for people."""

    def __init__(self, number: int, place: int, words: str | None = None) -> None:
        self.number = number
        self.place = place
        self.words = in_words(number, place) if words is None else words
        super().__init__(number, place, self.words)

    def __str__(self) -> str:
        return f"refused {self.number} at {self.place}: {self.words}"
