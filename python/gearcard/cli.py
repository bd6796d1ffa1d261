"""The words of `./gearcard`: what each takes, and how a run ends.

Exit status 0 where all went well, 1 for a refusal, 2 for a misuse or a failure, with one line on standard error; 130 where it was interrupted, and has
changed nothing.
"""

from __future__ import annotations

import argparse
import functools
import importlib
from pathlib import Path
from typing import Callable, Mapping, NoReturn, Sequence

from . import given
from .engine import VERSION, Failure
from .errors import Misuse
from .files import Unread
from .interrupts import heard
from .output import emit, say
from .outputs import add_output, add_wait, typed
from .refusals import Refused
from .system import LIBRARY


def called(words: str) -> str:
    """How a user calls it: the command of an installed package stands in the path, that of a checkout in its folder."""
    return words if (Path(__file__).parent / LIBRARY).exists() else f"./{words}"


class _Parser(argparse.ArgumentParser):
    """One line where the words are wrong."""

    def error(self, message: str) -> NoReturn:
        raise Misuse(f"{message} ({called(self.prog)} --help says what it takes)")

    def _print_message(self, message: str, file: object = None) -> None:
        emit(message)


def _later(module: str, name: str) -> Callable[[argparse.Namespace], None]:
    """A function of a module that is loaded when it is called: no tool needs all of them, and an edit is to be quick."""

    def run(args: argparse.Namespace) -> None:
        getattr(importlib.import_module(f".{module}", __package__), name)(args)

    return run


_FILE = "a job, or its text (FILE.toml); - is standard input"
_ANEW = "The job is written anew, all or nothing, and the seconds of the card that changed are printed."
_AT_ONCE = "Of several seconds all are changed as one step, or none."


class _Words:
    """The words, each with what it takes."""

    def __init__(self) -> None:
        self.top = _Parser(prog="gearcard", usage="gearcard WORD ..", add_help=False, description=__doc__)
        self.words = self.top.add_subparsers(dest="word", parser_class=_Parser, metavar="WORD", title="words", prog="gearcard")

    def add(self, name: str, run: Callable[[argparse.Namespace], None], says: str, more: str = "") -> argparse.ArgumentParser:
        each: argparse.ArgumentParser = self.words.add_parser(name, description=f"{says} {more}".strip(), help=says, allow_abbrev=False)
        each.set_defaults(run=run)
        return each

    def reading(self, name: str, run: Callable[[argparse.Namespace], None], says: str, more: str = "") -> argparse.ArgumentParser:
        """A word that takes a job or its text."""
        each = self.add(name, run, says, more)
        each.add_argument("file", metavar="FILE", type=typed(given.file), help=_FILE)
        return each

    def editing(self, name: str, run: Callable[[argparse.Namespace], None], says: str, more: str = _ANEW) -> argparse.ArgumentParser:
        """A word that changes a job."""
        each = self.add(name, run, says, more)
        each.add_argument("file", metavar="FILE.job", type=typed(given.file))
        each.add_argument("--dry-run", action="store_true", help="only print what would change")
        add_wait(each)
        return each


def _add_forms(each: argparse.ArgumentParser) -> None:
    each.add_argument("--csv", action="store_true", help="for a spreadsheet: a comma between the columns")
    each.add_argument("--json", action="store_true", help="for a program: a list with an object for each row")
    _add_decimal(each)


def _add_decimal(each: argparse.ArgumentParser) -> None:
    words = "comma: for a spreadsheet that wants decimal commas, and semicolons between the columns"
    each.add_argument("--decimal", metavar="MARK", choices=("point", "comma"), help=words)


def _add_seconds(each: argparse.ArgumentParser) -> None:
    each.add_argument("seconds", metavar="SECONDS", type=typed(given.seconds), help="one, as 120, or from the first to the last, as 120-135")


@functools.cache
def parser() -> tuple[argparse.ArgumentParser, Mapping[str, argparse.ArgumentParser]]:
    """The words and what each takes; and the parser of each."""
    words = _Words()
    each = words.add("make", _later("verbs", "run_make"), "Makes a job of its text.", "What is wrong is told with its key and line; nothing is rounded.")
    each.add_argument("file", metavar="FILE.toml", type=typed(given.file), help="- is standard input")
    add_output(each, ".job")
    each.add_argument("--drop-holds", action="store_true", help="onto a job that has holds which the text lacks: without them")
    each = words.add("show", _later("verbs", "run_show"), "Prints a job as text, from which it can be made again.")
    each.add_argument("file", metavar="FILE.job", type=typed(given.file), help="- is standard input")
    each.add_argument("--speeds", action="store_true", help="list the speeds of the built-in cycle too, in place of its name")
    _add_forms(words.reading("card", _later("verbs", "run_card"), "Prints the card of a job or of its text."))
    says = "Prints how long the card of a job or of its text is in each gear, standing, and how often the gear changes."
    _add_forms(words.reading("summary", _later("verbs", "run_summary"), says))
    _add_forms(words.reading("holds", _later("verbs", "run_holds"), "Lists the holds of a job or of its text."))
    says = "Prints the engine under the card of a job or of its text, a line a second: its speed and power in the card's gear, and how that gear came about."
    each = words.reading("table", _later("persecond", "run_table"), says, "Powers are rounded to a watt for the eye.")
    each.add_argument("seconds", metavar="SECONDS", nargs="?", type=typed(given.seconds), help="as 120, or 120-135; all if not given")
    _add_forms(each)
    says = "Prints why the card of a job or of its text shows what it shows at a second; of several seconds the table, and why at each."
    each = words.reading("why", _later("whys", "run_why"), says, "Powers are rounded to a watt for the eye; they are compared exactly.")
    _add_seconds(each)
    each.add_argument("--json", action="store_true", help="for a program: an object with every number as it is, or a list of them")
    says = "Prints what differs in two jobs, or in their texts: vehicle, trace and holds, the cards, and the summaries."
    each = words.reading("compare", _later("compare", "run_compare"), says, "With --csv and --json the cards alone.")
    each.add_argument("other", metavar="OTHER", type=typed(given.file), help="the second one")
    _add_forms(each)
    says = "Prints what the driver of a run was shown otherwise than the card of a job says, and why."
    each = words.add("record", _later("record", "run_record"), says, "With --csv and --json that alone.")
    each.add_argument("file", metavar="FILE.json", type=typed(given.file), help="the record that the page saved; - is standard input")
    each.add_argument("job", metavar="JOB", type=typed(given.file), help="a job, or its text")
    _add_forms(each)
    says = "Draws the card of a job or of its text; of a refused one, the refusal at its place."
    add_output(words.reading("picture", _later("verbs", "run_picture"), says), ".svg")
    each = words.editing("hold", _later("changes", "run_hold"), "Holds a second of a job, or several, in a gear.", f"{_AT_ONCE} {_ANEW}")
    _add_seconds(each)
    each.add_argument("gear", metavar="GEAR", type=typed(given.gear))
    _add_seconds(words.editing("release", _later("changes", "run_release"), "Releases a second of a job, or several.", f"{_AT_ONCE} {_ANEW}"))
    each = words.editing("mend", _later("changes", "run_mend"), "Corrects the speed of a second of a job, or of several.", f"{_AT_ONCE} {_ANEW}")
    _add_seconds(each)
    each.add_argument("speed", metavar="SPEED", type=typed(given.speed), help="in km/h, with one decimal: 9.5")
    each = words.editing("edit", _later("changes", "run_edit"), "Makes several edits of a job as one step, or none of them.")
    says = "a file with lines as 'hold 120-135 3', 'release 140', 'mend 3 9.5'; - is standard input"
    each.add_argument("edits", metavar="EDITS", type=typed(given.file), help=says)
    each = words.editing("export", _later("changes", "run_export"), "Puts the road load and the mass of a bench export into a job.")
    each.add_argument("export", metavar="EXPORT", type=typed(given.file), help="the export; - is standard input")
    each = words.add("cycle", _later("verbs", "run_cycle"), "Prints the built-in Class 3 cycle, as a CSV file of seconds and km/h.")
    part = typed(given.whole("part", 2**32 - 1))
    each.add_argument("--part", metavar="N", type=part, default=0, help="1 to 4: Low, Medium, High, Extra High; 0, if not given, is all")
    each.add_argument("--downscale", metavar="F", help="scaled down for a weak car by this factor, 0 to 0.5, in thousandths")
    each.add_argument("--json", action="store_true", help="for a program: a list with an object for each row")
    _add_decimal(each)
    each = words.add("coefficients", _later("verbs", "run_coefficients"), "Prints what a bench export says, as the lines of a text's vehicle.")
    each.add_argument("file", metavar="EXPORT", type=typed(given.file), help="- is standard input")
    says = "Writes the screen as one HTML file, for any browser, without a network."
    each = words.add("page", _later("page", "run_page"), says, "Without FILE it opens on the Class 3 cycle and an example car.")
    each.add_argument("file", metavar="FILE", type=typed(given.file), nargs="?", help=f"{_FILE}, to open on")
    add_output(each, ".html", "gearcard.html")
    return words.top, words.words.choices


def _run(words: Sequence[str]) -> None:
    """Runs one tool."""
    known, parsers = parser()
    if list(words) == ["--version"]:
        emit(f"gearcard {VERSION}\n")
    elif list(words) in (["--help"], ["-h"], ["help"]):
        emit(known.format_help())
    elif len(words) == 2 and words[0] == "help" and words[1] in parsers:
        emit(parsers[words[1]].format_help())
    elif not words or words[0] not in parsers:
        raise Misuse(f"it does not know what to do with '{' '.join(words)}' (--help says what it takes)")
    else:
        args = _parsed(known, words)
        _refuse_lost_decimal(args)
        args.run(args)


def _refuse_lost_decimal(args: argparse.Namespace) -> None:
    """A decimal mark is said of a CSV alone: elsewhere it would be passed over in silence."""
    if getattr(args, "decimal", None) is not None and not (getattr(args, "csv", True) and not args.json):
        raise Misuse(f"--decimal goes with {'--csv' if hasattr(args, 'csv') else 'the CSV'} alone (./gearcard {args.word} --help says what it takes)")


def _parsed(known: argparse.ArgumentParser, words: Sequence[str]) -> argparse.Namespace:
    for word in words:
        # The parser would take the two dashes for the end of the options, and find no value.
        if word.startswith("-") and word.endswith("=--"):
            raise Misuse(f"argument {word[:-3]}: '--' is no value ({called(known.prog)} {words[0]} --help says what it takes)")
    return known.parse_args(words)


def main(words: Sequence[str]) -> int:
    """Runs one tool; answers the exit status. Whatever is raised ends here, in one line."""
    try:
        with heard():
            _run(words)
        return 0
    except SystemExit as ended:
        return int(ended.code or 0)
    except (Refused, Unread) as refused:
        say(refused.refused if isinstance(refused, Unread) else refused)
        return 1
    except Misuse as why:
        say(f"gearcard: {why}")
    except Failure as why:
        if not why.told:
            say(f"gearcard: {why}")
    except KeyboardInterrupt as stopped:
        say("gearcard: interrupted, and nothing was changed")
        return 128 + getattr(stopped, "number", 2)
    except Exception as why:
        say(f"gearcard: this should not have happened, and nothing was changed: {type(why).__name__}: {why}")
    return 2
