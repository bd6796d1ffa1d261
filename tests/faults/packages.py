"""Faults of the packages: js/gearcard, and what of python/gearcard is over the library's functions."""

from . import Fault

ENGINE, RECORDS = "js/gearcard/engine.js", "js/gearcard/records.js"
CALLS, LISTS = "python/gearcard/calls.py", "python/gearcard/lists.py"

FAULTS = [
    Fault(
        ENGINE, "the second try of a read removed", "js whole",
        "if (answer.verdict.number === 2)", "if (answer.verdict.number === 99)",
    ),
    Fault(
        ENGINE, "the second try of a write removed", "js all",
        "if (answer.verdict.number === 17)", "if (answer.verdict.number === 99)",
    ),
    Fault(ENGINE, "gears from 8 on are others", "js whole", "whole('card byte', byte, 255) % 16;", "whole('card byte', byte, 255) % 8;"),
    Fault(ENGINE, "a mend does not write the speed", "js all", "if (kind === 'mend') speeds.set(", "if (kind === 'mended') speeds.set("),
    Fault(ENGINE, "lists that share memory are taken", "js all", "    apart({ speeds, holds, card });\n", ""),
    Fault(ENGINE, "a part begins a second late", "js all", "speeds.slice(first, first + count)", "speeds.slice(first + 1, first + 1 + count)"),
    Fault(RECORDS, "a number of 32 bits is read as one of 16", "js whole", "view.getUint32(at, true)", "view.getUint16(at, true)"),
    Fault(RECORDS, "a list's places are all its first", "js whole", "valueAt(view, here + k * size, field.kind)", "valueAt(view, here, field.kind)"),
    Fault(RECORDS, "a list is written over its first place", "js all", "view.setUint16(at + 2 * k, number, true)", "view.setUint16(at, number, true)"),
    Fault("js/gearcard/refusals.js", "seconds and bytes swapped", "js all", "numbersOf('second')", "numbersOf('byte')"),
    Fault("js/gearcard/whys.js", "the sentences are the rules'", "js all", "Object.freeze(TABLE.why.sentences)", "Object.freeze(TABLE.why.rules)"),
    Fault(CALLS, "the second try of a read removed", "tools cuts", "if answer.verdict.number == 2:", "if answer.verdict.number == 99:"),
    Fault(
        CALLS, "the second try of a write removed", "tools engine.Functions.test_write",
        "if answer.verdict.number == 17:", "if answer.verdict.number == 99:",
    ),
    Fault(CALLS, "gears from 8 on are others", "tools cuts", '_number("card byte", byte, 255) % 16', '_number("card byte", byte, 255) % 8'),
    Fault(CALLS, "why without its last gear", "tools told", '[: len(vehicle.ratios)])', '[: len(vehicle.ratios) - 1])'),
    Fault(
        CALLS, "a scaled part is cut from the wrong place", "tools engine.Functions.test_cycle",
        '_number("factor", factor, _MOST)), part_of(part)', '_number("factor", factor, _MOST)), part_of(0)',
    ),
    Fault(LISTS, "lists that share memory are taken", "tools lists.Kinds", "one.shares(two):", "one is two:"),
    Fault(LISTS, "an accepted edit does not write the copies back", "tools lists.Kinds", ".number == 0:", ".number == 99:"),
    Fault(
        LISTS, "a list that cannot be written is taken", "tools lists.Kinds",
        "if self.writes and (view.readonly or", "if self.writes and (view.ndim == 2 or",
    ),
    Fault("python/gearcard/vehicle.py", "a negative f1 is refused", "tools engine", 'c_int32: (-(2**31), 2**31 - 1)', 'c_int32: (0, 2**31 - 1)'),
    Fault(
        "python/gearcard/edits.py", "a release of several releases nothing", "tools changes.Several",
        "each.gear if isinstance(each, Hold) else 0\n    return", "each.gear if isinstance(each, Hold) else holds[second]\n    return",
    ),
    Fault("python/gearcard/edits.py", "the edit before the one at fault", "tools changes.Several", "return least - 1", "return max(0, least - 2)"),
    Fault("python/gearcard/refusals.py", "a refusal's place is lost in its words", "tools words.Card", "format(place=place,", "format(place=number,"),
]
