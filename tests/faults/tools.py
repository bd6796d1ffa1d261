"""Faults of the words of ./gearcard, and of what ./release writes."""

from . import Fault

P = "python/gearcard/"
STORE, COMPARE, PICTURE = P + "store.py", P + "compare.py", P + "picture.py"
WHEELS, RELEASE, ARCHIVES = "scripts/wheels.py", "scripts/release.py", "scripts/archives.py"

INDEPENDENT = "tools persecond.Table.test_every_number_is_the_independent_program_s"

WRITTEN = """\
                out.write(data)
                out.flush()
                if like is not None:
                    take_after(out.fileno(), like, real)
                os.fsync(out.fileno())
"""
SYNCED_FIRST = """\
                if like is not None:
                    take_after(out.fileno(), like, real)
                os.fsync(out.fileno())
                out.write(data)
"""

FAULTS = [
    Fault(COMPARE, "gears alone compared", "tools compared", "if one != other]", "if one[1] != other[1]]"),
    Fault(
        COMPARE, "counts only in the first file lost", "tools compared",
        "for what in [*old, *(what for what in new if what not in old)]:", "for what in new:",
    ),
    Fault(COMPARE, "seconds only in the second file lost", "tools compared", "zip_longest(first, second, fillvalue=_NO_SECOND)", "zip(first, second)"),
    Fault(STORE, "fsync before the write", "tools disks", WRITTEN, SYNCED_FIRST),
    Fault(
        STORE, "the folder of a changed file not synced", "tools disks",
        'patience.pause("another has it open")\n    sync_folder(real)\n', 'patience.pause("another has it open")\n',
    ),
    Fault(STORE, "the folder of a new file not synced", "tools disks", "raise _Taken\n    sync_folder(real)\n", "raise _Taken\n"),
    Fault(P + "posix.py", "the mode is not kept", "tools changes.Onto", "    os.fchmod(file, stat.S_IMODE(like.st_mode))\n", ""),
    Fault(
        STORE, "what another wrote meanwhile is written over", "tools parallel.Meanwhile",
        "        if held.bytes(_LOOK) != old:\n            return False", "        if held.bytes(_LOOK) is None:\n            return False",
    ),
    Fault(
        STORE, "what another wrote while it printed is written over", "tools parallel.Meanwhile",
        "                if held.bytes(_LOOK) != old:\n                    raise",
        "                if held.bytes(_LOOK) is None:\n                    raise",
    ),
    Fault(STORE, "a read-only file is replaced", "tools changes.Onto", "if not real.stat().st_mode & 0o222 or", "if"),
    Fault(STORE, "waiting has no end", "tools parallel.Meanwhile.test_waiting_is_bounded", "if left <= 0:", "if left <= -9:"),
    Fault(
        P + "interrupts.py", "an interrupt is heard after the change", "tools parallel.Interrupted.test_at_every_step",
        "        yield\n        _changed = True", "        yield\n        _changed = False",
    ),
    Fault(PICTURE, "the refusal's mark a second late", "tools marks", "x = row.x(refused.place)", "x = row.x(refused.place + 1)"),
    Fault(PICTURE, "the clutch inverted", "tools pictures.Pictures.test_examples", "            if down:\n", "            if not down:\n"),
    Fault(
        PICTURE, "the gear a second late", "tools pictures.Pictures.test_examples",
        "{_n(self.gear_y(gear))}H{_n(self.x(b))}", "{_n(self.gear_y(gear))}H{_n(self.x(b + 1))}",
    ),
    Fault(
        PICTURE, "the byte of a refusal from the right", "tools marks",
        "x = LEFT + wide * min(refused.place, length)", "x = LEFT + wide * (length - min(refused.place, length))",
    ),
    Fault(WHEELS, "wrong hashes in RECORD", "tools wheels", "hashlib.sha256(file.data)", "hashlib.sha256(each.encode())"),
    Fault(WHEELS, "RECORD says wrong lengths", "tools wheels", "{len(file.data)}\\n", "{len(each)}\\n"),
    Fault(WHEELS, "the library is no program", "tools wheels", "File(library.read_bytes(), program=True)", "File(library.read_bytes())"),
    Fault(WHEELS, "the other processor's tag", "tools wheels", "PLATFORM.format(processor=processor)", 'PLATFORM.format(processor="x86_64")'),
    Fault(RELEASE, "the link of the SONAME is missing", "release", '    files[f"lib/{soname}"] = File(link=shared)\n', ""),
    Fault(RELEASE, "the JavaScript package has no version", "release", '"version": VERSION, **package', '"version": "", **package'),
    Fault(RELEASE, "the sums are those of the names", "release", "hashlib.sha256(path.read_bytes())", "hashlib.sha256(path.name.encode())"),
    Fault(ARCHIVES, "two runs write different bytes", "release", 'mode="wb", mtime=0)', 'mode="wb")'),
    # words
    Fault(P + "changes.py", "a dry run writes", "tools changes", "    if args.dry_run:\n", "    if args.dry_run and not args.file.exists():\n"),
    Fault(
        P + "changes.py", "a change of the clutch alone is not told", "tools told",
        "pairs if before != after]", "pairs if gear_of(before) != gear_of(after)]",
    ),
    Fault(
        P + "changes.py", "an export's numbers are not told", "tools changes.Messages",
        "        if getattr(now, field) != getattr(was, field)\n", "        if getattr(now, field) < getattr(was, field)\n",
    ),
    Fault(
        P + "given.py", "a range without its last second", "tools changes.Several",
        "return range(second(first), second(last) + 1)", "return range(second(first), second(last))",
    ),
    Fault(P + "given.py", "a remark is an edit", "tools changes.Several", 'words.partition("#")[0].split()', "words.split()"),
    Fault(P + "jobtext.py", "a hold a second early", "tools texts", "holds[int(key)] = gear", "holds[int(key) - 1] = gear"),
    Fault(P + "jobtext.py", "a margin in version 1", "tools texts", "return CURVE[:2] if version == 1 else CURVE", "return CURVE"),
    Fault(
        P + "jobtext.py", "the factor of a scaled part is lost", "tools texts.RoundTrips.test_built_in",
        "speeds = downscale(factor, part) if", "speeds = downscale(0, part) if",
    ),
    Fault(P + "units.py", "a negative number without its sign", "tools texts.Units", "{'-' if whole < 0 else ''}", ""),
    Fault(P + "units.py", "what is between two is rounded down", "tools texts.Units", "if exact != low:", "if exact < low:"),
    Fault(P + "files.py", "a job is read as a text", "tools words.Card", 'return path.suffix == ".toml"', 'return path.suffix != ""'),
    Fault(P + "output.py", "an empty cell says None", "tools compared", 'words = "" if cell is None else str(cell)', "words = str(cell)"),
    Fault(P + "output.py", "a name can steer a terminal", "tools hostile.Hostile.test_messages", 'in "CZ" and', 'in "Z" and'),
    Fault(
        P + "outputs.py", "a job is written over its own text", "tools changes.Onto",
        "if not args.force and _same(args.file, path):", "if args.force and _same(args.file, path):",
    ),
    Fault(
        P + "outputs.py", "another kind of file is written over", "tools changes.Onto",
        "if old and not is_kind(old) and not args.force:", "if old and not is_kind(old) and args.force:",
    ),
    Fault(
        P + "words.toml", "the words of refusal 8 are another's", "tools words.Card",
        'told = "{hold} is at a standing second"', 'told = "{hold} would turn the engine past nmax"',
    ),
    Fault(P + "blame.py", "the first gear at fault is called the second", "tools blamed", "return 0 if place == 1 and", "return 1 if place == 1 and"),
    Fault(P + "whys.py", "B shows C's gear", "tools told", '("B, rising speed   ", found.after_b,', '("B, rising speed   ", found.after_c,'),
    Fault(
        P + "whys.py", "the power ten times too high", "tools told",
        "power = kilowatts(Fraction(each.q, AVAILABLE * each.w))", "power = kilowatts(Fraction(each.q * 10, AVAILABLE * each.w))",
    ),
    Fault(
        P + "whys.py", "D is the step before", "tools told",
        "job.speeds[found.about + 1] - job.speeds[found.about]", "job.speeds[found.about] - job.speeds[found.about - 1]",
    ),
    Fault(
        P + "verbs.py", "the crawler is counted", "tools words.Card",
        "range(1 + vehicle.profile, 1 + len(vehicle.ratios))", "range(1, 1 + len(vehicle.ratios))",
    ),
    Fault(
        P + "verbs.py", "the CSV of a card says held and not in which gear", "tools words.Card",
        '"down" if clutch_down(byte) else "up", hold)', '"down" if clutch_down(byte) else "up", int(hold > 0))',
    ),
    Fault(P + "verbs.py", "holds are lost in silence", "tools changes.Onto", "        if not args.drop_holds:\n", "        if args.drop_holds:\n"),
    Fault(P + "sheets.py", "a comma comes before a semicolon", "tools blamed", '_MARKS = (";", "\\t", ",")', '_MARKS = (",", "\\t", ";")'),
    Fault(P + "page.py", "a name breaks out of the page", "web files.FromTheTool", "html.escape(name)", "name"),
    Fault(
        P + "cli.py", "an interrupt ends with status 2", "tools parallel.Interrupted.test_at_every_step",
        "        return 128 + getattr(", "        getattr(",
    ),
    # what an engineer reads off
    Fault(P + "persecond.py", "the reserve is turned", INDEPENDENT, "kilowatts(available - required)", "kilowatts(required - available)"),
    Fault(P + "persecond.py", "the engine in the first choice's gear", INDEPENDENT, "found.gears[gear - 1]", "found.gears[found.choice - 1]"),
    Fault(P + "persecond.py", "after B and after C swapped", INDEPENDENT, "found.after_b, found.after_c, SENTENCES", "found.after_c, found.after_b, SENTENCES"),
    Fault(P + "persecond.py", "the second before a trip has its engine", INDEPENDENT, "if found.kind != MOVING:", "if found.kind == 0:"),
    Fault(P + "whys.py", "without the hold is with it", "tools persecond.Why", "    holds[found.second] = 0\n", ""),
    Fault(P + "whys.py", "of several seconds the first alone", "tools persecond.Why", "for second in args.seconds]", "for second in args.seconds[:1]]"),
    Fault(P + "output.py", "decimal commas between commas", "tools persecond.Decimals", '(";", ",") if args.decimal', '(",", ",") if args.decimal'),
    Fault(
        P + "output.py", "a cell with a comma is two", "tools persecond.Table.test_seeded",
        "for each in (mark, '\"',", "for each in ('\"',",
    ),
    Fault(
        COMPARE, "the holds of the first job alone are told", "tools differences",
        "        if a != b:\n            seconds =", "        if a and a != b:\n            seconds =",
    ),
    Fault(COMPARE, "a point's margin is not told", "tools differences", "{units.POWER.text(point.p)}, {point.m}]", "{units.POWER.text(point.p)}]"),
    Fault(
        COMPARE, "the same card by other holds is not said", "tools differences",
        "if found)\n        lines.append", 'if found and name != "holds")\n        lines.append',
    ),
    Fault(P + "jobtext.py", "a part is shown as the whole cycle", "tools shown", '*([f"part = {part}"] if part else []), ', ""),
    Fault(
        P + "jobtext.py", "a mended cycle is shown by its name", "tools shown",
        "downscale(factor, part) == given), None)", "downscale(factor, part)[0] == given[0]), None)",
    ),
]
