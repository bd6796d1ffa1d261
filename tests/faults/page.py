"""Faults of the page, web/src."""

from . import Fault

STATE, CLOCK, DRIVER, ROAD, CHART = (f"web/src/{name}.js" for name in ("store", "clock", "driver", "road", "chart"))
TRIPS, PANEL, WHY, FILES = (f"web/src/{name}.js" for name in ("trips", "panel", "why", "files"))

STEPS, RATES, FACTS, SAVED = "web state.Steps", "web state.Clock", "web state.Facts", "web state.Saved"
ENGINEER, WINDOW = "web drawn.Engineer", "web drawn.Driver"
TABLE = "web files.Files.test_the_card_and_the_picture_are_those_of_the_tools"

FAULTS = [
    # the state
    Fault(STATE, "the redo list is kept after a new edit", STEPS, "      this.undone = [];\n    });", "    });"),
    Fault(STATE, "an edit that leaves all as it was is a step", STEPS, "if (nothing) return;", "if (words === '') return;"),
    Fault(STATE, "what is undone cannot be redone", STEPS, "      to.push(last);\n", ""),
    Fault(STATE, "a range is held without its last second", "web edits.Edits.test_a_range_is_one_step", "first, last + 1);", "first, last);"),
    Fault(STATE, "the trips stay after a mend", FACTS, "if (step.kind === 'mend') this.found = undefined;", ""),
    Fault(
        STATE, "a saved job counts as unsaved", "web files.Files.test_leaving_with_unsaved_edits_asks",
        "this.saved = this.done[", "this.saved = this.undone[",
    ),
    Fault(
        STATE, "the job saved is in another version", SAVED,
        "engine.write(vehicle, speeds, holds, version);\n  }\n\n  /**\n   * @param {number} first",
        "engine.write(vehicle, speeds, holds, 3);\n  }\n\n  /**\n   * @param {number} first",
    ),
    # the clock
    Fault(CLOCK, "the rate is applied twice", RATES, "/ 1000) * this.rate;", "/ 1000) * this.rate * this.rate;"),
    Fault(CLOCK, "a new rate counts from the start", RATES, "    this.pause();\n    this.rate = rate;", "    this.rate = rate;"),
    Fault(CLOCK, "a run that has ended does not begin anew", RATES, "at < this.end ? at : 0", "at"),
    Fault(CLOCK, "a step goes from between two seconds to between two", RATES, "this.seek(Math.floor(this.base) + seconds)", "this.seek(this.base + seconds)"),
    Fault("web/src/run.js", "the run goes past the last second", RATES, "speeds.length - 1;", "speeds.length;"),
    # the driver's window
    Fault(DRIVER, "the next change by floor for ceil", WINDOW, "Math.ceil(change - at)", "Math.floor(change - at)"),
    Fault(DRIVER, "the hold of the next second", WINDOW, "hold: job.holds[second] }", "hold: job.holds[second + 1] }"),
    Fault(DRIVER, "the clutch inverted", WINDOW, "clutchDown(byte) ? 'Clutch down' : 'Clutch up'", "clutchDown(byte) ? 'Clutch up' : 'Clutch down'"),
    Fault(DRIVER, "the nearest second and not the present one", WINDOW, "Math.min(Math.floor(at), card", "Math.min(Math.round(at), card"),
    # the road in it
    Fault(
        ROAD, "the speed without interpolation", WINDOW,
        "return speeds[second] + (after - speeds[second]) * (at - second);", "return speeds[second] + 0 * after;",
    ),
    Fault(ROAD, "gear + 1", WINDOW, "this.text(gearText(gear), (from", "this.text(gearText(gear + 1), (from"),
    Fault(ROAD, "gears and clutch a second late", WINDOW, "[first + a, first + b, value]", "[first + a + 1, first + b + 1, value]"),
    Fault(ROAD, "the trace a second late", WINDOW, "[this.x(first + k), this.y(speed)]", "[this.x(first + k + 1), this.y(speed)]"),
    Fault(ROAD, "the clutch strip inverted", WINDOW, "if (down) this.fill(", "if (!down) this.fill("),
    Fault(ROAD, "the held strip gone", WINDOW, "if (gear) this.fill(colours.held", "if (gear > 15) this.fill(colours.held"),
    Fault(
        ROAD, "a tolerance line, always", WINDOW,
        "    pen.restore();\n    this.now();",
        "    this.stroke(this.colours.line, 1, points.map(([x, y]) => [x, y + 20]));\n    pen.restore();\n    this.now();",
    ),
    Fault(ROAD, "the dot of now on the line of standstill", WINDOW, "pen.arc(x, this.y(speedAt(this.store.job.speeds, this.at)),", "pen.arc(x, this.y(0),"),
    Fault(ROAD, "the lead time begins with the second", WINDOW, "[from, to] = [this.x(this.at),", "[from, to] = [this.x(Math.floor(this.at)),"),
    Fault(ROAD, "the lead time twice as long", WINDOW, "this.x(this.at + this.lead())", "this.x(this.at + 2 * this.lead())"),
    Fault(DRIVER, "a lead time without a run", WINDOW, "this.run.on ? this.run.lead : 0", "this.run.lead"),
    # the engineer's picture
    Fault(
        CHART, "gear steps late", ENGINEER,
        "points.push([this.x(a), this.gearY(gear)], [this.x(b), this.gearY(gear)]);",
        "points.push([this.x(a + 1), this.gearY(gear)], [this.x(b + 1), this.gearY(gear)]);",
    ),
    Fault(CHART, "labels of the steps + 1", ENGINEER, "sheet.text(String(gear), this.x((a + b) / 2)", "sheet.text(String(gear + 1), this.x((a + b) / 2)"),
    Fault(CHART, "the held strip gone", ENGINEER, "      sheet.fill(held, this.x(a), this.lines.held, width, STRIP);\n", ""),
    Fault(
        CHART, "the box of a hold on the next gear", ENGINEER,
        "sheet.fill(heldfill, this.x(a), this.gearY(gear) - 5", "sheet.fill(heldfill, this.x(a), this.gearY(gear + 1) - 5",
    ),
    Fault(CHART, "the clutch strip inverted", ENGINEER, "clutchDown(byte) ? 1 : 0", "clutchDown(byte) ? 0 : 1"),
    Fault(
        CHART, "the speeds a second late", ENGINEER,
        "points.push([this.x(k), this.speedY(speeds[k])]);", "points.push([this.x(k + 1), this.speedY(speeds[k])]);",
    ),
    Fault(CHART, "labels of the gears + 1", ENGINEER, "sheet.text(gearText(gear), LEFT - 7", "sheet.text(gearText(gear + 1), LEFT - 7"),
    Fault(CHART, "bars without their lowest", ENGINEER, "if (values[k] < low) low = values[k];", "if (values[k] < low) continue;"),
    Fault(CHART, "the mark of a refusal a second late", ENGINEER, "this.x(view.mark.second + 0.5)", "this.x(view.mark.second + 1.5)"),
    Fault(CHART, "the chosen range without its last second", ENGINEER, "(view.to + 1 - view.from)", "(view.to - view.from)"),
    Fault(
        CHART, "tolerances of the next second", ENGINEER,
        "tolerance(store.job.speeds, k)", "tolerance(store.job.speeds, Math.min(k + 1, store.job.speeds.length - 1))",
    ),
    Fault(
        CHART, "the part shown on the strip beneath too long", ENGINEER,
        "[x(view.first), x(view.first + view.span)]", "[x(view.first), x(view.first + 2 * view.span)]",
    ),
    Fault(
        CHART, "what changed is marked where it did not", ENGINEER,
        "          if (on) sheet.fill(sheet.colours.changed", "          if (!on) sheet.fill(sheet.colours.changed",
    ),
    Fault(TRIPS, "no tolerance below", ENGINEER, "[Math.max(0, low - TOLERANCE), high + TOLERANCE]", "[low, high + TOLERANCE]"),
    Fault(TRIPS, "a second of 1.0 km/h stands", ENGINEER, "speeds[k] >= MOVING;", "speeds[k] > MOVING;"),
    Fault(TRIPS, "the second after a trip is in it", FACTS, "trips[middle].stop <= second", "trips[middle].stop < second"),
    Fault(
        "web/src/view.js", "closer, and the chosen second goes elsewhere", ENGINEER,
        "this.show(about - ((about - this.first) / this.span) * span, span);", "this.show(about - span / 2, span);",
    ),
    Fault("web/src/messages.js", "a refusal is marked a second late", ENGINEER, "{ second: refused.place,", "{ second: refused.place + 1,"),
    # beside it
    Fault(PANEL, "the clutch inverted", FACTS, "clutchDown(byte) ? 'down' : 'up'", "clutchDown(byte) ? 'up' : 'down'"),
    Fault(PANEL, "a trip one second too long", FACTS, "trip.stop - 1}", "trip.stop}"),
    Fault(
        PANEL, "the hold of the second before", FACTS,
        "holds[second] ? `gear ${holds[second]}` : 'none'", "holds[second - 1] ? `gear ${holds[second - 1]}` : 'none'",
    ),
    Fault(
        PANEL, "the summary a gear off", "web edits.Edits.test_the_summary_is_the_one_that_the_call_answered",
        "summary.gears[gear - 1]", "summary.gears[gear]",
    ),
    Fault(
        WHY, "two columns swapped", FACTS,
        "[(gear.engine / 1000).toFixed(1), String(gear.minimum)]", "[String(gear.minimum), (gear.engine / 1000).toFixed(1)]",
    ),
    Fault(WHY, "a cell that goes over one column too few", FACTS, "String(COLUMNS - place)", "String(COLUMNS - place - 1)"),
    Fault(WHY, "B shows C's gear", FACTS, "['B, rising speed', found.afterB,", "['B, rising speed', found.afterC,"),
    Fault(WHY, "the power ten times too high", FACTS, "kilowatts(gear.q, 1e6 * gear.w)", "kilowatts(gear.q, 1e5 * gear.w)"),
    Fault(WHY, "the next gear marked as chosen", FACTS, "k + 1 === found.choice", "k === found.choice"),
    # files, forms, keys
    Fault(
        FILES, "saving CSV marks the job saved", SAVED,
        "onClick('csv', () => offer(this.named('.csv'), csvOf(store), 'text/csv'));",
        "onClick('csv', () => { offer(this.named('.csv'), csvOf(store), 'text/csv'); store.markSaved(); });",
    ),
    Fault(FILES, "the CSV says held and not in which gear", TABLE, "${job.holds[k]}\\n", "${job.holds[k] ? 1 : 0}\\n"),
    Fault(
        FILES, "unsaved edits are lost without a question", "web files.Files.test_opening_over_unsaved_edits_asks",
        "if (this.store.unsaved && !window", "if (!this.store.unsaved && !window",
    ),
    Fault("web/src/picture.js", "the clutch of the SVG inverted", TABLE, "(run) => run[2] === 1", "(run) => run[2] === 0"),
    Fault(
        "web/src/trace.js", "a part scaled down is the whole", "web forms.Trace.test_the_cycle_its_parts_and_scaled_down",
        "engine.downscale(factor, part);", "engine.downscale(factor, 0);",
    ),
    Fault(
        "web/src/vehicle.js", "the crawler's tick inverted", "web forms.Vehicle.test_it_opens_with_the_present_vehicle_and_applies_it_unchanged",
        ".checked ? 1 : 0;", ".checked ? 0 : 1;",
    ),
    Fault("web/src/keys.js", "the key 0 is no gear", "web driver.Driver.test_a_gear_of_two_digits_has_room", "key === '0' ? 10 :", "key === '0' ? 0 :"),
    Fault("web/src/keys.js", "redo undoes", "web edits.Edits.test_a_range_is_one_step", "    y: redo,", "    y: undo,"),
    Fault(
        "web/src/pointing.js", "a click chooses the next second", "web edits.Edits.test_click_a_second_press_a_digit_see_the_gear",
        "view.choose(chart.secondAt(offset(event)), event.shiftKey)", "view.choose(chart.secondAt(offset(event)) + 1, event.shiftKey)",
    ),
]
