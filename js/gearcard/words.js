/** Written by scripts/boundary from python/gearcard/words.toml: change that, and run it. */
export const TABLE = {
  "refusal": [
    {
      "number": 1,
      "words": "the trace is empty or over 16,384 seconds",
      "place": "none"
    },
    {
      "number": 2,
      "words": "holds or card are not as long as the trace, or a room is too short",
      "place": "none"
    },
    {
      "number": 3,
      "words": "field {place} of the vehicle is out of bounds: {field}",
      "place": "field"
    },
    {
      "number": 11,
      "words": "second {place} is outside the trace",
      "place": "second",
      "told": "second {place} is outside the trace, which has {count}"
    },
    {
      "number": 4,
      "words": "the speed at second {place} is over 200 km/h",
      "place": "second",
      "told": "{speed} is over 200 km/h"
    },
    {
      "number": 5,
      "words": "the step to second {place} from the second before is over 15 km/h",
      "place": "second",
      "told": "{speed} is more than 15 km/h from the second before"
    },
    {
      "number": 6,
      "words": "the trace does not begin and end at rest: second {place} is moving, with 1 km/h or more",
      "place": "second",
      "told": "{speed} is not at rest, as the first and the last second must be"
    },
    {
      "number": 7,
      "words": "the hold at second {place} is no gear of the vehicle",
      "place": "second",
      "told": "{hold} is no gear to hold: the vehicle has {gears}"
    },
    {
      "number": 8,
      "words": "the hold at second {place} stands at rest",
      "place": "second",
      "told": "{hold} is at a standing second"
    },
    {
      "number": 9,
      "words": "the held gear at second {place} would turn the engine past nmax",
      "place": "second",
      "told": "{hold} would turn the engine past nmax"
    },
    {
      "number": 10,
      "words": "no gear fits at second {place}, and there is no hold",
      "place": "second",
      "told": "{speed} has no gear that fits, and no hold"
    },
    {
      "number": 12,
      "words": "the bytes end early, after {place} of them",
      "place": "byte"
    },
    {
      "number": 13,
      "words": "the group at byte {place} is not in its shortest form, is over 65,535 or is too long",
      "place": "byte"
    },
    {
      "number": 14,
      "words": "the version is none of 1, 2 and 3",
      "place": "none"
    },
    {
      "number": 15,
      "words": "the hold at byte {place} has a second that does not rise or is past the trace, or a gear that is 0 or over 255",
      "place": "byte"
    },
    {
      "number": 16,
      "words": "bytes follow after the end, from byte {place} on",
      "place": "byte"
    },
    {
      "number": 17,
      "words": "the room is too short for the job, which has {place} bytes",
      "place": "length"
    },
    {
      "number": 18,
      "words": "the part is none of 1 to 4, or 0 for the whole cycle",
      "place": "none"
    },
    {
      "number": 19,
      "words": "the record at byte {place} of the export is of an unknown kind, or of one met before",
      "place": "byte"
    },
    {
      "number": 20,
      "words": "the record at byte {place} of the export has a float that is no finite number",
      "place": "byte"
    },
    {
      "number": 21,
      "words": "the record at byte {place} of the export has a value outside the bounds of its field",
      "place": "byte"
    },
    {
      "number": 22,
      "words": "the export ends at byte {place} with a kind missing",
      "place": "byte"
    },
    {
      "number": 23,
      "words": "the downscaling factor is over 0.500",
      "place": "none"
    }
  ],
  "field": [
    {
      "number": 1,
      "key": "ratios",
      "bounds": "a vehicle has 2 to 10 gears, with profile 1 at least 3; a profile is 0 or 1, and only version 3 has one"
    },
    {
      "number": 1,
      "key": "profile",
      "name": "profile",
      "unit": "profile",
      "since": 3
    },
    {
      "number": 2,
      "key": "ratios",
      "bounds": "each is 0.01 to 500.00 min^-1 per km/h, and falls with the gear"
    },
    {
      "number": 3,
      "key": "idle",
      "bounds": "it is 300 to 3,000 min^-1",
      "name": "idle",
      "unit": "engine_speed",
      "since": 1,
      "title": "Idle",
      "hint": "300 to 3,000"
    },
    {
      "number": 4,
      "key": "rated",
      "bounds": "it is above idle and at most 12,000 min^-1",
      "name": "rated",
      "unit": "engine_speed",
      "since": 1,
      "title": "Rated",
      "hint": "above idle, to 12,000"
    },
    {
      "number": 5,
      "key": "nmax",
      "bounds": "it is from rated to 15,000 min^-1",
      "name": "nmax",
      "unit": "engine_speed",
      "since": 1,
      "title": "Highest, nmax",
      "hint": "rated to 15,000"
    },
    {
      "number": 6,
      "key": "f0",
      "bounds": "it is 0.0 to 1,000.0 N",
      "name": "f0",
      "unit": "f0",
      "since": 1,
      "title": "F0",
      "hint": "0.0 to 1,000.0"
    },
    {
      "number": 7,
      "key": "f1",
      "bounds": "it is -5.000 to 5.000 N/(km/h)",
      "name": "f1",
      "unit": "f1",
      "since": 1,
      "title": "F1",
      "hint": "-5.000 to 5.000"
    },
    {
      "number": 8,
      "key": "f2",
      "bounds": "it is 0.00000 to 0.20000 N/(km/h)^2",
      "name": "f2",
      "unit": "f2",
      "since": 1,
      "title": "F2",
      "hint": "0.00000 to 0.20000"
    },
    {
      "number": 9,
      "key": "mass",
      "bounds": "it is 400 to 4,000 kg",
      "name": "tm",
      "unit": "mass",
      "since": 1,
      "title": "Test mass",
      "hint": "400 to 4,000"
    },
    {
      "number": 10,
      "key": "margin",
      "bounds": "it is 0 to 50 per cent",
      "name": "margin",
      "unit": "per_cent",
      "since": 1,
      "title": "Safety margin",
      "hint": "0 to 50"
    },
    {
      "number": 11,
      "key": "curve",
      "bounds": "a curve has 2 to 64 points"
    },
    {
      "number": 12,
      "key": "curve",
      "bounds": "each point is 1 to 16,000 min^-1, rising by 1 to 1,000, 0.0 to 500.0 kW, its margin 0 to 50, at most 90 with the vehicle's, 0 in version 1"
    },
    {
      "number": 13,
      "key": "curve",
      "bounds": "the first point is at most idle, the last at least nmax"
    }
  ],
  "unit": {
    "ratio": {
      "decimals": 2,
      "people": "min^-1 per km/h",
      "paper": "hundredths of min^-1 per km/h"
    },
    "engine_speed": {
      "decimals": 0,
      "people": "min^-1",
      "paper": "min^-1"
    },
    "f0": {
      "decimals": 1,
      "people": "N",
      "paper": "tenths of N"
    },
    "f1": {
      "decimals": 3,
      "people": "N/(km/h)",
      "paper": "thousandths of N/(km/h)",
      "least": -5000,
      "most": 60535
    },
    "f2": {
      "decimals": 5,
      "people": "N/(km/h)^2",
      "paper": "hundred-thousandths of N/(km/h)^2"
    },
    "mass": {
      "decimals": 0,
      "people": "kg",
      "paper": "kg"
    },
    "per_cent": {
      "decimals": 0,
      "people": "per cent",
      "paper": "per cent",
      "page": "%"
    },
    "power": {
      "decimals": 1,
      "people": "kW",
      "paper": "tenths of kW"
    },
    "profile": {
      "decimals": 0,
      "people": "1 where first gear is a crawler that is not driven, else 0",
      "paper": "profile"
    },
    "speed": {
      "decimals": 1,
      "people": "km/h",
      "paper": "tenths of km/h"
    },
    "time": {
      "decimals": 3,
      "people": "s",
      "paper": "milliseconds",
      "least": -1000000000000000,
      "most": 1000000000000000
    },
    "factor": {
      "decimals": 3,
      "people": "of the speed",
      "paper": "thousandths",
      "least": 0,
      "most": 4294967295
    }
  },
  "why": {
    "kinds": [
      "standing",
      "standing, the second before a trip",
      "moving"
    ],
    "roles": [
      "",
      "the first second of its trip",
      "in the closing run",
      "after a second whose first choice is the lowest gear",
      "any other second of its trip"
    ],
    "rules": [
      "",
      "idle",
      "nine tenths of idle",
      "in the closing run idle itself",
      "1.15 times idle",
      "idle plus an eighth of (rated less idle)"
    ],
    "sentences": [
      "",
      "the held gear",
      "the highest gear that fits and has enough power",
      "none has enough: the fitting gear with most power, the higher gear on a tie",
      "at the first second of a trip only the lowest gear may fit",
      "none fits"
    ],
    "clutches": [
      "up: standing",
      "down: the second before a trip",
      "down: D is 0 or less and X of the final gear is below 1000 x idle",
      "up: D is above 0",
      "up: X of the final gear is at least 1000 x idle"
    ]
  }
};
