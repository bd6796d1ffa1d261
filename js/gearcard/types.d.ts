/** Written by scripts/boundary from include/gearcard.h and words.toml: change that, and run it. */

export interface Summary {
  /** standing seconds */
  standing: number;
  /** moving seconds in gear 1, 2, .. 10 */
  gears: ArrayLike<number>;
  /** gear changes: neighbouring moving seconds with different gears */
  changes: number;
}

export interface Gear {
  /** available power is q / (100,000 w) tenths of kW; q and w are 0 where the gear turns past nmax, where no power is read */
  q: number;
  w: number;
  /** engine speed X, thousandths of min^-1 */
  engine: number;
  /** the gear's minimum speed there, min^-1 */
  minimum: number;
  /**
   * of that minimum: 1 the lowest gear, idle; of the next gear 2 nine tenths of idle, 3 in the closing run, at a trip's first second too, idle
   * itself, 4 after a second whose first choice is the lowest gear 1.15 times idle; 5 the gears above, idle plus an eighth of rated less idle
   */
  rule: number;
  /** at the first second of a trip only the lowest gear may fit */
  allowed: boolean;
  /** X is at least 1000 x minimum */
  overMinimum: boolean;
  /** X is at most 1000 x nmax */
  underNmax: boolean;
  /** all three; the lowest gear also fits below its minimum */
  fits: boolean;
  /** enough power, 3,240,000 q >= required w; said up to nmax of gears that do not fit too */
  enough: boolean;
}

export interface Reasons {
  /** the moving second of which the rest is said: the second asked, or before a trip the trip's first second */
  about: number;
  /** its trip's first second */
  first: number;
  /** and last */
  last: number;
  /** required power E; E / (3.24 x 10^12) kW, negative while braking */
  required: number;
  /** gear 1, 2, .. 10; zeros for gears that are not driven: the crawler and those above ng */
  gears: Gear[];
  /** 0 standing; 1 standing, the second before a trip; 2 moving */
  kind: number;
  /** 1 the trip's first second; 2 in the closing run; 3 after a first choice of the lowest gear; 4 any other */
  role: number;
  /** the held gear, 0 for none */
  held: number;
  /** the first choice; 0 where no gear fits */
  choice: number;
  /**
   * which sentence gave it: 1 the held gear; 2 the highest gear that fits and has enough power; 3 if none has enough, the fitting gear with most
   * power; 4 at the first second of a trip only the lowest gear; 5 none fits
   */
  sentence: number;
  /** the gear after correction A, one-second peak */
  afterA: number;
  /** after B, rising speed */
  afterB: number;
  /** after C, closing run: the card's gear */
  afterC: number;
  /** the lowest gear whose X is at most 1000 x nmax; ng + 1 where there is none */
  floor: number;
  /** B's ceiling where it looks: no hold, not the trip's first second, the speed before lower; otherwise 0 */
  ceiling: number;
  /** clutch down at the second asked */
  clutch: boolean;
  /** 1 down, the second before a trip; 2 down, D is 0 or less and X of the final gear below 1000 x idle; 3 up, D is above 0; 4 up, X is not below */
  clutchReason: number;
  /** the card's byte at the second asked */
  byte: number;
}

export interface Part {
  first: number;
  count: number;
}

export interface Coefficients {
  f0: number;
  f1: number;
  f2: number;
  tm: number;
}

/** A point of the full-load power curve. */
export interface Point {
  /** engine speed, min^-1, 1 to 16,000, rising by 1 to 1,000 */
  n: number;
  /** full-load power, tenths of kW, 0 to 5,000 */
  p: number;
  /** the point's own safety margin, per cent, 0 to 50, and at most 90 with margin */
  m?: number;
}

/** The vehicle's fields that are one number; one that may be left out is 0 then. */
export interface VehicleNumbers {
  /** min^-1, 300 to 3,000 */
  idle: number;
  /** min^-1, above idle, at most 12,000 */
  rated: number;
  /** min^-1, from rated to 15,000 */
  nmax: number;
  /** tenths of N, 0 to 10,000 */
  f0: number;
  /** thousandths of N/(km/h), -5,000 to 5,000 */
  f1: number;
  /** hundred-thousandths of N/(km/h)^2, 0 to 20,000 */
  f2: number;
  /** test mass, kg, 400 to 4,000 */
  tm: number;
  /** safety margin, per cent, 0 to 50 */
  margin: number;
  /** 1 where first gear is a crawler that is not driven, as in some vans, else 0 */
  profile?: number;
}
