/** What a header's cell says: a name, and a unit in any bracket, or after a space or an underscore. python/gearcard/headers.py has the same rules. */

/** The unit of a speed, as sheets write it, and others that would make it another trace. */
export const KMH = ['km/h', 'kmh', 'kph', 'kmph', 'km/hr', 'kmperh', 'kmh-1'];
const OTHER = ['mph', 'mi/h', 'mi/hr', 'milesperhour', 'm/s', 'mps', 'ms', 'ms-1', 'm/sec', 'kn', 'kt', 'kts', 'knot', 'knots', 'fps', 'ft/s', 'rpm'];

/** The unit of a time, and others; a clock's has a colon, as hh:mm:ss. */
export const SECONDS = ['s', 'sec', 'secs', 'second', 'seconds', 'sek'];
export const OTHER_TIMES = ['ms', 'msec', 'us', 'ns', 'min', 'mins', 'minutes', 'h', 'hr', 'hrs', 'hours', 'd', 'days'];

/** The columns that are times where none is said to be. */
export const TIMES = ['time', 't', 'second', 'seconds', 'timestamp', 'elapsed', 'elapsed time', 'zeit', 'sec', 'clock'];

const BRACKET = /^(.*?)[\s_/,:-]*[[({<]([^[\](){}<>]*)[\])}>]$/s;
const BREAK = /[\s_,:/-]+(?:in[\s_]+)?/g;
const GLUED = /^.*?(kmph|km\/h|kmh|kph|mph|mps|fps|m\/s|knots)$/s;

/**
 * A unit as it is compared.
 * @param {string} word
 */
export const bare = (word) =>
  word
    .toLowerCase()
    .replaceAll('⁻¹', '-1')
    .replace(/[\s·*^]/g, '')
    .replace(/^[[\](){}<>]+|[[\](){}<>]+$/g, '');

/** @param {string} word */
const isKnown = (word) => KMH.includes(bare(word)) || OTHER.includes(bare(word));

/**
 * Whether it is the unit of a speed, km/h or another.
 * @param {string} word
 */
export const isSpeed = (word) => isKnown(word) || /^[a-z]{1,5}\/[a-z]{1,5}$/.test(word.toLowerCase().replace(/^[[\](){}<> ]+|[[\](){}<> ]+$/g, ''));

/** @param {string} word */
const isTime = (word) => SECONDS.includes(bare(word)) || OTHER_TIMES.includes(bare(word));

/**
 * A name, the unit behind it, if any, and whether that stands in brackets: there it can be nothing else.
 * @param {string} cell
 * @returns {{name: string, unit: string, bracket: boolean}}
 */
export function heading(cell) {
  const found = BRACKET.exec(cell);
  if (found !== null) return { name: found[1], unit: bare(found[2]), bracket: true };
  if (isKnown(cell)) return { name: cell, unit: bare(cell), bracket: false };
  for (const each of cell.matchAll(BREAK)) {
    const at = each.index ?? 0;
    const [name, word] = [cell.slice(0, at), cell.slice(at + each[0].length)];
    if (isKnown(word) || (isTime(word) && TIMES.includes(name.toLowerCase()))) return { name, unit: bare(word), bracket: false };
  }
  const last = cell.split(/[\s_,:]+/).at(-1) ?? '';
  if (isSpeed(last)) return { name: cell.slice(0, -last.length).replace(/[ _,:]+$/, '') || cell, unit: bare(last), bracket: false };
  const glued = GLUED.exec(cell.toLowerCase());
  const unit = glued !== null ? glued[1] : (cell.toLowerCase().split(BREAK).find((word) => OTHER.includes(word)) ?? '');
  return { name: cell, unit, bracket: false };
}

/**
 * Whether a header's cell is that name, with a unit behind it or not.
 * @param {string} cell
 * @param {string} name
 */
export const isCalled = (cell, name) => [cell.toLowerCase(), heading(cell).name.toLowerCase()].includes(name.toLowerCase());
