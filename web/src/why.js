/** Why the card shows what it shows at the chosen second: what one proved call answers, in document 01's words. */
import { CLUTCHES, KINDS, ROLES, RULES, SENTENCES } from '../../js/gearcard/whys.js';
import { element, make, write } from './dom.js';

/** @typedef {import('../../js/gearcard/engine.js').Why} Why */

/**
 * A power in kW, rounded to a watt for the eye; it is compared exactly by the call.
 * @param {number} numerator
 * @param {number} denominator
 */
const kilowatts = (numerator, denominator) => (numerator / denominator).toFixed(3);

/** @param {boolean} test */
const yes = (test) => (test ? 'yes' : 'no');

/** Columns of a gear's row, behind its number. */
const COLUMNS = 5;

/**
 * The cells of a gear's row; the last goes over all that are left.
 * @param {import('../../js/gearcard/engine.js').Gear} gear
 * @returns {string[]}
 */
function cellsOf(gear) {
  if (gear.rule === 0) return ['a crawler, which is not driven'];
  const turns = [(gear.engine / 1000).toFixed(1), String(gear.minimum)];
  // No power is read past nmax.
  return gear.underNmax ? [...turns, yes(gear.fits), kilowatts(gear.q, 1e6 * gear.w), yes(gear.enough)] : [...turns, 'no, past nmax'];
}

/**
 * How the gear came about, a line each.
 * @param {Why} found
 * @returns {string[]}
 */
function stepsOf(found) {
  const lines = [`First choice ${found.choice}: ${SENTENCES[found.sentence]}`];
  if (found.refused !== null) return lines;
  const limits = `ceiling ${found.ceiling}, floor ${found.floor}`;
  const passes = /** @type {const} */ ([
    ['A, one-second peak', found.afterA, found.choice, `floor ${found.floor}`],
    ['B, rising speed', found.afterB, found.afterA, limits],
    ['C, closing run', found.afterC, found.afterB, 'the lowest gear becomes the next'],
  ]);
  for (const [name, gear, before, note] of passes) lines.push(gear === before ? `${name}: ${gear} stays` : `${name}: ${gear}, ${note}`);
  return [...lines, `Clutch ${CLUTCHES[found.clutchReason]}`];
}

/**
 * Shows it, where the part of the page is open; `null` where no single second is chosen.
 * @param {import('./store.js').Store} store
 * @param {number | null} second
 */
export function showWhy(store, second) {
  const part = element('why', HTMLDetailsElement);
  part.hidden = second === null;
  if (second === null || !part.open) return;
  const { vehicle, speeds, holds } = store.job;
  const found = store.engine.why(vehicle, speeds, holds, second);
  const moving = found.kind !== 0;
  const trip = moving ? `; second ${found.about} is ${ROLES[found.role]}; ${kilowatts(found.required, 3.24e12)} kW required` : '';
  write(element('why-second'), `${KINDS[found.kind]}${trip}`);
  element('why-table').hidden = !moving;
  element('why-gears').replaceChildren(
    ...(moving ? found.gears : []).map((gear, k) => {
      const chosen = k + 1 === found.choice ? 'chosen' : '';
      const texts = cellsOf(gear);
      const cells = texts.map((text, place) => make(document, 'td', place + 1 < texts.length ? {} : { colspan: String(COLUMNS - place) }, text));
      return make(document, 'tr', { class: chosen, title: RULES[gear.rule] }, make(document, 'th', { scope: 'row' }, String(k + 1)), ...cells);
    }),
  );
  element('why-steps').replaceChildren(...(moving ? stepsOf(found) : [`Clutch ${CLUTCHES[0]}`]).map((text) => make(document, 'li', {}, text)));
}
