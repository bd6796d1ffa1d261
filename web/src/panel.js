/** What stands beside the picture: the chosen second or range, its edits, and the summary. */
import { clutchDown, gearOf } from '../../js/gearcard/engine.js';
import { element, make, onSubmit, write } from './dom.js';
import { Misuse, trying } from './messages.js';
import { gearText, tripAt } from './trips.js';
import { NotExact, SPEED, Unit } from './units.js';
import { showWhy } from './why.js';

const SECOND = new Unit(0, 'seconds', 'seconds', 0, 2 ** 31);

/**
 * A number of a field; what is wrong with it is said as a misuse.
 * @param {string} name
 * @param {string} text
 * @param {Unit} unit
 */
function numberOf(name, text, unit) {
  try {
    return unit.whole(text);
  } catch (why) {
    if (why instanceof NotExact) throw new Misuse(`${name}: ${why.message}`);
    throw why;
  }
}

export class Panel {
  /**
   * @param {import('./store.js').Store} store
   * @param {import('./view.js').View} view
   */
  constructor(store, view) {
    this.store = store;
    this.view = view;
    /** @type {{gear: number, button: HTMLElement}[]} */
    this.buttons = [];
    /** Makes an edit of some seconds, now or when it is allowed. */
    this.allow = (/** @type {number} */ first, /** @type {number} */ last, /** @type {() => void} */ go) => go();
    onSubmit('range', () => {
      trying(view, () => {
        const [from, to] = ['from', 'to'].map((id) => numberOf('Seconds', element(id, HTMLInputElement).value, SECOND));
        if (Math.max(from, to) >= view.count) throw new Misuse(`the trace has seconds 0 to ${view.count - 1}`);
        view.chooseRange(from, to);
      });
    });
    onSubmit('mend', () => this.mend(element('speed', HTMLInputElement).value));
    element('why').addEventListener('toggle', () => this.show());
    this.learn();
  }

  /** @param {number} gear */
  hold(gear) {
    const { from, to } = this.view;
    this.allow(from, to, () => trying(this.view, () => this.store.hold(from, to, gear)));
  }

  release() {
    const { from, to } = this.view;
    this.allow(from, to, () => trying(this.view, () => this.store.release(from, to)));
  }

  /** @param {string} text */
  mend(text) {
    const { second } = this.view;
    this.allow(second, second, () => trying(this.view, () => this.store.mend(second, numberOf('Speed', text, SPEED))));
  }

  /** After a change of the job: its trips and the buttons of its gears. */
  learn() {
    const { vehicle } = this.store.job;
    const first = 1 + vehicle.profile;
    if (this.buttons.length !== vehicle.ratios.length + 1 - first || this.buttons[0]?.gear !== first) {
      const gears = Array.from({ length: vehicle.ratios.length + 1 - first }, (_, k) => first + k);
      this.buttons = gears.map((gear) => ({ gear, button: make(document, 'button', { 'aria-label': `Hold in gear ${gear}` }, String(gear)) }));
      for (const { gear, button } of this.buttons) button.addEventListener('click', () => this.hold(gear));
      const release = make(document, 'button', { id: 'release', title: 'Delete' }, 'Release');
      release.addEventListener('click', () => this.release());
      element('gears').replaceChildren(...this.buttons.map(({ button }) => button), release);
    }
    this.count();
    this.show();
  }

  /** The chosen second, as the present state has it. */
  show() {
    const { store, view } = this;
    const { speeds, holds } = store.job;
    const { second, from, to } = view;
    const byte = store.card[second];
    write(element('chosen-title'), from === to ? `Second ${second}` : `Seconds ${from} to ${to}`);
    element('facts').hidden = from !== to;
    write(element('fact-speed'), `${SPEED.text(speeds[second])} km/h`);
    write(element('fact-gear'), gearOf(byte) ? gearText(gearOf(byte)) : 'N, neutral');
    write(element('fact-clutch'), clutchDown(byte) ? 'down' : 'up');
    write(element('fact-hold'), holds[second] ? `gear ${holds[second]}` : 'none');
    element('fact-hold').classList.toggle('held', holds[second] !== 0);
    const trip = tripAt(store.trips, second);
    write(element('fact-trip'), trip ? `${trip.number} of ${store.trips.length}, seconds ${trip.first} to ${trip.stop - 1}` : 'standing');
    const held = new Set(holds.subarray(from, to + 1));
    for (const { gear, button } of this.buttons) button.setAttribute('aria-pressed', String(held.size === 1 && held.has(gear)));
    this.fill('from', String(from));
    this.fill('to', String(to));
    this.fill('speed', SPEED.text(speeds[second]));
    for (const each of element('mend').querySelectorAll('input, button')) /** @type {HTMLInputElement} */ (each).disabled = from !== to;
    showWhy(store, from === to ? second : null);
  }

  /**
   * A field that nobody is writing in.
   * @param {string} id
   * @param {string} text
   */
  fill(id, text) {
    const input = element(id, HTMLInputElement);
    if (document.activeElement !== input) input.value = text;
  }

  /** The summary that the last call answered. */
  count() {
    const { summary } = this.store;
    const driven = this.buttons.map(({ gear }) => /** @type {const} */ ([`Gear ${gear}`, summary.gears[gear - 1], '']));
    const rows = [/** @type {const} */ (['Standing', summary.standing, 'standing']), ...driven];
    const most = Math.max(1, ...rows.map((row) => row[1]));
    /** @type {(name: string, share: HTMLElement, count: string) => HTMLElement} */
    const line = (name, share, count) => make(document, 'tr', {}, make(document, 'th', { scope: 'row' }, name), share, make(document, 'td', {}, count));
    const lines = rows.map(([name, count, kind]) => {
      const bar = make(document, 'i');
      bar.style.width = `${(100 * count) / most}%`;
      return line(name, make(document, 'td', { class: `share ${kind}`, 'aria-hidden': 'true' }, bar), `${count} s`);
    });
    element('summary').replaceChildren(...lines, line('Changes', make(document, 'td', { class: 'share' }), String(summary.changes)));
  }
}
