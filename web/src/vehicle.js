/** The vehicle as a form in people's units. What the engine refuses by 3 is said at its field. */
import { FIELDS, Refused } from '../../js/gearcard/refusals.js';
import { TABLE } from '../../js/gearcard/words.js';
import { Sheet } from './canvas.js';
import { element, field, make, onClick, onSubmit, setError, write } from './dom.js';
import { Misuse, markPlace, trying } from './messages.js';
import { curveOf } from './paste.js';
import { NotExact, POWER, RATIO, unitOf } from './units.js';

/** A field with one number: its number in refusal 3, its name, what it is called, its unit and its bounds. */
const NUMBERS = TABLE.field.flatMap(({ number, name, title, unit, hint }) =>
  name === undefined || title === undefined || unit === undefined || hint === undefined
    ? []
    : [{ number, name, title, unit: unitOf(/** @type {any} */ (unit)), bounds: hint }],
);

/**
 * The number of that name of a vehicle.
 * @type {(vehicle: import('../../js/gearcard/engine.js').ReadVehicle, name: string) => number}
 */
const numberOf = (vehicle, name) => /** @type {Record<string, any>} */ (vehicle)[name];

const GEARS = 10;

export class VehicleForm {
  /**
   * @param {import('./store.js').Store} store
   * @param {import('./view.js').View} view
   */
  constructor(store, view) {
    this.store = store;
    this.view = view;
    this.dialog = element('vehicle', HTMLDialogElement);
    this.form = element('vehicle-form', HTMLFormElement);
    this.sheet = new Sheet(element('curve-picture', HTMLCanvasElement));
    this.build();
    onClick('vehicle-open', () => this.open());
    onSubmit('vehicle-form', () => this.apply());
    field(this.form, 'curve').addEventListener('input', () => this.drawCurve());
    /** What the fields had when they were filled. */
    this.filled = '';
    this.dialog.addEventListener('cancel', (event) => this.ask(event));
  }

  /** All that the fields have. */
  written() {
    return JSON.stringify(Array.from(new FormData(this.form).entries()));
  }

  /**
   * Before Escape discards what was typed.
   * @param {Event} event
   */
  ask(event) {
    if (this.written() !== this.filled && !window.confirm('Discard what was typed into the vehicle?')) event.preventDefault();
  }

  build() {
    const ratios = Array.from({ length: GEARS }, (_, k) => {
      const input = make(document, 'input', { name: `ratio${k}`, inputmode: 'decimal', autocomplete: 'off', 'aria-describedby': 'hint-ratios' });
      return make(document, 'label', { 'data-gear': String(k + 1) }, `Gear ${k + 1}`, input);
    });
    element('ratios').querySelector('.ratios')?.replaceChildren(...ratios);
    const numbers = NUMBERS.map(({ number, name, title, unit, bounds }) => {
      const input = make(document, 'input', { name, inputmode: 'decimal', autocomplete: 'off', 'aria-describedby': `hint-${name} error-${name}` });
      const label = make(document, 'label', {}, make(document, 'span', {}, `${title} `, make(document, 'span', { class: 'unit' }, unit.people)), input);
      const error = make(document, 'p', { class: 'error', id: `error-${name}`, hidden: '' });
      const hint = make(document, 'p', { class: 'hint', id: `hint-${name}` }, bounds);
      return make(document, 'div', { class: 'number', 'data-field': String(number) }, label, hint, error);
    });
    element('numbers').replaceChildren(...numbers);
  }

  open() {
    if (!trying(this.view, () => this.store.guard())) return;
    this.fill();
    this.clear();
    this.filled = this.written();
    if (!this.dialog.open) this.dialog.showModal();
    this.drawCurve();
  }

  /** The present vehicle in the fields. */
  fill() {
    const { vehicle, version } = this.store.job;
    field(this.form, 'version').value = String(version);
    field(this.form, 'profile').checked = vehicle.profile === 1;
    for (let k = 0; k < GEARS; k++) field(this.form, `ratio${k}`).value = k < vehicle.ratios.length ? RATIO.text(vehicle.ratios[k]) : '';
    for (const { name, unit } of NUMBERS) field(this.form, name).value = unit.text(numberOf(vehicle, name));
    const line = (/** @type {{n: number, p: number, m: number}} */ { n, p, m }) => [n, POWER.text(p), ...(version > 1 ? [m] : [])].join('\t');
    field(this.form, 'curve').value = vehicle.curve.map(line).join('\n');
  }

  /** @param {number} number */
  at(number) {
    // Field 1, the count of gears with the profile, stands with the ratios; fields 11 to 13 are all of the curve.
    const stands = number < 2 ? 2 : number > 10 ? 12 : number;
    return /** @type {Element} */ (this.form.querySelector(`[data-field="${stands}"]`));
  }

  clear() {
    for (const each of this.form.querySelectorAll('[data-field]')) setError(each, '');
    for (const each of this.form.querySelectorAll('.ratios .wrong')) each.classList.remove('wrong');
    setError(element('vehicle-error'), '');
  }

  /**
   * @param {number} number
   * @param {string} words
   */
  wrong(number, words) {
    const place = this.at(number);
    setError(place, words);
    place.scrollIntoView({ block: 'nearest' });
    /** @type {HTMLElement | null} */ (place.querySelector('input, textarea, select'))?.focus();
  }

  /**
   * What the fields say; where one says no number, it is told there, and nothing is answered.
   * @returns {import('./store.js').Job | undefined}
   */
  read() {
    const numbers = /** @type {Record<string, number>} */ ({});
    let good = true;
    /** @type {(number: number, run: () => void) => void} */
    const taking = (number, run) => {
      try {
        run();
      } catch (why) {
        if (!(why instanceof NotExact) && !(why instanceof Misuse)) throw why;
        if (good) this.wrong(number, why.message);
        else setError(this.at(number), why.message);
        good = false;
      }
    };
    /** @type {number[]} */
    let ratios = [];
    /** @type {{n: number, p: number, m: number}[]} */
    let curve = [];
    taking(2, () => (ratios = this.ratios()));
    for (const { number, name, unit } of NUMBERS) taking(number, () => (numbers[name] = unit.whole(field(this.form, name).value)));
    taking(12, () => (curve = curveOf(field(this.form, 'curve').value)));
    if (!good) return undefined;
    const { job } = this.store;
    const profile = field(this.form, 'profile').checked ? 1 : 0;
    const version = Number(field(this.form, 'version').value);
    return { ...job, version, vehicle: { ...job.vehicle, ...numbers, ratios, curve, profile } };
  }

  ratios() {
    const texts = Array.from({ length: GEARS }, (_, k) => field(this.form, `ratio${k}`).value.trim());
    const count = texts.reduce((last, text, k) => (text === '' ? last : k + 1), 0);
    return texts.slice(0, count).map((text, k) => {
      try {
        return RATIO.whole(text);
      } catch (why) {
        this.form.querySelector(`[data-gear="${k + 1}"]`)?.classList.add('wrong');
        throw why instanceof NotExact ? new Misuse(`gear ${k + 1}: ${why.message}`) : why;
      }
    });
  }

  apply() {
    this.clear();
    const job = this.read();
    if (job === undefined) return;
    try {
      this.view.mark = undefined;
      this.store.change(job, 'vehicle changed');
      this.dialog.close();
    } catch (why) {
      if (why instanceof Misuse) setError(element('vehicle-error'), why.message);
      else if (why instanceof Refused) this.refused(why);
      else throw why;
    }
  }

  /**
   * The numbers of a bench export, into their fields.
   * @param {string} name
   * @param {() => import('../../js/gearcard/engine.js').Coefficients} read
   */
  takeLoad(name, read) {
    setError(element('vehicle-error'), '');
    try {
      const found = read();
      for (const { name: key, unit } of NUMBERS) {
        if (key in found) field(this.form, key).value = unit.text(/** @type {Record<string, number>} */ ({ ...found })[key]);
      }
    } catch (why) {
      if (!(why instanceof Refused)) throw why;
      setError(element('vehicle-error'), `${name}: ${why.message}`);
    }
  }

  /** @param {Refused} why */
  refused(why) {
    if (why.number === 3) {
      const [, bounds] = FIELDS[why.place];
      this.wrong(why.place, `refused 3 at ${why.place}: ${bounds}`);
    } else {
      setError(element('vehicle-error'), why.message);
      markPlace(this.view, why);
    }
    this.view.tell();
  }

  /** The curve that stands in the field, while it is written. */
  drawCurve() {
    const { sheet } = this;
    sheet.colours = sheet.readColours();
    const pen = sheet.begin();
    /** @type {{n: number, p: number}[]} */
    let points = [];
    try {
      points = curveOf(field(this.form, 'curve').value);
    } catch (why) {
      if (!(why instanceof Misuse)) throw why;
    }
    write(element('curve-count'), `${points.length} points`);
    const [most, power] = [Math.max(...points.map(({ n }) => n)), Math.max(1, ...points.map(({ p }) => p))];
    if (points.length < 2 || sheet.width < 60) return;
    // Above the highest number there is room for the unit.
    const [left, right, top, base] = [34, sheet.width - 10, 26, sheet.height - 20];
    /** @type {(n: number) => number} */
    const x = (n) => left + ((right - left) * n) / most;
    /** @type {(p: number) => number} */
    const y = (p) => base - ((base - top) * p) / power;
    pen.lineCap = 'round';
    for (const share of [0, 0.5, 1]) {
      sheet.stroke(sheet.colours.line, 1, [[left, y(share * power)], [right, y(share * power)]]);
      sheet.text(String(Math.round((share * power) / 10)), left - 6, y(share * power) + 4, { align: 'right' });
    }
    sheet.text('kW', left - 6, 11, { align: 'right' });
    sheet.text(`${most} min⁻¹`, right, sheet.height - 4, { align: 'right' });
    sheet.stroke(sheet.colours.accent, 2, points.map(({ n, p }) => [x(n), y(p)]));
    for (const { n, p } of points) sheet.fill(sheet.colours.accent, x(n) - 2.5, y(p) - 2.5, 5, 5);
  }
}
