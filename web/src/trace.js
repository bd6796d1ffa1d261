/** Another trace for the vehicle: the built-in cycle, a part of it, scaled down or not, or a table of speeds, pasted or of a file. */
import { Refused } from '../../js/gearcard/refusals.js';
import { element, field, onClick, onSubmit, setError, write } from './dom.js';
import { Misuse, trying } from './messages.js';
import { decoded } from './sheets.js';
import { speedsOf } from './tables.js';
import { FACTOR, NotExact, SPEED } from './units.js';

/** The keys of a table. */
const KEYS = ['column', 'time', 'hertz', 'decimal', 'skip'];

const PARTS = ['', ', part 1', ', part 2', ', part 3', ', part 4'];

export class TraceForm {
  /**
   * @param {import('./store.js').Store} store
   * @param {import('./view.js').View} view
   */
  constructor(store, view) {
    this.store = store;
    this.view = view;
    this.dialog = element('trace', HTMLDialogElement);
    this.form = element('trace-form', HTMLFormElement);
    onClick('trace-open', () => this.open());
    onSubmit('trace-form', () => this.apply());
    /** The file that the table is of, as long as nobody changes it. */
    this.name = '';
    // What is written in says which way is meant.
    for (const name of ['part', 'factor']) field(this.form, name).addEventListener('input', () => this.choose('cycle'));
    for (const name of ['speeds', ...KEYS]) field(this.form, name).addEventListener('input', () => this.choose('pasted'));
    field(this.form, 'speeds').addEventListener('input', () => (this.name = ''));
  }

  /** @param {'cycle' | 'pasted'} way */
  choose(way) {
    /** @type {RadioNodeList} */ (this.form.elements.namedItem('way')).value = way;
    if (way === 'pasted') this.look();
  }

  /**
   * A file that is a table: it stands in the form, with what it is, until it is used.
   * @param {string} name
   * @param {Uint8Array} bytes
   */
  openTable(name, bytes) {
    // What is wrong with the bytes is said beside the file's name.
    const text = decoded('', bytes);
    if (!this.dialog.open) this.open();
    field(this.form, 'speeds').value = text;
    this.name = name;
    this.choose('pasted');
  }

  /** What the table is, while it is written. */
  look() {
    const found = this.told(() => this.pasted().speeds);
    const most = found?.reduce((a, b) => Math.max(a, b), 0) ?? 0;
    write(element('pasted-found'), found === undefined ? '' : `${found.length} seconds, up to ${SPEED.text(most)} km/h`);
  }

  /**
   * What is done with the table; what is wrong with it is said there.
   * @template T
   * @param {() => T} run
   * @returns {T | undefined}
   */
  told(run) {
    this.clear();
    if (field(this.form, 'speeds').value === '') return undefined;
    try {
      return run();
    } catch (why) {
      if (!(why instanceof Misuse)) throw why;
      setError(element('pasted-error'), why.message);
      return undefined;
    }
  }

  open() {
    if (!trying(this.view, () => this.store.guard())) return;
    this.clear();
    this.dialog.showModal();
  }

  clear() {
    for (const each of this.form.querySelectorAll('.error')) setError(each, '');
  }

  apply() {
    this.clear();
    const pasted = /** @type {RadioNodeList} */ (this.form.elements.namedItem('way')).value === 'pasted';
    try {
      const { speeds, words } = pasted ? this.pasted() : this.cycle();
      this.view.mark = undefined;
      this.store.change({ ...this.store.job, speeds, holds: new Uint8Array(speeds.length) }, words);
      this.dialog.close();
    } catch (why) {
      if (!(why instanceof Refused) && !(why instanceof Misuse) && !(why instanceof NotExact)) throw why;
      setError(element(pasted ? 'pasted-error' : 'cycle-error'), why.message);
    }
  }

  cycle() {
    const part = Number(field(this.form, 'part').value);
    const factor = FACTOR.whole(field(this.form, 'factor').value);
    const { engine } = this.store;
    const speeds = factor === 0 ? engine.cycle(part) : engine.downscale(factor, part);
    return { speeds, words: `trace: the Class 3 cycle${PARTS[part]}${factor ? `, scaled down by ${FACTOR.text(factor)}` : ''}` };
  }

  pasted() {
    const speeds = speedsOf(this.name, field(this.form, 'speeds').value, this.layout());
    return { speeds, words: `trace: ${speeds.length} ${this.name ? `seconds of ${this.name}` : 'pasted seconds'}` };
  }

  /**
   * What the fields say of the table, each as the key of a job's text.
   * @returns {import('./tables.js').Layout}
   */
  layout() {
    const [column, time, hertz, decimal, skip] = KEYS.map((key) => field(this.form, key).value.trim());
    const placed = (/** @type {string} */ word) => (word === '' ? undefined : /^[0-9]+$/.test(word) ? Number(word) : word);
    return {
      column: placed(column),
      time: placed(time),
      hertz: whole('hertz', hertz || '1', (number) => number > 0 && 1000 % number === 0, 'a number of rows a second of which each is whole milliseconds'),
      decimal: decimal || undefined,
      skip: whole('skip', skip || '0', (number) => number <= 65535, 'a number of lines'),
    };
  }
}

/**
 * The whole number that a key has.
 * @param {string} key
 * @param {string} word
 * @param {(number: number) => boolean} can
 * @param {string} what
 */
function whole(key, word, can, what) {
  if (!/^[0-9]{1,9}$/.test(word) || !can(Number(word))) throw new Misuse(`trace.${key} = ${word.slice(0, 20)} is not ${what}`);
  return Number(word);
}
