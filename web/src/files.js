/** Files in and out: a job is opened, dropped or saved, a card and a picture are saved. Nothing is kept anywhere else. */
import { clutchDown, gearOf } from '../../js/gearcard/engine.js';
import { Refused } from '../../js/gearcard/refusals.js';
import { element, onClick } from './dom.js';
import { Misuse, complain, say, trying } from './messages.js';
import { STYLE, picture } from './picture.js';
import { ask } from './question.js';
import { SPEED } from './units.js';

/** Bytes that are read of a file: no job and no export is as long as the first, no table as the second. */
const LONGEST_FILE = 1 << 20;
const LONGEST_TABLE = 16 << 20;

/**
 * Whether a file that is no job by its name is a text, and so a table.
 * @param {string} name
 * @param {Uint8Array} bytes
 */
function isTable(name, bytes) {
  if (/\.(csv|tsv|tab|txt|xlsx|ods)$/i.test(name)) return true;
  // eslint-disable-next-line no-control-regex
  return bytes.length > 0 && !/\.job$/i.test(name) && !/[\x00-\x08\x0b\x0c\x0e-\x1f\x7f\ufffd]/.test(new TextDecoder().decode(bytes.subarray(0, 4096)));
}

/**
 * Offers a file for saving.
 * @param {string} name
 * @param {BlobPart} data
 * @param {string} type
 */
function offer(name, data, type) {
  const link = document.createElement('a');
  link.href = URL.createObjectURL(new Blob([data], { type }));
  link.download = name;
  link.click();
  setTimeout(() => URL.revokeObjectURL(link.href), 60000);
}

/**
 * The card as `./gearcard card --csv` prints it.
 * @param {import('./store.js').Store} store
 */
export function csvOf({ job, card }) {
  const rows = Array.from(card, (byte, k) => `${k},${SPEED.text(job.speeds[k])},${gearOf(byte)},${clutchDown(byte) ? 'down' : 'up'},${job.holds[k]}\n`);
  return `second,speed,gear,clutch,hold\n${rows.join('')}`;
}

/**
 * The picture of the present job.
 * @param {import('./store.js').Store} store
 */
export function pictureOf(store) {
  const namespace = /** @type {Element} */ (document.querySelector('svg')).namespaceURI ?? '';
  return picture(store.name, store.job, store.card, namespace);
}

export class Files {
  /**
   * @param {import('./store.js').Store} store
   * @param {import('./view.js').View} view
   * @param {import('./vehicle.js').VehicleForm} form
   * @param {import('./trace.js').TraceForm} trace
   * @param {import('./record.js').Record} record
   */
  constructor(store, view, form, trace, record) {
    this.store = store;
    this.view = view;
    this.form = form;
    this.trace = trace;
    this.record = record;
    const chosen = element('file', HTMLInputElement);
    chosen.addEventListener('change', () => {
      if (chosen.files?.length) void this.take(chosen.files[0]);
      // So that the same file can be chosen again.
      chosen.value = '';
    });
    onClick('open', () => chosen.click());
    onClick('export-open', () => chosen.click());
    onClick('save', () => this.save());
    onClick('csv', () => offer(this.named('.csv'), csvOf(store), 'text/csv'));
    onClick('svg', () => offer(this.named('.svg'), pictureOf(store), 'image/svg+xml'));
    onClick('print', () => window.print());
    onClick('record-json', () => this.saveRecord('.run.json', () => record.json(), 'application/json'));
    onClick('record-csv', () => this.saveRecord('.run.csv', () => record.csv(), 'text/csv'));
    window.addEventListener('beforeprint', () => this.lay());
    window.addEventListener('beforeunload', (event) => {
      if (!store.unsaved && !record.on && record.saved) return;
      event.preventDefault();
      event.returnValue = '';
    });
    this.takeDrops();
  }

  /** @param {string} ending */
  named(ending) {
    return this.store.name.replace(/\.[^.]*$/, '') + ending;
  }

  save() {
    offer(this.named('.job'), this.store.bytes(), 'application/octet-stream');
    this.store.markSaved();
    say(`${this.named('.job')} saved`);
  }

  /**
   * The record of the run as a file. That of a run that is on stays kept, since more comes.
   * @param {string} ending
   * @param {() => string} text
   * @param {string} type
   */
  saveRecord(ending, text, type) {
    const { record } = this;
    if (record.kept === undefined) {
      complain('There is no record: no run was started.');
      return;
    }
    const name = record.kept.job.name.replace(/\.[^.]*$/, '') + ending;
    offer(name, text(), type);
    if (!record.on && ending.endsWith('json')) record.drop();
    say(`${name} saved`);
  }

  /** What becomes of the record of a run that has ended. */
  askForRecord() {
    const { record } = this;
    const count = new Set(record.kept?.shown.map(({ second }) => second)).size;
    ask(`The run of ${record.kept?.job.name} has ended; its record has ${count} second${count === 1 ? '' : 's'} that the driver was shown.`, {
      'Save record': () => {
        this.saveRecord('.run.csv', () => record.csv(), 'text/csv');
        this.saveRecord('.run.json', () => record.json(), 'application/json');
      },
      Discard: () => record.drop(),
    });
  }

  /** The picture on the paper that is printed, in a tree of its own, since its sheet is not the page's. */
  lay() {
    const paper = element('paper');
    const tree = paper.shadowRoot ?? paper.attachShadow({ mode: 'open' });
    // The policy allows no style in the picture itself; a sheet of the script's own making is the script's.
    const bare = pictureOf(this.store).replace(`<style>${STYLE}</style>`, '');
    const sheet = new CSSStyleSheet();
    sheet.replaceSync(`${STYLE} svg { width: 100%; height: auto }`);
    tree.adoptedStyleSheets = [sheet];
    tree.replaceChildren(document.importNode(new DOMParser().parseFromString(bare, 'image/svg+xml').documentElement, true));
  }

  takeDrops() {
    const drop = element('drop');
    const isFile = (/** @type {DragEvent} */ event) => event.dataTransfer?.types.includes('Files') ?? false;
    window.addEventListener('dragover', (event) => {
      if (!isFile(event)) return;
      event.preventDefault();
      drop.hidden = false;
    });
    window.addEventListener('dragleave', (event) => {
      if (event.relatedTarget === null) drop.hidden = true;
    });
    window.addEventListener('drop', (event) => {
      if (!isFile(event)) return;
      event.preventDefault();
      drop.hidden = true;
      const file = event.dataTransfer?.files[0];
      if (file) void this.take(file);
    });
  }

  /**
   * A file that was chosen or dropped: a job, a table of speeds, or a bench export.
   * @param {File} file
   */
  async take(file) {
    const bytes = file.size <= LONGEST_TABLE ? new Uint8Array(await file.arrayBuffer()) : undefined;
    // Over the form only an export makes sense, and its numbers go into the fields: what else was written there stays.
    if (this.form.dialog.open) this.form.takeLoad(file.name, () => this.store.engine.exportOf(bytes ?? new Uint8Array()));
    else trying(this.view, () => this.takeBytes(file.name, bytes), file.name);
  }

  /**
   * @param {string} name
   * @param {Uint8Array | undefined} bytes none where the file is too long
   */
  takeBytes(name, bytes) {
    if (bytes === undefined) throw new Misuse('it is longer than any job or table');
    if (/\.toml$/i.test(name)) throw new Misuse('it is the text of a job; `gearcard make` makes a job of it');
    if (/\.export$/i.test(name)) return this.takeExport(name, bytes);
    if (isTable(name, bytes)) return this.takeTable(name, bytes);
    if (bytes.length > LONGEST_FILE) throw new Misuse('it is longer than any job');
    try {
      this.openJob(name, bytes);
    } catch (why) {
      if (!(why instanceof Refused) || !this.isExport(bytes)) throw why;
      this.takeExport(name, bytes);
    }
  }

  /**
   * A table goes into the form of the trace, where it is said what it is, and what of it cannot be read.
   * @param {string} name
   * @param {Uint8Array} bytes
   */
  takeTable(name, bytes) {
    this.store.guard();
    this.trace.openTable(name, bytes);
    say(`${name} is a table: it stands in the form of the trace.`);
  }

  /** @param {Uint8Array} bytes */
  isExport(bytes) {
    try {
      this.store.engine.exportOf(bytes);
      return true;
    } catch {
      return false;
    }
  }

  /**
   * @param {string} name
   * @param {Uint8Array} bytes
   */
  openJob(name, bytes) {
    this.store.guard();
    // Refused before the question is put: there is nothing to lose then.
    this.store.worked(this.store.engine.read(bytes));
    if (this.store.unsaved && !window.confirm(`${this.store.name} has edits that are not saved. Open ${name} all the same?`)) return;
    this.store.open(bytes, name);
    say(`${name} opened: ${this.store.job.speeds.length} seconds`);
  }

  /**
   * @param {string} name
   * @param {Uint8Array} bytes
   */
  takeExport(name, bytes) {
    const { store } = this;
    const found = store.engine.exportOf(bytes);
    store.change({ ...store.job, vehicle: { ...store.job.vehicle, ...found } }, `road load and mass from ${name}`);
  }
}
