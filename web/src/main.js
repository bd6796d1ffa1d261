/** The page: the engine from the bytes in it, one state, one clock, and the views over them. */
import { load } from '../../js/gearcard/engine.js';
import { Chart, Overview } from './chart.js';
import { Clock } from './clock.js';
import { element, onClick, write } from './dom.js';
import { DriverView } from './driver.js';
import { Files } from './files.js';
import { listenToKeys } from './keys.js';
import { complain, say, trying } from './messages.js';
import { Panel } from './panel.js';
import { pointAt, scrollBy } from './pointing.js';
import { ask as question } from './question.js';
import { Record } from './record.js';
import { Run } from './run.js';
import { Store } from './store.js';
import { TraceForm } from './trace.js';
import { told } from './trips.js';
import { VehicleForm } from './vehicle.js';
import { View } from './view.js';

/**
 * The bytes that stand in the page as text.
 * @param {string} id
 */
function bytesIn(id) {
  const text = atob((element(id).textContent ?? '').trim());
  return Uint8Array.from(text, (letter) => letter.charCodeAt(0));
}

const engine = await load(bytesIn('engine'));
const store = new Store(engine, bytesIn('job'), element('job').dataset.name ?? 'card.job');
const view = new View(store.job.speeds.length);
const clock = new Clock();
const place = element('chart');
const chart = new Chart(element('picture', HTMLCanvasElement), store, view, clock);
const overview = new Overview(element('overview', HTMLCanvasElement), store, view, clock);
const panel = new Panel(store, view);
const made = (element('version').textContent ?? '').trim();
const record = new Record(made);
const run = new Run(store, view, clock, record);
panel.allow = (/** @type {number} */ first, /** @type {number} */ last, /** @type {() => void} */ go) => run.allow(first, last, go);
const driver = new DriverView(store, clock, run);

/** One frame at a time is asked for, and it shows the state as it is then. */
let asked = false;
function ask() {
  if (asked) return;
  asked = true;
  requestAnimationFrame(() => {
    asked = false;
    // Before it is drawn: a run that ends meanwhile has one frame more, which shows that.
    const { moving } = chart;
    run.show();
    chart.draw();
    overview.draw();
    if (moving) ask();
  });
}

function heading() {
  write(element('name'), store.name);
  element('unsaved').hidden = !store.unsaved;
  document.title = `${store.unsaved ? '• ' : ''}${store.name} – Gear card`;
  element('undo', HTMLButtonElement).disabled = store.done.length === 0;
  element('redo', HTMLButtonElement).disabled = store.undone.length === 0;
}

/** @param {Uint8Array | null} changed */
function countText(changed) {
  if (changed === null) return '';
  const count = changed.reduce((sum, each) => sum + each, 0);
  return `; ${count} second${count === 1 ? '' : 's'} of the card changed`;
}

store.listen((change) => {
  if (change.trace) {
    view.begin(store.job.speeds.length);
    run.restart();
  }
  chart.learn();
  chart.markChanged(change.changed);
  panel.learn();
  heading();
  const besides = run.edited(change);
  if (change.words) say(`${change.words[0].toUpperCase()}${change.words.slice(1)}${countText(change.changed)}.${besides}`);
  ask();
});
view.listen(() => {
  panel.show();
  place.setAttribute('aria-valuemax', String(view.count - 1));
  place.setAttribute('aria-valuenow', String(view.second));
  place.setAttribute('aria-valuetext', told(store.job, store.card, view.second));
  ask();
});

const undo = () => trying(view, () => store.undo());
const redo = () => trying(view, () => store.redo());
onClick('undo', undo);
onClick('redo', redo);
onClick('check', () => {
  if (store.isRight()) say(`Checked: worked afresh, all ${store.card.length} seconds of the card and the summary are the same.`);
  else complain('The card is not the one that working afresh gives. Save the job, and tell those who made this page.');
});
for (const name of ['driver-open', 'driver-again']) {
  onClick(name, () => {
    if (!driver.open()) complain('The browser did not open the second window; allow it for this page.');
  });
}
const tolerances = element('tolerances', HTMLInputElement);
tolerances.addEventListener('change', () => {
  view.tolerances = tolerances.checked;
  ask();
});

/** @param {boolean} dark */
function paint(dark) {
  document.documentElement.classList.toggle('dark', dark);
  write(element('theme'), dark ? 'Light colours' : 'Dark colours');
  for (const each of [chart, overview]) each.sheet.colours = each.sheet.readColours();
  ask();
}
onClick('theme', () => paint(!document.documentElement.classList.contains('dark')));
const system = window.matchMedia('(prefers-color-scheme: dark)');
system.addEventListener('change', () => paint(system.matches));

for (const name of ['keys', 'about']) onClick(`${name}-open`, () => element(name, HTMLDialogElement).showModal());
for (const close of document.querySelectorAll('[data-close]')) close.addEventListener('click', () => close.closest('dialog')?.close());
for (const menu of document.querySelectorAll('details.menu')) {
  const shut = () => menu.removeAttribute('open');
  menu.addEventListener('click', (event) => {
    if (/** @type {Element} */ (event.target).closest('button')) shut();
  });
  document.addEventListener('pointerdown', (event) => {
    if (!menu.contains(/** @type {Node} */ (event.target))) shut();
  });
  menu.addEventListener('keydown', (event) => {
    if (/** @type {KeyboardEvent} */ (event).key === 'Escape') shut();
  });
}

const files = new Files(store, view, new VehicleForm(store, view), new TraceForm(store, view), record);
run.ended = () => files.askForRecord();
listenToKeys({ store, view, panel, run, undo, redo });
pointAt(place, chart, view);
scrollBy(element('overview'), overview, view);
new ResizeObserver(ask).observe(place);

write(element('made'), made);
write(element('made-long'), `This page: ${made}.`);

// For people at the console, and for the tests: the package, and the present state as a copy.
Object.assign(globalThis, {
  gearcard: engine,
  gearcardPage: Object.freeze({
    present: () => ({ ...structuredClone(store.job), card: store.card.slice(), summary: structuredClone(store.summary), name: store.name }),
    frames: () => chart.drawn,
    at: () => clock.at(),
    driver: () => driver.window,
    record: () => record.kept && JSON.parse(record.json()),
    shown: () => structuredClone(record.kept?.shown.at(-1)),
  }),
});

view.tell();
heading();
paint(system.matches);
say(`${store.name}: ${store.job.speeds.length} seconds.`);
if (record.find()) {
  question(`A run of ${record.kept?.job.name}, begun ${record.kept?.began.slice(0, 19).replace('T', ' ')} UTC, ended with its page. Its record was kept.`, {
    'Save record': () => files.saveRecord('.run.json', () => record.json(), 'application/json'),
    Discard: () => record.drop(),
  });
}
document.documentElement.dataset.ready = String(Math.round(performance.now()));
