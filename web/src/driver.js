/**
 * The driver's view: a second window, drawn by this page from the one state and the one clock, in frames of its own window.
 *
 * There is no copy of the state here: every frame reads the present card, so that an edit is seen whole in the next frame or not yet. The tolerances have no
 * place here: "the tolerances shall not be shown to the driver".
 */
import { clutchDown, gearOf } from '../../js/gearcard/engine.js';
import { element, make, timeText, write } from './dom.js';
import { Road, speedAt } from './road.js';
import { gearText, nextChange } from './trips.js';

/**
 * The parts of the driver's window that change.
 * @param {Document} page
 */
function partsOf(page) {
  /** @type {(tag: string, id: string, attributes?: Record<string, string>, ...inside: string[]) => HTMLElement} */
  const part = (tag, id, attributes = {}, ...inside) => make(page, tag, { id, ...attributes }, ...inside);
  return {
    gear: part('div', 'gear', { 'aria-live': 'assertive', 'aria-atomic': 'true' }),
    hold: part('div', 'hold'),
    news: part('div', 'news', { 'aria-live': 'assertive' }),
    clutch: part('div', 'clutch'),
    next: part('div', 'next', { class: 'big' }),
    speed: part('div', 'speed', { class: 'big' }),
    place: part('p', 'place', { class: 'place' }),
    start: part('button', 'start', { class: 'main' }),
    theme: part('button', 'theme', {}, 'Light'),
    canvas: /** @type {HTMLCanvasElement} */ (make(page, 'canvas', { 'aria-hidden': 'true' })),
  };
}

/**
 * The parts in their places.
 * @param {Document} page
 * @param {ReturnType<typeof partsOf>} parts
 */
function lay(page, { gear, hold, news, clutch, next, speed, place, start, theme, canvas }) {
  /** @type {(name: string, label: string, ...inside: HTMLElement[]) => HTMLElement} */
  const section = (name, label, ...inside) => make(page, 'section', { class: name, 'aria-label': label }, ...inside);
  const label = (/** @type {string} */ words) => make(page, 'div', { class: 'label' }, words);
  const below = [make(page, 'div', {}, label('Next'), next), make(page, 'div', {}, label('Speed, km/h'), speed)];
  const controls = make(page, 'div', { class: 'controls' }, place, start, theme);
  page.body.className = 'driver';
  page.body.replaceChildren(
    section('gearbox', 'Gear', label('Gear'), gear, hold, clutch),
    section('road', 'Speed trace', canvas, news),
    section('below', 'Run', ...below, controls),
  );
}

/**
 * The head of the window, with the same sheet, so that the page's policy allows it by the same hash.
 * @param {Document} page
 */
function dress(page) {
  page.documentElement.lang = 'en';
  page.documentElement.classList.add('dark');
  const sheet = page.importNode(/** @type {HTMLStyleElement} */ (document.querySelector('style')), true);
  const wide = make(page, 'meta', { name: 'viewport', content: 'width=device-width, initial-scale=1' });
  page.head.replaceChildren(make(page, 'title', {}, 'Gear card: driver'), wide, sheet);
}

/** How often the window is looked at, and how old its last frame may be while a run is on, in milliseconds. */
const [OFTEN, OLD] = [100, 500];

export class DriverView {
  /**
   * @param {import('./store.js').Store} store
   * @param {import('./clock.js').Clock} clock
   * @param {import('./run.js').Run} run
   */
  constructor(store, clock, run) {
    this.store = store;
    this.clock = clock;
    this.run = run;
    /** @type {Window | null} */
    this.window = null;
    /** Windows so far: each has a name of its own, since one that is being closed still has its. */
    this.count = 0;
    /** Where the window stood when it was last seen. */
    this.box = { left: -1, top: -1, width: 1280, height: 800 };
    /** When the last frame was drawn, and whether the driver sees nothing. */
    this.drawn = -Infinity;
    this.lost = false;
    window.addEventListener('pagehide', () => this.window?.close());
    setInterval(() => this.keep(), OFTEN);
  }

  /**
   * The document of the window, where this page may write in it. A window that was loaded anew is another origin's for some browsers, where the page is a file.
   * @returns {Document | undefined}
   */
  get page() {
    try {
      return this.window === null || this.window.closed ? undefined : (this.window.document ?? undefined);
    } catch {
      return undefined;
    }
  }

  /** @returns {boolean} whether the browser gave a window */
  open() {
    if (this.page !== undefined) {
      this.keep();
      this.window?.focus();
      return true;
    }
    this.window?.close();
    const { left, top, width, height } = this.box;
    const place = left < 0 && top < 0 ? '' : `,left=${left},top=${top}`;
    this.count += 1;
    this.window = window.open('', `gearcard-driver${this.count > 1 ? `-${this.count}` : ''}`, `popup,width=${width},height=${height}${place}`);
    if (this.window === null) return false;
    this.keep();
    return true;
  }

  /**
   * Looks after the window: a browser may put an empty document in place of the one that it opened with, and a driver may press the key that loads it anew.
   * It is filled again, or opened again where this page can no longer write in it; where that is not given, the engineer is told.
   */
  keep() {
    if (this.count === 0) return;
    if (this.window !== null && this.page === undefined && !this.window.closed) this.open();
    const { page } = this;
    if (page?.body && page.body.className !== 'driver' && this.window !== null) this.fill(this.window, page);
    if (page?.body && this.window !== null) {
      const { screenX, screenY, innerWidth, innerHeight } = this.window;
      if (innerWidth > 0) this.box = { left: screenX, top: screenY, width: innerWidth, height: innerHeight };
    }
    this.tell();
  }

  /** Says that the driver sees nothing while a run is on, and that he sees it again. */
  tell() {
    const lost = this.run.on && this.count > 0 && performance.now() - this.drawn > OLD;
    if (lost) write(element('lost-words'), `The driver sees nothing: his window ${this.page === undefined ? 'is closed' : 'is hidden'}.`);
    element('lost').hidden = !lost;
    if (lost !== this.lost) this.run.record.note(lost ? 'lost' : 'found', this.clock.at());
    this.lost = lost;
  }

  /**
   * Looks again at once, and some times more, when the document goes: timers of a page that is not seen come late, messages do not.
   */
  soon() {
    const { port1, port2 } = new MessageChannel();
    const until = performance.now() + OLD;
    port1.onmessage = () => {
      this.keep();
      if (performance.now() < until && performance.now() - this.drawn > OFTEN) port2.postMessage(null);
      else port1.close();
    };
    port2.postMessage(null);
  }

  /**
   * @param {Window} other
   * @param {Document} page
   */
  fill(other, page) {
    const parts = partsOf(page);
    dress(page);
    lay(page, parts);
    const road = new Road(parts.canvas, this.store, () => (this.run.on ? this.run.lead : 0));
    parts.start.addEventListener('click', () => this.run.toggle());
    parts.theme.addEventListener('click', () => {
      write(parts.theme, page.documentElement.classList.toggle('dark') ? 'Light' : 'Dark');
      road.colours = road.readColours();
    });
    page.addEventListener('keydown', (event) => {
      // The keys that load a page anew would leave the driver without one for a moment.
      if (this.run.on && (event.key === 'F5' || ((event.ctrlKey || event.metaKey) && event.key.toLowerCase() === 'r'))) event.preventDefault();
      else this.run.key(event);
    });
    other.addEventListener('pagehide', () => this.soon());
    const frame = () => {
      // An emptied window has frames of its own again.
      if (this.page !== page || !parts.gear.isConnected) return;
      other.requestAnimationFrame(frame);
      this.draw(parts, road);
    };
    other.requestAnimationFrame(frame);
  }

  /**
   * What a frame shows: the second is read once, and all is of that second of the present card.
   * @returns {{at: number} & import('./record.js').Frame}
   */
  frame() {
    const { card, job } = this.store;
    const at = this.clock.at();
    const second = Math.min(Math.floor(at), card.length - 1);
    return { at, second, byte: card[second], hold: job.holds[second] };
  }

  /**
   * One frame, and what it shows into the record.
   * @param {ReturnType<typeof partsOf>} parts
   * @param {Road} road
   */
  draw({ gear, hold, news, clutch, next, speed, place, start }, road) {
    const frame = this.frame();
    const { at, second, byte } = frame;
    const { card, job } = this.store;
    gear.ownerDocument.body.dataset.second = String(second);
    write(gear, gearText(gearOf(byte)));
    gear.classList.toggle('two', gearOf(byte) >= 10);
    gear.classList.toggle('held', frame.hold !== 0);
    write(hold, frame.hold ? 'HELD' : '');
    write(news, this.run.told);
    write(clutch, clutchDown(byte) ? 'Clutch down' : 'Clutch up');
    clutch.classList.toggle('down', clutchDown(byte));
    write(next, nextText(card, second, at));
    write(speed, (speedAt(job.speeds, at) / 10).toFixed(1));
    write(place, `${timeText(at)} / ${timeText(card.length - 1)}${this.clock.rate === 1 ? '' : `  ${this.clock.rate}×`}`);
    write(start, this.clock.running ? 'Pause' : 'Start');
    road.draw(at);
    this.drawn = performance.now();
    this.run.record.see(frame);
    this.run.look(0);
  }
}

/**
 * The next change, with the seconds to go.
 * @param {Uint8Array} card
 * @param {number} second
 * @param {number} at
 */
function nextText(card, second, at) {
  const change = nextChange(card, second);
  return change === undefined ? 'no change' : `${gearText(gearOf(card[change]))} in ${Math.ceil(change - at)} s`;
}
