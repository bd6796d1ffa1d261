/** The run: its controls, the same for both windows, its record, and what waits until it has ended. */
import { gearOf } from '../../js/gearcard/engine.js';
import { element, onClick, timeText, write } from './dom.js';
import { Misuse, complain, say } from './messages.js';
import { ask, unask } from './question.js';
import { sha256 } from './sha256.js';
import { gearText } from './trips.js';

/** Seconds ahead of the driver within which a hold asks, where nothing is set; and the most. */
const [LEAD, MOST_LEAD] = [3, 60];

/** How long the driver is told what has changed ahead, and how often it is seen whether the run has ended, in milliseconds. */
const [NEWS, OFTEN] = [2000, 200];

/** Seconds that the driver's window has to show the last second. */
const GRACE = 1;

export class Run {
  /**
   * @param {import('./store.js').Store} store
   * @param {import('./view.js').View} view
   * @param {import('./clock.js').Clock} clock
   * @param {import('./record.js').Record} record
   */
  constructor(store, view, clock, record) {
    this.store = store;
    this.view = view;
    this.clock = clock;
    this.record = record;
    /** Whether edits close to the driver were allowed in this run. */
    this.allowed = false;
    /** What has changed ahead, and until when the driver is told. */
    this.news = { words: '', until: 0 };
    /** Called when a run has ended. */
    this.ended = () => {};
    store.guard = () => this.refuse();
    this.learn();
    onClick('start', () => this.toggle());
    onClick('stop', () => this.stop());
    onClick('rewind', () => this.seek(0));
    onClick('back', () => this.step(-1));
    onClick('ahead', () => this.step(1));
    onClick('run-from', () => this.seek(view.second));
    setInterval(() => this.look(GRACE), OFTEN);
    const rate = element('rate', HTMLSelectElement);
    rate.addEventListener('change', () => {
      this.moved(() => clock.setRate(Number(rate.value)));
      record.note('rate', clock.at(), clock.rate);
    });
  }

  /** Whether a run is on, driven or paused. */
  get on() {
    return this.record.on;
  }

  /** The seconds ahead of the driver within which a hold asks. */
  get lead() {
    const found = Number(element('lead', HTMLInputElement).value);
    return Number.isFinite(found) && found >= 0 ? Math.min(found, MOST_LEAD) : LEAD;
  }

  /** Throws where a run is on: it would be lost. */
  refuse() {
    if (this.on) throw new Misuse('a run is on, and would be lost: “End run” ends it');
  }

  /** For another trace: from its beginning. */
  learn() {
    this.clock.end = this.store.job.speeds.length - 1;
    write(element('length'), `of ${timeText(this.clock.end)}`);
  }

  restart() {
    this.clock.pause();
    this.clock.seek(0);
    this.learn();
  }

  /** @param {() => void} run */
  moved(run) {
    run();
    this.view.tell();
  }

  toggle() {
    const { clock, record } = this;
    const { running } = clock;
    if (!running && !this.on) this.begin();
    this.moved(() => (running ? clock.pause() : clock.start()));
    record.note(running ? 'pause' : 'start', clock.at());
  }

  begin() {
    const { record, store } = this;
    this.allowed = false;
    unask();
    const bytes = store.bytes();
    const kept = record.begin({ name: store.name, job: store.job, bytes }, this.lead);
    this.record.note('rate', this.clock.at(), this.clock.rate);
    if (!kept) complain('This browser keeps nothing for a page from a file: what ends the page unasked ends the record too.');
  }

  /** Ends the run; its record is whole then. */
  stop() {
    if (!this.on) return;
    this.moved(() => this.clock.pause());
    this.record.end(this.clock.at());
    this.ended();
  }

  /**
   * Ends a run that has stood at the end of its trace for so many seconds: none, where the driver has seen the last one.
   * @param {number} grace
   */
  look(grace) {
    const { clock } = this;
    if (this.on && clock.since !== undefined && clock.at() >= clock.end && clock.over() >= grace) this.stop();
  }

  /** @param {number} second */
  seek(second) {
    this.moved(() => this.clock.seek(second));
    this.record.note('seek', this.clock.at(), second);
  }

  /** @param {number} seconds */
  step(seconds) {
    this.moved(() => this.clock.step(seconds));
    this.record.note('seek', this.clock.at(), this.clock.at());
  }

  /**
   * Makes an edit of some seconds. Where a run is on and it is closer to the driver than the lead time, it asks first, once in a run; what lies behind him is
   * the job's alone.
   * @param {number} first
   * @param {number} last
   * @param {() => void} go
   */
  allow(first, last, go) {
    const at = this.clock.at();
    const close = first < at + this.lead && last >= Math.floor(at);
    if (!this.on || this.allowed || !close) {
      go();
      return;
    }
    ask(`Second ${Math.max(first, Math.floor(at))} is closer than ${this.lead} s to the driver, who may not see it come.`, {
      'Change it, and ask no more in this run': () => {
        this.allowed = true;
        go();
      },
      'Leave it': () => say('Left as it was.'),
    });
  }

  /**
   * After an edit: what the driver is told, and what is written down.
   * @param {import('./store.js').Change} change
   * @returns {string} what is said to the engineer besides
   */
  edited(change) {
    const at = this.clock.at();
    this.tellDriver(change.changed, at);
    if (!this.on || change.seconds === null) return '';
    this.record.edit(change, at, () => sha256(this.store.bytes()));
    return change.seconds[1] < Math.floor(at) ? ' It was not driven: the driver is past it.' : '';
  }

  /**
   * @param {Uint8Array | null} changed
   * @param {number} at
   */
  tellDriver(changed, at) {
    const { card, job } = this.store;
    const second = changed?.findIndex((each, k) => each === 1 && k >= Math.floor(at)) ?? -1;
    if (second < 0) return;
    this.news = { words: `${gearText(gearOf(card[second]))} from ${timeText(second)}${job.holds[second] ? ', held' : ''}`, until: performance.now() + NEWS };
  }

  /** What the driver is told now. */
  get told() {
    return performance.now() < this.news.until ? this.news.words : '';
  }

  /**
   * The keys that both windows have.
   * @param {KeyboardEvent} event
   * @returns {boolean} whether it was one
   */
  key(event) {
    const target = /** @type {Element} */ (event.target);
    if (event.ctrlKey || event.metaKey || event.altKey) return false;
    if (event.key === ' ' && !target.closest?.('button, summary')) this.toggle();
    else if (event.key === ',') this.step(-1);
    else if (event.key === '.') this.step(1);
    else return false;
    event.preventDefault();
    return true;
  }

  /** What is shown of it, in each frame; the picture follows where it is asked to. */
  show() {
    const { clock, view } = this;
    write(element('start'), clock.running ? 'Pause' : 'Start');
    element('stop', HTMLButtonElement).disabled = !this.on;
    write(element('place'), timeText(clock.at()));
    if (!clock.running || !element('follow', HTMLInputElement).checked || view.span >= view.count) return;
    const at = clock.at();
    if (at < view.first || at > view.first + view.span * 0.9) view.show(at - view.span * 0.1, view.span);
  }
}
