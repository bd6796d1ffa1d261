/** What the engineer looks at: the part of the trace on the screen, and the seconds chosen. */

/** Seconds that are shown at least. */
const CLOSEST = 10;

export class View {
  /** @param {number} count seconds of the trace */
  constructor(count) {
    /** @type {(() => void)[]} */
    this.listeners = [];
    this.count = count;
    this.first = 0;
    this.span = count;
    /** Where a range began; the same as `second` where one second is chosen. */
    this.anchor = 0;
    this.second = 0;
    this.tolerances = false;
    /**
     * The place of the last refusal.
     * @type {{second: number, words: string} | undefined}
     */
    this.mark = undefined;
  }

  /** @param {() => void} listener */
  listen(listener) {
    this.listeners.push(listener);
  }

  tell() {
    for (const listener of this.listeners) listener();
  }

  get from() {
    return Math.min(this.anchor, this.second);
  }

  get to() {
    return Math.max(this.anchor, this.second);
  }

  /**
   * For another trace: all of it, with its first second chosen.
   * @param {number} count
   */
  begin(count) {
    this.count = count;
    [this.first, this.span, this.anchor, this.second] = [0, count, 0, 0];
    this.tell();
  }

  /**
   * @param {number} first
   * @param {number} span
   */
  show(first, span) {
    this.span = Math.max(Math.min(CLOSEST, this.count), Math.min(span, this.count));
    this.first = Math.max(0, Math.min(first, this.count - this.span));
    this.tell();
  }

  /**
   * @param {number} factor below 1 comes closer
   * @param {number} about the second that stays where it is
   */
  zoom(factor, about) {
    const span = Math.max(CLOSEST, Math.min(this.span * factor, this.count));
    this.show(about - ((about - this.first) / this.span) * span, span);
  }

  /** @param {number} seconds */
  scroll(seconds) {
    this.show(this.first + seconds, this.span);
  }

  /**
   * Chooses a second; with `extend` the range from the one chosen before.
   * @param {number} second
   * @param {boolean} [extend]
   */
  choose(second, extend = false) {
    this.second = Math.max(0, Math.min(Math.floor(second), this.count - 1));
    if (!extend) this.anchor = this.second;
    this.reveal(this.second);
  }

  /**
   * @param {number} from
   * @param {number} to
   */
  chooseRange(from, to) {
    this.choose(from);
    this.choose(to, true);
  }

  /**
   * Scrolls as little as brings a second into view.
   * @param {number} second
   */
  reveal(second) {
    const edge = Math.min(this.span / 8, 10);
    if (second < this.first + edge) this.show(second - edge, this.span);
    else if (second + 1 > this.first + this.span - edge) this.show(second + 1 + edge - this.span, this.span);
    else this.tell();
  }
}
