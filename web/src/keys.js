/** The keyboard, which alone is enough. */
import { tripAt } from './trips.js';
import { element, onClick } from './dom.js';

/** Seconds that Page Up and Page Down go. */
const PAGE = 30;

/** A zoom of the keys and buttons. */
const STEP = 1.5;

/**
 * @param {{store: import('./store.js').Store, view: import('./view.js').View, panel: import('./panel.js').Panel, run: import('./run.js').Run,
 *   undo: () => void, redo: () => void}} page
 */
export function listenToKeys({ store, view, panel, run, undo, redo }) {
  const zoom = (/** @type {number} */ factor) => {
    const middle = view.first + view.span / 2;
    view.zoom(factor, view.second >= view.first && view.second <= view.first + view.span ? view.second : middle);
  };
  const whole = () => view.show(0, view.count);
  const trip = () => {
    const found = tripAt(store.trips, view.second);
    if (found) view.show(found.first - 3, found.stop - found.first + 6);
  };
  onClick('closer', () => zoom(1 / STEP));
  onClick('farther', () => zoom(STEP));
  onClick('whole', whole);
  onClick('trip', trip);

  /** @type {Record<string, (extend: boolean) => void>} */
  const plain = {
    ArrowLeft: (extend) => view.choose(view.second - 1, extend),
    ArrowRight: (extend) => view.choose(view.second + 1, extend),
    PageUp: (extend) => view.choose(view.second - PAGE, extend),
    PageDown: (extend) => view.choose(view.second + PAGE, extend),
    Home: (extend) => view.choose(0, extend),
    End: (extend) => view.choose(view.count - 1, extend),
    Delete: () => panel.release(),
    Backspace: () => panel.release(),
    '+': () => zoom(1 / STEP),
    '=': () => zoom(1 / STEP),
    '-': () => zoom(STEP),
    w: whole,
    t: trip,
    m: () => element('speed', HTMLInputElement).select(),
  };
  /** @type {Record<string, () => void>} */
  const control = {
    z: undo,
    y: redo,
    o: () => element('open').click(),
    s: () => element('save').click(),
  };

  document.addEventListener('keydown', (event) => {
    const target = /** @type {Element} */ (event.target);
    if (target.closest('dialog') || event.altKey || event.defaultPrevented) return;
    const key = event.key.length === 1 ? event.key.toLowerCase() : event.key;
    if (target.matches('input:not([type="checkbox"]), textarea, select')) {
      if (key === 'Escape') element('chart').focus();
      return;
    }
    if (event.ctrlKey || event.metaKey) {
      const found = key === 'z' && event.shiftKey ? redo : control[key];
      if (!found) return;
      event.preventDefault();
      found();
      return;
    }
    if (run.key(event)) return;
    const found = /^[0-9]$/.test(key) ? () => panel.hold(key === '0' ? 10 : Number(key)) : plain[key];
    if (!found) return;
    event.preventDefault();
    found(event.shiftKey);
  });
}
