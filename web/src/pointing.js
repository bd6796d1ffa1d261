/** Mouse, wheel and fingers on the picture: choose, move, zoom. */

/** Pixels that a pointer may move and still have clicked. */
const STILL = 5;

/**
 * @param {HTMLElement} place
 * @param {import('./chart.js').Chart} chart
 * @param {import('./view.js').View} view
 */
export function pointAt(place, chart, view) {
  /**
   * The pointers that are down, by their number, where each is now.
   * @type {Map<number, number>}
   */
  const down = new Map();
  let [start, begun, moved] = [0, 0, false];
  const offset = (/** @type {MouseEvent} */ event) => event.clientX - place.getBoundingClientRect().left;

  place.addEventListener('pointerdown', (event) => {
    if (event.button !== 0) return;
    place.setPointerCapture(event.pointerId);
    down.set(event.pointerId, offset(event));
    [start, begun, moved] = [offset(event), view.first, false];
  });
  place.addEventListener('pointermove', (event) => {
    if (!down.has(event.pointerId)) return;
    const x = offset(event);
    if (down.size === 2) pinch(event.pointerId, x);
    else if (moved || Math.abs(x - start) > STILL) drag(event, x);
    down.set(event.pointerId, x);
  });
  const up = (/** @type {PointerEvent} */ event) => {
    if (!down.delete(event.pointerId)) return;
    if (event.type === 'pointerup' && !moved) view.choose(chart.secondAt(offset(event)), event.shiftKey);
  };
  place.addEventListener('pointerup', up);
  place.addEventListener('pointercancel', up);
  place.addEventListener(
    'wheel',
    (event) => {
      event.preventDefault();
      const pixels = event.deltaMode === 1 ? 16 : 1;
      const across = event.shiftKey ? event.deltaY + event.deltaX : event.deltaX;
      if (event.shiftKey || Math.abs(event.deltaX) > Math.abs(event.deltaY)) view.scroll((across * pixels) / chart.perSecond);
      else view.zoom(Math.exp(event.deltaY * pixels * 0.0016), chart.secondAt(offset(event)));
    },
    { passive: false },
  );

  /** @type {(event: PointerEvent, x: number) => void} */
  function drag(event, x) {
    if (!moved && event.shiftKey) view.choose(chart.secondAt(start));
    moved = true;
    if (event.shiftKey) view.choose(chart.secondAt(x), true);
    else view.show(begun - (x - start) / chart.perSecond, view.span);
  }

  /** @type {(pointer: number, x: number) => void} */
  function pinch(pointer, x) {
    moved = true;
    const other = [...down].find(([each]) => each !== pointer)?.[1] ?? x;
    const before = Math.abs((down.get(pointer) ?? x) - other);
    if (before > 10 && Math.abs(x - other) > 10) view.zoom(before / Math.abs(x - other), chart.secondAt((x + other) / 2));
    [start, begun] = [x, view.first];
  }
}

/**
 * The strip beneath the picture: what is pressed is brought to the middle.
 * @param {HTMLElement} place
 * @param {import('./chart.js').Overview} overview
 * @param {import('./view.js').View} view
 */
export function scrollBy(place, overview, view) {
  const go = (/** @type {PointerEvent} */ event) => {
    if (!event.buttons) return;
    const second = overview.secondAt(event.clientX - place.getBoundingClientRect().left);
    view.show(second - view.span / 2, view.span);
  };
  place.addEventListener('pointerdown', (event) => {
    place.setPointerCapture(event.pointerId);
    go(event);
  });
  place.addEventListener('pointermove', go);
}
