/** Elements of the page by their id, and what is done to them everywhere. */

/**
 * @template {HTMLElement} [T=HTMLElement]
 * @param {string} id
 * @param {new () => T} [kind]
 * @returns {T}
 */
export function element(id, kind = /** @type {any} */ (HTMLElement)) {
  const found = document.getElementById(id);
  if (!(found instanceof kind)) throw new Error(`the page has no ${id}`);
  return found;
}

/**
 * @param {Document} page
 * @param {string} tag
 * @param {Record<string, string>} [attributes]
 * @param {(Node | string)[]} inside
 * @returns {HTMLElement}
 */
export function make(page, tag, attributes = {}, ...inside) {
  const made = page.createElement(tag);
  for (const [name, value] of Object.entries(attributes)) made.setAttribute(name, value);
  made.append(...inside);
  return made;
}

/**
 * Writes a text where it is another: what is not touched is not drawn again, and is not read out again.
 * @param {HTMLElement} where
 * @param {string} words
 */
export function write(where, words) {
  if (where.textContent !== words) where.textContent = words;
}

/**
 * @param {string} id
 * @param {() => void} run
 */
export function onClick(id, run) {
  element(id).addEventListener('click', run);
}

/**
 * A form that stays on the page.
 * @param {string} id
 * @param {(form: HTMLFormElement) => void} run
 */
export function onSubmit(id, run) {
  const form = element(id, HTMLFormElement);
  form.addEventListener('submit', (event) => {
    event.preventDefault();
    run(form);
  });
}

/**
 * A time as people read it: minutes and seconds.
 * @param {number} seconds
 */
export function timeText(seconds) {
  const whole = Math.floor(seconds);
  return `${Math.floor(whole / 60)}:${String(whole % 60).padStart(2, '0')}`;
}

/**
 * A field of a form by its name.
 * @param {HTMLFormElement} form
 * @param {string} name
 */
export function field(form, name) {
  return /** @type {HTMLInputElement} */ (form.elements.namedItem(name));
}

/**
 * What is wrong at a place of a form, or nothing.
 * @param {Element} place
 * @param {string} words
 */
export function setError(place, words) {
  const line = place.matches('.error') ? place : place.querySelector('.error');
  if (!(line instanceof HTMLElement)) return;
  write(line, words);
  line.hidden = words === '';
  if (line === place) return;
  place.classList.toggle('wrong', words !== '');
  for (const input of place.querySelectorAll('input, textarea')) input.setAttribute('aria-invalid', String(words !== ''));
}
