/** A question in a line of the page. It stops nothing, as a dialog of the browser would: that holds the driver's window too. */
import { element, make, write } from './dom.js';

/**
 * Puts a question; an answer takes it away.
 * @param {string} words
 * @param {Record<string, () => void>} answers
 */
export function ask(words, answers) {
  write(element('ask-words'), words);
  const buttons = Object.entries(answers).map(([name, run], k) => {
    const button = make(document, 'button', k ? {} : { class: 'main' }, name);
    button.addEventListener('click', () => {
      unask();
      run();
    });
    return button;
  });
  element('ask-answers').replaceChildren(...buttons);
  element('ask').hidden = false;
}

/** Takes the question away. */
export function unask() {
  element('ask').hidden = true;
}
