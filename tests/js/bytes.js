/** Bytes of a card that are none are said to be so, by type and by bounds. */
import { clutchDown, gearOf } from 'gearcard';
import { equal, test, thrown } from './harness.js';

await test('what is no byte of a card has no gear and no clutch', () => {
  for (const read of [gearOf, clutchDown]) {
    for (const wrong of [NaN, 2.5, '3', null, undefined, -1, 256, Infinity, {}]) {
      const why = thrown(() => read(/** @type {any} */ (wrong)));
      equal(why instanceof TypeError || why instanceof RangeError, true, `${String(wrong)}: ${why}`);
      equal(String(why.message).includes('card byte'), true, why.message);
    }
  }
  equal([0, 1, 26, 255].map(gearOf), [0, 1, 10, 15]);
  equal([0, 15, 16, 26].map(clutchDown), [false, false, true, true]);
});
