/** SHA-256 (FIPS 180-4) of some bytes, in hexadecimal: a page from a file may have no other. */

/**
 * The first 32 bits behind the point of a root of each of the first primes.
 * @param {number} count
 * @param {(prime: number) => number} root
 */
function fractions(count, root) {
  /** @type {number[]} */
  const primes = [];
  for (let n = 2; primes.length < count; n++) if (primes.every((prime) => n % prime)) primes.push(n);
  return Uint32Array.from(primes, (prime) => (root(prime) % 1) * 2 ** 32);
}

const START = fractions(8, Math.sqrt);
const ROUNDS = fractions(64, Math.cbrt);

/** @type {(word: number, by: number) => number} */
const turned = (word, by) => (word >>> by) | (word << (32 - by));

/**
 * The bytes, a 1 bit, zeros, and the length in bits: whole blocks of 64 bytes.
 * @param {Uint8Array} bytes
 */
function padded(bytes) {
  const all = new Uint8Array(Math.ceil((bytes.length + 9) / 64) * 64);
  all.set(bytes);
  all[bytes.length] = 0x80;
  new DataView(all.buffer).setBigUint64(all.length - 8, BigInt(bytes.length) * 8n);
  return new DataView(all.buffer);
}

/**
 * The 64 words of a block.
 * @param {DataView} view
 * @param {number} at
 */
function wordsOf(view, at) {
  const words = new Uint32Array(64);
  for (let k = 0; k < 16; k++) words[k] = view.getUint32(at + 4 * k);
  for (let k = 16; k < 64; k++) {
    const [a, b] = [words[k - 15], words[k - 2]];
    words[k] = words[k - 16] + (turned(a, 7) ^ turned(a, 18) ^ (a >>> 3)) + words[k - 7] + (turned(b, 17) ^ turned(b, 19) ^ (b >>> 10));
  }
  return words;
}

/**
 * @param {Uint8Array} bytes
 * @returns {string}
 */
export function sha256(bytes) {
  const view = padded(bytes);
  const state = START.slice();
  for (let at = 0; at < view.byteLength; at += 64) {
    const words = wordsOf(view, at);
    let [a, b, c, d, e, f, g, h] = state;
    for (let k = 0; k < 64; k++) {
      const one = (h + (turned(e, 6) ^ turned(e, 11) ^ turned(e, 25)) + ((e & f) ^ (~e & g)) + ROUNDS[k] + words[k]) | 0;
      const two = ((turned(a, 2) ^ turned(a, 13) ^ turned(a, 22)) + ((a & b) ^ (a & c) ^ (b & c))) | 0;
      [h, g, f, e, d, c, b, a] = [g, f, e, (d + one) | 0, c, b, a, (one + two) | 0];
    }
    [a, b, c, d, e, f, g, h].forEach((word, k) => (state[k] += word));
  }
  return Array.from(state, (word) => word.toString(16).padStart(8, '0')).join('');
}
