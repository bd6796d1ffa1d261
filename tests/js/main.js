/** Runs the tests in the files named, all if none is, and counts; the runner is tests/js/run. */
import { counts } from './harness.js';

const names = process.argv.slice(5);
for (const name of names.length ? names : ['all', 'whole']) await import(`./${name}.js`);
console.log(`js: ${counts.passed} passed, ${counts.failed} failed`);
process.exit(counts.failed === 0 ? 0 : 1);
