// What the tests in JavaScript share: what they are run on, checks that count, and the last line, `N passed, M failed`.
import { join } from 'node:path';
import { fileURLToPath } from 'node:url';

/** The top of the checkout. */
export const root = fileURLToPath(new URL('..', import.meta.url));
const { WADLOOK, WADLENS, PAGE } = process.env;
/** The programs that WADLOOK and WADLENS name, and the folder of the page that PAGE names; else those that are built. */
export const programs = { wadlook: WADLOOK || join(root, 'crates/wadlook/out/wadlook'), wadlens: WADLENS || join(root, 'crates/wadlens/out/wadlens') };
export const built = PAGE || join(root, 'web/out');

const tally = { passed: 0, failed: 0 };

/** Counts what was checked. @param {boolean} holds */
export const count = (holds) => { tally[holds ? 'passed' : 'failed']++; };

/** Counts a check that failed, and tells of it. @param {string} what @param {...unknown} told */
export function fail(what, ...told) {
  count(false);
  console.log(`FAILED ${what}`, ...told);
}

/** Counts a check of a value. @param {string} what @param {unknown} came @param {unknown} wanted */
export function check(what, came, wanted) {
  const [is, should] = [came, wanted].map((value) => typeof value === 'string' ? value : JSON.stringify(value));
  if (is === should) count(true);
  else fail(`${what}\n--- wanted\n${should?.slice(0, 1000)}\n--- came\n${is?.slice(0, 1000)}\n---`);
}

/** Tells what isn't tested; `tests/run` goes by this form. @param {string} why @param {string} what */
export const skipped = (why, what) => console.log(`skipped, as ${why}: ${what}`);

/** Tells the last line; the status. */
export function addUp() {
  console.log(`${tally.passed} passed, ${tally.failed} failed`);
  return tally.failed ? 1 : 0;
}
