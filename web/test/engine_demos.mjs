// Demos of later engines: the crafted ones, of which the module tells what their tables want, and files of damaged ones.
import { readFileSync, readdirSync } from 'node:fs';
import { join } from 'node:path';
import { check, root } from '../../tests/harness.mjs';
import { workedLaterDemos, workedObjects } from './worked_cases.mjs';
import { wad } from './wads.mjs';

/** @typedef {import('./asked.mjs').Run} Run */

const crafted = join(root, 'tests', 'crafted_demos');
const REFUSED = 'refused: ';
const MOST_FRONT = 27 + 301; // the greatest wrapper and header

/**
 * Checks what is answered of a file: the status, the text, and what is told besides.
 * @param {string} name @param {Run} run @param {string[]} words @param {Buffer} file @param {[number, string, string]} wanted
 */
async function tells(name, run, words, file, wanted) {
  const { status, answer, refused } = await run([...words, 'D'], [file]);
  check(name, [status, Buffer.from(answer).toString(), refused], wanted);
}

/** What the tables want of the crafted demos: lines and refusals, objects, and listings. @param {Run} run */
export async function craftedDemos(run) {
  const demos = new Map();
  for (const [name, bytes, line] of workedLaterDemos(crafted)) {
    demos.set(name, bytes);
    const why = line.startsWith(REFUSED) ? `wadlens: D: ${line.slice(REFUSED.length)}\n` : '';
    await tells(name, run, ['demos'], bytes, why ? [2, '', why] : [0, `${line}\n`, '']);
    if (why) await tells(`${name}, the listing`, run, ['listing'], bytes, [2, '', why]);
  }
  for (const [name, lump, object] of workedObjects(crafted)) {
    const bytes = demos.get(name), why = JSON.parse(object).refused;
    const wanted = why ? [2, `${object}\n`, `wadlens: D: ${why}\n`] : [0, `${object}\n`, ''];
    await tells(`${name}, the object`, run, ['demos', '--json'], lump ? wad([[lump, bytes]]) : bytes, wanted);
  }
  for (const file of readdirSync(crafted).filter((each) => each.endsWith('.listing'))) {
    const name = `later demo ${parseInt(file, 10)}`;
    await tells(`${name}, listed`, run, ['listing'], demos.get(name), [0, readFileSync(join(crafted, file)).toString(), '']);
  }
}

/** A demo cut at every place, and with each of its first bytes turned, as lumps of two files. @param {Buffer} demo @returns {Buffer[]} */
export function damagedDemos(demo) {
  // The lumps of the first file lie over the demo, which stands behind the directory.
  const cut = wad(Array.from({ length: demo.length }, () => ['DEMO1', Buffer.alloc(0)]));
  for (let k = 0; k < demo.length; k++) {
    cut.writeInt32LE(cut.length, 12 + 16 * k);
    cut.writeInt32LE(k + 1, 16 + 16 * k);
  }
  const turned = (/** @type {number} */ place) => {
    const bytes = Buffer.from(demo);
    bytes[place] ^= 0xff;
    return bytes;
  };
  return [Buffer.concat([cut, demo]), wad(Array.from({ length: Math.min(demo.length, MOST_FRONT) }, (_, k) => ['DEMO2', turned(k)]))];
}
