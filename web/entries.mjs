// The lines of `lumps`: which of a file's entries begin a level, and which are demos. A level begins at the entry before one that is named
// THINGS or TEXTMAP, as `survey` has it; this is quicker, so the list is there before the levels are judged.
import { linesOf } from './lines.mjs';

/** @typedef {import('./lines.mjs').LinesData} LinesData */

/**
 * Whether the bytes from `at` to `end` are the name.
 * @param {Uint8Array} bytes @param {number} at @param {number} end @param {string} name
 */
export function isName(bytes, at, end, name) {
  let same = end - at === name.length ? 0 : -1;
  while (same >= 0 && same < name.length && bytes[at + same] === name.charCodeAt(same)) same++;
  return same === name.length;
}

/**
 * The lines of `lumps` that are labels of levels, and those of demos.
 * @param {Uint8Array} lumps
 */
export function contents(lumps) {
  const { ends } = linesOf(lumps), levels = [], demos = [];
  for (let k = 1; k < ends.length; k++) {
    let at = ends[k - 1] + 1;
    for (let field = 0; field < 3; field++) at = lumps.indexOf(32, at) + 1;
    if (k > 1 && (isName(lumps, at, ends[k], 'THINGS') || isName(lumps, at, ends[k], 'TEXTMAP'))) levels.push(k - 1);
    if (isName(lumps, at, at + 4, 'DEMO') && !isName(lumps, at - 3, at, ' 0 ')) demos.push(k);
  }
  return { levels: these(lumps, ends, levels), demos: these(lumps, ends, demos) };
}

/**
 * Only these of the lines.
 * @param {Uint8Array} bytes @param {Uint32Array} ends @param {number[]} which @returns {LinesData}
 */
function these(bytes, ends, which) {
  const from = (/** @type {number} */ k) => k ? ends[k - 1] + 1 : 0;
  const kept = new Uint8Array(which.reduce((sum, k) => sum + ends[k] + 1 - from(k), 0));
  let at = 0;
  for (const k of which) {
    kept.set(bytes.subarray(from(k), ends[k] + 1), at);
    at += ends[k] + 1 - from(k);
  }
  return linesOf(kept);
}
