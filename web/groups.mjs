// What `check` found, by code: the runs of one code among its objects, in the order in which they matter.
import { classOf, endsGame, isMixed } from './codes.mjs';
import { isName } from './entries.mjs';

/** @typedef {import('./lines.mjs').Lines} Lines */
/** @typedef {{ code: string, from: number, to: number }} Run  of the objects from one on up to another */
/** @typedef {Run & { total: number }} Listed  a run of findings, and how many were found of its code: not all of them may be listed */

const CODE = ',"code":"'; // no name and no path has such letters: their quotes are escaped
const QUOTE = 34;
/** What is fatal comes first, then what breaks links and nodes, then mistakes, then oddities. */
const RANKS = ['F', 'W', 'N'];

/**
 * Runs of one code among objects of `check`, which stand by their codes; of objects without one, too, whose code is ''. All objects of a level
 * begin alike up to their code, so it is read at one place of each, and nothing is parsed.
 * @param {Lines} objects of which the last has the sums
 */
export function runsOf({ bytes, ends }) {
  /** @type {Run[]} */
  const runs = [];
  let place = -1; // of the code in an object
  for (let k = 0; k + 1 < ends.length; k++) {
    const from = k ? ends[k - 1] + 1 : 0, last = runs.at(-1);
    if (place < 0) place = codePlace(bytes, from, ends[k]);
    const isCode = place >= 0 && isName(bytes, from + place - CODE.length, from + place, CODE);
    const end = isCode ? bytes.indexOf(QUOTE, from + place) : from, at = isCode ? from + place : from;
    if (last && isName(bytes, at, end, last.code)) last.to = k + 1;
    else runs.push({ code: new TextDecoder().decode(bytes.subarray(at, end)), from: k, to: k + 1 });
  }
  return runs;
}

/** How far behind an object's beginning its code stands; -1 where it has none. @param {Uint8Array} bytes @param {number} from @param {number} end */
function codePlace(bytes, from, end) {
  const at = new TextDecoder('latin1').decode(bytes.subarray(from, end)).indexOf(CODE);
  return at < 0 ? -1 : at + CODE.length;
}

/** How much a code matters: 0 of what ends the game. @param {string} code */
const rankOf = (code) => endsGame(code) ? 0 : 1 + RANKS.indexOf(code[0]);

/** Codes or runs of them, what matters most first, and else as they stand. @template T @param {T[]} all @param {(one: T) => string} codeOf */
export const byRank = (all, codeOf) => [...all].sort((a, b) => rankOf(codeOf(a)) - rankOf(codeOf(b)));

/** What kind of finding a code is, in words. @param {string} code */
export const rankWords = (code) => endsGame(code) ? `${isMixed(code) ? 'may end' : 'ends'} the game · ${classOf(code)}` : classOf(code);

/**
 * The findings of each code, what matters most first. The last object of a code stands for those that aren't listed, where there are such.
 * @param {Lines} objects of `check`, of which the last has the sums @returns {Listed[]}
 */
export function listedIn(objects) {
  const runs = runsOf(objects).filter(({ code }) => code);
  return byRank(runs, ({ code }) => code).map(({ code, from, to }) => {
    const { more = 0 } = JSON.parse(objects.at(to - 1)), end = more ? to - 1 : to;
    return { code, from, to: end, total: end - from + more };
  });
}
