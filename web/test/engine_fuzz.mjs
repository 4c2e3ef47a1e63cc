// Seeded cases beside a plain reading of the definitions: lines of JSON, as `tests/fuzz --json` writes them, a case each.
import { createInterface } from 'node:readline';
import { count } from '../../tests/harness.mjs';
import { isLens } from './asked.mjs';

/** @typedef {import('../wad_page.mjs').Ended} Ended */
/** @typedef {import('./asked.mjs').Run} Run */
/** @typedef {{ status: number, out: string, error: string }} Wanted  with bytes in base 64, as all bytes of a case */
/** @typedef {{ words: string[], files: number[], input: string, wanted: Wanted }} Asked  with the places of its files among the case's */
/** @typedef {{ seed: number, case: number, files: string[], runs: Asked[] }} Case */

const MOST_TOLD = 20;
const ROOM = 1 << 16; // small, so that longer answers take a second run

const bytes = (/** @type {string} */ text) => Buffer.from(text, 'base64');

/** What is told besides, as the program writes it to standard error. @param {string[]} words @param {string} refused */
const told = (words, refused) => refused && !isLens(words) ? `refused: ${refused}\n` : refused;

/**
 * The first line that differs of two texts; nothing where the texts are the same.
 * @param {string} what @param {Buffer} wanted @param {Buffer} came
 */
function firstLine(what, wanted, came) {
  if (wanted.equals(came)) return '';
  const [lines, others] = [wanted, came].map((text) => text.toString('latin1').split('\n'));
  const at = lines.findIndex((line, k) => line !== others[k]), k = at < 0 ? lines.length : at;
  return `${what}, line ${k + 1}\n    wanted: ${JSON.stringify(lines[k])}\n    came:   ${JSON.stringify(others[k])}`;
}

/** Where a run isn't as it is wanted; nothing where it is. @param {Asked} asked @param {Ended} came */
function difference({ words, wanted }, came) {
  if (came.status !== wanted.status) return `status ${wanted.status} is wanted, and ${came.status} came`;
  return firstLine('the answer', bytes(wanted.out), Buffer.from(came.answer)) ||
    firstLine('what is told besides', bytes(wanted.error), Buffer.from(told(words, came.refused)));
}

/**
 * Whether all runs of a case give what is wanted; the first that doesn't is told.
 * @param {Case} one @param {Run} run
 */
async function judge(one, run) {
  const files = one.files.map(bytes);
  for (const asked of one.runs) {
    const why = difference(asked, await run(asked.words, asked.files.map((k) => files[k]), bytes(asked.input), ROOM));
    if (!why) continue;
    console.log(`FAILED case ${one.case} of seed ${one.seed}: ${JSON.stringify(asked.words)}: ${why}`);
    console.log(`    written by: tests/fuzz --json 1 ${one.seed} ${one.case}`);
    return false;
  }
  return true;
}

/**
 * Judges and counts the cases of a stream of lines.
 * @param {NodeJS.ReadableStream} lines @param {Run} run
 */
export async function seeded(lines, run) {
  let failed = 0;
  for await (const line of createInterface(lines)) {
    const holds = await judge(JSON.parse(line), run);
    count(holds);
    if (!holds && ++failed === MOST_TOLD) {
      console.log("and so on: the cases after this one weren't run");
      break;
    }
  }
}
