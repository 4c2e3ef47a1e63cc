// For tests without the module: stands in the place of wad_page.mjs and asks the server, which runs the programs on words.
import { numbersOf } from './shown_linedefs.mjs';
import { sketchedNumbers } from './sketched.mjs';

/** @typedef {import('../wad_page.mjs').Ended} Ended */
/** @typedef {import('../wad_page.mjs').LensQuestion} LensQuestion */
/** @typedef {import('../wad_page.mjs').DrawQuestion} DrawQuestion */

export const load = async () => {};
export const canRun = () => WebAssembly.validate(new Uint8Array([0, 0x61, 0x73, 0x6d, 1, 0, 0, 0]));

/**
 * What a program answers of words and the files that they name, as `pathsOf` of asked.mjs has them.
 * @param {string[]} words @param {Uint8Array[]} files @param {Uint8Array} [input] @returns {Promise<Ended>}
 */
export async function runWadlook(words, files, input = new Uint8Array()) {
  const head = new TextEncoder().encode(JSON.stringify({ words, files: files.map(({ length }) => length), input: input.length }));
  const body = new Blob([Uint32Array.of(head.length), head, .../** @type {BlobPart[]} */ (files), /** @type {BlobPart} */ (input)]);
  const told = new Uint8Array(await (await fetch('run', { method: 'POST', body })).arrayBuffer());
  const from = 4 + new DataView(told.buffer).getUint32(0, true);
  return { ...JSON.parse(new TextDecoder().decode(told.subarray(4, from))), answer: told.slice(from) };
}

/** @param {LensQuestion} question @param {string[]} paths @param {Uint8Array[]} files */
export function runWadlens(question, paths, files) {
  const [command, ...options] = wordsOf(question), bases = paths.slice(0, question.bases ?? 0);
  return runWadlook([command, ...bases.flatMap((path) => ['--base', path]), ...options, ...paths.slice(bases.length)], files);
}

/** @param {DrawQuestion} question @param {Uint8Array} file */
export function drawPicture({ cells, wide, frame }, file) {
  const { name, bytes } = named(file), framed = frame ? ['--frame', frame.join(',')] : [];
  return runWadlook(['picture', ...(wide ? ['--wide'] : []), '--cells', String(cells), ...framed, name, 'f'], [bytes]);
}

/** @param {{ wide?: boolean }} question @param {Uint8Array} file @returns {Promise<Ended>} */
export async function listLinedefs({ wide = false }, file) {
  const { name, bytes } = named(file);
  const shown = await runWadlook(['show', ...(wide ? ['--wide'] : []), name, 'f'], [bytes]);
  return { ...shown, answer: numbersOf(new TextDecoder().decode(shown.answer), wide) };
}

/** @param {{ entry: number }} question @param {Uint8Array} file @returns {Promise<Ended>} */
export async function sketchLevel({ entry }, file) {
  return { status: 0, answer: new Uint8Array(sketchedNumbers(file, entry).buffer), refused: '' };
}

/** @param {LensQuestion} question */
function wordsOf(question) {
  const wide = question.wide ? ['--wide'] : [], warnings = { told: ['--map'], strict: ['--map', '--strict'] };
  const judging = [...wide, ...(question.warnings ? warnings[question.warnings] : [])];
  switch (question.command) {
    case 'check': return ['check', ...judging, ...(question.json ? ['--json'] : []), '--max', String(question.max)];
    case 'survey': return ['survey', ...judging];
    case 'demos': return ['demos', ...(question.json ? ['--json'] : [])];
    case 'listing': return ['listing'];
    case 'cut': return ['cut', '--entry', String(question.entry)];
  }
}

/**
 * The name by which the program finds a file's first level: its label where that is one of Doom's own, and else one that is put there.
 * @param {Uint8Array} file
 */
function named(file) {
  const label = new DataView(file.buffer, file.byteOffset).getInt32(8, true) + 8;
  const name = new TextDecoder().decode(file.subarray(label, label + 8)).split('\0')[0];
  if (/^(E\dM\d|MAP\d\d)$/.test(name)) return { name, bytes: file };
  const bytes = file.slice();
  bytes.set(new TextEncoder().encode('LEVEL\0\0\0'), label);
  return { name: 'LEVEL', bytes };
}
