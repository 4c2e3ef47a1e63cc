// What the page's module is asked, by the words of the programs: cases have these, as the programs take them, too.

/** @typedef {import('../wad_page.mjs').Ended} Ended */
/** @typedef {import('../wad_page.mjs').Judging} Judging */
/** @typedef {import('../wad_page.mjs').LensQuestion} LensQuestion */
/** @typedef {import('../wad_page.mjs').DrawQuestion} DrawQuestion */
/** @typedef {typeof import('../wad_page.mjs')} Page */
/** @typedef {(words: string[], files: Uint8Array[], input?: Uint8Array, room?: number) => Promise<Ended>} Run  the paths of the files are `pathsOf` */

const LENS = ['check', 'survey', 'demos', 'listing', 'cut', 'picture'];
/** How many findings of one code are shown, and how many cells a picture has, where the words don't say. */
const SHOWN = '20', CELLS = '512';

/** Whether words are those of `wadlens`; all others are those of `wadlook`. @param {string[]} words */
export const isLens = ([command]) => LENS.includes(command);

/** What stands behind an option, or else this. @param {string[]} words @param {string} option @param {string} [otherwise] */
const valueOf = (words, option, otherwise = '') => words.includes(option) ? words[words.indexOf(option) + 1] : otherwise;

/** How often `--base` stands behind the command, where it stands before all else. @param {string[]} words */
export function basesOf(words) {
  let count = 0;
  while (words[1 + 2 * count] === '--base') count++;
  return count;
}

/** The paths of so many files: those of the base files, and the last words. @param {string[]} words @param {number} count */
export function pathsOf(words, count) {
  const bases = basesOf(words);
  return [...Array.from({ length: bases }, (_, k) => words[2 + 2 * k]), ...words.slice(words.length - count + bases)];
}

/** @param {string[]} words @returns {Judging} */
function judgingOf(words) {
  const warnings = words.includes('--strict') ? 'strict' : words.includes('--map') ? 'told' : undefined;
  return { wide: words.includes('--wide'), warnings, bases: basesOf(words) };
}

/** The question of words without paths. @param {string[]} words @returns {LensQuestion} */
function lensQuestion(words) {
  switch (words[0]) {
    case 'check': return { command: 'check', json: words.includes('--json'), max: BigInt(valueOf(words, '--max', SHOWN)), ...judgingOf(words) };
    case 'survey': return { command: 'survey', ...judgingOf(words) };
    case 'demos': return { command: 'demos', json: words.includes('--json') };
    case 'listing': return { command: 'listing' };
    case 'cut': return { command: 'cut', entry: BigInt(valueOf(words, '--entry')) };
    default: throw new Error(`${words[0]} is asked nothing`);
  }
}

/** @param {string[]} words @returns {DrawQuestion} */
function drawQuestion(words) {
  const frame = words.includes('--frame') ? valueOf(words, '--frame').split(',').map(Number) : undefined;
  return { cells: Number(valueOf(words, '--cells', CELLS)), wide: words.includes('--wide'), frame };
}

/** The page's calls as one that takes words. @param {Page} page @returns {Run} */
export const byWords = ({ runWadlook, runWadlens, drawPicture }) => (words, files, input, room) => {
  if (!isLens(words)) return runWadlook(words, files, input, room);
  if (words[0] === 'picture') return drawPicture(drawQuestion(words), files[0], room);
  const first = words.length - files.length + basesOf(words);
  return runWadlens(lensQuestion(words.slice(0, first)), pathsOf(words, files.length), files, room);
};
