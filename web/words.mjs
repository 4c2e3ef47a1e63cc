// What the engine tells, in the page's words; and the parts of the page.
import { endsGame, isMixed } from './codes.mjs';
import { runsOf } from './groups.mjs';

/**
 * @typedef {{ level: string, entry: number, format?: string, tag?: string, lump?: string, broken?: string, sound?: boolean, faults?: number, notes?: number,
 *   findings?: Record<string, number>, warnings?: Record<string, number>, unlooked?: string[], things?: number, linedefs?: number, sidedefs?: number,
 *   vertexes?: number, segs?: number, ssectors?: number, nodes?: number, sectors?: number, reject?: number, blockmap?: number }} Level
 *   an object of `survey`; before the level was judged it has its name and entry alone
 */
/** @typedef {import('./lines.mjs').Lines} Lines */

export const get = (/** @type {string} */ id) => /** @type {HTMLElement} */ (document.getElementById(id));
export const field = (/** @type {string} */ id) => /** @type {HTMLInputElement} */ (get(id));
/** Tells those who can't see what happened. @param {string} words */
export const say = (words) => { get('said').textContent = words; };
/** What to do about a file that is refused, where something helps. @param {string} why */
export function helpOf(why) {
  if (/^(not a WAD file|shorter than a WAD header)/.test(why)) return 'Drop a WAD file, a demo, or a ZIP or PK3 that has some.';
  if (why.endsWith("can't be read")) return 'It was changed, moved or is a folder: drop it again, and of a folder its files.';
  return why.startsWith('stopped') ? 'Drop it again to read it.' : '';
}
/** Whether one pane is shown at a time: as page.css has it. */
export const isNarrow = () => matchMedia('(max-width: 880px), (max-height: 480px)').matches;
export const sentence = (/** @type {string} */ words) => `${words[0]?.toUpperCase() ?? ''}${words.slice(1)}`;
export const plural = (/** @type {number} */ n, /** @type {string} */ word) => `${n} ${word}${n === 1 ? '' : 's'}`;
export const sizeOf = (/** @type {number} */ bytes) => bytes < 1e6 ? `${Math.max(1, Math.round(bytes / 1e3))} kB` : `${(bytes / 1e6).toFixed(1)} MB`;
export const wordsOf = (/** @type {unknown} */ error) => error instanceof Error ? error.message : String(error);

/** Shows a pane from its top; where there is room for more than one, all are shown. @param {string} name */
export function pane(name) {
  const isOther = document.body.dataset.pane !== name;
  document.body.dataset.pane = name;
  if (isOther) document.documentElement.scrollTo(0, 0); // where the page scrolls as a whole
  for (const tab of /** @type {NodeListOf<HTMLElement>} */ (document.querySelectorAll('.tabs button'))) {
    if (tab.dataset.to === name) tab.setAttribute('aria-current', 'true'); else tab.removeAttribute('aria-current');
  }
}

/** Shows the part of the map or of a demo, also to the keys, where it takes the place of what they were at. */
export function toMap() {
  pane('map');
  if (!document.activeElement?.checkVisibility()) get(get('demo').hidden ? 'map' : 'commands').focus({ preventScroll: true });
}

/** Why a level isn't judged. @param {Level} level */
export function notJudged({ format, tag, lump, broken }) {
  switch (format) {
    case 'incomplete': return `incomplete: no ${lump} where it belongs`;
    case 'outside': return `outside: ${lump}`;
    case 'extended': return `extended nodes ${tag}: ${broken ?? 'not read'}`;
    default: return `${format}: not read`;
  }
}

/** What a level has of codes that aren't hidden, by their first letters. @param {Level} level @param {Set<string>} hidden */
function countsOf({ findings, warnings }, hidden) {
  const counts = /** @type {Record<string, number>} */ ({ F: 0, N: 0, W: 0 });
  for (const [code, n] of Object.entries({ ...findings, ...warnings })) if (!hidden.has(code)) counts[code[0]] += n;
  return counts;
}

/**
 * Whether the game surely ends at something in a level that isn't hidden. It doesn't at one thing alone under a code of many: deathmatch starts that
 * are too many are never used.
 * @param {Level} level @param {Set<string>} hidden
 */
export function isFatal({ findings, warnings }, hidden) {
  return Object.entries({ ...findings, ...warnings }).some(([code, n]) => endsGame(code) && (n > 1 || !isMixed(code)) && !hidden.has(code));
}

/**
 * What was found in a level, what is worst first: it is sound alone where nothing was.
 * @param {Level} level @param {Set<string>} hidden codes that are hidden @param {boolean} [isLong] whether it says that links and nodes are whole
 */
export function verdict(level, hidden, isLong = false) {
  const { F, W, N } = countsOf(level, hidden), isEnd = isFatal(level, hidden);
  const told = [F && plural(F, 'fault'), W && plural(W, 'warning'), N && plural(N, 'note')].filter(Boolean).join(', ');
  if (!told) return 'sound';
  return `${isEnd ? 'ends the game: ' : ''}${told}${isLong && level.sound && !isEnd ? ', otherwise sound' : ''}`;
}

/** What `check` tells beside its findings: that the nodes weren't built, and whether the wide reading mends all faults. @param {Lines} objects */
export function adviceOf(objects) {
  let unbuilt = '', isWide = false;
  for (const { code, from, to } of runsOf(objects)) {
    for (let k = from; !code && k < to; k++) {
      const { empty, message = '', sound_with_wide: isMended } = JSON.parse(objects.at(k));
      if (empty) unbuilt = `${sentence(message)}.`;
      isWide ||= !!isMended;
    }
  }
  return { unbuilt, isWide };
}

const SILENCING = /^F[3-9]$/; // with one of these no warning is looked for

const LISTED = ['W9', 'W10', 'W25']; // looked for only where a file lists the names

/**
 * What wasn't looked for in a level, as the program tells it, and what helps: here that is a game's file, dropped too, and for the program
 * `--base`.
 * @param {Level} level @param {string} lacking  the lumps that no file has @param {boolean} wantsGame
 */
export function unlookedWords({ sound, findings = {}, unlooked = [] }, lacking, wantsGame) {
  if (Object.keys(findings).some((code) => SILENCING.test(code))) return "Warnings aren't looked for until F3 to F9 are mended.";
  const unlisted = unlooked.filter((code) => LISTED.includes(code));
  const help = wantsGame ? "; drop the game's file, too." : '.';
  const names = unlisted.length ? `${unlisted.join(', ')} weren't looked for: no file has ${lacking}${help}` : '';
  return [sound ? '' : "W3 and W5 aren't looked for until all faults are mended.", names].filter(Boolean).join(' ');
}

/** What the picture tells of a sector or a thing, without what only the picture is about. @param {string} title */
export const inShort = (title) => title.replace(/, \d+ cells$/, '').replaceAll(', ', ' · ').replace(': ', ' · ');
