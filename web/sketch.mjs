// What can be read of a level that isn't judged: the engine's numbers of it, as a picture.
import { CLASSES, THING } from './picture.mjs';
import { kindOf } from './thing_kinds.mjs';

/** @typedef {import('./picture.mjs').Picture} Picture @typedef {import('./records.mjs').Kind} Kind */
/** @typedef {import('./records.mjs').Form} Form */
/**
 * @typedef {{ place: number, count: number, rest: number }} Found  of a lump: its place behind the label, how many records of it are whole, and how many bytes
 *   are left over; -1 stands for a place of no lump, and for the others where the lump isn't inside its file
 * @typedef {{ form: Form, lumps: Record<Kind, Found>, linedefs: Int32Array, lost: number, picture: Picture | null }} Sketch  whose records the level has;
 *   the numbers of its linedefs, as linedefs.mjs has them, and how many of them have no place; there is no picture where nothing has one
 */

/** The lumps that are told of, in the order of the numbers. */
export const LUMPS = /** @type {[Kind, string][]} */ ([['thing', 'THINGS'], ['linedef', 'LINEDEFS'], ['sidedef', 'SIDEDEFS'], ['vertex', 'VERTEXES'], ['sector', 'SECTORS']]);
const FORMS = /** @type {const} */ (['doom', 'hexen']);
const HEAD = 16, LINEDEF = 6, NOT_THERE = -(2 ** 31);
const MARGIN = 32; // units about the frame, as in the engine's pictures
/** What Hexen's things are isn't known here, but for these. */
const HEXEN_STARTS = [1, 2, 3, 4, 11];

const other = CLASSES.indexOf('other');

/** The place of a thing's class in `CLASSES`. @param {Form} form @param {number} kind */
function classOf(form, kind) {
  if (form === 'hexen') return HEXEN_STARTS.includes(kind) ? CLASSES.indexOf('start') : other;
  const at = CLASSES.findIndex((name) => name === kindOf(kind).group);
  return at < 0 ? other : at;
}

/**
 * The bounds of places, x0 y0 x1 y1; null where there are none.
 * @param {Int32Array} numbers @param {number} step from one row of them to the next @param {number} many places stand at the front of each row
 */
function boundsOf(numbers, step, many) {
  let [x0, y0, x1, y1] = [Infinity, Infinity, -Infinity, -Infinity];
  for (let k = 0; k < numbers.length; k += step) {
    for (let at = k; at < k + 2 * many && numbers[k] !== NOT_THERE; at += 2) {
      x0 = Math.min(x0, numbers[at]);
      x1 = Math.max(x1, numbers[at]);
      y0 = Math.min(y0, numbers[at + 1]);
      y1 = Math.max(y1, numbers[at + 1]);
    }
  }
  return x0 <= x1 ? [x0, y0, x1, y1] : null;
}

/** x y x y of linedefs that have a place: of those with a side at their back, or of the others. @param {Int32Array} linedefs @param {boolean} isTwoSided */
function linesOf(linedefs, isTwoSided) {
  const isOne = (/** @type {number} */ k) => linedefs[k] !== NOT_THERE && (linedefs[k + 5] !== NOT_THERE) === isTwoSided;
  let count = 0;
  for (let k = 0; k < linedefs.length; k += LINEDEF) if (isOne(k)) count++;
  const lines = new Int32Array(4 * count);
  for (let k = 0, at = 0; k < linedefs.length; k += LINEDEF) {
    if (!isOne(k)) continue;
    lines.set(linedefs.subarray(k, k + 4), at);
    at += 4;
  }
  return lines;
}

/**
 * The picture of linedefs and things, as large as the linedefs need; null where nothing has a place.
 * @param {Int32Array} linedefs @param {Int32Array} things @returns {Picture | null}
 */
function pictureOf(linedefs, things) {
  const bounds = boundsOf(linedefs, LINEDEF, 2) ?? boundsOf(things, THING, 1);
  if (!bounds) return null;
  const [x0, y0, x1, y1] = bounds;
  return {
    paths: 2, box: { x: x0 - MARGIN, y: y0 - MARGIN, width: x1 - x0 + 2 * MARGIN, height: y1 - y0 + 2 * MARGIN }, size: 1, x0, y0, columns: 1, rows: 1,
    cells: new Uint32Array(1), shown: [], twoSided: linesOf(linedefs, true), oneSided: linesOf(linedefs, false), mistaken: [], things,
    thingTitles: Array.from({ length: things.length / THING }, (_, k) => `thing ${k}`),
  };
}

/**
 * The sketch of the engine's numbers.
 * @param {Int32Array} numbers @returns {Sketch}
 */
export function sketchOf(numbers) {
  const form = FORMS[numbers[0]], told = (/** @type {number} */ at) => numbers[at] === NOT_THERE ? -1 : numbers[at];
  const lumps = /** @type {Record<Kind, Found>} */ (Object.fromEntries(LUMPS.map(([kind], k) => {
    const [place, count, rest] = [1, 2, 3].map((n) => told(3 * k + n));
    return [kind, { place, count, rest }];
  })));
  const things = HEAD + LINEDEF * Math.max(0, lumps.linedef.count), linedefs = numbers.slice(HEAD, things), placed = numbers.slice(things);
  for (let k = 3; k < placed.length; k += THING) placed[k] = classOf(form, placed[k]);
  let lost = 0;
  for (let k = 0; k < linedefs.length; k += LINEDEF) if (linedefs[k] === NOT_THERE) lost++;
  return { form, lumps, linedefs, lost, picture: pictureOf(linedefs, placed) };
}

/** A picture as the text that is saved, which has neither colours nor marks yet. @param {string} title @param {Picture} picture */
export function textOf(title, { box: { x, y, width, height }, oneSided, twoSided, things }) {
  const top = -y - height, longest = Math.max(width, height), size = [width, height].map((side) => Math.max(1, Math.round(1024 * side / longest)));
  const pathOf = (/** @type {Int32Array} */ at) => Array.from({ length: at.length / 4 }, (_, k) => `M${at[4 * k]} ${at[4 * k + 1]}L${at[4 * k + 2]} ${at[4 * k + 3]}`).join('');
  const dart = (/** @type {number} */ k) => {
    const [right, up, turn, kind] = things.subarray(THING * k, THING * k + THING);
    return `<path class="p ${CLASSES[kind]}" transform="translate(${right} ${up})rotate(${turn})" d="M20 0L-12 14v-28z"><title>thing ${k}</title></path>`;
  };
  return [
    `<svg xmlns="http://www.w3.org/2000/svg" viewBox="${x} ${top} ${width} ${height}" width="${size[0]}" height="${size[1]}">`,
    `<title>${title.replace(/[&<>"]/g, (sign) => `&#${sign.charCodeAt(0)};`)}</title>`, '<style></style>',
    `<rect x="${x}" y="${top}" width="${width}" height="${height}" fill=""/>`, '<g transform="matrix(1 0 0 -1 0 0)">',
    `<path class="t" d="${pathOf(twoSided)}"/>`, `<path class="w" d="${pathOf(oneSided)}"/>`,
    ...Array.from({ length: things.length / THING }, (_, k) => dart(k)), '</g></svg>', '',
  ].join('\n');
}
