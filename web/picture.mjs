// Reads the text of `picture` into numbers and titles. Nothing of it becomes markup: it is drawn on a canvas, and titles are text.

/**
 * @typedef {{ sector: number, light: number, title: string }} Shown  a sector that has cells; its light from 0 to 1
 * @typedef {{ title: string, at: number[] }} Mistaken  a line with a finding, x y x y, or the only end that is there, x y
 * @typedef {{
 *   paths: number, box: { x: number, y: number, width: number, height: number }, size: number, x0: number, y0: number,
 *   columns: number, rows: number, cells: Uint32Array, shown: Shown[], twoSided: Int32Array, oneSided: Int32Array,
 *   mistaken: Mistaken[], things: Int32Array, thingTitles: string[],
 * }} Picture  places are the map's, y upwards; `cells` has for each cell, from the lowest row on, 0 or 1 + its place in `shown`; `things`
 *   has of each x, y, the degrees from east towards north, and its place in `CLASSES`
 */

/** What a thing is to a player. */
export const CLASSES = /** @type {const} */ (['start', 'monster', 'weapon', 'key', 'other']);
/** How many numbers `things` has of each. */
export const THING = 4;

/** The light of a sector, from 0 to 1, by the grey that the engine gives its cells. @param {number} grey from 40 to 180 */
export const lightOf = (grey) => Math.max(0, Math.min(1, (grey - 40) / 140));

/** The most cells that are read: `--cells` is at most 1024. */
const MOST_CELLS = 1 << 21;
const NAMES = /** @type {Record<string, string>} */ ({ amp: '&', lt: '<', gt: '>', quot: '"' });

/** @param {string} text */
const plain = (text) => text.replace(/&(amp|lt|gt|quot);/g, (_, name) => NAMES[name]);
/** @param {string} line */
const titleOf = (line) => plain(/<title>([^<]*)<\/title>/.exec(line)?.[1] ?? '');
/** @param {string} line @param {string} name */
const textOf = (line, name) => new RegExp(` ${name}="([^"]*)"`).exec(line)?.[1] ?? '';
/** @param {string} text */
const numbersOf = (text) => text.match(/-?\d+/g)?.map(Number) ?? [];

/**
 * The picture of a text; null where it is none.
 * @param {Uint8Array} bytes @returns {Picture | null}
 */
export function read(bytes) {
  const lines = new TextDecoder().decode(bytes).split('\n');
  const [x, y, width, height] = numbersOf(textOf(lines[0], 'viewBox'));
  const ground = lines.find((line) => line.startsWith('<g class="s"'));
  if (height === undefined || !ground) return null;
  const [size, , , , x0, below] = numbersOf(textOf(ground, 'transform')), y0 = -below;
  const columns = Math.floor((width - 64) / size) + 1, rows = Math.floor((height - 64) / size) + 1;
  if (!(columns > 0 && rows > 0 && columns * rows <= MOST_CELLS)) return null;
  /** @type {Picture} */
  const picture = {
    paths: 0, box: { x, y: -y - height, width, height }, size, x0, y0, columns, rows, cells: new Uint32Array(columns * rows), shown: [],
    twoSided: new Int32Array(), oneSided: new Int32Array(), mistaken: [], things: new Int32Array(), thingTitles: [],
  };
  /** @type {number[]} */
  const things = [];
  for (const line of lines) {
    if (line.startsWith('<path class="p ')) {
      const [right, up, turn] = numbersOf(textOf(line, 'transform'));
      things.push(right, up, turn, CLASSES.findIndex((name) => textOf(line, 'class') === `p ${name}`));
      picture.thingTitles.push(titleOf(line));
    } else if (line.startsWith('<path')) {
      picture.paths++;
      addPath(picture, line);
    }
  }
  picture.things = Int32Array.from(things);
  return picture;
}

/** @param {Picture} picture @param {string} line */
function addPath(picture, line) {
  const kind = textOf(line, 'class'), path = textOf(line, 'd');
  if (kind === 't') picture.twoSided = Int32Array.from(numbersOf(path));
  else if (kind === 'w') picture.oneSided = Int32Array.from(numbersOf(path));
  else if (kind === 'f') picture.mistaken.push({ title: titleOf(line), at: numbersOf(path.split('m')[0]) }); // a ring goes on by `m`
  else if (!kind) addCells(picture, path, titleOf(line), parseInt(textOf(line, 'fill').slice(1, 3), 16)); // a warning's mark has a class
}

/**
 * Fills a sector's blocks, `M<i> <j>h<n>v<k>h-<n>z` each.
 * @param {Picture} picture @param {string} path @param {string} title @param {number} grey from 40 to 180, by the light
 */
function addCells(picture, path, title, grey) {
  const { columns, rows, cells, shown } = picture;
  shown.push({ sector: Number(/^sector (\d+)/.exec(title)?.[1] ?? -1), light: lightOf(grey), title });
  for (const [, i, j, n, k] of path.matchAll(/M(\d+) (\d+)h(\d+)v(\d+)/g)) {
    const end = Math.min(columns, Number(i) + Number(n)), top = Math.min(rows, Number(j) + Number(k));
    for (let row = Number(j); row < top; row++) cells.fill(shown.length, row * columns + Number(i), row * columns + end);
  }
}
