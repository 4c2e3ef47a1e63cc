// What `check` found, an object a line, as rows of the page.
import { sentence } from './words.mjs';

/**
 * @typedef {{ at?: number[], from?: number[], to?: number[], linedef?: number }} Place
 * @typedef {{ code?: string, kind?: string, index?: number | number[], message?: string, place?: Place }} Told  an object: a finding or a warning
 * @typedef {{ vertex?: Int16Array, node?: Int16Array }} Spots  x y of each vertex and of each node, where an object may want them
 * @typedef {{ code: string, where: string, message: string, title: string, place: number[] | null, linedef: number, sector: number,
 *   kind: string, index: number }} Finding  a row: its place is x y or x y x y, or that of a linedef or a sector (else -1); its title tells no place in
 *   numbers; what it is about, by its kind and index (-1 where it has none)
 */

const UNSIGNED = /\b(vertex|sidedef|sector|linedef|from) -(\d+)/g; // numbers of records, as the signed reading has them

const spotWords = (/** @type {number[]} */ [x, y]) => `(${x}, ${y})`;

/** A place in numbers, in words. @param {Place} place */
function placeWords({ at, from, to }) {
  if (at) return `, at ${spotWords(at)}`;
  return from && to ? `, from ${spotWords(from)} to ${spotWords(to)}` : '';
}

/** What of a level something was found at, in words. @param {Told} told */
function whereWords({ kind = '', index }) {
  if (index === undefined) return kind;
  return `${kind} ${Array.isArray(index) ? spotWords(index) : index}`;
}

/** Where something was found, in numbers; null where no numbers tell it. @param {Told} told @param {Spots} spots */
function placeOf({ kind = '', index, place = {} }, spots) {
  const { at, from, to, linedef } = place;
  if (at || linedef !== undefined) return at ?? null;
  if (from && to) return [...from, ...to];
  const spot = (kind === 'vertex' || kind === 'node') && spots[kind]?.subarray(2 * Number(index), 2 * Number(index) + 2);
  return spot && spot.length ? [...spot] : null;
}

/** Words with no negative number of a record: tools of mappers have none. @param {string} words */
const unsigned = (words) => words.replace(UNSIGNED, (_, what, number) => `${what} ${65536 - number}`);

/**
 * A row of what was found, of a line of `check`.
 * @param {string} line an object @param {Spots} spots @returns {Finding}
 */
export function findingOf(line, spots) {
  /** @type {Told} */
  const told = JSON.parse(line), { code = '', kind = '', index, message = '', place = {} } = told, { linedef = -1 } = place;
  const title = `${unsigned(message)}${linedef < 0 ? '' : `, of linedef ${linedef}`}`;
  return {
    code, where: whereWords(told), message: sentence(`${title}${placeWords(place)}`), title: sentence(title), place: placeOf(told, spots), linedef,
    sector: kind === 'sector' ? Number(index) : -1, kind, index: typeof index === 'number' ? index : -1,
  };
}
