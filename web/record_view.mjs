// What was asked of the map: a linedef, a thing, a sector or a vertex, with its facts.
import { factsOf, titleOf } from './facts.mjs';
import { Records } from './records.mjs';
import { make } from './rows.mjs';
import { get } from './words.mjs';

/** @typedef {import('./map_view.mjs').MapView} MapView @typedef {import('./level_view.mjs').Linedefs} Linedefs */

const KINDS = ['linedef', 'sector', 'thing', 'vertex'];
const MOST_LINES = 20000; // of the outline of a sector

/** The kind that a word means: its beginning will do. @param {string} word */
const kindOfWord = (word) => KINDS.find((kind) => kind.startsWith(word.toLowerCase())) ?? '';

/** What words ask for, as `linedef 12` or `l 12`; null where they ask for nothing. @param {string} words */
export function askedBy(words) {
  const [, word = '', number = ''] = /^\s*([a-z]+)\s*#?(\d+)\s*$/i.exec(words) ?? [], kind = word && kindOfWord(word);
  return kind ? { kind, index: Number(number) } : null;
}

export class RecordView {
  /** @param {MapView} map @param {() => Promise<Linedefs>} linedefs @param {() => void} closed called where it is closed by its own button */
  constructor(map, linedefs, closed) {
    this.map = map;
    this.linedefs = linedefs;
    /** @type {Records | null} */
    this.records = null;
    this.told = ''; // of what is shown
    get('unask').addEventListener('click', () => {
      this.hide();
      closed();
      get('map').focus();
    });
  }

  /** Takes the records of a level; none with null. @param {import('./records.mjs').Lumps | null} lumps @param {import('./records.mjs').Form} [form] */
  take(lumps, form) {
    this.records = lumps && new Records(lumps, form);
    if (!lumps) this.hide();
  }

  hide() {
    this.told = '';
    get('asked-part').hidden = true;
    this.map.ask(null);
  }

  /**
   * Shows a record. Whether there is one.
   * @param {string} kind of a sidedef its linedef is shown @param {number} index
   * @param {'middle' | 'there' | 'unmarked'} [way] whether it's marked and brought to the middle of the map, marked where it is, or not marked
   */
  async show(kind, index, way = 'middle') {
    const { records } = this;
    if (!records) return false;
    if (kind === 'sidedef') return this.#showSide(index, way);
    if (!KINDS.includes(kind) || !records.has(/** @type {any} */ (kind), index)) return false;
    get('asked-title').textContent = this.told = titleOf(records, kind, index);
    get('asked-facts').replaceChildren(...factsOf(records, kind, index).flatMap(([name, ...facts]) => [make('dt', '', name), make('dd', '', ...facts)]));
    get('asked-part').hidden = false;
    if (way !== 'unmarked') get('asked-part').scrollIntoView({ block: 'nearest' });
    const told = get('asked-facts').firstChild, at = way === 'unmarked' ? [] : await this.#placeOf(records, kind, index);
    if (told === get('asked-facts').firstChild) this.map.ask(at.length ? { at, kind } : null, way === 'there'); // a later one may be shown
    return true;
  }

  /** @param {number} index @param {'middle' | 'there' | 'unmarked'} way */
  #showSide(index, way) {
    const [linedef] = this.records?.linedefsOfSide(index) ?? [];
    return linedef === undefined ? Promise.resolve(false) : this.show('linedef', linedef, way);
  }

  /** Where a record is: x y, or x y x y of its lines. @param {Records} records @param {string} kind @param {number} index @returns {Promise<number[]>} */
  async #placeOf(records, kind, index) {
    if (kind === 'linedef') return records.lineOf(index);
    if (kind !== 'sector') {
      const { x, y } = kind === 'thing' ? records.thing(index) : records.vertex(index);
      return [x, y];
    }
    const { first, bounds } = await this.linedefs(), from = first[index] ?? 0, to = first[index + 1] ?? 0;
    return [...bounds.subarray(from, Math.min(to, from + MOST_LINES))].flatMap((k) => records.lineOf(k));
  }
}
