// The records of a level's own lumps, by their numbers (doomdata.h). Indexes are unsigned: one that names nothing is as large as no lump has.

/** @typedef {{ thing: Uint8Array, linedef: Uint8Array, sidedef: Uint8Array, vertex: Uint8Array, sector: Uint8Array }} Lumps */
/** @typedef {keyof Lumps} Kind */
/** @typedef {'doom' | 'hexen'} Form  whose records things and linedefs are */

/** The number of each lump behind the level's label, and how many bytes a record of it has. */
export const TABLES = /** @type {[Kind, number, number][]} */ ([['thing', 1, 10], ['linedef', 2, 14], ['sidedef', 3, 30], ['vertex', 4, 4], ['sector', 8, 26]]);
const DOOM_SIZES = /** @type {Record<Kind, number>} */ (Object.fromEntries(TABLES.map(([kind, , size]) => [kind, size])));
const SIZES = { doom: DOOM_SIZES, hexen: { ...DOOM_SIZES, thing: 20, linedef: 16 } };
/** The number of a side that isn't there. */
export const NO_SIDE = 65535;

/** Lists of numbers by a number: those of key `key` stand in `list` from place `first[key]` to `first[key + 1]`. */
class Index {
  /** @param {number} count of all @param {(k: number) => number[]} keys of each, up to 65535 */
  constructor(count, keys) {
    this.first = new Uint32Array(65537);
    for (let k = 0; k < count; k++) for (const key of keys(k)) this.first[key + 1]++;
    for (let key = 1; key < this.first.length; key++) this.first[key] += this.first[key - 1];
    this.list = new Uint32Array(this.first[65536]);
    const next = this.first.slice();
    for (let k = 0; k < count; k++) for (const key of keys(k)) this.list[next[key]++] = k;
  }

  /** @param {number} key */
  of(key) {
    return this.list.subarray(this.first[key], this.first[key + 1]);
  }
}

export class Records {
  /** @param {Lumps} lumps @param {Form} [form] */
  constructor(lumps, form = 'doom') {
    this.lumps = lumps;
    this.form = form;
    this.sizes = SIZES[form];
    const viewOf = (/** @type {Uint8Array} */ { buffer, byteOffset }) => new DataView(buffer, byteOffset);
    this.views = /** @type {Record<Kind, DataView>} */ (Object.fromEntries(TABLES.map(([kind]) => [kind, viewOf(lumps[kind])])));
    /** @type {Map<string, Index>} made once they are asked for */
    this.indexes = new Map();
  }

  /** How many records there are. @param {Kind} kind */
  count(kind) {
    return Math.floor(this.lumps[kind].length / this.sizes[kind]);
  }

  /** Whether there is such a record. @param {Kind} kind @param {number} k */
  has(kind, k) {
    return k >= 0 && k < this.count(kind);
  }

  /** The unsigned words of a record. @param {Kind} kind @param {number} k @param {...number} places in it */
  #words(kind, k, ...places) {
    return places.map((place) => this.views[kind].getUint16(this.sizes[kind] * k + place, true));
  }

  /** The signed words of a record. @param {Kind} kind @param {number} k @param {...number} places in it */
  #signed(kind, k, ...places) {
    return places.map((place) => this.views[kind].getInt16(this.sizes[kind] * k + place, true));
  }

  /** A name of eight bytes, up to the first NUL. @param {Kind} kind @param {number} k @param {number} place */
  #name(kind, k, place) {
    const at = this.sizes[kind] * k + place;
    return [...this.lumps[kind].subarray(at, at + 8)].map((byte) => String.fromCharCode(byte)).join('').split('\0')[0];
  }

  /** A special and its five arguments, a byte each. @param {Kind} kind @param {number} k @param {number} place in it */
  #action(kind, k, place) {
    const at = this.sizes[kind] * k + place, [special, ...args] = this.lumps[kind].subarray(at, at + 6);
    return { special, args };
  }

  /** @param {number} k */
  linedef(k) {
    if (this.form === 'hexen') {
      const [from, to, flags, front, back] = this.#words('linedef', k, 0, 2, 4, 12, 14);
      return { from, to, flags, ...this.#action('linedef', k, 6), tag: 0, front, back };
    }
    const [from, to, flags, special, tag, front, back] = this.#words('linedef', k, 0, 2, 4, 6, 8, 10, 12);
    return { from, to, flags, special, args: /** @type {number[]} */ ([]), tag, front, back };
  }

  /** @param {number} k */
  sidedef(k) {
    const [x, y] = this.#signed('sidedef', k, 0, 2), [sector] = this.#words('sidedef', k, 28), [upper, lower, middle] = [4, 12, 20].map((at) => this.#name('sidedef', k, at));
    return { x, y, upper, lower, middle, sector };
  }

  /** @param {number} k */
  vertex(k) {
    const [x, y] = this.#signed('vertex', k, 0, 2);
    return { x, y };
  }

  /** @param {number} k */
  sector(k) {
    const [floor, ceiling, light] = this.#signed('sector', k, 0, 2, 20), [special, tag] = this.#words('sector', k, 22, 24);
    return { floor, ceiling, floorFlat: this.#name('sector', k, 4), ceilingFlat: this.#name('sector', k, 12), light, special, tag };
  }

  /** Height, identifier, special and arguments are Hexen's. @param {number} k */
  thing(k) {
    if (this.form === 'hexen') {
      const [id, kind, flags] = this.#words('thing', k, 0, 10, 12), [x, y, z, angle] = this.#signed('thing', k, 2, 4, 6, 8);
      return { x, y, z, angle, kind, flags, id, ...this.#action('thing', k, 14) };
    }
    const [x, y, angle] = this.#signed('thing', k, 0, 2, 4), [kind, flags] = this.#words('thing', k, 6, 8);
    return { x, y, z: 0, angle, kind, flags, id: 0, special: 0, args: /** @type {number[]} */ ([]) };
  }

  /** @param {string} name @param {Kind} kind @param {(k: number) => number[]} keys @param {number} key */
  #listed(name, kind, keys, key) {
    const index = this.indexes.get(name) ?? new Index(this.count(kind), keys);
    this.indexes.set(name, index);
    return index.of(key);
  }

  /** The sectors with a tag. @param {number} tag */
  sectorsOf(tag) {
    return this.#listed('tagged sectors', 'sector', (k) => [this.sector(k).tag], tag);
  }

  /** The linedefs with a tag. @param {number} tag */
  linedefsOf(tag) {
    return this.#listed('tagged linedefs', 'linedef', (k) => [this.linedef(k).tag], tag);
  }

  /** The linedefs that have a sidedef. @param {number} sidedef */
  linedefsOfSide(sidedef) {
    const places = this.form === 'hexen' ? [12, 14] : [10, 12];
    return this.#listed('sides', 'linedef', (k) => this.#words('linedef', k, ...places), sidedef);
  }

  /** The linedefs that begin or end at a vertex. @param {number} vertex */
  linedefsAt(vertex) {
    return this.#listed('ends', 'linedef', (k) => [...new Set(this.#words('linedef', k, 0, 2))], vertex);
  }

  /** x y x y of a linedef; nothing where it hasn't both vertexes. @param {number} k @returns {number[]} */
  lineOf(k) {
    const { from, to } = this.linedef(k);
    if (!this.has('vertex', from) || !this.has('vertex', to)) return [];
    const [a, b] = [this.vertex(from), this.vertex(to)];
    return [a.x, a.y, b.x, b.y];
  }
}
