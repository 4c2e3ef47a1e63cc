// What can be read of a level that isn't judged, by the formats (doomdata.h, and Hexen's xddefs.h): a second reading, beside which the engine's
// numbers stand.

const NOT_THERE = -2147483648, LOST = -1, NO_SIDE = 65535, MOST_OWN = 11;
const OWN = ['THINGS', 'LINEDEFS', 'SIDEDEFS', 'VERTEXES', 'SEGS', 'SSECTORS', 'NODES', 'SECTORS', 'REJECT', 'BLOCKMAP', 'BEHAVIOR'];

/** The entries of a file: their names, and their lumps where these are inside it. @param {DataView} view */
function entriesOf(view) {
  const count = view.getInt32(4, true), directory = view.getInt32(8, true), decoder = new TextDecoder('latin1');
  return Array.from({ length: count }, (_, k) => {
    const entry = directory + 16 * k, at = view.getInt32(entry, true), size = view.getInt32(entry + 4, true);
    const isInside = size === 0 || (size > 0 && at >= 0 && at + size <= view.byteLength);
    const name = decoder.decode(new Uint8Array(view.buffer, view.byteOffset + entry + 8, 8)).split('\0')[0];
    return { name, lump: isInside ? new DataView(view.buffer, view.byteOffset + (size && at), size) : null };
  });
}

/**
 * The numbers of a level that is drawn without being judged.
 * @param {Uint8Array} file @param {number} label the number of its entry
 */
export function sketchedNumbers(file, label) {
  const behind = entriesOf(new DataView(file.buffer, file.byteOffset, file.length)).slice(label + 1, label + 1 + MOST_OWN);
  const end = behind.findIndex(({ name }) => !OWN.includes(name)), own = end < 0 ? behind : behind.slice(0, end);
  const isHexen = own.some(({ name }) => name === 'BEHAVIOR');
  const sizes = /** @type {Record<string, number>} */ ({ THINGS: isHexen ? 20 : 10, LINEDEFS: isHexen ? 16 : 14, SIDEDEFS: 30, VERTEXES: 4, SECTORS: 26 });
  const lumpOf = (/** @type {string} */ name) => own.find((one) => one.name === name)?.lump, counts = /** @type {Record<string, number>} */ ({});
  const head = Object.entries(sizes).flatMap(([name, size]) => {
    const place = own.findIndex((one) => one.name === name) + 1, length = lumpOf(name)?.byteLength ?? -1;
    counts[name] = Math.max(0, Math.floor(length / size));
    return [place || NOT_THERE, ...length < 0 ? [NOT_THERE, NOT_THERE] : [counts[name], length % size]];
  });
  const word = (/** @type {string} */ name, /** @type {number} */ k, /** @type {number} */ at) => lumpOf(name)?.getUint16(sizes[name] * k + at, true) ?? 0;
  const signed = (/** @type {string} */ name, /** @type {number} */ k, /** @type {number} */ at) => lumpOf(name)?.getInt16(sizes[name] * k + at, true) ?? 0;
  const sectorOf = (/** @type {number} */ side) => {
    const sector = side < counts.SIDEDEFS ? word('SIDEDEFS', side, 28) : counts.SECTORS;
    return sector < counts.SECTORS ? sector : LOST;
  };
  const sides = isHexen ? [12, 14] : [10, 12], spot = isHexen ? [2, 4, 8, 10] : [0, 2, 4, 6];
  const linedefs = Array.from({ length: counts.LINEDEFS }, (_, k) => {
    const [from, to] = [0, 2].map((at) => word('LINEDEFS', k, at)), isThere = Math.max(from, to) < counts.VERTEXES;
    const place = [from, to].flatMap((vertex) => [0, 2].map((at) => isThere ? signed('VERTEXES', vertex, at) : NOT_THERE));
    return [...place, ...sides.map((at) => word('LINEDEFS', k, at)).map((side) => side === NO_SIDE ? NOT_THERE : sectorOf(side))];
  });
  const things = Array.from({ length: counts.THINGS }, (_, k) => {
    const [x, y, angle, kind] = spot.map((at) => signed('THINGS', k, at));
    return [x, y, 45 * Math.trunc(angle / 45), kind];
  });
  return Int32Array.from([Number(isHexen), ...head, ...linedefs.flat(), ...things.flat()]);
}
