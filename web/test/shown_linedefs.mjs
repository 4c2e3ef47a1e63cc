// The numbers of a level's linedefs by the lines of `show`: a second reading, beside which the engine's list stands.

const NOT_THERE = -2147483648;

/** The records of a table: the words of each line, of which the first is its number. @param {string[]} lines @param {string} table */
function recordsOf(lines, table) {
  const head = lines.findIndex((line) => line.startsWith(`${table} `)), count = Number(lines[head]?.split(' ')[1] ?? 0);
  return lines.slice(head + 1, head + 1 + count).map((line) => line.split(' '));
}

/**
 * The numbers of all linedefs as the engine lists them: x y x y of the vertexes, the sectors in front and at the back.
 * @param {string} shown @param {boolean} wide
 */
export function numbersOf(shown, wide) {
  const lines = shown.split('\n'), none = wide ? '65535' : '-1';
  const [linedefs, sidedefs, vertexes, sectors] = ['LINEDEFS', 'SIDEDEFS', 'VERTEXES', 'SECTORS'].map((table) => recordsOf(lines, table));
  const sectorOf = (/** @type {any} */ side) => {
    const sector = side === none ? undefined : sidedefs[side]?.[6];
    return sectors[/** @type {any} */ (sector)] ? Number(sector) : NOT_THERE;
  };
  const numbers = linedefs.flatMap((/** @type {any[]} */ [, from, to, , , , front, back]) => {
    const [a, b] = [vertexes[from], vertexes[to]];
    const place = a && b ? [a[1], a[2], b[1], b[2]].map(Number) : Array(4).fill(NOT_THERE);
    return [...place, sectorOf(front), sectorOf(back)];
  });
  return new Uint8Array(Int32Array.from(numbers).buffer);
}
