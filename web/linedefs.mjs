// Where the linedefs of a level lie, and which sectors they face: six numbers of each, as the engine lists them. They are x y x y of its
// vertexes, and the sectors in front and at the back.

const NUMBERS = 6;
const NOT_THERE = -(2 ** 31); // a sector that isn't there; x y x y where a vertex isn't

/**
 * x y x y of a linedef; nothing where there is no such linedef, or where it doesn't have both vertexes.
 * @param {Int32Array} linedefs @param {number} k
 */
export function lineOf(linedefs, k) {
  const at = NUMBERS * k, x = linedefs[at];
  return x === undefined || x === NOT_THERE ? [] : [...linedefs.subarray(at, at + 4)];
}

/**
 * The linedefs about each sector: those of sector `s` stand in `bounds` from place `first[s]` to `first[s + 1]`.
 * @param {Int32Array} linedefs
 */
export function boundsOf(linedefs) {
  /** @param {(sector: number, line: number) => void} act what is done for each linedef and each sector that it faces */
  const each = (act) => {
    for (let k = 0; k < linedefs.length; k += NUMBERS) {
      const front = linedefs[k + 4], back = linedefs[k + 5];
      if (front >= 0) act(front, k / NUMBERS);
      if (back >= 0 && back !== front) act(back, k / NUMBERS);
    }
  };
  let last = 0; // the greatest number of a sector
  each((sector) => { last = Math.max(last, sector); });
  const first = new Int32Array(last + 2);
  each((sector) => { first[sector + 1]++; });
  for (let sector = 1; sector < first.length; sector++) first[sector] += first[sector - 1];
  const bounds = new Int32Array(first[first.length - 1]), next = first.slice();
  each((sector, line) => { bounds[next[sector]++] = line; });
  return { first, bounds };
}

/**
 * The linedef that is nearest to a place; -1 where none is near.
 * @param {Int32Array} linedefs @param {number} x @param {number} y @param {number} near units
 */
export function lineAt(linedefs, x, y, near) {
  let nearest = near, found = -1;
  for (let k = 0; k < linedefs.length; k += NUMBERS) {
    const ax = linedefs[k], ay = linedefs[k + 1], bx = linedefs[k + 2], by = linedefs[k + 3];
    if (ax === NOT_THERE || Math.min(ax, bx) > x + nearest || Math.max(ax, bx) < x - nearest) continue;
    if (Math.min(ay, by) > y + nearest || Math.max(ay, by) < y - nearest) continue;
    const far = distance([ax, ay, bx, by], x, y);
    if (far >= nearest) continue; // of several at one place the first
    nearest = far;
    found = k / NUMBERS;
  }
  return found;
}

/** How far a place is from a line. @param {number[]} line @param {number} x @param {number} y */
export function distance([ax, ay, bx = ax, by = ay], x, y) {
  const dx = bx - ax, dy = by - ay, along = ((x - ax) * dx + (y - ay) * dy) / (dx * dx + dy * dy || 1), t = Math.max(0, Math.min(1, along));
  return Math.hypot(ax + t * dx - x, ay + t * dy - y);
}
