// What was found in a level, as the page lists it and as the lines of `check` have it: the lines are turned into rows by hand here, without the page's
// parts.

/** What names a record at the beginning of a finding's words, before its number. */
const NAMES = ['start vertex', 'end vertex', 'front sidedef', 'back sidedef', 'sector', 'linedef', 'segs from'];

/** Lines that the page has in other places, from the level's own object: why it isn't judged, and what wasn't looked for. */
const ELSEWHERE = ['incomplete', 'outside', 'lumps in another order', 'warnings not looked for', 'warnings W3, W5 not looked for'];

/** The words of a finding as the page has them: a record's number as its two bytes hold it, from 0 on, and a capital. @param {string} words */
function asShown(words) {
  const name = NAMES.find((one) => words.startsWith(`${one} `)), [number] = words.slice((name?.length ?? 0) + 1).split(/[ ,]/, 1);
  const isStored = name && Number.isInteger(Number(number));
  const told = isStored ? `${name} ${Uint16Array.of(Number(number))[0]}${words.slice(name.length + 1 + number.length)}` : words;
  return told[0].toUpperCase() + told.slice(1);
}

/**
 * The rows that lines of `check` about a level want: of each finding its code, where it is and its words, of each code how many more there are,
 * and what is advised.
 * @param {string} lines @param {string} path of the level's file
 */
export function wantedRows(lines, path) {
  const rows = /** @type {string[][]} */ ([]), advice = { unbuilt: '', isWide: false };
  for (const line of lines.split('\n').filter((one) => one.startsWith(`${path}: `))) {
    const [, , head, ...rest] = line.split(': '), [code, ...where] = head.split(' '), words = rest.join(': ');
    if (head === 'sound with --wide') advice.isWide = true;
    else if (line.endsWith('; build the nodes')) advice.unbuilt = `${asShown([head, ...rest].join(': '))}.`;
    else if (ELSEWHERE.includes(head)) continue;
    else if (where.length) rows.push([code, where.join(' '), asShown(words)]);
    else rows.push([code, words]);
  }
  return { rows, advice };
}

/**
 * The rows that the page lists of an answer of `check`, in the order of their objects.
 * @param {typeof import('../lines.mjs') & typeof import('../groups.mjs') & typeof import('../findings.mjs') & typeof import('../words.mjs')} page its parts
 * @param {Uint8Array} answer
 */
export function listedRows({ Lines, linesOf, listedIn, findingOf, adviceOf }, answer) {
  const objects = new Lines(linesOf(answer)), listed = listedIn(objects).sort((a, b) => a.from - b.from);
  const rows = listed.flatMap(({ code, from, to, total }) => {
    const found = Array.from({ length: to - from }, (_, n) => findingOf(objects.at(from + n), {})).map(({ where, message }) => [code, where, message]);
    return total > to - from ? [...found, [code, `${total - (to - from)} more`]] : found;
  });
  return { rows, advice: adviceOf(objects) };
}
