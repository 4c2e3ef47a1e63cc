// What came and what went of a level's findings since it was judged before.

/** @typedef {import('./findings.mjs').Finding} Finding */

/** What a finding is known by in another saving of its level: its place, where it has one, since numbers move. @param {Finding} finding */
const keyOf = ({ code, where, message, place }) => place ? `${code} ${message}` : `${code} ${where} ${message}`;

/** How often each finding is there. @param {Finding[]} findings */
function countsOf(findings) {
  /** @type {Map<string, number>} */
  const counts = new Map();
  for (const finding of findings) counts.set(keyOf(finding), (counts.get(keyOf(finding)) ?? 0) + 1);
  return counts;
}

/** The findings of a list that another one doesn't have. @param {Finding[]} findings @param {Finding[]} others */
function without(findings, others) {
  const counts = countsOf(others);
  return findings.filter((finding) => {
    const left = counts.get(keyOf(finding)) ?? 0;
    counts.set(keyOf(finding), left - 1);
    return left <= 0;
  });
}

/** What came and what went. @param {Finding[]} before @param {Finding[]} now */
export const changesOf = (before, now) => ({ came: without(now, before), went: without(before, now) });

/** The place in a list of a finding of an earlier saving; -1 where it isn't there any more. @param {Finding[]} now @param {Finding | null} finding */
export const placeAgain = (now, finding) => finding ? now.findIndex((one) => keyOf(one) === keyOf(finding)) : -1;
