// The map's colours: what page.css says for the theme, and how a sector's cells are tinted.

/** @typedef {[number, number, number]} Colour */
/** @typedef {{ inks: Record<string, Colour>, here: number, clear: number }} Theme  how much of the tint the pinned sector has, and those it sees */
/** @typedef {'here' | 'clear' | 'blocked' | 'unknown'} Sight  what is known of a sector from the pinned one, which is `here`; all are unknown without one */

/** Of ink, by their names in page.css. */
const INKS = ['void', 'cell-dark', 'cell-light', 'wall', 'step', 'start', 'monster', 'weapon', 'key', 'other', 'tint', 'accent', 'fault', 'ink'];
const UNDER = 0.14; // of the accent, in the sector under the pointer

/** @param {Colour} a @param {Colour} b @param {number} part of b @returns {Colour} */
const mix = (a, b, part) => /** @type {Colour} */ (a.map((from, k) => from + (b[k] - from) * part));
/** @param {Colour} colour as a pixel of an image */
export const pixel = ([r, g, b]) => (255 << 24 | Math.round(b) << 16 | Math.round(g) << 8 | Math.round(r)) >>> 0;
/** @param {Colour} colour @param {number} [alpha] */
export const css = ([r, g, b], alpha = 1) => `rgb(${r} ${g} ${b} / ${alpha})`;

/** What page.css says now. @returns {Theme} */
export function themeNow() {
  const style = getComputedStyle(document.documentElement), value = (/** @type {string} */ name) => style.getPropertyValue(`--${name}`).trim();
  const inks = INKS.map((name) => {
    const digits = value(name).slice(1);
    return [name, /** @type {Colour} */ ([0, 2, 4].map((k) => parseInt(digits.slice(k, k + 2), 16)))];
  });
  return { inks: Object.fromEntries(inks), here: parseFloat(value('here')), clear: parseFloat(value('clear')) };
}

/**
 * The colour of a sector's cells. What REJECT doesn't tell stays as it is.
 * @param {Theme} theme @param {number} light from 0 to 1 @param {Sight} sight @param {boolean} isUnder whether the pointer is over it
 * @returns {Colour}
 */
export function cellColour({ inks, here, clear }, light, sight, isUnder) {
  const cell = mix(inks['cell-dark'], inks['cell-light'], light), lit = isUnder ? UNDER : 0;
  switch (sight) {
    case 'here': return mix(mix(cell, inks.tint, here), inks.accent, lit);
    case 'clear': return mix(mix(cell, inks.tint, clear), inks.accent, lit);
    case 'blocked': return mix(mix(cell, inks.void, 0.55), inks.accent, lit);
    default: return mix(cell, inks.accent, lit);
  }
}
