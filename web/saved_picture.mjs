// The picture that is saved: the engine's, in the colours that the page has now, and with the marks of what was found.
import { cellColour } from './inks.mjs';
import { CLASSES, lightOf } from './picture.mjs';

/** @typedef {import('./inks.mjs').Theme} Theme @typedef {import('./inks.mjs').Colour} Colour @typedef {import('./map_view.mjs').FindingPlace} FindingPlace */

const RING = 24; // units about a place
const ENTITIES = /** @type {Record<string, string>} */ ({ '&': '&amp;', '<': '&lt;', '>': '&gt;', '"': '&quot;' });

/** @param {Colour} colour */
const hex = (colour) => `#${colour.map((part) => Math.round(part).toString(16).padStart(2, '0')).join('')}`;
/** @param {string} text */
const escaped = (text) => text.replace(/[&<>"]/g, (sign) => ENTITIES[sign]);

/** The style of the page's colours: marks lie on cases, as on the page. @param {Theme} theme */
function styleOf({ inks }) {
  const ink = Object.fromEntries(Object.entries(inks).map(([name, colour]) => [name, hex(colour)]));
  return [
    'path{vector-effect:non-scaling-stroke;stroke-linecap:round}', '.s{shape-rendering:crispEdges}', `.s path:hover{fill:${ink.accent}}`,
    `.w{fill:none;stroke:${ink.wall};stroke-width:1.5}`, `.t{fill:none;stroke:${ink.step};stroke-width:1}`,
    `.f,.a,.found path{fill:none;stroke:${ink.fault};stroke-width:3.5}`, `.found .case{stroke:${ink.void};stroke-width:6}`,
    `.p{vector-effect:none;stroke:${ink.void};stroke-width:5;paint-order:stroke}`, ...CLASSES.map((name) => `.${name}{fill:${ink[name]}}`), `.p:hover{fill:${ink.ink}}`,
  ].join('');
}

/** The shape of a finding's place: its lines, or a ring about a point. @param {number[]} at */
function shapeOf(at) {
  if (at.length < 4) return `M${at[0] + RING} ${at[1]}a${RING} ${RING} 0 1 0 ${-2 * RING} 0a${RING} ${RING} 0 1 0 ${2 * RING} 0`;
  let shape = '';
  for (let k = 0; k + 3 < at.length; k += 4) shape += `M${at[k]} ${at[k + 1]}L${at[k + 2]} ${at[k + 3]}`;
  return shape;
}

/** The marks of all places, each with what was found there. @param {FindingPlace[]} places */
function marksOf(places) {
  if (!places.length) return '';
  const marks = places.map(({ at, title }) => `<path d="${shapeOf(at)}"><title>${escaped(title)}</title></path>\n`);
  return `<g class="found">\n<path class="case" d="${places.map(({ at }) => shapeOf(at)).join('')}"/>\n${marks.join('')}</g>\n`;
}

/**
 * A picture in the page's colours.
 * @param {Uint8Array} bytes the engine's @param {Theme} theme @param {FindingPlace[]} places that are marked
 */
export function savedPicture(bytes, theme, places) {
  const ground = (/** @type {string} */ _, /** @type {string} */ grey) => `<path fill="${hex(cellColour(theme, lightOf(parseInt(grey, 16)), 'unknown', false))}"`;
  const text = new TextDecoder().decode(bytes)
    .replace(/<style>[^<]*<\/style>/, `<style>${styleOf(theme)}</style>`)
    .replace(/(<rect [^>]* fill=")[^"]*/, `$1${hex(theme.inks.void)}`)
    .replace(/<path fill="#([0-9a-f]{2})[0-9a-f]{4}"/g, ground);
  const end = text.lastIndexOf('</g></svg>');
  return end < 0 ? text : `${text.slice(0, end)}${marksOf(places)}${text.slice(end)}`;
}
