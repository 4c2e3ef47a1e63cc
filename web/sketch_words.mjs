// What can be read of a level that isn't judged, and what to do next, in words.
import { LUMPS } from './sketch.mjs';
import { plural } from './words.mjs';

/** @typedef {import('./words.mjs').Level} Level @typedef {import('./sketch.mjs').Sketch} Sketch */
/** @typedef {{ name: string, size: number }} Part  a lump behind a level's label, and its bytes */

/** What is read of a level: its records, and what is cut short or isn't there. @param {Sketch} sketch */
export function whatIsThere({ lumps, lost }) {
  const found = LUMPS.map(([kind, name]) => ({ name, ...lumps[kind] })), whole = found.filter(({ count }) => count >= 0);
  const told = (/** @type {typeof found} */ some, /** @type {(one: typeof found[0]) => string} */ words) => some.map(words).join(', ');
  const sentences = [
    whole.length ? `There: ${told(whole, ({ name, count }) => `${name} ${count}`)}.` : '',
    told(found.filter(({ rest }) => rest > 0), ({ name, rest }) => `${name} ends within a record, ${plural(rest, 'byte')} left over`),
    told(found.filter(({ place, count }) => place > 0 && count < 0), ({ name }) => `${name} isn't inside the file`),
    whole.length ? told(found.filter(({ place }) => place < 0), ({ name }) => `${name} isn't there`) : '',
    lost ? `${plural(lost, 'linedef')} without a place: of each a vertex isn't there` : '',
  ];
  return sentences.filter(Boolean).map((words) => words.endsWith('.') ? words : `${words}.`).join(' ');
}

/** What nodes of a later format are. */
const NODES = /** @type {Record<string, string>} */ ({
  XNOD: "ZDoom's extended nodes", ZNOD: "ZDoom's extended nodes, compressed", xNd4: "DeePBSP's nodes", XGLN: 'GL nodes', XGL2: 'GL nodes', XGL3: 'GL nodes',
  ZGLN: 'GL nodes, compressed', ZGL2: 'GL nodes, compressed', ZGL3: 'GL nodes, compressed',
});
/** What a node builder makes of the other lumps. */
const BUILT = ['SEGS', 'SSECTORS', 'NODES', 'REJECT', 'BLOCKMAP'];
const IN_DOOM_FORMAT = 'To have it judged, give a copy Doom\'s own format: in Ultimate Doom Builder by Map Options, with a configuration "(Doom format)". The copy loses what only this format has.';

const TEN = ['THINGS', 'LINEDEFS', 'SIDEDEFS', 'VERTEXES', 'SEGS', 'SSECTORS', 'NODES', 'SECTORS', 'REJECT', 'BLOCKMAP'];

/** What follows the label of a level that isn't read. @param {Part[]} parts */
export const partWords = (parts) => `There: ${parts.map(({ name, size }) => `${name} ${plural(size, 'byte')}`).join(', ')}.`;

/** What to do about a lump that isn't where it belongs. @param {string} lump @param {Sketch} sketch @param {Part[]} parts */
function ofIncomplete(lump, { lumps, form }, parts) {
  const isThere = (/** @type {string} */ name) => parts.some((part) => part.name === name), drawn = LUMPS.slice(1);
  if (TEN.every(isThere)) return `Its ten lumps are there in another order than ${TEN.join(', ')}: a node builder or an editor puts them in order.`;
  if (!BUILT.includes(lump) || !drawn.every(([kind]) => lumps[kind].count >= 0)) return `${lump} was never written, or was lost: save the level in its editor again.`;
  const hexen = form === 'hexen' ? " It is in Hexen's format, which isn't judged then either." : '';
  return `Its nodes weren't built. “zdbsp -o built.wad file.wad” builds SEGS to BLOCKMAP, and so does an editor that saves it with a node builder.${hexen}`;
}

/** What to do about nodes that are broken. @param {string} tag */
const ofBroken = (tag) => `Its nodes, ${NODES[tag] ?? tag}, are broken: they were cut short, or VERTEXES was changed after they were built. Build them anew, as by `
  + '“zdbsp -o copy.wad file.wad”.';

/** Why a level isn't judged, and what to do next. @param {Level} level @param {Sketch} sketch @param {Part[]} parts */
export function whatNext({ format, tag = '', lump = '', broken }, sketch, parts) {
  switch (format) {
    case 'udmf': return `A level of UDMF is a text. What is judged here are Doom's own records and nodes. ${IN_DOOM_FORMAT}`;
    case 'hexen': return `Hexen's records are drawn here, and not judged: their specials and scripts are others than Doom's. ${IN_DOOM_FORMAT}`;
    case 'extended': return broken ? ofBroken(tag) : `Its nodes are of a later format, ${NODES[tag] ?? tag}, and aren't read here. To have it judged, build Doom's own nodes into a copy, as by `
      + '“zdbsp -o copy.wad file.wad”. Of a level that is too large for these, read the copy with wide indexes.';
    case 'outside': return `The file ends before ${lump} does, or its directory is wrong: get the file anew, or save it again.`;
    default: return ofIncomplete(lump, sketch, parts);
  }
}
