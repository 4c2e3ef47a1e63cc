// What a linedef, a thing, a sector or a vertex is, in words and with links to what it belongs to.
import { link, numbers } from './links.mjs';
import { NO_SIDE } from './records.mjs';
import { linedefSpecial, sectorSpecial } from './specials.mjs';
import { kindOf } from './thing_kinds.mjs';
import { sentence } from './words.mjs';

/** @typedef {import('./records.mjs').Records} Records */
/** @typedef {[string, ...(Node | string)[]]} Fact  what it is about, and what is so */

/** The flags of a linedef, from bit 0 on (ML_ of doomdata.h). */
const LINE_FLAGS = ['impassable', 'blocks monsters', 'two-sided', 'upper unpegged', 'lower unpegged', 'secret: shown as a wall', 'blocks sound', 'never on the map', 'on the map at once'];
const SKILLS = ['easy', 'medium', 'hard'];
const DEAF = 8, MULTIPLAYER = 16;
const WINDS = ['east', 'north-east', 'north', 'north-west', 'west', 'south-west', 'south', 'south-east'];

/** @param {number} flags */
const flagWords = (flags) => LINE_FLAGS.filter((_, bit) => flags & (1 << bit)).join(', ') || 'none';
/** The direction that the game makes of an angle: one of eight (P_SpawnMapThing). @param {number} angle */
const windOf = (angle) => WINDS[((Math.trunc(angle / 45) % 8) + 8) % 8];
/** @param {number} flags */
const skillWords = (flags) => SKILLS.filter((_, bit) => flags & (1 << bit)).join(', ') || 'none';
/** @param {{ x: number, y: number }} at */
const spot = ({ x, y }) => `(${x}, ${y})`;

/** A link to a record, where it is there. @param {Records} records @param {import('./records.mjs').Kind} kind @param {number} k */
const linkTo = (records, kind, k) => records.has(kind, k) ? link(kind, k) : `${kind} ${k}, which isn't there`;

/** @param {Records} records @param {number} special @param {number} tag */
function tagFact(records, special, tag) {
  const sectors = records.sectorsOf(tag);
  if (!tag) return special ? [`0, which ${sectors.length} sectors have`] : ['0'];
  return sectors.length ? [`${tag}, of sectors `, numbers('sector', sectors)] : [`${tag}, which no sector has`];
}

/** A side of a linedef. @param {Records} records @param {number} k its sidedef @returns {(Node | string)[]} */
function sideFact(records, k) {
  if (k === NO_SIDE) return ['none'];
  if (!records.has('sidedef', k)) return [`sidedef ${k}, which isn't there`];
  const { x, y, upper, middle, lower, sector } = records.sidedef(k), moved = x || y ? `, moved by ${spot({ x, y })}` : '';
  return [`sidedef ${k}, `, linkTo(records, 'sector', sector), `: upper ${upper}, middle ${middle}, lower ${lower}${moved}`];
}

/** How long a linedef is, to a tenth. @param {number[]} at */
const lengthOf = ([ax, ay, bx, by]) => String(Math.round(10 * Math.hypot(bx - ax, by - ay)) / 10);

/** A special of Hexen's by its numbers alone: what it does isn't known here. @param {number} special @param {number[]} args @returns {Fact} */
const actionFact = (special, args) => ['Special', special ? `${special}, arguments ${args.join(' ')}` : 'none'];

/** @type {Record<string, (records: Records, k: number) => Fact[]>} */
const FACTS = {
  linedef(records, k) {
    const { from, to, flags, special, args, tag, front, back } = records.linedef(k), at = records.lineOf(k);
    /** @type {Fact[]} */
    const length = at.length ? [['Length', lengthOf(at)]] : [];
    /** @type {Fact[]} */
    const action = records.form === 'hexen' ? [actionFact(special, args)]
      : [['Special', `${special}: ${linedefSpecial(special)}`], ['Tag', ...tagFact(records, special, tag)]];
    return [
      ...action, ['Flags', flagWords(flags)], ['Front', ...sideFact(records, front)], ['Back', ...sideFact(records, back)],
      ['Ends', linkTo(records, 'vertex', from), ' to ', linkTo(records, 'vertex', to)], ...length,
    ];
  },
  thing(records, k) {
    const { x, y, z, angle, kind, flags, id, special, args } = records.thing(k), { group } = kindOf(kind);
    if (records.form === 'hexen') {
      return [
        ['Type', String(kind)], ['Place', `${spot({ x, y })}, ${z} above the floor`], ['Faces', `${windOf(angle)}, ${angle}°`], ['Skills', skillWords(flags)],
        ['Flags', String(flags)], ['Identifier', String(id)], actionFact(special, args),
      ];
    }
    return [
      ['Type', `${kind}${group ? `, ${group}` : ''}`], ['Place', spot({ x, y })], ['Faces', `${windOf(angle)}, ${angle}°`], ['Skills', skillWords(flags)],
      ['Flags', [flags & DEAF && 'waits until it sees or is hit', flags & MULTIPLAYER && 'not in a single game'].filter(Boolean).join(', ') || 'none'],
    ];
  },
  sector(records, k) {
    const { floor, ceiling, floorFlat, ceilingFlat, light, special, tag } = records.sector(k), isHexen = records.form === 'hexen';
    const tagged = tag && !isHexen ? records.linedefsOf(tag) : [];
    /** @type {Fact[]} */
    const planes = [['Floor', `${floor}, ${floorFlat}`], ['Ceiling', `${ceiling}, ${ceilingFlat}`], ['Height', String(ceiling - floor)], ['Light', String(light)]];
    if (isHexen) return [...planes, ['Special', String(special)], ['Tag', String(tag)]];
    return [
      ...planes,
      ['Special', `${special}: ${sectorSpecial(special)}`],
      ['Tag', ...(tagged.length ? [`${tag}, of linedefs `, numbers('linedef', tagged)] : [`${tag}${tag ? ', which no linedef has' : ''}`])],
    ];
  },
  vertex(records, k) {
    const lines = records.linedefsAt(k);
    return [['Place', spot(records.vertex(k))], ['Linedefs', ...(lines.length ? [numbers('linedef', lines)] : ['none'])]];
  },
};

/** What is told of a record. @param {Records} records @param {string} kind @param {number} k @returns {Fact[]} */
export const factsOf = (records, kind, k) => FACTS[kind](records, k);

/** A record's name; what Hexen's things are called isn't known here. @param {Records} records @param {string} kind @param {number} k */
export const titleOf = (records, kind, k) =>
  `${sentence(kind)} ${k}${kind === 'thing' && records.form === 'doom' ? `: ${kindOf(records.thing(k).kind).name}` : ''}`;

/** A record in few words, for the line under the map. @param {Records} records @param {string} kind @param {number} k */
export function inFewWords(records, kind, k) {
  const isHexen = records.form === 'hexen';
  if (kind === 'thing') {
    const { angle, kind: type, flags } = records.thing(k), { name, group } = isHexen ? { name: `type ${type}`, group: '' } : kindOf(type);
    return `thing ${k}: ${[name, group, `faces ${windOf(angle)}`, `in ${skillWords(flags)}`].filter(Boolean).join(' · ')}`;
  }
  const { special, tag, back } = records.linedef(k);
  return `linedef ${k}: ${[back === NO_SIDE ? 'one-sided' : 'two-sided', special && (isHexen ? `special ${special}` : linedefSpecial(special)), tag && `tag ${tag}`].filter(Boolean).join(' · ')}`;
}
