// The worked cases of levels, files and demos, each under its name, and the lines of input that they are asked with.
import { readFileSync } from 'node:fs';
import { join } from 'node:path';
import { eight, wad, words } from './wads.mjs';

const USUAL = ['THINGS', 'LINEDEFS', 'SIDEDEFS', 'VERTEXES', 'SEGS', 'SSECTORS', 'NODES', 'SECTORS', 'REJECT', 'BLOCKMAP'];

/** What is asked of each level, by its command: lines that are answered, that are out of range and that are of another form. */
export const LINES = {
  points: ['1 5', '0 5', '-1 5', '0 0', '1 -1', '-1 1', '16383 -16384', '1 10', '1 11', 'x', '16384 0', '0  5', '1 2 3', '', '007 -0\r', '+1 1',
    `${'0'.repeat(62)} 5`, `${'0'.repeat(62)} 5\r`, `${'0'.repeat(63)} 5`, `${'9'.repeat(62)} 5`, '1 5'].join('\n'),
  census: ['-1 0 1 1', '0 0 0 0', '0 0 1023 1023', '0 0 1024 1023', '1 0 0 0', '-1 -1 1 1', '-512 -512 511 511', '5 0 9 9', '-1 9 1 11', ''].join('\n'),
  sight: '0 1\n1 0\n1 1\n2 0\n-1 0\n',
  blocks: '0 5\n127 127\n128 0\n-1 0\n-16384 16383\n16384 0\n',
};

/** A node in the sample's boxes. @param {number[]} line x, y, dx, dy @param {number} front @param {number} back */
const node = (line, front, back) => words(...line, 64, 0, 0, 0, 64, 0, 0, 0, front, back);
const WALL = [0, 0, 0, 64];

/** The ten lumps of the sample. @param {Buffer} sample @returns {Record<string, Buffer>} */
function lumpsOf(sample) {
  const at = sample.readInt32LE(8);
  return Object.fromEntries(USUAL.map((name, k) => {
    const entry = at + 16 * (k + 1), place = sample.readInt32LE(entry);
    return [name, sample.subarray(place, place + sample.readInt32LE(entry + 4))];
  }));
}

/** Levels that differ from the sample in some lumps. @param {Record<string, Buffer>} own @returns {[string, Record<string, Buffer>][]} */
function lumpCases(own) {
  const none = Buffer.alloc(0), [front, back] = [own.SEGS.subarray(0, 12), own.SEGS.subarray(12)];
  const many = (/** @type {number} */ count, /** @type {Buffer} */ record) => Buffer.concat(Array.from({ length: count }, () => record));
  const chain = Array.from({ length: 32767 }, (_, i) => node(WALL, i ? i - 1 : 32768, 32769 + i));
  return [
    ['diagonal_ties', { NODES: node([0, 0, -1, 1], 32768, 32769) }],
    ['greatest_products', { NODES: node([-16384, 16383, 32767, -32768], 32768, 32769) }],
    ['no_direction', { NODES: node([3, 3, 0, 0], 32768, 32769) }],
    ['no_nodes', { NODES: none }],
    ['no_nodes, accepted', { NODES: none, SSECTORS: own.SSECTORS.subarray(0, 4) }],
    ['no_nodes, no ssector', { NODES: none, SSECTORS: none }],
    ['two_nodes', { SSECTORS: words(1, 0, 1, 1, 1, 1), NODES: Buffer.concat([own.NODES, words(0, 10, 64, 0, ...Array(8).fill(0), 0, 32770)]) }],
    ['second_start', { THINGS: many(2, own.THINGS) }],
    ['nodes_not_reached', { SSECTORS: many(4, words(1, 0)), NODES: Buffer.concat([node(WALL, 1, 32770), node(WALL, 0, 32771), node(WALL, 32768, 32769)]) }],
    ['side_missing', { LINEDEFS: words(0, 1, 4, 0, 0, 0, -1) }],
    ['side_missing, of a seg', { SEGS: Buffer.concat([front, words(1, 0, -16384, 0, 2, 0)]) }],
    ['bytes_left_over', { SECTORS: Buffer.concat([own.SECTORS, Buffer.alloc(1)]) }],
    ['children, twice', { NODES: node(WALL, 32768, 32768) }],
    ['children, the root', { NODES: node(WALL, 0, 32769) }],
    ['children, none', { NODES: node(WALL, 32770, 32769) }],
    ['children, out of range', { NODES: node([16384, 0, 0, 64], 32768, 32769) }],
    ['too_many_nodes', { NODES: Buffer.alloc(917504) }],
    ['too_many_nodes, 32767', { NODES: Buffer.alloc(917476) }],
    ['sight_bits', { REJECT: none }],
    ['sight_bits, blocked', { REJECT: Buffer.from([2]) }],
    ['block_lists', { BLOCKMAP: words(0, 0, 1, 1, 5, 0, 7, -1) }],
    ['block_lists, no end', { BLOCKMAP: words(0, 0, 1, 1, 5, 0, 7) }],
    ['block_lists, no offset', { BLOCKMAP: words(0, 0, 1, 1) }],
    ['block_lists, seven bytes', { BLOCKMAP: words(0, 0, 1, 1).subarray(0, 7) }],
    ['block_list_empty', { BLOCKMAP: words(0, 0, 1, 1, 5, -1) }],
    ['blockmap_negative', { BLOCKMAP: words(0, 0, -1, -1) }],
    ['blockmap_past_end', { BLOCKMAP: words(0, 0, 32767, 32767) }],
    ['chain', { SSECTORS: many(32768, words(1, 0)), NODES: Buffer.concat(chain) }],
    ['wide_ssectors', { SEGS: Buffer.concat([many(32768, front), back]), SSECTORS: words(1, 0, 1, -32768) }],
    ['wide_blockmap', { BLOCKMAP: Buffer.concat([words(0, 0, 1, 1, -32768), Buffer.alloc(2 * 32763), words(7, -1)]) }],
    ...USUAL.map((name) => /** @type {[string, Record<string, Buffer>]} */ ([`lump_cut_by_one, ${name}`, { [name]: own[name].subarray(0, -1) }])),
  ];
}

/** So many of a thing. @template T @param {number} count @param {T} one */
const times = (count, one) => Array.from({ length: count }, () => one);

/**
 * @typedef {{ label?: string, things?: number[][], lines?: number[][], sides?: number[], sectors?: number[][], behind?: [string, Buffer][] }} More
 *   kinds and options of things; flags, special, tag and sidedefs of linedefs from 4 on; the sectors of sidedefs from 4 on; floor, special and tag of
 *   the sectors; lumps behind the level
 */

/** A square room of sector 0, in one ssector, with player 1 in its middle. @param {More} more */
function square({ label = 'E1M1', things = [], lines = [], sides = [0, 0], sectors = [[0, 0, 0]], behind = [] }) {
  const corners = [[0, 0], [0, 256], [256, 256], [256, 0]], turns = [16384, 0, -16384, -32768];
  const walls = corners.map((_, k) => [k, (k + 1) % 4, 1, 0, 0, k, -1]), inner = lines.map((line, k) => [4 + 2 * k, 5 + 2 * k, ...line]);
  const side = (/** @type {number} */ sector) => Buffer.concat([words(0, 0), eight('-'), eight('-'), eight('WALL'), words(sector)]);
  const sector = ([floor, special, tag] = [0, 0, 0]) => Buffer.concat([words(floor, 128), eight('FLAT1'), eight('FLAT1'), words(160, special, tag)]);
  /** @type {Record<string, Buffer>} */
  const lumps = {
    THINGS: words(128, 128, 90, 1, 7, ...things.flatMap((thing) => [64, 64, 0, ...thing])),
    LINEDEFS: words(...walls.flat(), ...inner.flat()),
    SIDEDEFS: Buffer.concat([0, 0, 0, 0, ...sides].map(side)),
    VERTEXES: words(...corners.flat(), ...lines.flatMap((_, k) => [32, 32 + k, 96, 32 + k])),
    SEGS: words(...turns.flatMap((angle, k) => [k, (k + 1) % 4, angle, k, 0, 0])),
    SSECTORS: words(4, 0),
    NODES: Buffer.alloc(0),
    SECTORS: Buffer.concat(sectors.map(sector)),
    REJECT: Buffer.alloc((sectors.length ** 2 + 7) >> 3),
    BLOCKMAP: words(-8, -8, 1, 1, 5, 0, 0, -1),
  };
  return wad([[label, Buffer.alloc(0)], .../** @type {[string, Buffer][]} */ (Object.entries(lumps)), ...behind]);
}

/** What the released game does with a level. @returns {[string, Buffer][]} */
function gameCases() {
  const none = Buffer.alloc(0), wall = (/** @type {number} */ special, /** @type {number} */ tag) => [1, special, tag, 4, -1];
  const room = [0, 0, 0], tagged = (/** @type {number} */ tag) => [0, 0, tag], ring = [[4, 0, 0, 4, 5], [4, 0, 0, 6, 7]];
  const texture = Buffer.concat([words(1, 0, 8, 0), eight('WALL'), words(0, 0, 64, 128, 0, 0, 1, 0, 0, 0, 1, 0)]);
  /** @type {[string, More][]} */
  const cases = [
    ['unknown_special', { lines: [wall(142, 0)] }],
    ['zero_tag', { lines: [wall(23, 0)] }],
    ['never_crossed', { lines: [wall(36, 3), [5, 36, 3, 4, 5]], sectors: [tagged(3)] }],
    ['no_destination', { things: [[14, 7]], lines: [[4, 97, 3, 4, 5]], sectors: [room, tagged(3)] }],
    ['one_sided_door', { lines: [wall(27, 0)] }],
    ['platforms', { lines: [wall(21, 5)], sectors: [room, ...times(31, tagged(5)), [0, 10, 5]] }],
    ['ceilings', { lines: [wall(41, 5)], sectors: [room, ...times(31, tagged(5))] }],
    ['no_ring', { lines: [[1, 9, 6, 0, -1], [1, 0, 0, 4, -1]], sides: [1], sectors: [room, tagged(6)] }],
    ['open_ring', { lines: [[1, 9, 6, 0, -1], ...ring, [1, 0, 0, 8, -1]], sides: [2, 1, 2, 1, 2], sectors: [room, tagged(6), room] }],
    ['higher_neighbours', { lines: [[1, 18, 9, 0, -1], ...times(21, [4, 0, 0, 4, 5])], sides: [1, 2], sectors: [room, tagged(9), [8, 0, 0]] }],
    ['no_neighbour', { lines: [[4, 37, 9, 0, 1], ...ring], sides: [1, 2, 1, 3], sectors: [room, [8, 0, 9], room, [-8, 0, 0]] }],
    ['deadly_floor', { sectors: [16, 15, 17, -1].map((special) => [0, special, 0]) }],
    ['no_exit', { lines: [wall(52, 0)] }],
    ['locked', { things: [[40, 4], [5, 23]], lines: [[4, 26, 0, 4, 5], wall(133, 3), wall(11, 0)] }],
    ['ends_things', { things: [[64, 7], [3001, 7], [2001, 7]] }],
    ['no_skill', { things: [[2013, 8]] }],
    ['no_target', { label: 'MAP30', things: [[89, 7], [87, 5]] }],
    ['many_targets', { label: 'MAP30', things: [[89, 7], ...times(32, [87, 7]), [87, 1]] }],
    ['scrolling', { lines: times(65, wall(48, 0)) }],
    ['perpetual', { lines: [[4, 53, 4, 4, 5], [4, 87, 5, 4, 5]], sectors: [room, ...times(16, tagged(4)), ...times(15, tagged(5))] }],
    ['starts', { things: times(11, [11, 7]) }],
    ['long_save', { things: times(1152, [2035, 7]) }],
    ['lacks_patch', { behind: [['TEXTURE1', texture], ['PNAMES', Buffer.concat([words(1, 0), eight('PLANK')])]] }],
    ['misplaced_flat', { behind: [['FLAT1', none], ['F_START', none], ['F_END', none]] }],
  ];
  return cases.map(([name, more]) => [name, square(more)]);
}

/** Files of levels. @param {Buffer} sample @returns {[string, Buffer][]} */
export function workedFiles(sample) {
  const own = lumpsOf(sample), at = sample.readInt32LE(8), label = Buffer.alloc(0);
  const level = (/** @type {Record<string, Buffer>} */ other) => wad([['E1M1', label], ...USUAL.map((name) => /** @type {[string, Buffer]} */ ([name, other[name] ?? own[name]]))]);
  const placed = (/** @type {number} */ lump, /** @type {number} */ place) => {
    const file = Buffer.from(sample);
    file.writeInt32LE(place, at + 16 * lump);
    return file;
  };
  const renamed = /** @type {[string, Buffer][]} */ (USUAL.map((name) => [name === 'NODES' ? 'NODEZ' : name, name === 'THINGS' ? label : own[name]]));
  return [
    ['base', level({})],
    ...lumpCases(own).map(([name, other]) => /** @type {[string, Buffer]} */ ([name, level(other)])),
    ['lumps_missing', wad([['E1M1', label], .../** @type {[string, Buffer][]} */ (USUAL.slice(0, 9).map((name) => [name, own[name]]))])],
    ['name_and_start_notes', wad([['E1M1', label], ...renamed])],
    ['lump_places', placed(7, -1)],
    ['lumps_overlap', placed(9, 217)],
    ['empty_directory', Buffer.concat([Buffer.from('PWAD'), words(0, 0, 9999, 0)])],
    ['refused_directories, magic', Buffer.concat([Buffer.from('XWAD'), words(-1, -1, 0, 0)])],
    ['refused_directories, count', Buffer.concat([Buffer.from('PWAD'), words(-1, -1, 0, 0)])],
    ['packed', Buffer.concat([Buffer.from('IWAD'), sample.subarray(4)])],
    ...gameCases(),
    .../** @type {[string, Buffer][]} */ ([0, 11, 12, 233, 408].map((size) => [`wad_cut, ${size}`, sample.subarray(0, size)])),
  ];
}

/** What is asked otherwise: the words, the files by their names, and the input. @type {[string, string[], string[], string][]} */
export const OTHERWISE = [
  ['two_files', ['points', 'E1M1'], ['base', 'base'], '0 5\n'],
  ['refused_directories, a second file', ['lumps'], ['base', 'wad_cut, 11'], ''],
  ['lumps_missing, show', ['show', 'E2M9'], ['base'], ''],
  ['lumps_missing, demo', ['demo', 'E2M9'], ['base'], ''],
  ['line_forms, no input', ['points', 'E1M1'], ['base'], ''],
];

/** Demos. @returns {[string, Buffer][]} */
export function workedDemos() {
  const head = [109, 3, 1, 1, 0, 0, 0, 0, 0, 1, 0, 0, 0], two = [...head, 25, 0, 0, 0, 206, 128, 255, 128, 128, 7];
  const pair = [...two.slice(0, 10), 1, ...two.slice(11)], long = [111, ...head.slice(1), 25, 0, 52, 18, 0, 206, 128, 255, 255, 128, 128];
  /** @type {[string, number[]][]} */
  const demos = [
    ['demo_two_commands', two], ['demo_two_players', pair], ['demo_two_players, three', [...pair.slice(0, 21), 1, 2, 3, 4, 128, 7]],
    ['demo_without_marker', [...two.slice(0, 21), 7]], ['demo_refusals, 108', [108]], ['demo_refusals, short', [109, 3]],
    ['demo_refusals, no player', [109, ...Array(12).fill(0)]], ['demo_refusals, no command', [...head, 128]], ['demo_110', [110, ...two.slice(1)]],
    ['demo_111', long], ['demo_111_cut, 22', long.slice(0, 22)], ['demo_111_cut, 23', long.slice(0, 23)], ['demo_109_as_111', [111, ...two.slice(1)]],
    ['demo_112', [112]],
    ...Array.from({ length: 23 }, (_, size) => /** @type {[string, number[]]} */ ([`demo_cut, ${size}`, two.slice(0, size)])),
  ];
  return demos.map(([name, bytes]) => [name, Buffer.from(Uint8Array.from(bytes))]);
}

/** The rows of a table, without its last line feed. @param {string} folder @param {string} name */
const rowsOf = (folder, name) => readFileSync(join(folder, name), 'utf8').trimEnd().split('\n').map((row) => row.split('\t'));

/** Demos of later engines: their bytes, and their lines, or why they are refused. @param {string} folder @returns {[string, Buffer, string][]} */
export const workedLaterDemos = (folder) => rowsOf(folder, 'lines.tsv')
  .map(([number, digits, line]) => [`later demo ${number}`, Buffer.from(digits, 'hex'), line]);

/** Of some the lump that holds it, if it is in a WAD file, and its object. @param {string} folder @returns {[string, string, string][]} */
export const workedObjects = (folder) => rowsOf(folder, 'objects.tsv').map(([number, lump, object]) => [`later demo ${number}`, lump, object]);
