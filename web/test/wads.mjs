// Small WAD files for the tests, and ZIP archives of them, built by the formats.
import { deflateRawSync } from 'node:zlib';

/** @param {string} name */
export const eight = (name) => Buffer.concat([Buffer.from(name, 'latin1'), Buffer.alloc(8)]).subarray(0, 8);
/** @param {number[]} numbers of 16 bits */
export const words = (...numbers) => Buffer.from(Uint8Array.from(numbers.flatMap((word) => [word & 255, (word >> 8) & 255])));

/** @param {[string, Buffer][]} lumps @param {string} [kind] */
export function wad(lumps, kind = 'PWAD') {
  let at = 12;
  const directory = lumps.map(([name, body]) => {
    const entry = Buffer.alloc(8);
    entry.writeInt32LE(at, 0);
    entry.writeInt32LE(body.length, 4);
    at += body.length;
    return Buffer.concat([entry, eight(name)]);
  });
  const head = Buffer.alloc(12, kind);
  head.writeInt32LE(lumps.length, 4);
  head.writeInt32LE(at, 8);
  return Buffer.concat([head, ...lumps.map(([, body]) => body), ...directory]);
}

/**
 * Two rooms side by side, from (0, 0) to (256, 256) and from (256, 0) to (512, 256): sector 0 in the west, 1 in the east, and a step
 * between them. Player 1 starts in the west; REJECT hides the east from there, and nothing from the east. The last linedef is a switch
 * that ends the level. There is nothing to warn of.
 * @param {string} label @param {{ flat?: string, damage?: (lumps: Record<string, Buffer>) => void, linedefs?: Buffer, vertexes?: number }} [more]
 * @returns {[string, Buffer][]}
 */
export function rooms(label, { flat = 'FLOOR0_1', damage, linedefs = Buffer.alloc(0), vertexes = 6 } = {}) {
  const west = [0, 1, 2, 3], corners = [[0, 0], [0, 256], [256, 256], [256, 0], [512, 256], [512, 0]];
  const lines = [[0, 1, -1], [1, 2, -1], [2, 3, 1], [3, 0, -1], [2, 4, -1], [4, 5, -1], [5, 3, -1]];
  const line = ([from, to, back], k) => words(from, to, back < 0 ? 1 : 4, k === 6 ? 11 : 0, 0, k, back < 0 ? -1 : 7);
  const side = (sector) => Buffer.concat([words(0, 0), eight('-'), eight('STEP1'), eight('STONE2'), words(sector)]);
  const seg = ([from, to, linedef, back]) => words(from, to, 0, linedef, back, 0);
  const sector = (floor, light) => Buffer.concat([words(floor, 128), eight(flat), eight('CEIL1_1'), words(light, 0, 0)]);
  const segs = [[0, 1, 0, 0], [1, 2, 1, 0], [2, 3, 2, 0], [3, 0, 3, 0], [3, 2, 2, 1], [2, 4, 4, 0], [4, 5, 5, 0], [5, 3, 6, 0]];
  const starts = [[32, 200, 2], [64, 200, 3], [96, 200, 4], [480, 32, 11], [480, 80, 11], [480, 176, 11], [480, 224, 11]];
  const offsets = Array.from({ length: 15 }, () => 19);
  /** @type {Record<string, Buffer>} */
  const lumps = {
    THINGS: Buffer.concat([words(64, 64, 90, 1, 7), words(384, 128, 0, 3004, 7), ...starts.map(([x, y, kind]) => words(x, y, 0, kind, 7))]),
    LINEDEFS: Buffer.concat([...lines.map(line), linedefs]),
    SIDEDEFS: Buffer.concat([...lines.map((_, k) => side(west.includes(k) ? 0 : 1)), side(1)]),
    VERTEXES: Buffer.concat([...corners.map((at) => words(...at)), Buffer.alloc(4 * (vertexes - 6))]),
    SEGS: Buffer.concat(segs.map(seg)),
    SSECTORS: words(4, 0, 4, 4),
    NODES: words(256, 0, 0, 256, 256, 0, 256, 512, 256, 0, 0, 256, 0x8001, 0x8000),
    SECTORS: Buffer.concat([sector(0, 160), sector(24, 224)]),
    REJECT: Buffer.from([0b0010]),
    BLOCKMAP: words(-8, -8, 5, 3, ...offsets, 0, 0, 1, 2, 3, 4, 5, 6, -1),
  };
  damage?.(lumps);
  return [[label, Buffer.alloc(0)], .../** @type {[string, Buffer][]} */ (Object.entries(lumps))];
}

/** The lumps of a level without those of these names. @param {[string, Buffer][]} lumps @param {...string} names */
export const without = (lumps, ...names) => lumps.filter(([name]) => !names.includes(name));
/** What a node builder makes. */
export const BUILT = ['SEGS', 'SSECTORS', 'NODES', 'REJECT', 'BLOCKMAP'];

/**
 * A level's things and linedefs as Hexen's, with scripts: things stand 16 above the floor and have identifier 7, and each linedef has special 12
 * with the arguments 1 to 5.
 * @param {[string, Buffer][]} lumps @returns {[string, Buffer][]}
 */
export function inHexen(lumps) {
  const each = (/** @type {Buffer} */ body, /** @type {number} */ size) =>
    Array.from({ length: body.length / size }, (_, k) => body.subarray(k * size, k * size + size));
  const thing = (/** @type {Buffer} */ one) => Buffer.concat([words(7), one.subarray(0, 4), words(16), one.subarray(4, 10), Buffer.alloc(6)]);
  const linedef = (/** @type {Buffer} */ one) => Buffer.concat([one.subarray(0, 6), Buffer.from([12, 1, 2, 3, 4, 5]), one.subarray(10, 14)]);
  return [...lumps.map(([name, body]) => /** @type {[string, Buffer]} */ ([name,
    name === 'THINGS' ? Buffer.concat(each(body, 10).map(thing)) : name === 'LINEDEFS' ? Buffer.concat(each(body, 14).map(linedef)) : body])),
  ['BEHAVIOR', Buffer.alloc(4)]];
}

/** A lump of textures of these names, of which there may be very many. @param {string[]} names */
export function textures(names) {
  const head = Buffer.alloc(4 + 4 * names.length);
  head.writeInt32LE(names.length);
  names.forEach((_, k) => head.writeInt32LE(head.length + 8 * k, 4 + 4 * k));
  return Buffer.concat([head, ...names.map(eight)]);
}

/** Flats of these names, which have no bytes here. @param {...string} names @returns {[string, Buffer][]} */
export const flats = (...names) => ['F_START', ...names, 'F_END'].map((name) => [name, Buffer.alloc(0)]);

/** The textures and the flats of the two rooms, as a game's file has them. @returns {[string, Buffer][]} */
export const wallsOfRooms = () => [['TEXTURE1', textures(['STEP1', 'STONE2'])], ...flats('FLOOR0_1', 'CEIL1_1')];

/** A demo of version 109 in which player 1 walks so many tics. @param {number} tics */
export function demo(tics) {
  const commands = Array.from({ length: tics }, (_, k) => [50, 0, k % 5, k % 7 ? 0 : 1]).flat();
  return Buffer.from(Uint8Array.from([109, 2, 1, 4, 0, 0, 0, 0, 0, 1, 0, 0, 0, ...commands, 128]));
}

/** A linedef between vertexes that aren't there. */
export const lostLinedef = words(4000, 4001, 1, 0, 0, 0, -1);
/** A linedef from a vertex that only the wide reading finds. */
export const farLinedef = words(40000, 1, 1, 0, 0, 0, -1);
/** Takes the texture of linedef 5, and puts thing 1 behind it into the void. @param {Record<string, Buffer>} lumps */
export const twoOverlooked = ({ SIDEDEFS, THINGS }) => {
  SIDEDEFS.fill(eight('-'), 5 * 30 + 20, 5 * 30 + 28);
  THINGS.writeInt16LE(536, 10);
};
/** Gives sidedef 5 a texture, and the floor of sector 1 a flat, that no game has. @param {Record<string, Buffer>} lumps */
export const twoUnknown = ({ SIDEDEFS, SECTORS }) => {
  SIDEDEFS.set(eight('NOWALL'), 5 * 30 + 20);
  SECTORS.set(eight('NOFLAT'), 26 + 4);
};
/** Makes linedef 4 tell two sides, where it has one. @param {Record<string, Buffer>} lumps */
export const oneMistaken = ({ LINEDEFS }) => { LINEDEFS.writeUInt16LE(4, 4 * 14 + 4); };
/** Lets linedef 5 name a front sidedef that isn't there. @param {Record<string, Buffer>} lumps */
export const oneLost = ({ LINEDEFS }) => { LINEDEFS.writeUInt16LE(60000, 5 * 14 + 10); };
/** Lets the node have its own ssector 0 twice: faults with which warnings are looked for. @param {Record<string, Buffer>} lumps */
export const oneTwice = ({ NODES }) => { NODES.writeUInt16LE(0x8000, 24); };

/** CRC-32 of bytes, a bit at a time. @param {Buffer} bytes */
function crcOf(bytes) {
  let sum = ~0;
  for (const byte of bytes) {
    sum ^= byte;
    for (let k = 0; k < 8; k++) sum = sum & 1 ? (sum >>> 1) ^ 0xedb88320 : sum >>> 1;
  }
  return ~sum >>> 0;
}

/** @param {...[number, number]} numbers each with how many bytes it takes */
const little = (...numbers) => Buffer.concat(numbers.map(([number, size]) => {
  const bytes = Buffer.alloc(size);
  bytes.writeUIntLE(number, 0, size);
  return bytes;
}));

/**
 * A ZIP archive.
 * @param {[string, Buffer, { flags?: number, size?: number }?][]} members paths and bytes, and what an entry says instead of what is so
 */
export function zipped(members) {
  let at = 0;
  const parts = members.map(([path, body, { flags = 0, size = body.length } = {}]) => {
    const packed = deflateRawSync(body), name = Buffer.from(path);
    const common = little([20, 2], [flags, 2], [8, 2], [0, 4], [crcOf(body), 4], [packed.length, 4], [size, 4], [name.length, 2], [0, 2]);
    const local = Buffer.concat([Buffer.from('PK\x03\x04'), common, name, packed]);
    const entry = Buffer.concat([Buffer.from('PK\x01\x02'), little([20, 2]), common, little([0, 2], [0, 2], [0, 2], [0, 4], [at, 4]), name]);
    at += local.length;
    return { local, entry };
  });
  const directory = Buffer.concat(parts.map(({ entry }) => entry)), count = /** @type {[number, number]} */ ([members.length, 2]);
  return Buffer.concat([...parts.map(({ local }) => local), directory, Buffer.from('PK\x05\x06'), little([0, 4], count, count, [directory.length, 4], [at, 4], [0, 2])]);
}
