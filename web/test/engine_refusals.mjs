// What asks for nothing, as a host may lay it out by mistake: each call ends with status 2, and nothing is answered. Each is one step
// from a call that has an answer, which is made, too.
import { wad } from './wads.mjs';

/** @typedef {import('../wad_page.mjs').Ended} Ended */
/** @typedef {typeof import('../wad_page.mjs').Call} Calls */
/** @typedef {{ number?: bigint, command?: number, wide?: number, warnings?: number, bases?: number }} LensNumbers */
/** @typedef {{ cells?: number, wide?: number, framed?: number, frame?: number[] }} DrawNumbers */
/** @typedef {{ parts: Buffer[], sizes?: (number | bigint)[] }} Parts  with sizes where these aren't those of the parts */

const HEAP = 1 << 24, ROOM = 1 << 18, LAST = 2n ** 64n - 1n;
const [CHECK, SURVEY, DEMOS, DEMO_OBJECTS, CUT, CHECK_OBJECTS, LISTING] = [0, 1, 2, 3, 4, 5, 6], TOLD = 1, STRICT = 2;
const JUDGING = [CHECK, SURVEY, CHECK_OBJECTS], OF_ONE_FILE = [CUT, LISTING], ALL = [...JUDGING, DEMOS, DEMO_OBJECTS, ...OF_ONE_FILE];
/** What a check with warnings tells besides of the file, which has neither textures nor flats. */
const UNLOOKED = "wadlens: W9, W10, W25 weren't looked for: no file has TEXTURE1, F_START, F_END; name the game's with --base\n";

/** Files whose first entry is no level's label. @type {Record<string, Buffer>} */
const NO_LEVELS = { 'no WAD file': Buffer.from('PWAD'), 'no entry': wad([]), 'one entry': wad([['MAP01', Buffer.alloc(0)]]) };

/** @param {LensNumbers} question */
function lensBytes({ number = 0n, command = CHECK, wide = 0, warnings = 0, bases = 0 }) {
  const bytes = Buffer.alloc(16);
  bytes.writeBigUInt64LE(number, 0);
  return Buffer.concat([bytes.subarray(0, 8), Buffer.from([command, wide, warnings, bases]), Buffer.alloc(4)]);
}

/** @param {DrawNumbers} question */
function drawBytes({ cells = 64, wide = 0, framed = 0, frame = [0, 0, 0, 0] }) {
  const bytes = Buffer.alloc(16);
  bytes.writeUInt32LE(cells, 0);
  bytes.writeUInt8(wide, 4);
  bytes.writeUInt8(framed, 5);
  frame.forEach((bound, k) => bytes.writeInt16LE(bound, 6 + 2 * k));
  return bytes;
}

/** @param {InstanceType<Calls>} call @param {Parts} parts */
function hand(call, { parts, sizes = parts.map(({ length }) => length) }) {
  call.slice(Buffer.concat(parts));
  call.sizes(sizes);
}

/**
 * Calls on mistaken questions, of which `check` is told a name, what came and what is wanted.
 * @param {WebAssembly.Module} module @param {Calls} Call @param {Buffer} file a sound level alone, of which there is a warning
 * @param {(what: string, came: unknown, wanted: unknown) => void} check
 */
export function refusals(module, Call, file, check) {
  const path = Buffer.from('a.wad'), one = { parts: [path] }, two = { parts: [path, path] }, none = { parts: [] };
  const file1 = { parts: [file] }, file2 = { parts: [file, file] }, size = file.length;

  /** @param {Parts} words @param {Parts} files */
  const look = (words, files) => {
    const call = new Call(module, HEAP);
    hand(call, words);
    hand(call, files);
    call.slice(Buffer.alloc(0));
    return call.run('run_wadlook', call.room(ROOM), call.room(ROOM));
  };
  /** @param {LensNumbers} question @param {Parts} paths @param {Parts} files */
  const lens = (question, paths = one, files = file1) => {
    const call = new Call(module, HEAP);
    call.reference(lensBytes(question));
    hand(call, paths);
    hand(call, files);
    return call.run('run_wadlens', call.room(ROOM), call.room(ROOM));
  };
  /** @param {DrawNumbers} question @param {Buffer} [level] */
  const draw = (question, level = file) => {
    const call = new Call(module, HEAP);
    call.slice(level);
    call.reference(drawBytes(question));
    return call.run('draw_picture', call.room(ROOM));
  };
  /** @param {number} wide @param {Buffer} [level] */
  const list = (wide, level = file) => {
    const call = new Call(module, HEAP);
    call.slice(level);
    call.reference(Buffer.from([wide]));
    return call.run('list_linedefs', call.room(ROOM));
  };

  const toldOf = (/** @type {Ended} */ { status, answer, refused }) => [status, answer.length > 0, refused];
  const answers = (/** @type {string} */ what, /** @type {Ended} */ ended, status = 0, told = '') => check(what, toldOf(ended), [status, true, told]);
  const refuses = (/** @type {string} */ what, /** @type {Ended} */ ended, why = 'usage') => check(what, toldOf(ended), [2, false, why]);

  const levels = { parts: [Buffer.from('levels'), path] };
  answers('levels', look(levels, file1));
  refuses('levels, more files than paths', look(levels, file2));
  refuses('levels, fewer files than paths', look(levels, none));
  refuses('levels, a file of one byte more than there are', look(levels, { ...file1, sizes: [size + 1] }));
  refuses('levels, a file of one byte less than there are', look(levels, { ...file1, sizes: [size - 1] }));
  refuses('levels, a word of one byte more than there are', look({ ...levels, sizes: [6, 6] }, file1));
  refuses('levels, words whose sizes wrap', look({ ...levels, sizes: [LAST, 12] }, file1));
  refuses('levels, a path that is no UTF-8', look({ parts: [Buffer.from('levels'), Buffer.from([0xff])] }, file1));

  const many = (/** @type {number} */ count) => [path, file].map((part) => ({ parts: Array.from({ length: count }, () => part) }));
  for (const command of JUDGING) {
    const told = command === SURVEY ? '' : UNLOOKED;
    answers(`command ${command}`, lens({ command }));
    answers(`command ${command}, warnings`, lens({ command, warnings: TOLD }), 0, told);
    answers(`command ${command}, strict`, lens({ command, warnings: STRICT }), 1, told);
    answers(`command ${command} of two files`, lens({ command }, two, file2));
    for (const bases of [1, 63]) answers(`command ${command} over ${bases}`, lens({ command, warnings: TOLD, bases }, ...many(bases + 1)), 0, told);
  }
  for (const command of [...JUDGING, DEMOS, DEMO_OBJECTS]) {
    for (const bases of [1, 2, 255]) refuses(`command ${command} over ${bases}, of which one is there`, lens({ command, warnings: TOLD, bases }));
    for (const bases of [64, 255]) refuses(`command ${command} over ${bases}`, lens({ command, warnings: TOLD, bases }, ...many(bases + 1)));
  }
  for (const command of OF_ONE_FILE) {
    for (const [bases, count] of [[1, 1], [1, 2], [255, 1]]) refuses(`command ${command} of ${count} over ${bases}`, lens({ command, bases }, ...many(count)));
    refuses(`command ${command} of two files`, lens({ command }, two, file2));
  }
  answers('a cut', lens({ command: CUT }));
  check('a listing of no demo', toldOf(lens({ command: LISTING })), [2, false, 'wadlens: a.wad: version 80: not read\n']);
  answers('a path that is no UTF-8', lens({}, { parts: [Buffer.from([0xff])] }));
  for (const command of [7, 9, 255]) refuses(`command ${command}`, lens({ command }));
  for (const warnings of [3, 7, 255]) {
    for (const command of ALL) refuses(`command ${command}, warnings ${warnings}`, lens({ command, warnings }));
  }
  for (const command of ALL) refuses(`command ${command} of no file`, lens({ command }, none, none));
  for (const command of [CHECK, CUT]) {
    refuses(`command ${command}, more paths than files`, lens({ command }, two, file1));
    refuses(`command ${command}, fewer paths than files`, lens({ command }, one, file2));
    refuses(`command ${command}, a file of one byte more than there are`, lens({ command }, one, { ...file1, sizes: [size + 1] }));
    refuses(`command ${command}, a file of one byte less than there are`, lens({ command }, one, { ...file1, sizes: [size - 1] }));
    refuses(`command ${command}, a path of one byte more than there are`, lens({ command }, { ...one, sizes: [6] }, file1));
    refuses(`command ${command}, a path of one byte less than there are`, lens({ command }, { ...one, sizes: [4] }, file1));
  }
  refuses('files whose sizes wrap', lens({}, two, { ...file1, sizes: [LAST, size + 1] }));
  refuses('paths whose sizes wrap', lens({}, { ...one, sizes: [LAST, 6] }, file2));

  for (const cells of [1, 1024]) answers(`${cells} cells`, draw({ cells }));
  for (const cells of [0, 1025, 0xffffffff]) refuses(`${cells} cells`, draw({ cells }), '');
  for (const frame of [[5, 5, 5, 5], [-32768, -32768, 32767, 32767]]) answers(`the frame ${frame}`, draw({ framed: 1, frame }));
  for (const frame of [[5, 0, 4, 9], [0, 5, 9, 4], [32767, 0, -32768, 0]]) {
    refuses(`the frame ${frame}`, draw({ framed: 1, frame }), '');
    answers(`the numbers ${frame}, which are no frame`, draw({ frame }));
  }
  refuses('a picture of no WAD file', draw({}, Buffer.from('PWAD')), '');

  for (const wide of [0, 1, 255]) answers(`linedefs, read by ${wide}`, list(wide));
  for (const [what, level] of Object.entries(NO_LEVELS)) refuses(`the linedefs of ${what}`, list(0, level), '');
}
