// The host's side of the engine: each call in an instance of its own, whose memory is let go with it.

/** Room that runs need beside their files and their answer. */
const ROOM = 32 << 20;
/** Room of a first answer, where nobody knows better. */
const ANSWER = 1 << 20;
/** Room for what is told besides, beside the words or paths that are in it. */
const TOLD = 4096;
/** An answer of more room than this isn't tried again with more. */
const MOST_ROOM = 1 << 30;
/** How warnings are asked for: not at all, or one of these. */
const WARNINGS = ['', 'told', 'strict'];
/** How many findings of one code are shown at most, where all are. */
const ALL = 0xffffffffffffffffn;

/**
 * @typedef {{ status: number, answer: Uint8Array, refused: string }} Ended  how a run ended, as the program would have
 * @typedef {{ wide?: boolean, warnings?: 'told' | 'strict', bases?: number }} Judging  `--wide`; `--map`, or `--map --strict`; how many of
 *   the files, from the first on, are those of `--base`, 63 at most: of `check` and `survey`
 * @typedef {{ command: 'check', max: number | bigint, json?: boolean } | { command: 'survey' } | { command: 'demos', json?: boolean } |
 *   { command: 'listing' } | { command: 'cut', entry: number | bigint }} Command  `max` is 0 for all findings
 * @typedef {Command & Judging} LensQuestion  what is asked of files
 * @typedef {{ cells: number, wide?: boolean, frame?: number[] }} DrawQuestion  `frame` is x0 y0 x1 y1
 */

/** Whether this browser has the 64-bit memory that the engine needs: the smallest module with one. */
export const canRun = () => typeof WebAssembly === 'object' &&
  WebAssembly.validate(new Uint8Array([0, 0x61, 0x73, 0x6d, 1, 0, 0, 0, 5, 3, 1, 4, 0]));

const utf8 = (/** @type {string} */ text) => new TextEncoder().encode(text);
const total = (/** @type {Uint8Array[]} */ parts) => parts.reduce((sum, part) => sum + part.length, 0);

// The module ---------------------------------------------------------------------------------------------------------------------

/** @type {Promise<WebAssembly.Module> | null} */
let compiled = null;

/** The module, compiled once. */
export function load() {
  compiled ??= compile();
  compiled.catch(() => { compiled = null; }); // it may be there the next time
  return compiled;
}

async function compile() {
  const url = new URL('wad_page.wasm', import.meta.url);
  try {
    return await WebAssembly.compileStreaming(fetch(url));
  } catch { // a host that serves it as another type, or has none
    const told = await fetch(url).catch(() => null);
    if (!told?.ok) throw new Error("the engine of this page, wad_page.wasm, isn't beside its files");
    return WebAssembly.compile(await told.arrayBuffer());
  }
}

// A call -------------------------------------------------------------------------------------------------------------------------

/** Numbers of 64 bits, as they stand in memory. @param {(number | bigint)[]} numbers */
function bytesOf(numbers) {
  const view = new DataView(new ArrayBuffer(8 * numbers.length));
  numbers.forEach((number, k) => view.setBigUint64(8 * k, BigInt(number), true));
  return new Uint8Array(view.buffer);
}

/** @param {WebAssembly.Memory} memory @param {number} size */
function grow(memory, size) {
  const pages = Math.ceil(size / 65536) - memory.buffer.byteLength / 65536;
  if (pages <= 0) return;
  try {
    memory.grow(/** @type {any} */ (BigInt(pages)));
  } catch (error) {
    if (!(error instanceof TypeError)) throw error;
    memory.grow(pages); // Node 20 takes a number here, and browsers a BigInt
  }
}

/**
 * A call of an export, in a fresh instance. What is handed over, in the export's order, has its place behind what the module itself has
 * in the instance's memory.
 */
export class Call {
  /** @param {WebAssembly.Module} module @param {number} heap the bytes that the engine may take */
  constructor(module, heap) {
    this.exports = /** @type {any} */ (new WebAssembly.Instance(module, {}).exports);
    this.end = Number(this.exports.__heap_base.value);
    /** @type {number[]} places and lengths, as the export takes them */
    this.handed = [];
    /** @type {[number, Uint8Array][]} what stands at places as the call begins */
    this.held = [];
    this.reference(bytesOf([this.#place(heap, 16), heap]));
  }

  /** @param {number} size @param {number} align */
  #place(size, align) {
    const at = Math.ceil(this.end / align) * align;
    this.end = at + size;
    return at;
  }

  /** @param {Uint8Array} bytes @param {number} align */
  #hold(bytes, align) {
    const at = this.#place(bytes.length, align);
    this.held.push([at, bytes]);
    return at;
  }

  /** A reference to a record. @param {Uint8Array} bytes */
  reference(bytes) {
    this.handed.push(this.#hold(bytes, 8));
  }

  /** A slice of bytes. @param {Uint8Array} bytes */
  slice(bytes) {
    this.handed.push(this.#hold(bytes, 1), bytes.length);
  }

  /** A slice of sizes. @param {(number | bigint)[]} sizes */
  sizes(sizes) {
    this.handed.push(this.#hold(bytesOf(sizes), 8), sizes.length);
  }

  /** Parts, one behind the other in a slice, and the slice of their sizes. @param {Uint8Array[]} parts */
  parts(parts) {
    this.handed.push(this.end, total(parts));
    for (const part of parts) this.#hold(part, 1);
    this.sizes(parts.map(({ length }) => length));
  }

  /** A slice of so many bytes, to be written; where it stands. @param {number} size */
  room(size) {
    const at = this.#place(size, 1);
    this.handed.push(at, size);
    return at;
  }

  /**
   * Calls the export.
   * @param {string} name @param {number} out where the answer stands @param {number} [why] where what is told besides stands; not every
   *   export tells something
   * @returns {Ended}
   */
  run(name, out, why = out) {
    const { memory } = this.exports, ended = this.#place(24, 8);
    grow(memory, this.end);
    const bytes = new Uint8Array(memory.buffer), view = new DataView(memory.buffer);
    for (const [at, held] of this.held) bytes.set(held, at);
    this.exports[name](...[...this.handed, ended].map(BigInt));
    const [answered, told] = [8, 16].map((at) => Number(view.getBigUint64(ended + at, true)));
    return {
      status: view.getUint8(ended),
      answer: bytes.slice(out, out + answered),
      refused: new TextDecoder().decode(bytes.subarray(why, why + told)),
    };
  }
}

/**
 * Calls with more room until there is enough: where the answer or the memory is full the call ends with 3.
 * @param {number} given how many bytes are handed over @param {number} first a first guess of the answer's
 * @param {(call: Call, room: number) => Ended} run @returns {Promise<Ended>}
 */
async function withRoom(given, first, run) {
  const module = await load();
  for (let room = first, heap = given + 2 * room + ROOM; ; room *= 4, heap = 2 * heap + 2 * room) {
    let ended;
    try {
      ended = run(new Call(module, heap), room);
    } catch (error) {
      if (!(error instanceof RangeError)) throw error;
      return { status: 3, answer: new Uint8Array(), refused: 'memory' }; // the browser gives no more
    }
    if (ended.status !== 3 || room > MOST_ROOM) return ended;
  }
}

// What is asked ------------------------------------------------------------------------------------------------------------------

/**
 * What words of `wadlook` ask for, over the files of their paths and an input.
 * @param {string[]} words @param {Uint8Array[]} files @param {Uint8Array} [input] @param {number} [room] a first guess of the answer's
 */
export async function runWadlook(words, files, input = new Uint8Array(), room = ANSWER) {
  const texts = words.map(utf8);
  return withRoom(total(files) + input.length, room, (call, size) => {
    call.parts(texts);
    call.parts(files);
    call.slice(input);
    const out = call.room(size), why = call.room(TOLD + 2 * total(texts));
    return call.run('run_wadlook', out, why);
  });
}

/**
 * What `wadlens` answers a question over files, of which there is one for each path; the base files stand first, and aren't told.
 * @param {LensQuestion} question @param {string[]} paths @param {Uint8Array[]} files @param {number} [room] a first guess of the answer's
 */
export async function runWadlens(question, paths, files, room = ANSWER) {
  const asked = lensBytes(question), names = paths.map(utf8);
  return withRoom(total(files), room, (call, size) => {
    call.reference(asked);
    call.parts(names);
    call.parts(files);
    const out = call.room(size), why = call.room(TOLD + 2 * total(names) + size);
    return call.run('run_wadlens', out, why);
  });
}

/**
 * The picture of the level whose label is a file's first entry. Nothing is told of why there is none: with status 2 there is nothing to
 * draw, the first entry is no level's label, or a number is out of its bounds.
 * @param {DrawQuestion} question @param {Uint8Array} file @param {number} [room] a first guess of the picture's
 */
export async function drawPicture(question, file, room = ANSWER) {
  const asked = drawBytes(question);
  return withRoom(file.length, room, (call, size) => {
    call.slice(file);
    call.reference(asked);
    return call.run('draw_picture', call.room(size));
  });
}

/**
 * Where the linedefs lie of the level whose label is a file's first entry, and which sectors they face: six numbers of 32 bits of each, as
 * `linedefs.mjs` has them. With status 2 the first entry is no level's label.
 * @param {{ wide?: boolean }} question @param {Uint8Array} file @param {number} [room] a first guess of the answer's
 */
export async function listLinedefs({ wide = false }, file, room = ANSWER) {
  const asked = Uint8Array.of(Number(wide));
  return withRoom(file.length, room, (call, size) => {
    call.slice(file);
    call.reference(asked);
    return call.run('list_linedefs', call.room(size));
  });
}

/**
 * What can be read of the level whose label is an entry, whatever its format, as numbers of 32 bits: `sketch.mjs` has their meaning. With
 * status 2 the file has no directory, or no such entry.
 * @param {{ entry: number }} question @param {Uint8Array} file @param {number} [room] a first guess of the answer's
 */
export async function sketchLevel({ entry }, file, room = ANSWER) {
  const asked = bytesOf([entry]);
  return withRoom(file.length, room, (call, size) => {
    call.slice(file);
    call.reference(asked);
    return call.run('sketch_level', call.room(size));
  });
}

/** A command's number, and what number goes with it. @param {LensQuestion} question @returns {[number, number | bigint]} */
function commandOf(question) {
  switch (question.command) {
    case 'check': return [question.json ? 5 : 0, question.max || ALL];
    case 'survey': return [1, 0];
    case 'demos': return [question.json ? 3 : 2, 0];
    case 'cut': return [4, question.entry];
    case 'listing': return [6, 0];
  }
}

/** A question as `LensQuestion` of the engine is laid out. @param {LensQuestion} question */
function lensBytes(question) {
  const view = new DataView(new ArrayBuffer(16)), [command, number] = commandOf(question);
  view.setBigUint64(0, BigInt(number), true);
  view.setUint8(8, command);
  view.setUint8(9, Number(question.wide ?? false));
  view.setUint8(10, WARNINGS.indexOf(question.warnings ?? ''));
  view.setUint8(11, Math.min(question.bases ?? 0, 255)); // more than 63 are refused, and so none may wrap
  return new Uint8Array(view.buffer);
}

/** A question as `DrawQuestion` of the engine is laid out. @param {DrawQuestion} question */
function drawBytes({ cells, wide = false, frame }) {
  const view = new DataView(new ArrayBuffer(16));
  view.setUint32(0, cells, true);
  view.setUint8(4, Number(wide));
  view.setUint8(5, Number(!!frame));
  frame?.forEach((bound, k) => view.setInt16(6 + 2 * k, bound, true));
  return new Uint8Array(view.buffer);
}
