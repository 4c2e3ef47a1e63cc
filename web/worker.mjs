// The worker: holds the files that it was handed, asks the engine, and answers one message for each. What it tells are the engine's
// answers; it only cuts them into lines and picks the places out of them.
import { contents, isName } from './entries.mjs';
import { boundsOf } from './linedefs.mjs';
import { Lines, linesOf } from './lines.mjs';
import { read } from './picture.mjs';
import { TABLES } from './records.mjs';
import { sketchOf } from './sketch.mjs';
import { drawPicture, listLinedefs, load, runWadlens, runWadlook, sketchLevel } from './wad_page.mjs';
import { filesIn } from './zip.mjs';

/** @typedef {import('./wad_page.mjs').Ended} Ended */
/** @typedef {import('./wad_page.mjs').LensQuestion} LensQuestion */
/** @typedef {import('./wad_page.mjs').Command} Command */
/** @typedef {import('./lines.mjs').LinesData} LinesData */
/** @typedef {{ bytes: Uint8Array, named: Uint8Array, name: string }} Alone  a level's own file, and one in which `name` finds it */
/** @typedef {{ bytes: Uint8Array, levels: Map<number, Alone> }} Held */
/** @typedef {{ key: string, file: File }} Source  a file that the page holds, and what it is known by */
/** @typedef {Source & { wide: boolean, game: Source | null }} Asked  `game` is the game's file on which the file stands, if it stands on one */
/** @typedef {import('./words.mjs').Level} Level */
/** @typedef {Asked & { entry: number, name: string, known?: Level | null }} AskedLevel  `known` is what the file's survey told of the level */

const MOST_BYTES = 268435456; // of a file, and of all that are held
const MOST_ALONE = 8; // levels of a file that are kept cut out
const OBJECT = 192; // room for an object of `check`
const MOST_LISTED = 100000; // findings of a level that are listed at once
const FEW = 20; // of each code, where there are more
const PATH = 'f'; // of a file whose name isn't shown
const UNFOUND = 'level'; // a label in small letters, which no look-up finds
const NO_MEMORY = 'there is not enough memory for it';

const TELLS_UNLOOKED = /^\{"file":.*,"entry":\d+,"unlooked":\[/;

/**
 * The objects of what was found in a level. Near the end one may tell which warnings weren't looked for, and the level's own object tells that, too.
 * @param {Uint8Array} told
 */
function findingsIn(told) {
  const lines = new Lines(linesOf(told)), { ends } = lines;
  for (let k = lines.count - 1; k >= Math.max(0, lines.count - 3); k--) {
    if (!TELLS_UNLOOKED.test(lines.at(k))) continue;
    const from = k ? ends[k - 1] + 1 : 0, behind = ends[k] + 1;
    return linesOf(told.copyWithin(from, behind).subarray(0, told.length - (behind - from)));
  }
  return linesOf(told);
}

const utf8 = (/** @type {string} */ words) => new TextEncoder().encode(words);
const text = (/** @type {Uint8Array} */ bytes) => new TextDecoder().decode(bytes);
const firstLine = (/** @type {Ended} */ ended) => text(ended.answer).split('\n')[0];
/** The lumps that no file has, for want of which some warnings weren't looked for. @param {Ended} ended */
const lackingOf = (ended) => /: no file has (.*); name the game's with --base$/m.exec(ended.refused)?.[1] ?? '';
const reason = (/** @type {Ended} */ ended) => ended.refused.replace(/^wadlens: [^:]*: /, '').trim();

/**
 * A run that has an answer: of `wadlens` also where it found faults or didn't judge a level.
 * @param {Promise<Ended>} run
 */
async function answered(run) {
  const ended = await run;
  if (ended.status === 3) throw new Error(NO_MEMORY);
  return ended;
}

/**
 * What words of `wadlook` answer of one file.
 * @param {string[]} words @param {Uint8Array} file @param {Uint8Array} [input] @param {number} [room]
 */
const askLook = (words, file, input, room) => answered(runWadlook([...words, PATH], [file], input, room));

/**
 * What `wadlens` answers of one file.
 * @param {LensQuestion} question @param {Uint8Array} file @param {number} [room] @param {string} [path]
 */
const askLens = (question, file, room, path = PATH) => answered(runWadlens(question, [path], [file], room));

/** @param {Asked} asked */
const reading = ({ wide }) => wide ? ['--wide'] : [];

/**
 * What `wadlens` tells of a file's levels over base files: warnings stand beside the findings.
 * @param {Asked} asked @param {Command} command @param {Uint8Array[]} bases @param {Uint8Array} file @param {number} [room] @param {string} [path]
 */
function judge({ wide }, command, bases, file, room, path = PATH) {
  const paths = [...bases.map((_, k) => `base ${k}`), path];
  return answered(runWadlens({ ...command, wide, warnings: 'told', bases: bases.length }, paths, [...bases, file], room));
}

// Files ------------------------------------------------------------------------------------------------------------------------

/** @type {Map<string, Held>} */
const held = new Map();

/**
 * The file's bytes; the ones that were asked for last are kept.
 * @param {Source} asked
 */
async function hold({ key, file }) {
  let found = held.get(key);
  if (!found) {
    if (file.size > MOST_BYTES) throw new Error(`larger than ${MOST_BYTES} bytes`);
    let bytes;
    try { bytes = new Uint8Array(await file.arrayBuffer()); } catch { throw new Error("can't be read"); }
    found = { bytes, levels: new Map() };
  }
  held.delete(key);
  held.set(key, found);
  let sum = 0;
  for (const [each, { bytes }] of [...held].reverse()) if ((sum += bytes.length) > MOST_BYTES && each !== key) held.delete(each);
  return found;
}

/** The bytes of the game's file on which a file stands, if it stands on one. @param {Asked} asked */
async function basesOf({ game }) {
  if (!game) return [];
  try { return [(await hold(game)).bytes]; } catch (error) { throw new Error(`${game.file.name}: ${error instanceof Error ? error.message : error}`); }
}

/**
 * What a file is that isn't a WAD file: a demo, or why neither.
 * @param {Uint8Array} bytes @param {string} name
 */
async function other(bytes, name) {
  const demo = await askLens({ command: 'demos' }, bytes);
  const nothing = linesOf(new Uint8Array()), line = linesOf(utf8(`0 0 ${bytes.length} demo\n`));
  if (demo.status === 0) return { kind: 'demo', levels: nothing, demos: line };
  return { refused: /\.lmp$/i.test(name) ? reason(demo) : JSON.parse(firstLine(await askLens({ command: 'survey' }, bytes))).refused };
}

// Levels -----------------------------------------------------------------------------------------------------------------------

const USUAL = /^(THINGS|LINEDEFS|SIDEDEFS|VERTEXES|SEGS|SSECTORS|NODES|SECTORS|REJECT|BLOCKMAP|TEXTMAP|BEHAVIOR)$/;
const MOST_PARTS = 40; // lumps of a level that are told of

/**
 * The level as a file of its own, cut out once: it is small, so each question about it is quick, and nothing in it hides the level.
 * @param {AskedLevel} asked @returns {Promise<Alone>}
 */
async function alone(asked) {
  const { bytes, levels } = await hold(asked);
  const found = levels.get(asked.entry);
  if (found) return found;
  const ended = await askLens({ command: 'cut', entry: asked.entry }, bytes, 1 << 22);
  if (!ended.answer.length) throw new Error(`the level can't be cut out: ${reason(ended)}`);
  const level = { bytes: ended.answer, named: ended.answer, name: asked.name };
  if (!/^[A-Z][A-Z0-9_]*$/.test(level.name) || USUAL.test(level.name)) Object.assign(level, { named: labelled(level.bytes, 'LEVEL'), name: 'LEVEL' });
  if (levels.size >= MOST_ALONE) levels.delete([...levels.keys()][0]);
  levels.set(asked.entry, level);
  return level;
}

/**
 * The file with another label in its first entry: what no NAME finds, small letters say, is asked for by this.
 * @param {Uint8Array} file @param {string} label
 */
function labelled(file, label) {
  const named = file.slice(), directory = new DataView(named.buffer).getInt32(8, true);
  named.set(utf8(label.padEnd(8, '\0')), directory + 8);
  return named;
}

/**
 * A lump of a file.
 * @param {Uint8Array} file @param {number} lump its number; of a level's own file that behind the label
 */
function lumpOf(file, lump) {
  const view = new DataView(file.buffer, file.byteOffset), entry = view.getInt32(8, true) + 16 * lump, at = view.getInt32(entry, true);
  return file.subarray(at, at + view.getInt32(entry + 4, true));
}

/** Room for the lines of `lumps`. @param {Uint8Array} bytes of a file */
function roomForLumps(bytes) {
  const entries = bytes.length < 12 ? 0 : new DataView(bytes.buffer, bytes.byteOffset).getUint32(4, true);
  return 65536 + 40 * Math.min(entries, bytes.length >> 4);
}

/**
 * The lumps that follow a level's label as its own, as `lumps` tells them: of a UDMF level all up to ENDMAP.
 * @param {Uint8Array} bytes @param {number} entry @param {boolean} isText
 */
async function partsOf(bytes, entry, isText) {
  const lines = new Lines(linesOf((await askLook(['lumps'], bytes, undefined, roomForLumps(bytes))).answer)), parts = [];
  for (let k = entry + 2; k < Math.min(lines.count, entry + MOST_PARTS); k++) { // behind the file's line and the label's
    const [, , size, name] = lines.at(k).split(' ');
    if (!isText && !USUAL.test(name) && name !== 'SCRIPTS') break;
    parts.push({ name, size: Number(size) });
    if (isText && name === 'ENDMAP') break;
  }
  return parts;
}

/**
 * x y of each record of a lump, which begins with them.
 * @param {Uint8Array} file a level's own @param {number} lump its number behind the label @param {number} size of a record
 */
function spotsOf(file, lump, size) {
  const bytes = lumpOf(file, lump), view = new DataView(bytes.buffer, bytes.byteOffset), spots = new Int16Array(2 * Math.floor(bytes.length / size));
  for (let k = 0, at = 0; k < spots.length; k += 2, at += size) {
    spots[k] = view.getInt16(at, true);
    spots[k + 1] = view.getInt16(at + 2, true);
  }
  return spots;
}

const IS_JUDGED = ',"format":"doom",'; // no name and no path has such letters: their quotes are escaped

/** How many lines of a survey are of levels that are judged. There may be a million of them. @param {LinesData} lines */
function judgedOf({ bytes, ends }) {
  let judged = 0;
  for (let k = 0; k < ends.length; k++) {
    let at = k ? ends[k - 1] + 1 : 0;
    while (at < ends[k] && !isName(bytes, at, at + IS_JUDGED.length, IS_JUDGED)) at++;
    if (at < ends[k]) judged++;
  }
  return judged;
}

// Jobs -------------------------------------------------------------------------------------------------------------------------

const jobs = {
  /** Loads the engine before it is asked. */
  ready: async () => { await load(); },

  /** The files of an archive. @param {{ file: File }} asked */
  unpack: ({ file }) => filesIn(file, file.name),

  /** Lets a file go that was closed. @param {{ key: string }} asked */
  close: async ({ key }) => { held.delete(key); },

  /** What a file is: its kind, its levels and demos as lines of `lumps`; or why it is refused. @param {Asked} asked */
  async open(asked) {
    const { bytes } = await hold(asked), lumps = await askLook(['lumps'], bytes, undefined, roomForLumps(bytes));
    if (lumps.status !== 0) return other(bytes, asked.file.name);
    return { kind: firstLine(lumps).split(' ')[2], ...contents(lumps.answer) };
  },

  /** An object of each level, as lines, and how many of them are of levels that are judged. @param {Asked & { path: string, count: number }} asked */
  async survey(asked) {
    const { bytes } = await hold(asked), bases = await basesOf(asked);
    const lines = linesOf((await judge(asked, { command: 'survey' }, bases, bytes, 65536 + 400 * asked.count, asked.path)).answer);
    return { lines, judged: judgedOf(lines) };
  },

  /** All findings of all levels, as text. @param {Asked & { path: string }} asked */
  async report(asked) {
    const { bytes } = await hold(asked), bases = await basesOf(asked);
    return (await judge(asked, { command: 'check', max: 0 }, bases, bytes, undefined, asked.path)).answer;
  },

  /** The level's own file. @param {AskedLevel} asked */
  async cut(asked) {
    return (await alone(asked)).bytes.slice();
  },

  /**
   * The level's object, and `check`'s; and where the vertexes and the nodes are, if N12 or F12 is found, whose objects have no place. Alone the
   * level stands on its own file, whose textures and flats it may use, under a label that takes the place of none of their names. Where the file
   * was surveyed the level's object is known, and the level is judged once.
   * Very many findings are listed whole only where that is asked for.
   * @param {AskedLevel & { isWhole?: boolean }} asked
   */
  async look(asked) {
    const file = labelled((await alone(asked)).bytes, UNFOUND), bases = [...await basesOf(asked), (await hold(asked)).bytes];
    const level = asked.known ?? JSON.parse(firstLine(await judge(asked, { command: 'survey' }, bases, file)));
    /** @type {Record<string, number>} */
    const counts = { ...level.findings, ...level.warnings };
    const found = Object.values(counts).reduce((sum, n) => sum + n, 0), isWhole = asked.isWhole || found <= MOST_LISTED;
    const room = Math.max(1 << 20, isWhole ? OBJECT * found : 0); // so many objects need room
    const check = await judge(asked, { command: 'check', json: true, max: isWhole ? 0 : FEW }, bases, file, room);
    const spots = { vertex: counts.N12 && spotsOf(file, 4, 4), node: counts.F12 && spotsOf(file, 7, 28) };
    return { level, findings: findingsIn(check.answer), lacking: lackingOf(check), spots };
  },

  /**
   * What can be read of a level that isn't judged: its picture, the lumps of its records, all that follows its label, and why it can't be cut
   * out, if it can't.
   * @param {AskedLevel & { format: string }} asked
   */
  async sketch(asked) {
    const { bytes } = await hold(asked), { entry } = asked, ended = await answered(sketchLevel(asked, bytes));
    if (ended.status === 2) throw new Error(`there is no entry ${entry}`);
    const sketch = sketchOf(new Int32Array(ended.answer.buffer)), parts = await partsOf(bytes, entry, asked.format === 'udmf');
    const lumps = Object.fromEntries(TABLES.map(([kind]) => {
      const { place, count } = sketch.lumps[kind];
      return [kind, count < 0 ? new Uint8Array() : lumpOf(bytes, entry + place).slice()];
    }));
    const uncut = await alone(asked).then(() => '', (error) => String(error.message));
    return { sketch, lumps, parts, uncut, ...boundsOf(sketch.linedefs) };
  },

  /** The picture as numbers and as text, or why there is none. @param {AskedLevel & { cells: number, frame?: number[] }} asked */
  async picture(asked) {
    const { bytes } = await alone(asked), { cells, wide, frame } = asked;
    const ended = await answered(drawPicture({ cells, wide, frame }, bytes, 1 << 22));
    // Only levels that `survey` tells as Doom's are asked for, and only frames and cells in their bounds.
    if (ended.status === 2) return { why: 'nothing to draw: no linedef has both of its vertexes' };
    const picture = read(ended.answer);
    return picture ? { picture, svg: ended.answer } : { why: 'the picture is too large to be shown here; it can be saved', svg: ended.answer };
  },

  /** The lumps of the level's records. @param {AskedLevel} asked */
  async records(asked) {
    const { bytes } = await alone(asked);
    return Object.fromEntries(TABLES.map(([kind, lump]) => [kind, lumpOf(bytes, lump).slice()]));
  },

  /** The numbers of all linedefs, and which are about each sector. @param {AskedLevel} asked */
  async ends(asked) {
    const { bytes } = await alone(asked), listed = await answered(listLinedefs(asked, bytes, 65536 + 2 * bytes.length));
    const linedefs = new Int32Array(listed.answer.buffer);
    return { linedefs, ...boundsOf(linedefs) };
  },

  /** The line of `points` or of `blocks` at a place, or why there is none. @param {AskedLevel & { word: string, x: number, y: number }} asked */
  async pin(asked) {
    const { named, name } = await alone(asked);
    const told = await askLook([asked.word, ...reading(asked), name], named, utf8(`${asked.x} ${asked.y}\n`));
    return firstLine(told) || told.refused;
  },

  /** What `sight` says of each sector, from one. @param {AskedLevel & { sector: number, sectors: number }} asked */
  async sight(asked) {
    const { named, name } = await alone(asked), pairs = [];
    for (let sector = 0; sector < asked.sectors; sector++) pairs.push(`${asked.sector} ${sector}\n`);
    const ended = await askLook(['sight', name], named, utf8(pairs.join('')));
    if (ended.status !== 0) throw new Error(ended.refused);
    return text(ended.answer).split('\n').slice(0, -1).map((line) => line.slice(line.lastIndexOf(' ') + 1));
  },

  /** A demo's line and its listing, or why it is refused. @param {Asked & { at: number, size: number }} asked */
  async demo(asked) {
    const { bytes } = await hold(asked);
    if (asked.at < 0 || asked.at + asked.size > bytes.length) return { refused: 'outside its file' };
    const demo = bytes.slice(asked.at, asked.at + asked.size);
    const listing = await askLens({ command: 'listing' }, demo, 65536 + 8 * demo.length);
    if (listing.status !== 0) return { refused: reason(listing) };
    const told = await askLens({ command: 'demos' }, demo);
    return { line: firstLine(told).slice(`${PATH}: `.length), listing: linesOf(listing.answer) };
  },
};

/** The buffers of an answer, which are handed over and not copied. @param {any} value @returns {Transferable[]} */
function buffersOf(value) {
  if (ArrayBuffer.isView(value)) return [value.buffer];
  if (!value || typeof value !== 'object' || Array.isArray(value)) return [];
  return Object.values(value).flatMap(buffersOf);
}

/** @param {any} data a question */
async function answer(data) {
  const { id, job } = data;
  try {
    const result = await jobs[/** @type {keyof typeof jobs} */ (job)](data);
    postMessage({ id, result }, { transfer: [...new Set(buffersOf(result))] });
  } catch (error) {
    const why = error instanceof Error ? error.message : String(error);
    postMessage({ id, fault: error instanceof RangeError ? NO_MEMORY : why });
  }
}

let last = Promise.resolve(); // questions are answered one after another
onmessage = ({ data }) => { last = last.then(() => answer(data)); };
