// engine_hostile.mjs FOLDER [WORD]: what the page asks of whole files, in the module of FOLDER, on inputs that no editor writes, each at
// half its size and whole, the better of two answers: the processor's time, its ratio, which is near 2 where time grows with the input,
// how many runs there were until one had room (two numbers where they differ), and that one's memory, as rows of bench/RESULTS.md. With
// WORD those alone in whose names it stands.
import { readFileSync } from 'node:fs';
import { join } from 'node:path';
import { pathToFileURL } from 'node:url';
import { basesOf, byWords } from './asked.mjs';
import { rooms, textures, wad, words } from './wads.mjs';

const [folder, only = ''] = process.argv.slice(2);
// What a page fetches lies in the folder here.
globalThis.fetch = async (url) => new Response(readFileSync(new URL(url)), { headers: { 'Content-Type': 'application/wasm' } });
let memory = { buffer: new ArrayBuffer(0) }, instances = 0;
const Plain = WebAssembly.Instance;
WebAssembly.Instance = class extends Plain {
  constructor(...given) {
    super(...given);
    memory = this.exports.memory;
    instances++;
  }
};
const host = await import(pathToFileURL(join(folder, 'wad_page.mjs')).href), run = byWords(host);

// Files -------------------------------------------------------------------------------------------------------------------------

const FILE = 64_000_000, SMALL = 16_000_000, ROOMS = rooms('MAP01');
const USUAL = ROOMS.slice(1).map(([name]) => name);
const entry = (place, size, name) => {
  const made = Buffer.alloc(16);
  made.writeInt32LE(place, 0);
  made.writeInt32LE(size, 4);
  made.write(name, 8, 'latin1');
  return made;
};
/** The header of a file whose directory follows it. */
const head = (count) => Buffer.concat([Buffer.from('PWAD'), entry(count, 12, '').subarray(0, 8)]);

/** As many entries as fit, by turns of these names, behind empty places. */
const directory = (...names) => (size) => {
  const block = Buffer.concat(names.map((name) => entry(0, 0, name))), turns = Math.floor(size / block.length);
  return Buffer.concat([head(turns * names.length), Buffer.alloc(turns * block.length, block)]);
};
/** Entries of these names, all over the same bytes. */
const over = (names, body) => Buffer.concat([head(names.length), ...names.map((name) => entry(12 + 16 * names.length, body.length, name)), body]);
/** A level of two rooms with other lumps. */
const level = (lumps) => wad(ROOMS.map(([name, body]) => [name, lumps[name] ?? body]));
/** One with a lump of so many bytes, a record again and again. */
const filled = (name, record) => (size) => level({ [name]: Buffer.alloc(size - size % record.length, record) });
const node = (front, back) => words(0, 0, 0, 64, ...Array(8).fill(0), front, back);
/** Nodes in a chain, of which the last ssector has the points with x above 0. */
const chain = (count) => level({
  NODES: Buffer.concat(Array.from({ length: count }, (_, i) => i ? node(i - 1, 32769 + i) : node(32768, 32769))),
  SSECTORS: Buffer.alloc(4 * count + 4, words(1, 0)),
});
const header = [109, 3, 1, 1, 0, 0, 0, 0, 0, 1, 0, 0, 0];
const commands = (size) => Buffer.concat([Buffer.from(header), Buffer.alloc(size - size % 4, Buffer.from([25, 206, 7, 9])), Buffer.from([128])]);
/** A demo of MBF21 whose header counts so many options: as many commands as fit. */
const mbf21 = (options) => (size) => Buffer.concat([Buffer.from('\xdd\x1dMBF\xe6\0', 'latin1'), Buffer.alloc(25), Buffer.from([options]), Buffer.alloc(25),
  Buffer.from([1]), Buffer.alloc(31), Buffer.alloc(size - size % 5, Buffer.from([25, 206, 7, 9, 1])), Buffer.from([128])]);
/** One in a wrapper, with a key frame that says so many bytes. */
const keyed = (says) => (size) => {
  const wrapper = Buffer.from('\xff\x1dDSDA\xe6\x02\0\0\0\0\0\0\0\0\x01', 'latin1'), front = mbf21(25)(0).subarray(0, 90), told = Buffer.alloc(4);
  told.writeUInt32LE(says);
  return Buffer.concat([wrapper, front, told, Buffer.alloc(size)]);
};
const demos = (size) => {
  const body = commands(0), count = Math.floor(size / 16);
  return Buffer.concat([head(count), Buffer.alloc(16 * count, entry(12 + 16 * count, body.length, 'DEMO1')), body]);
};
/** One half textures, the other sidedefs whose own are none of these. */
const unknown = (size) => {
  const sides = ([name, body]) => [name, name === 'SIDEDEFS' ? Buffer.alloc(30 * Math.floor(size / 60), body.subarray(0, 30)) : body];
  return wad([...ROOMS.map(sides), ['TEXTURE1', textures(Array.from({ length: Math.floor(size / 24) }, (_, k) => `T${k}`))]]);
};
const list = (size) => level({ BLOCKMAP: Buffer.concat([words(0, 0, 1, 1, 5), Buffer.alloc(size - size % 2, words(7)), words(-1)]) });

// Rows --------------------------------------------------------------------------------------------------------------------------

const LINEDEFS = 'linedefs'; // which no program lists in numbers
/** @param {string[]} asked @param {Buffer[]} files @param {Buffer} input @param {number} room */
const ask = ([word, ...more], files, input, room) => word === LINEDEFS ? host.listLinedefs({}, files[0], room) : run([word, ...more, 'f'], files, input, room);

/**
 * A name, words, the whole size, the file, room as the page asks for it, input.
 * @type {[string, string[], number, (size: number) => Buffer, (file: Buffer) => number, string?][]}
 */
const rows = [
  ['`lumps`: 4,000,000 entries of one name', ['lumps'], FILE, directory('NAME'), (file) => 65536 + 2.5 * file.length],
  ['`survey --map`: 363,636 levels of one label', ['survey', '--map'], FILE, directory('MAP01', ...USUAL), (file) => 65536 + 400 * file.length / 176],
  ['`survey --map`: all lumps over the same 64 MB of bytes 255', ['survey', '--map'], FILE, (size) => over(['MAP01', ...USUAL], Buffer.alloc(size, 255)), () => 65536],
  ['`check --map`: the same', ['check', '--map'], FILE, (size) => over(['MAP01', ...USUAL], Buffer.alloc(size, 255)), () => 1 << 20],
  ['`check --json --map --max 0`: 1,142,857 linedefs whose vertexes aren\'t there', ['check', '--json', '--map', '--max', '0'], SMALL, filled('LINEDEFS', words(4000, 4001, 1, 0, 0, 0, -1)), (file) => 192 * file.length / 14],
  ['`check --map --base`: 266,666 sidedefs, whose textures are none of the 666,666 of each file', ['check', '--base', 'g', '--map'], SMALL, unknown, () => 1 << 20],
  ['`cut`: a level of 64 MB', ['cut', '--entry', '0'], FILE, filled('BLOCKMAP', words(0)), () => 1 << 22],
  ['where 1,142,857 linedefs lie', [LINEDEFS], SMALL, filled('LINEDEFS', words(0, 1, 1, 0, 0, 0, -1)), (file) => 65536 + 2 * file.length],
  ['`points`: 1024 points down a chain of 32,767 nodes', ['points', 'MAP01'], 32767, chain, () => 1 << 20, '1 5\n'.repeat(1024)],
  ['`blocks`: one list of 32 million words', ['blocks', 'MAP01'], FILE, list, () => 1 << 20, '0 5\n'],
  ['`picture`: 1024 cells down a chain of 32,767 nodes', ['picture', '--cells', '1024', '--frame', '0,5,1023,5', 'MAP01'], 32767, chain, () => 1 << 22],
  ['`picture`: 1,142,857 linedefs', ['picture', '--cells', '1024', 'MAP01'], SMALL, filled('LINEDEFS', words(0, 1, 1, 0, 0, 0, -1)), () => 1 << 22],
  ['`picture`: 1,600,000 things', ['picture', '--cells', '1024', 'MAP01'], SMALL, filled('THINGS', words(64, 64, 90, 1, 7)), () => 1 << 22],
  ['`demos`: 1,000,000 demos over the same 14 bytes', ['demos'], SMALL, demos, (file) => 6 * file.length],
  ['`demos`: a demo of 16 million commands', ['demos'], FILE, commands, () => 1 << 20],
  ['`demos`: 12,800,000 commands of MBF21', ['demos'], FILE, mbf21(25), () => 1 << 20],
  ['`demos`: 255 options', ['demos'], FILE, mbf21(255), () => 1 << 20],
  ['`demos`: a key frame of 4 GB', ['demos'], FILE, keyed(4294967295), () => 1 << 20],
  ['`listing`: 3,200,000 commands of MBF21', ['listing'], SMALL, mbf21(25), (file) => 65536 + 8 * file.length],
  ['`lmp`: 4,000,000 commands', ['lmp'], SMALL, commands, (file) => 65536 + 8 * file.length],
];

/** The processor's seconds for an answer, how many instances it took until there was room, and the bytes of the last one's memory. */
async function once(asked, file, room, input) {
  instances = 0;
  const files = Array.from({ length: 1 + basesOf(asked) }, () => file); // each of the base files is the same
  const began = process.cpuUsage(), { status } = await ask(asked, files, Buffer.from(input), Math.ceil(room)), { user, system } = process.cpuUsage(began);
  if (status === 3) throw new Error(`no memory for ${asked.join(' ')}`);
  return { seconds: (user + system) / 1e6, bytes: memory.buffer.byteLength, runs: instances };
}

/** The better of two runs, as the first one compiles what it comes upon. */
async function better(...given) {
  const [a, b] = [await once(...given), await once(...given)];
  return a.seconds < b.seconds ? a : b;
}

await once(['check', '--map'], level({}), 1 << 16, '');
await once(['picture', 'MAP01'], level({}), 1 << 16, '');
console.log('| Input | Half | Whole | Ratio | Runs | Memory |\n|---|---|---|---|---|---|');
for (const [name, asked, size, make, room, input = ''] of rows) {
  if (!name.includes(only)) continue;
  const [half, whole] = [make(size / 2 | 0), make(size)];
  const a = await better(asked, half, room(half), input), b = await better(asked, whole, room(whole), input);
  console.log(`| ${name} | ${a.seconds.toFixed(2)} s | ${b.seconds.toFixed(2)} s | ${(b.seconds / a.seconds).toFixed(1)} | ${[...new Set([a.runs, b.runs])].join(', ')} | ${Math.round(b.bytes / 1e6)} MB |`);
}
