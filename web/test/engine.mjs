// engine.mjs FOLDER WADLOOK WADLENS SAMPLE: runs each command in the module of FOLDER and in the native programs, and compares them; then
// what asks for nothing, and the seeded cases on standard input, beside what they tell is wanted.
import { readFileSync, readdirSync, mkdtempSync, rmSync, writeFileSync } from 'node:fs';
import { spawnSync } from 'node:child_process';
import { tmpdir } from 'node:os';
import { join } from 'node:path';
import { pathToFileURL } from 'node:url';
import { addUp, check as same, count, fail, root } from '../../tests/harness.mjs';
import { byWords } from './asked.mjs';
import { craftedDemos, damagedDemos } from './engine_demos.mjs';
import { seeded } from './engine_fuzz.mjs';
import { refusals } from './engine_refusals.mjs';
import { numbersOf } from './shown_linedefs.mjs';
import { listedRows, wantedRows } from './shown_rows.mjs';
import { sketchedNumbers } from './sketched.mjs';
import { BUILT, farLinedef, flats, inHexen, lostLinedef, oneLost, rooms, textures, twoUnknown, wad, wallsOfRooms, without as lacking } from './wads.mjs';
import { LINES, OTHERWISE, workedDemos, workedFiles } from './worked_cases.mjs';

const [folder, wadlook, wadlens, sample] = process.argv.slice(2);
// What a page fetches lies in the folder here.
globalThis.fetch = async (url) => new Response(readFileSync(new URL(url)), { headers: { 'Content-Type': 'application/wasm' } });
/** @param {string} name of a file of the page */
const part = (name) => import(pathToFileURL(join(folder, name)).href);
const host = await part('wad_page.mjs'), { contents } = await part('entries.mjs'), { Lines } = await part('lines.mjs');
const parts = Object.assign({}, ...await Promise.all(['lines', 'groups', 'findings', 'words'].map((name) => part(`${name}.mjs`))));
const run = byWords(host);

const room = mkdtempSync(join(tmpdir(), 'engine-'));
process.on('exit', () => rmSync(room, { recursive: true, force: true }));

/** The files that cases name. */
const base = readFileSync(sample), names = new Map();
const keep = (name, bytes) => { writeFileSync(join(room, name), bytes); names.set(name, bytes); };

/** The sample with a byte turned at each of some places. */
function damaged(places) {
  const bytes = Buffer.from(base);
  for (const place of places) bytes[place % bytes.length] ^= 0xff;
  return bytes;
}

const demo = Buffer.from([109, 2, 1, 1, 0, 0, 0, 0, 0, 1, 0, 0, 0, 50, 0, 0, 0, 206, 24, 255, 3, 128, 7]);
keep('base.wad', base);
keep('demo.lmp', demo);
keep('cut.lmp', demo.subarray(0, 19));
const recorded = join(root, 'tests', 'recorded_demos'), later = readdirSync(recorded).filter((name) => name.endsWith('.lmp'));
for (const name of later) keep(name, readFileSync(join(recorded, name)));
keep('short.wad', Buffer.from('PWAD'));
keep('empty.wad', wad([]));
keep('demo.wad', wad([['DEMO1', demo], ['BROKEN', demo.subarray(0, 5)]]));
for (let i = 0; i < 40; i++) keep(`damaged${i}.wad`, damaged([i * 37 + 13, i * 101 + 40]));

const native = (program, words, input) => spawnSync(program, words, { cwd: room, input, maxBuffer: 1 << 30 });

/** Compares a run of a program with that of the module, of which `reason` is told besides. */
function compare(words, program, page, reason) {
  if (page.status === program.status && program.stdout.equals(page.answer) && program.stderr.toString() === reason) count(true);
  else fail(`${words.join(' ')}\n`, page.status, program.status, reason, program.stderr.toString());
}

/** Compares a run of words of `wadlook`; those of `paths` are files. */
async function check(words, paths, input = '') {
  const given = Buffer.from(input), all = [...words, ...paths];
  const page = await run(all, paths.map((path) => names.get(path)), given);
  compare(all, native(wadlook, all, given), page, page.refused && `refused: ${page.refused}\n`);
}

/** The same of words of `wadlens`, whose messages are the module's; over base files, where there are any. */
async function checkLens([command, ...options], paths, bases = []) {
  const all = [command, ...bases.flatMap((path) => ['--base', path]), ...options, ...paths];
  const page = await run(all, [...bases, ...paths].map((path) => names.get(path)));
  compare(all, native(wadlens, all, ''), page, page.refused);
}

/** The levels that the page lists, of the lines of `lumps`, are those of `survey`. */
async function lists(path) {
  const { status, answer } = await run(['lumps', path], [names.get(path)]);
  if (status !== 0) return;
  const lines = new Lines(contents(answer).levels), listed = Array.from({ length: lines.count }, (_, k) => Number(lines.at(k).split(' ')[0]));
  const told = native(wadlens, ['survey', path], '').stdout.toString().split('\n').slice(0, -1).map((line) => JSON.parse(line).entry);
  same(`the levels of ${path}`, listed, told);
}

/** What the page lists of a level, and advises, is what the lines of the program want: at most so many of a code, and how many more. */
async function tellsRows(path, reading) {
  const words = ['check', ...reading, '--map', '--max', '2'], { answer } = await run([...words, '--json', path], [names.get(path)]);
  const lines = native(wadlens, [...words, path], '').stdout.toString();
  same(`the rows of ${words.join(' ')} ${path}`, listedRows(parts, answer), wantedRows(lines, path));
}

/** The rows of records that aren't there, worked by hand: their numbers are as they are stored, and other numbers below 0 stay so. */
async function tellsStored() {
  const turned = ({ LINEDEFS, SIDEDEFS, SEGS, SSECTORS }) => {
    LINEDEFS.writeUInt16LE(65535, 0);
    LINEDEFS.writeUInt16LE(60000, 14 + 2);
    LINEDEFS.writeUInt16LE(32768, 2 * 14 + 10);
    SIDEDEFS.writeUInt16LE(40000, 3 * 30 + 28);
    SEGS.writeUInt16LE(50000, 6);
    SEGS.writeUInt16LE(65531, 12 + 8);
    SSECTORS.writeUInt16LE(65534, 4 + 2);
  };
  const wanted = [
    ['F3', 'linedef 0', "Start vertex 65535 isn't there (6 vertexes)"],
    ['F3', 'linedef 1', "End vertex 60000 isn't there (6 vertexes)"],
    ['F4', 'linedef 2', "Front sidedef 32768 isn't there (8 sidedefs), from (256, 256) to (256, 0)"],
    ['F5', 'sidedef 3', "Sector 40000 isn't there (2 sectors), of linedef 3"],
    ['F7', 'seg 0', "Linedef 50000 isn't there (7 linedefs), from (0, 0) to (0, 256)"],
    ['F8', 'seg 1', 'Side -5 is neither 0 nor 1, from (0, 256) to (256, 256)'],
    ['F10', 'ssector 1', "Segs from 65534, 4 of them, aren't all there (8 segs)"],
  ];
  const { answer } = await run(['check', '--json', 'stored.wad'], [wad(rooms('MAP01', { damage: turned }))]);
  same('the rows of records that are not there', listedRows(parts, answer).rows, wanted);
}

/** What `--max` leaves out of each of two codes: one of three, and two of four. */
async function tellsLeftOut() {
  const lost = Buffer.concat(Array.from({ length: 3 }, () => lostLinedef));
  const wrong = ({ SEGS }) => { for (const k of [0, 2, 4, 6]) SEGS.writeUInt16LE(900, 12 * k + 6); };
  const { answer } = await run(['check', '--json', '--max', '2', 'left.wad'], [wad(rooms('MAP01', { linedefs: lost, damage: wrong }))]);
  same('what is left out of two codes', listedRows(parts, answer).rows.filter((row) => row.length === 2), [['F3', '1 more'], ['F7', '2 more']]);
}

/** The numbers of the linedefs of the level alone are those that `show` tells. There is no room for them at first. */
async function listsAs(isWide) {
  const words = ['show', ...isWide ? ['--wide'] : [], 'E1M1', 'alone.wad'], shown = native(wadlook, words, '').stdout.toString();
  const { status, answer } = await host.listLinedefs({ wide: isWide }, names.get('alone.wad'), 16);
  same(`the linedefs of ${words.join(' ')}`, [status, Buffer.from(answer).toString('hex')], [0, Buffer.from(numbersOf(shown, isWide)).toString('hex')]);
}

/** What can be read of a level whatever its format: the numbers of a second reading of the files, and some worked by hand. */
async function sketches() {
  const none = -2147483648, west = [64, 64, 90, 1], far = wad(rooms('MAP01', { linedefs: lostLinedef, damage: (all) => { all.SIDEDEFS = Buffer.concat([all.SIDEDEFS, Buffer.alloc(7)]); } }));
  const outside = Buffer.from(wad(rooms('MAP01')));
  outside.writeInt32LE(outside.length, outside.readInt32LE(8) + 16 * 8);
  for (const [what, file, entry] of /** @type {[string, Buffer, number][]} */ ([
    ['two rooms', wad(rooms('MAP01')), 0], ['rooms without nodes', wad([...lacking(rooms('MAP01'), ...BUILT), ...rooms('MAP02')]), 0],
    ['the level behind them', wad([...lacking(rooms('MAP01'), ...BUILT), ...rooms('MAP02')]), 6], ['rooms of Hexen', wad(inHexen(rooms('MAP01'))), 0],
    ['rooms of Hexen without nodes', wad(lacking(inHexen(rooms('MAP01')), ...BUILT)), 0], ['lumps the other way round', wad([...rooms('MAP01').slice(0, 1), ...rooms('MAP01').slice(1).reverse()]), 0],
    ['records that are cut short', far, 0], ['a lump outside the file', outside, 0], ['what is no label', far, 4], ['the last entry', far, 10],
  ])) {
    const { status, answer } = await host.sketchLevel({ entry }, file, 16);
    same(`what can be read of ${what}`, [status, [...new Int32Array(answer.buffer)]], [0, [...sketchedNumbers(file, entry)]]);
  }
  const head = [1, 1, 9, 0, 2, 7, 0, 3, 8, 0, 4, 6, 0, 8, 2, 0], numbers = new Int32Array((await host.sketchLevel({ entry: 0 }, wad(inHexen(rooms('MAP01'))))).answer.buffer);
  same('the first of them, of Hexen', [...numbers.subarray(0, 22)], [...head, 0, 0, 0, 256, 0, none]);
  same('and its first thing', [...numbers.subarray(16 + 6 * 7, 16 + 6 * 7 + 4)], west);
  same('no such entry', (await host.sketchLevel({ entry: 11 }, far)).status, 2);
  same('no file', (await host.sketchLevel({ entry: 0 }, Buffer.from('PWAD'))).status, 2);
}

/** The numbers of the linedefs of the two rooms, worked by hand. */
async function listsRooms() {
  const none = -2147483648, nowhere = [none, none, none, none];
  const inRooms = [[0, 0, 0, 256, 0, none], [0, 256, 256, 256, 0, none], [256, 256, 256, 0, 0, 1], [256, 0, 0, 0, 0, none],
    [256, 256, 512, 256, 1, none], [512, 256, 512, 0, 1, none], [512, 0, 256, 0, 1, none]];
  const other = (k, numbers) => inRooms.map((row, at) => at === k ? numbers : row);
  const without = ({ SIDEDEFS }) => { SIDEDEFS.writeInt16LE(2, 28); };
  for (const [what, more, isWide, wanted] of [
    ['two rooms', {}, false, inRooms], ['two rooms, wide', {}, true, inRooms],
    ['a linedef without vertexes', { linedefs: lostLinedef }, false, [...inRooms, [...nowhere, 0, none]]],
    ['a vertex above 32767', { linedefs: farLinedef, vertexes: 40001 }, false, [...inRooms, [...nowhere, 0, none]]],
    ['a vertex above 32767, wide', { linedefs: farLinedef, vertexes: 40001 }, true, [...inRooms, [0, 0, 0, 256, 0, none]]],
    ["a sidedef that isn't there", { damage: oneLost }, true, other(5, [512, 256, 512, 0, none, none])],
    ["a sector that isn't there", { damage: without }, false, other(0, [0, 0, 0, 256, none, none])],
  ]) {
    const { status, answer } = await host.listLinedefs({ wide: isWide }, wad(rooms('MAP01', more)));
    same(`the linedefs of ${what}`, [status, [...new Int32Array(answer.buffer)]], [0, wanted.flat()]);
  }
}

/** The pictures and the linedefs of a file's first level alone, where the page asks for them: of a level that is told as Doom's. */
async function draws(path) {
  const { answer } = await run(['cut', '--entry', '0', path], [names.get(path)]);
  keep('alone.wad', Buffer.from(answer));
  for (const [words, options] of [[['survey'], plain], [['survey', '--wide'], wide]]) {
    const { level, format } = JSON.parse(native(wadlens, [...words, 'alone.wad'], '').stdout.toString().split('\n')[0] || '{}');
    if (level !== 'E1M1' || format !== 'doom') continue;
    await listsAs(words.includes('--wide'));
    for (const option of options) await drawsAs(['picture', ...option, 'E1M1', 'alone.wad']);
  }
}

/** A picture is the program's; why there is none the module doesn't tell, as there is one reason here. */
async function drawsAs(words) {
  const page = await run(words, [names.get('alone.wad')]);
  compare(words, native(wadlens, words, ''), page, page.status === 2 ? 'wadlens: E1M1: nothing to draw\n' : '');
}

/** A level whose label no NAME finds is drawn under that. */
async function drawsOddLabel() {
  const file = Buffer.from(base);
  file.write('e<1', file.readInt32LE(8) + 8, 'latin1');
  const page = await run(['picture', 'any', 'odd.wad'], [file]), drawn = native(wadlens, ['picture', 'E1M1', 'base.wad'], '').stdout.toString();
  same('a label that no NAME finds', Buffer.from(page.answer).toString(), drawn.replace('<title>E1M1: ', '<title>e&lt;11: '));
}

/** Words of `wadlens` with other numbers of files than they take: the command line's own text is the program's alone. */
async function refuses(words, paths) {
  const all = [...words, ...paths], { stdout, status } = native(wadlens, all, '');
  const page = await run(all, paths.map((path) => names.get(path)));
  compare(all, { stdout, status, stderr: 'usage' }, page, page.refused);
}

const plain = [[], ['--cells', '64'], ['--cells', '1024', '--frame', '-20,-30,100,90']], wide = [['--wide'], ['--wide', '--cells', '1', '--frame', '5,5,5,5']];
const points = '0 5\n-20 3\n16383 -16384\nx\n16384 0\n', pairs = '0 1\n1 0\n0 7\n', rectangles = '0 0 9 9\n-5 -5 5 5\n5 5 1 1\n';
const commands = [
  [['lumps']], [['levels']], [['show', 'E1M1']], [['show', '--wide', 'E1M1']], [['audit', 'E1M1']], [['audit', '--wide', 'E1M1']],
  [['points', 'E1M1'], points], [['points', '--wide', 'E1M1'], points], [['census', 'E1M1'], rectangles],
  [['census', '--wide', 'E1M1'], rectangles], [['sight', 'E1M1'], pairs], [['blocks', 'E1M1'], points],
  [['blocks', '--wide', 'E1M1'], points], [['extract', 'E1M1']], [['demo', 'DEMO1']], [['demo', 'BROKEN']],
];
for (const [words, input] of commands) {
  for (const paths of [['base.wad'], ['base.wad', 'demo.wad'], ['demo.wad', 'base.wad'], ['short.wad'], ['empty.wad']]) {
    await check(words, paths, input);
  }
}
for (const path of ['demo.lmp', 'cut.lmp', 'short.wad']) await check(['lmp'], [path]);
for (let i = 0; i < 40; i++) await check(['audit', 'E1M1'], [`damaged${i}.wad`]);
for (const words of [['nothing', 'E1M1'], ['points'], ['audit', '-x'], ['lmp', 'base.wad'], ['sight', '--wide', 'E1M1']]) {
  await check(words, ['base.wad']);
}
await check(['points', 'E1M1'], ['base.wad'], points.repeat(20000));

// The words of `wadlens`.
const label = (name) => [name, Buffer.alloc(0)];
keep('other.wad', wad([label('MAP01'), label('THINGS'), label('MAP02'), label('TEXTMAP'), label('E1M1'), label('THINGS'), label('LINEDEFS')]));
keep('notes.txt', Buffer.from('notes about the rooms'));
keep('behind.wad', Buffer.concat([wad([label('MAP01')]).subarray(0, 12), Buffer.from([1])]));
const files = [['base.wad'], ['base.wad', 'demo.wad'], ['other.wad', 'base.wad'], ['short.wad', 'damaged3.wad', 'notes.txt'], ['empty.wad'], ['behind.wad']];
const told = [['check'], ['check', '--wide'], ['check', '--max', '0'], ['check', '--wide', '--max', '1'], ['survey'], ['survey', '--wide'],
  ['check', '--map'], ['check', '--wide', '--map', '--strict', '--max', '2'], ['survey', '--map'], ['survey', '--wide', '--map', '--strict'],
  ['check', '--json'], ['check', '--wide', '--json', '--max', '1'], ['check', '--json', '--map', '--max', '0'], ['check', '--json', '--map', '--strict']];
for (const words of told) for (const paths of files) await checkLens(words, paths);
for (const words of [['demos'], ['demos', '--json']]) {
  for (const paths of [...files, ['demo.lmp'], ['cut.lmp', 'demo.lmp'], ['demo.wad', 'cut.lmp', 'demo.wad'], later]) await checkLens(words, paths);
}
for (const path of ['demo.lmp', 'cut.lmp', 'demo.wad', 'short.wad', ...later]) await checkLens(['listing'], [path]);
for (let i = 0; i < 40; i++) {
  for (const words of [['check'], ['check', '--json'], ['survey', '--wide', '--map'], ['cut', '--entry', '0']]) await checkLens(words, [`damaged${i}.wad`]);
}
for (const entry of ['0', '1', '5', '11', '12', '18446744073709551615']) {
  for (const path of ['base.wad', 'other.wad', 'demo.wad', 'short.wad', 'empty.wad']) await checkLens(['cut', '--entry', entry], [path]);
}

// Over base files. room.wad has unknown names beside those of its walls, and walled.wad has textures, too.
keep('room.wad', wad(rooms('E1M1', { damage: twoUnknown })));
keep('walled.wad', wad([...rooms('E1M1'), ['TEXTURE1', textures(['DOOR1'])]]));
keep('game.wad', wad([...rooms('E1M1'), ...wallsOfRooms()], 'IWAD'));
keep('doors.wad', wad([['TEXTURE1', textures(['DOOR1'])], ...flats('FLAT1')], 'IWAD'));
keep('second.wad', wad([['TEXTURE1', textures(['DOOR1'])], ['TEXTURE2', textures(['STEP1', 'STONE2'])]]));
keep('flats.wad', wad(flats('FLOOR0_1')));
const standing = [[['game.wad'], ['room.wad']], [['doors.wad'], ['room.wad']], [['game.wad'], ['walled.wad']], [['second.wad'], ['walled.wad']],
  [['flats.wad', 'second.wad'], ['room.wad']], [['flats.wad'], ['room.wad']], [['game.wad', 'doors.wad'], ['room.wad']],
  [['doors.wad', 'game.wad'], ['room.wad']], [['game.wad'], ['room.wad', 'short.wad', 'walled.wad']], [['game.wad'], ['game.wad']],
  [[...Array(62).fill('flats.wad'), 'game.wad'], ['room.wad']], [['short.wad'], ['room.wad']], [['game.wad', 'notes.txt'], ['room.wad']]];
for (const [bases, paths] of standing) {
  for (const words of [['check', '--map', '--max', '0'], ['check', '--json', '--map', '--max', '0'], ['survey', '--map']]) await checkLens(words, paths, bases);
}
await checkLens(['check', '--wide', '--map', '--strict', '--max', '1'], ['room.wad'], ['doors.wad']);
for (const path of ['room.wad', 'walled.wad', 'game.wad']) await checkLens(['check', '--map'], [path]);

await refuses(['cut', '--entry', '0'], ['base.wad', 'base.wad']);
await refuses(['listing'], ['demo.lmp', 'demo.lmp']);
for (const words of [['check'], ['survey'], ['demos'], ['demos', '--json'], ['listing'], ['cut', '--entry', '0']]) await refuses(words, []);
refusals(await WebAssembly.compile(readFileSync(join(folder, 'wad_page.wasm'))), host.Call, base, same);

// The worked cases: each file under each command that takes one, and its level's pictures; and each demo. Then those of later engines, and
// the recorded ones, damaged.
const readings = (command) => [[command, 'E1M1'], ...['points', 'census', 'blocks', 'show', 'audit'].includes(command) ? [[command, '--wide', 'e1m1']] : []];
for (const [name, bytes] of workedFiles(base)) {
  const path = `${name}.wad`;
  keep(path, bytes);
  await check(['lumps'], [path]);
  await check(['levels'], [path, path]);
  for (const command of ['show', 'audit', 'points', 'census', 'sight', 'blocks', 'extract', 'demo']) {
    for (const words of readings(command)) await check(words, [path], LINES[command] ?? '');
  }
  for (const words of [['check', '--map', '--max', '0'], ['survey', '--map'], ['check', '--wide', '--map', '--max', '0'], ['survey', '--wide', '--map'],
    ['check', '--json', '--map', '--max', '0'], ['cut', '--entry', '0']]) {
    await checkLens(words, [path]);
  }
  for (const reading of [[], ['--wide']]) await tellsRows(path, reading);
  await draws(path);
}
for (const [, words, given, input] of OTHERWISE) await check(words, given.map((name) => `${name}.wad`), input);
for (const [name, bytes] of workedDemos()) {
  const path = `${name}.lmp`, packed = `${name}.wad`;
  keep(path, bytes);
  keep(packed, wad([['DEMO1', bytes]]));
  await check(['lmp'], [path]);
  await check(['demo', 'demo1'], [packed]);
  await checkLens(['demos'], [path, packed]);
  await checkLens(['listing'], [path]);
}

await craftedDemos(run);
for (const name of later) {
  const path = `damaged ${name}`;
  for (const file of damagedDemos(names.get(name))) {
    keep(path, file);
    await checkLens(['demos'], [path]);
    await checkLens(['demos', '--json'], [path]);
  }
}

for (const path of ['base.wad', ...Array.from({ length: 40 }, (_, i) => `damaged${i}.wad`)]) await draws(path);
for (let i = 0; i < 40; i++) for (const reading of [[], ['--wide']]) await tellsRows(`damaged${i}.wad`, reading);
await tellsStored();
await tellsLeftOut();
await drawsOddLabel();
await listsRooms();
await sketches();
for (const path of [...names.keys()].filter((name) => name.endsWith('.wad'))) await lists(path);
await seeded(process.stdin, run);
process.exitCode = addUp();
