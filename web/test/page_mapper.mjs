// The cases of the page of a mapper, who follows findings, mends them and opens the file again.
import { readFileSync } from 'node:fs';
import { join } from 'node:path';
import { wait } from './browser.mjs';
import {
  FINDING, browser, check, codes, comes, drawn, drawnAnew, filterBy, found, fresh, hasInk, inkComes, isHidden, judged, legend, marked, pick, pinBy,
  placeOf, pointTold, printed, room, root, sift, textOf, textsOf, viewOf, written,
} from './person.mjs';
import { demo, flats, lostLinedef, oneLost, oneMistaken, oneTwice, rooms, textures, twoOverlooked, twoUnknown, wad, wallsOfRooms, words } from './wads.mjs';

/** Waits until the map stands still. */
async function still() {
  for (let before = '', now = 'none'; before !== now;) {
    before = now;
    await wait(400);
    now = (await viewOf()).join(' ');
  }
  await drawnAnew();
}

/** A level that the two damages together make. @param {...(lumps: Record<string, Buffer>) => void} damages */
const damaged = (...damages) => rooms('MAP01', { damage: (lumps) => damages.forEach((damage) => damage(lumps)) });

/** What the page says wasn't looked for; nothing where that is hidden. @returns {Promise<string>} */
const unlooked = async () => await isHidden('#unlooked') ? '' : textOf('#unlooked');

/** Faults that keep warnings from being looked for are told as such, whether or not a game's file is there. */
async function silenced() {
  const lost = written('lost.wad', wad(damaged(twoUnknown, oneLost))), twice = written('twice.wad', wad(damaged(twoUnknown, oneTwice)));
  const told = "Warnings aren't looked for until F3 to F9 are mended.";
  await fresh();
  await browser.drop(lost);
  await drawn('MAP01');
  check('a fault that silences warnings is told', [await textsOf('#findings .code'), await unlooked()], [['F4'], told]);
  await fresh();
  await browser.drop(lost, written('game.wad', wad([...rooms('MAP01'), ...wallsOfRooms()], 'IWAD')));
  await drawn('MAP01');
  check('and over a game\'s file', [await textsOf('#findings .code'), await unlooked()], [['F4'], told]);
  await browser.drop(twice);
  await browser.until("document.querySelector('#crumbs').textContent === 'twice.wadMAP01' && document.querySelector('#map').dataset.drawn", 'other faults');
  check('other faults silence two of them', [await textsOf('#findings .code'), await unlooked()],
    [['W9', 'W10', 'F15', 'F16'], "W3 and W5 aren't looked for until all faults are mended."]);
}

/** What of the findings is chosen: its words, and its place among its like. */
const chosenRow = () => browser.run("(() => { const e = document.querySelector('#findings [aria-selected=true]'); return [e?.querySelector('.row-name').textContent, e?.ariaPosInSet, e?.ariaSetSize, e?.ariaExpanded ?? '']; })()");

/** Findings stand under headings, what ends the game first, which fold by clicks and by keys. */
async function groups() {
  const lost = Buffer.concat(Array.from({ length: 33 }, () => lostLinedef));
  const more = (/** @type {Record<string, Buffer>} */ lumps) => {
    lumps.SEGS = Buffer.concat([lumps.SEGS, words(90, 91, 0, 0, 0, 0)]);
    lumps.THINGS = lumps.THINGS.subarray(10); // no player 1 start
    oneMistaken(lumps);
  };
  await fresh();
  await browser.drop(written('groups.wad', wad(rooms('MAP01', { linedefs: lost, damage: more }))));
  await drawn('MAP01');
  check('what ends the game stands first, then faults and notes', await codes(), 'N11 1 · F3 33 · F6 1 · N3 1');
  check('and what ends the game is told first', [await textOf('#told'), await browser.run("document.querySelector('#told').className")], ['ends the game: 34 faults, 2 notes', 'fault']);
  check('what has no place is told above the map', [await textOf('#of-level'), await isHidden('#of-level')], ['N11 No player 1 start', false]);
  check('each under a heading in plain words', await textsOf('#findings .group-name'),
    ['No player 1 start, 1', 'Linedef vertex names none, 33', 'Seg vertex names none, 1', 'Two-sided flag without side 1, 1']);
  check('that says what it is', await textsOf('#findings .odd .row-more'), ['N11 ends the game · note', 'F3 fault', 'F6 fault', 'N3 note']);
  check('a group of many is folded', (await found()).filter((_, k) => k % 3 < 2), ['N11', 'level', 'F6', 'seg 8', 'N3', 'linedef 4']);
  await browser.run("document.querySelector('#findings').focus()");
  for (let k = 0; k < 3; k++) await browser.key('ArrowDown');
  check('keys pass a heading', await chosenRow(), ['Linedef vertex names none, 33', '2', '4', 'false']);
  await browser.key('ArrowRight');
  check('which an arrow to the right opens', [await chosenRow(), (await textsOf(`${FINDING} .row-name`)).slice(0, 2)], [['Linedef vertex names none, 33', '2', '4', 'true'], ['level', 'linedef 7']]);
  await browser.key('ArrowDown');
  check('and the next is the first under it', await chosenRow(), ['linedef 7', '1', '33', '']);
  await browser.key('ArrowLeft');
  check('an arrow to the left folds it, with what was chosen there', await chosenRow(), ['Linedef vertex names none, 33', '2', '4', 'false']);
  await browser.key('Enter');
  check('Enter does as a click', (await chosenRow())[3], 'true');
  await browser.press('#findings [aria-selected=true] .group-name');
  check('a click folds it', (await chosenRow())[3], 'false');
  const { nodes } = await browser.send('Accessibility.getFullAXTree');
  check('all of that is heard as a tree', ['tree', 'treeitem'].map((role) => nodes.some((/** @type {any} */ node) => !node.ignored && node.role?.value === role)), [true, true]);
  await sifted();
}

/** A filter leaves headings with what it passes. The level has 36 findings. */
async function sifted() {
  await sift('found-filter', 'start 38');
  check('a filter passes what has its words', await found(), ['F3', 'linedef 38', "Start vertex 4000 isn't there (6 vertexes)"]);
  check('and tells how many of how many', await codes(), 'F3 1 of 33');
  await sift('found-filter', 'n3');
  check('a code passes all of it', await found(), ['N3', 'linedef 4', 'Two-sided, without a back sidedef, from (256, 256) to (512, 256)']);
  await browser.until("document.querySelector('#legend-found').textContent === '1 of 36 findings'", 'marks of what is passed');
  await sift('found-filter', 'nothing');
  check('what nothing has is told', [await codes(), await isHidden('#found-none')], ['', false]);
  await sift('found-filter', '');
  check('without one all are there', [await codes(), await isHidden('#found-none')], ['N11 1 · F3 33 · F6 1 · N3 1', true]);
}

/** What is hidden stays so in all levels of its file, and counts no more. */
async function hides() {
  const damages = (/** @type {Record<string, Buffer>} */ lumps) => [twoOverlooked, oneMistaken].forEach((damage) => damage(lumps));
  await fresh();
  await browser.drop(written('hides.wad', wad([...rooms('MAP01', { damage: damages }), ...rooms('MAP02', { damage: twoOverlooked })])));
  await drawn('MAP01');
  await judged();
  await marked();
  check('what is found is marked', await inkComes('fault', 512, 128), true);
  await browser.press('#findings .shut');
  await browser.until("!document.querySelector('#hidden-codes').hidden", 'a hidden code');
  check('a cross hides a code', [await codes(), await textOf('#hidden-codes'), await comes(() => hasInk('fault', 512, 128), false)],
    ['W3 1 · N3 1', 'Hidden in this file: W2, 1', false]);
  check('in the verdict and beside the levels', [await textOf('#told'), await textsOf('#levels .row-state')], ['1 warning, 1 note, otherwise sound', ['1 warning, 1 note · W3 N3', '1 warning · W3']]);
  await pick('levels', 'MAP02');
  await drawn('MAP02');
  check('in all levels of its file', [await codes(), await textOf('#told')], ['W3 1', '1 warning, otherwise sound']);
  await browser.drop(written('hides.wad', wad([...rooms('MAP01'), ...rooms('MAP02', { damage: damages })])));
  await browser.until("document.querySelector('#told').textContent === '1 warning, 1 note, otherwise sound'", 'the file that was saved');
  check('also once it was saved anew', await codes(), 'W3 1 · N3 1');
  await browser.run("document.querySelector('#findings').focus()");
  await browser.key('ArrowDown');
  await browser.key('Delete');
  check('a key hides a code, too', [await codes(), await textOf('#hidden-codes')], ['N3 1', 'Hidden in this file: W2, 1 W3, 1']);
  await browser.press('#hidden-codes button');
  check('and a button shows it again', [await codes(), await browser.run('document.activeElement.id')], ['W2 1 · N3 1', 'findings']);
  await browser.drop(written('faulty.wad', wad(rooms('MAP01', { damage: oneLost }))));
  await browser.until("document.querySelector('#crumbs').textContent === 'faulty.wadMAP01' && document.querySelector('#map').dataset.drawn", 'a fault');
  await browser.run("document.querySelector('#findings').focus()");
  await browser.key('ArrowDown');
  await browser.key('Delete');
  check("a fault can't be hidden", [await codes(), await textsOf('#findings .shut')], ['F4 1', []]);
}

/** What the page shows: the file and the level of the crumbs, the title, the verdict, the marked level, and whether the level can be saved. */
const shown = () => browser.run(`[...['#crumbs', '#title', '#told', '#levels [aria-selected=true] .row-name'].map((s) => document.querySelector(s)?.textContent ?? ''),
  !document.querySelector('#save-pwad').disabled]`);

/** A file that is chosen shows its own level: that of the same name, or else its first. */
async function others() {
  const first = written('first.wad', wad([...rooms('MAP01'), ...rooms('MAP02', { damage: oneMistaken })]));
  const second = written('second.wad', wad([...rooms('MAP03'), ...rooms('MAP02', { damage: oneLost })])), third = written('third.wad', wad(rooms('MAP04')));
  const at = (/** @type {string} */ crumbs) => browser.until(`document.querySelector('#crumbs').textContent === '${crumbs}' && document.querySelector('#map').dataset.drawn`, crumbs);
  await fresh();
  await browser.drop(first, second, third, written('walk.lmp', demo(35)), written('notes.txt', 'notes about the rooms'), written('none.wad', wad([['BULK', Buffer.alloc(9)]])));
  await browser.until("document.querySelectorAll('#files .row').length === 6 && !document.querySelector('#files').textContent.includes('reading')", 'six files');
  await drawn('MAP01');
  await pick('levels', 'MAP02');
  await at('first.wadMAP02');
  await pick('files', 'second.wad');
  await at('second.wadMAP02');
  await judged();
  check('a file that is chosen shows its level of the same name', await shown(), ['second.wadMAP02', 'MAP02', '1 fault', 'MAP02 doom', true]);
  await pick('files', 'third.wad');
  await at('third.wadMAP04');
  check('or else its first', await shown(), ['third.wadMAP04', 'MAP04', 'sound', 'MAP04 doom', true]);
  await pick('files', 'notes.txt');
  const refused = 'Refused: not a WAD file: it begins with neither IWAD nor PWAD.';
  check('one that is refused shows nothing of another', [await shown(), await textOf('#map-none'), await textOf('#findings-none')],
    [['notes.txt', 'No level', '', '', false], refused, refused]);
  await pick('files', 'none.wad');
  check('nor does one without levels', [await shown(), await textOf('#map-none')], [['none.wad', 'No level', '', '', false], 'No levels in this file.']);
  await pick('files', 'third.wad');
  await at('third.wadMAP04');
  await browser.drop(written('bulk.wad', wad([['BULK', Buffer.alloc(9)]])));
  await browser.until("document.querySelector('#title').textContent === 'No level'", 'a file without levels that is dropped');
  check('nor one that is dropped', await shown(), ['bulk.wad', 'No level', '', '', false]);
  await pick('files', 'walk.lmp');
  await browser.until("document.querySelector('#told').textContent.startsWith('version 109')", 'a demo');
  check('a demo is shown', (await shown()).slice(0, 2), ['walk.lmp', 'walk.lmp']);
  await pick('files', 'first.wad');
  await at('first.wadMAP01');
  await pick('levels', 'MAP02');
  await at('first.wadMAP02');
  await pick('files', 'first.wad');
  await drawnAnew();
  check('the file of what is shown leaves it', await shown(), ['first.wadMAP02', 'MAP02', '1 note, otherwise sound', 'MAP02 doom', true]);
}

/** A file that was saved and is dropped again takes the place of the one before, and what is chosen stays. */
async function again() {
  const names = () => textsOf('#files .row-name'), game = wad([...rooms('MAP01'), ...wallsOfRooms()], 'IWAD');
  /** Writes the file of a name anew and drops it. @param {string} name @param {Buffer | string} body @param {string} [told] the verdict that follows */
  const drop = async (name, body, told = '') => {
    await browser.run("{ document.querySelector('#told').textContent = ''; }");
    await browser.drop(written(name, body));
    await browser.until(`document.querySelector('#told').textContent === '${told}' && !document.querySelector('#files').textContent.includes('reading')`, `${name} again`);
    await judged();
  };
  await fresh();
  await browser.drop(written('game.wad', game), written('mine.wad', wad([...rooms('MAP01'), ...rooms('MAP02', { damage: oneMistaken }), ['DEMO1', demo(35)]])));
  await drawn('MAP01');
  await pick('levels', 'MAP02');
  await drawn('MAP02');
  await filterBy('map02');
  await pinBy('100 100');
  await pointTold('100 100 sector');
  await browser.press('#in');
  await drawnAnew();
  const view = await viewOf(), mended = wad([...rooms('MAP00'), ...rooms('MAP01'), ...rooms('MAP02', { damage: twoUnknown })]);
  await drop('mine.wad', mended, 'ends the game: 2 warnings');
  await drawn('MAP02');
  check('a file that is dropped again takes the place of the one before', await names(), ['game.wad', 'mine.wad']);
  check('and shows what it has now', (await textsOf('#files .row-more'))[1].split(' · ').slice(1), ['3 levels over game.wad']);
  check('of the same level', await shown(), ['mine.wadMAP02', 'MAP02', 'ends the game: 2 warnings', 'MAP02 doom', true]);
  check('from where it was seen', await viewOf(), view);
  await pointTold('100 100 sector');
  check('with its pinned point', `${await textOf('#point-line')}\n`, printed(['points', 'MAP02', 'f'], mended, '100 100\n').toString());
  check('and the filter stays', [await textsOf('#levels .row-name'), await browser.run("document.querySelector('#filter').value")], [['MAP02 doom'], 'map02']);
  await filterBy('');
  await drop('mine.wad', wad(rooms('MAP01')), 'sound');
  check('where that level is gone the first is shown', await shown(), ['mine.wadMAP01', 'MAP01', 'sound', 'MAP01 doom', true]);
  await drawn('MAP01');
  check('the whole of it, and no point', [(await viewOf())[2] < view[2], await isHidden('#point')], [true, true]);
  await drop('mine.wad', wad(rooms('MAP01', { damage: twoUnknown })), 'ends the game: 2 warnings');
  await drop('game.wad', wad([...rooms('MAP01'), ['TEXTURE1', textures(['STEP1', 'STONE2', 'NOWALL'])], ...flats('CEIL1_1')], 'IWAD'), 'ends the game: 2 warnings');
  check('so does the game\'s file, and what stands on it is judged anew', [await names(), (await shown())[0], await codes()], [['game.wad', 'mine.wad'], 'mine.wadMAP01', 'W10 2']);
  await drop('game.wad', wad(rooms('MAP01')), 'sound');
  await pick('files', 'mine.wad');
  await browser.until("document.querySelector('#crumbs').textContent === 'mine.wadMAP01' && document.querySelector('#told').textContent === 'sound'", 'no game');
  check('as where it is none any more', [await textsOf('#files .row-state'), await codes()], [['PWAD', 'PWAD'], '']);
  await pinBy('100 100');
  await pointTold('100 100 sector');
  await browser.press('#in');
  await drawnAnew();
  const near = await viewOf();
  await browser.run("{ document.querySelector('#title').textContent = ''; }");
  await browser.drop(written('mine.wad', 'no level any more'));
  await browser.until("document.querySelector('#title').textContent === 'No level'", 'a file that is none any more');
  check('and nothing is left of one that is refused', [await textsOf('#files .row-state'), await isHidden('#point')], [['PWAD', 'refused'], true]);
  await drop('mine.wad', wad(rooms('MAP01')), 'sound');
  await drawn('MAP01');
  await pointTold('100 100 sector');
  check('until it can be read again, and is seen as before', await viewOf(), near);
}

/** A finding on a sector leads to its outline; one without a place takes the mark of the one before away, and says so. */
async function sectors() {
  const file = written('flat.wad', wad([...rooms('MAP01', { damage: (lumps) => {
    twoUnknown(lumps);
    lumps.THINGS = lumps.THINGS.subarray(10); // no player 1 start
    const [west, east] = [lumps.SECTORS.subarray(0, 26), lumps.SECTORS.subarray(26)];
    lumps.SECTORS = Buffer.concat([west, east, west, west, east]); // the last three have no linedef
    lumps.REJECT = Buffer.alloc(4);
  } }), ...wallsOfRooms()]));
  await fresh();
  await browser.drop(file);
  await drawn('MAP01');
  check('findings with a sector and without a place', (await found()).filter((_, k) => k % 3 < 2), ['N11', 'level', 'W9', 'sidedef 5', 'W10', 'sector 1', 'W10', 'sector 4']);
  await marked();
  const outlined = [true, true, true, true, false], outline = () => Promise.all([[256, 60], [400, 256], [512, 60], [400, 0], [100, 256]].map(([x, y]) => hasInk('fault', x, y)));
  check('a sector is marked as the other findings are', await comes(outline, outlined), outlined);
  await browser.mouse('mouseMoved', ...await placeOf(400, 254));
  check('and told under the pointer', (await textOf('#under')).split('  –  ')[0], "W10 sector 1 · Floor flat NOFLAT isn't there");
  await browser.run("document.querySelector('#findings').focus()");
  await browser.key('End');
  await browser.until("document.querySelector('#under').textContent === 'W10 sector 4 has no place on the map.'", 'a sector without linedefs');
  await browser.key('ArrowUp');
  await browser.until("document.querySelector('#map').dataset.view.startsWith('384.000 128.000')", 'the view at the sector');
  await still();
  const [, , zoom] = await viewOf(), width = await browser.run("document.querySelector('#map').clientWidth");
  check('a finding on a sector shows all of it', [await comes(outline, outlined), 256 * zoom < width, 256 * zoom > 60], [outlined, true, true]);
  check('with a line that is wider than the other marks', await inkComes('fault', 512 - 2 / zoom, 60), true);
  for (let k = 0; k < 2; k++) await browser.key('ArrowUp'); // past a heading
  await browser.until("document.querySelector('#map').dataset.view.startsWith('512.000 128.000')", 'the view at the linedef');
  await still();
  check('one on a linedef has a mark about it', await inkComes('fault', 512, 128, 19), true);
  const view = await viewOf();
  await browser.key('Home');
  await browser.key('ArrowDown');
  await still();
  check('one without a place moves nothing, and takes that mark away', [await comes(() => hasInk('fault', 512, 128, 19), false), await viewOf()], [false, view]);
  check('and says so', await textOf('#under'), 'N11 level has no place on the map.');
}

/** A node and a vertex that are out of range lead to where they are, and a block is told by its column and its row. */
async function outside() {
  const file = written('outside.wad', wad(rooms('MAP01', { damage: (lumps) => {
    lumps.NODES.writeInt16LE(20000, 0);
    lumps.BLOCKMAP.writeInt16LE(9000, 8 + 2 * 7); // behind the four numbers, the offset of block 7 of rows of five
    lumps.VERTEXES = Buffer.concat([lumps.VERTEXES, words(17000, 300)]);
  } })));
  await fresh();
  await browser.drop(file);
  await drawn('MAP01');
  check('what is out of range', await found(), ['F12', 'node 0', 'Origin (20000, 0) is outside -16384 to 16383',
    'N10', 'block (2, 1)', "Its list isn't inside BLOCKMAP", 'N12', 'vertex 6', '(17000, 300) is outside -16384 to 16383']);
  await browser.press(FINDING);
  await browser.until("document.querySelector('#map').dataset.view.startsWith('20000.000 0.000')", 'the view at the node');
  await browser.run("document.querySelector('#findings').focus()");
  for (let k = 0; k < 2; k++) await browser.key('ArrowDown'); // past a heading
  await browser.until("document.querySelector('#under').textContent === 'N10 block (2, 1) has no place on the map.'", 'a block');
  for (let k = 0; k < 2; k++) await browser.key('ArrowDown');
  await browser.until("document.querySelector('#map').dataset.view.startsWith('17000.000 300.000')", 'the view at the vertex');
}

/** Only levels that were judged are told as such. */
async function unjudged() {
  const udmf = /** @type {[string, Buffer][]} */ ([['MAP08', Buffer.alloc(0)], ['TEXTMAP', Buffer.alloc(0)]]), name = ',"format":"doom",.wad';
  for (const [lumps, told] of /** @type {[[string, Buffer][], string][]} */ ([[udmf, '1 level, 0 judged'], [[...rooms('MAP01'), ...udmf], '2 levels, 1 judged'],
    [rooms('MAP01'), '1 level judged']])) {
    await fresh();
    await browser.run("{ window.told = []; new MutationObserver(() => window.told.push(document.querySelector('#said').textContent)).observe(document.querySelector('#said'), { childList: true }); }");
    await browser.drop(written(name, wad(lumps)));
    await judged();
    check(`how many are judged: ${told}`, await browser.run("window.told.filter((one) => one.endsWith(' judged'))"), [`${name}: ${told}`]);
  }
}

/** Notes and warnings of many codes. @param {Record<string, Buffer>} lumps */
const manyCodes = (lumps) => {
  [twoOverlooked, twoUnknown, oneMistaken].forEach((damage) => damage(lumps));
  lumps.SIDEDEFS.write('-\0', 5 * 30 + 20, 'latin1');
  lumps.SIDEDEFS.write('NOWALL', 3 * 30 + 20, 'latin1');
  lumps.THINGS = lumps.THINGS.subarray(10, 20);
};

/** A level's name has room beside many codes; and where three columns have none, one is shown at a time. */
async function widths() {
  const file = written('codes.wad', wad([...rooms('MAP01', { damage: manyCodes }), ...rooms('LONGNAME', { damage: manyCodes }), ...wallsOfRooms()]));
  const cut = () => browser.run("[...document.querySelectorAll('#levels .level-name > :first-child')].filter((e) => e.scrollWidth > e.clientWidth || !e.clientWidth).map((e) => e.textContent)");
  for (const width of [1440, 1280, 1024]) {
    await browser.screen(width, 800, 'dark');
    await fresh();
    await browser.drop(file);
    await drawn('MAP01');
    await judged();
    check(`a level of many codes, ${width}`, (await textsOf('#levels .row-state'))[0], 'ends the game: 6 warnings, 2 notes · N11 W9 W10 W2 W3 W7 W8 N3');
    check(`keeps its name, ${width}`, await cut(), []);
    check(`and tells all of them, ${width}`, await browser.run("document.querySelector('#levels .row-state').title.split('\\n')[0]"), 'ends the game: 6 warnings, 2 notes · N11 W9 W10 W2 W3 W7 W8 N3');
  }
  const panes = () => browser.run("[...document.querySelectorAll('.pane')].filter((e) => e.checkVisibility()).map((e) => e.dataset.pane)");
  check('four panes in three columns', await panes(), ['files', 'levels', 'map', 'notes']);
  for (const width of [880, 768]) {
    await browser.screen(width, 1024, 'dark');
    await browser.press('.tabs [data-to=map]');
    check(`one pane at a time, ${width}`, await panes(), ['map']);
  }
}

/** All findings are marked, not those alone that are listed first. */
async function manyMarks() {
  const twoSided = Buffer.concat(Array.from({ length: 99 }, (_, k) => words(0, 1, 4, 0, 0, k ? 0 : 7, -1)));
  await fresh();
  await browser.drop(written('marked.wad', wad(rooms('MAP01', { linedefs: twoSided }))));
  await drawn('MAP01');
  await marked();
  check('all of a group are told', (await codes()).split(' · ').at(-1), 'N3 99');
  check('and marked, which needs no number', await legend(), ['findings']);
}

/** Each code is told in words, where it is pointed at and where it is heard. */
async function meanings() {
  const page = readFileSync(join(root, 'docs/wadlens.1'), 'utf8'), told = page.slice(page.indexOf('.SH FINDINGS'), page.indexOf('.SH DIAGNOSTICS'));
  const all = [...told.matchAll(/^([FNW]\d+)\t/gm)].map(([, code]) => code);
  await fresh();
  const untold = await browser.run(`(async () => { const { meaningOf } = await import(new URL('codes.mjs', document.baseURI));
    return ${JSON.stringify(all)}.filter((code) => !meaningOf(code).startsWith({ F: 'Fault ', N: 'Note ', W: 'Warning ' }[code[0]] + code + ': ')); })()`);
  check('each code of the man page has a meaning', [all.length > 35, untold], [true, []]);
  check('faults, notes and warnings are explained before any file', await browser.run("[...document.querySelectorAll('#welcome p')].some((e) => e.checkVisibility() && /fault.*note.*warning/.test(e.textContent))"), true);
  await browser.drop(written('codes.wad', wad(rooms('MAP01', { damage: manyCodes }))));
  await drawn('MAP01');
  await judged();
  const meaning = 'Note N3: a linedef is two-sided, without a back sidedef.';
  check('a code in words', await browser.run("[...document.querySelectorAll('#findings .odd')].filter((e) => e.querySelector('.code').textContent === 'N3').map((e) => e.ariaDescription ?? e.getAttribute('aria-description'))"), [meaning]);
  check('beside a level, too', await browser.run("document.querySelector('#levels .row-state').title.split('\\n').at(-1)"), meaning);
  const { nodes } = await browser.send('Accessibility.getFullAXTree');
  const described = nodes.find((/** @type {any} */ node) => node.role?.value === 'treeitem' && node.name?.value.includes('N3') && node.description?.value);
  check('and heard', described?.description.value, meaning);
  await explanations();
  const unbuilt = (/** @type {Record<string, Buffer>} */ lumps) => { lumps.NODES = Buffer.alloc(0); };
  await browser.drop(written('unbuilt.wad', wad(rooms('MAP01', { damage: unbuilt }))));
  await browser.until("document.querySelector('#crumbs').textContent === 'unbuilt.wadMAP01' && document.querySelector('#map').dataset.drawn", 'a level without nodes');
  check('nodes that were not built are told in front of what is found', [await textOf('#advice'), await codes()],
    ["NODES is empty: 1 ssectors can't be reached; build the nodes.", 'F16 1']);
  await browser.drop(written('lost.wad', wad(rooms('MAP01', { damage: oneLost }))));
  await browser.until("document.querySelector('#crumbs').textContent === 'lost.wadMAP01' && document.querySelector('#map').dataset.drawn", 'a level with a fault');
  check('and what it means is folded in with its level', await browser.run("document.querySelector('#findings .explained') === null"), true);
  await pinBy('100 100');
  await pointTold('100 100');
  check('a level with faults answers no point', await textOf('#point-line'), "100 100 can't be answered while the level has faults");
  check('nor what it sees', [await textOf('#point-clear'), await textOf('#point-blocked')], ['unknown', 'unknown']);
  check('and is unpinned by a word', await textOf('#unpin'), 'Unpin');
}

/** What N3 means, as `wadlens explain` prints it: the line of its name, and the others in one. */
function wordsOfN3() {
  const page = readFileSync(join(root, 'docs/CODES.md'), 'utf8'), begins = page.indexOf('N3: ');
  const [head, ...lines] = page.slice(begins, page.indexOf('\n```', begins)).split('\n');
  return [head, lines.join(' ')];
}

/** A question mark in a heading and a key fold out what a code means, under it. The level has N3. */
async function explanations() {
  const folded = () => browser.run("[...document.querySelectorAll('#findings .explained')].flatMap((e) => [e.parentElement.querySelector('.code').textContent, [...e.children].map((p) => p.textContent).join(' ')])");
  const ask = "[...document.querySelectorAll('#findings .ask')].find((e) => e.dataset.code === 'N3')";
  const below = () => browser.run(`(() => { const head = ${ask}.closest('.row'), next = head.nextElementSibling, [a, b] = [head, next].map((e) => e.getBoundingClientRect()); return Math.abs(Math.round(b.top - a.bottom)); })()`);
  const [, words3] = wordsOfN3();
  check('no code is explained unasked', await folded(), []);
  await browser.run(`${ask}.id = 'asked'`);
  await browser.press('#asked');
  check('a question mark folds out what its code means', await folded(), ['N3', words3]);
  check('in three parts, and nothing lies on them', [(await textsOf('#findings .explained p')).length, await below()], [3, 0]);
  check('and chooses no row', await browser.run("document.querySelector('#findings [aria-selected=true]') === null"), true);
  await browser.run(`${ask}.id = 'asked'`);
  await browser.press('#asked');
  check('it folds it in again', await folded(), []);
  await browser.run("document.querySelector('#findings').focus()");
  await browser.key('End');
  await browser.key('?');
  check('and so does a key, of the chosen row', (await folded())[0], 'N3');
  const each = await browser.run(`(async () => { const { explanationOf } = await import(new URL('codes.mjs', document.baseURI));
    return ['F1', 'F18', 'N12', 'W25', 'X1', 'toString'].map((code) => explanationOf(code)?.parts.length ?? 0); })()`);
  check('each code is explained, and no other word', each, [3, 3, 3, 3, 0, 0]);
}

/** Whether an element is shown. @param {string} selector */
const isSeen = (selector) => browser.run(`document.querySelector('${selector}').checkVisibility()`);

/** Before any file, and where a demo is shown, there is no map to skip to; and what is dropped there is told once. */
async function without() {
  await fresh();
  check('no way to a map before any file', await isSeen('.skip'), false);
  await browser.key('Tab');
  check('the first that is reached there', await browser.run('document.activeElement.id'), 'choose-too');
  const data = { items: [], files: [join(room, 'rooms.wad')], dragOperationsMask: 1 };
  const ink = () => browser.run("(({ color, display }) => [display, color])(getComputedStyle(document.querySelector('.over')))");
  await browser.send('Input.dispatchDragEvent', { type: 'dragEnter', x: 300, y: 300, data });
  check('files over the page are told by its own words alone', await ink(), ['grid', 'rgba(0, 0, 0, 0)']);
  await browser.send('Input.dispatchDragEvent', { type: 'dragCancel', x: 300, y: 300, data });
  await browser.screen(390, 844, 'dark', true);
  await fresh();
  await browser.drop(written('walk.lmp', demo(35)));
  await browser.until("document.querySelector('#told').textContent.startsWith('version 109')", 'a demo');
  check('nor where a demo is shown', await isSeen('.skip'), false);
  await browser.press('.tabs [data-to=notes]');
  check('a demo has no details, and says so', [await isSeen('#findings-none'), await textOf('#findings-none'), await isSeen('.point')], [true, 'A demo has no findings.', false]);
  await browser.drop(written('walked.wad', wad(rooms('MAP01'))));
  await drawn('MAP01');
  await browser.press('.tabs [data-to=notes]');
  check('a level has them', [await textOf('#findings-none'), await isSeen('.point')], ['Nothing was found: all links and nodes hold together, and there is nothing to warn of.', true]);
}

export async function mapper() {
  for (const one of [silenced, groups, hides, others, again, sectors, outside, unjudged, widths, manyMarks, meanings, without]) {
    await browser.screen(1440, 900, 'dark');
    await one();
  }
}
