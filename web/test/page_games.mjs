// The cases of the page over the game's file: what is looked for there, and which file serves.
import {
  FINDING, browser, check, codes, drawn, found, fresh, isHidden, judged, pick, printed, programs, room, saved, textOf, textsOf, withhold, written,
} from './person.mjs';
import { runProgram } from './server.mjs';
import { demo, flats, rooms, textures, twoUnknown, wad, wallsOfRooms } from './wads.mjs';

const mine = wad([...rooms('MAP01', { damage: twoUnknown }), ['DEMO1', demo(35)]]);
const game = wad([...rooms('MAP01'), ...wallsOfRooms()], 'IWAD');
const mineFile = written('mine.wad', mine), gameFile = written('game.wad', game);

/** What a note adds where the game's file is wanted, in the place of what the program adds. */
const HELPS = "; drop the game's file, too.", PROGRAM_HELPS = "; name the game's with --base";
const NEITHER = `W9, W10, W25 weren't looked for: no file has TEXTURE1, F_START, F_END${HELPS}`;
const W9 = "Middle texture NOWALL isn't there, of linedef 5", W10 = "Floor flat NOFLAT isn't there";

/** The note of what wasn't looked for; nothing where there is none. @returns {Promise<string>} */
const note = async () => await isHidden('#unlooked') ? '' : textOf('#unlooked');
/** What stands behind the size of each file. @returns {Promise<string[]>} */
const held = async () => (await textsOf('#files .row-more')).map((/** @type {string} */ told) => told.split(' · ').slice(1).join(' · '));
/** @param {number} count */
const read = (count) => browser.until(`document.querySelectorAll('#files .row').length === ${count} && !document.querySelector('#files').textContent.includes('reading')`, `${count} files`);
/** Waits until a level was drawn anew, which takes away the picture before it. @param {() => Promise<unknown>} act @param {string} name */
async function redrawn(act, name) {
  await browser.run("{ document.querySelector('#map').dataset.drawn = ''; }");
  await act();
  await drawn(name);
}

/** Alone a file's textures and flats may be the game's, so none is unknown; over the game's file all are looked up. */
async function later() {
  await fresh();
  await browser.drop(mineFile);
  await drawn('MAP01');
  await judged();
  const alone = runProgram(programs, room, ['check', '--map', 'f'], [mine], Buffer.alloc(0));
  check("what wasn't looked for, as the program tells it", `wadlens: ${(await note()).replace(HELPS, PROGRAM_HELPS)}`, alone.refused);
  check('and what helps', await note(), NEITHER);
  check('nothing is told of it', [await textOf('#told'), await textsOf('#levels .row-state')], ['sound', ['sound']]);
  await redrawn(() => browser.drop(gameFile), 'MAP01');
  await read(2);
  await judged();
  check("the level stays when its game's file comes", [await textOf('#crumbs'), await textOf('#title')], ['mine.wadMAP01', 'MAP01']);
  check('and is judged over that', [await note(), await textOf('#told'), await codes()], ['', 'ends the game: 2 warnings', 'W9 1 · W10 1']);
  check('each in words', await found(), ['W9', 'sidedef 5', W9, 'W10', 'sector 1', W10]);
  check('so are all its levels', await textsOf('#levels .row-state'), ['ends the game: 2 warnings · W9 W10']);
  check('which file serves', [await textsOf('#files .row-name'), await held()], [['mine.wad', 'game.wad'], ['1 level over game.wad · 1 demo', '1 level']]);
  await browser.press(FINDING);
  await browser.until("document.querySelector('#map').dataset.view.startsWith('512.000 128.000')", 'the linedef of an unknown texture');
  const over = (/** @type {string[]} */ [command, ...words]) => printed([command, '--base', 'game.wad', ...words, 'mine.wad'], [game, mine]).toString('latin1');
  check('the saved report', await saved('report', 'mine.wad.txt'), over(['check', '--map', '--max', '0']));
  check('the saved survey', await saved('json', 'mine.wad.jsonl'), over(['survey', '--map']));
  await pick('files', 'game.wad');
  await pick('levels', 'MAP01');
  await browser.until("document.querySelector('#crumbs').textContent === 'game.wadMAP01'", "the game's level");
  await drawn('MAP01');
  await judged();
  check("the game's own level has all that it names", [await note(), await textOf('#told'), await textsOf('#levels .row-state')], ['', 'sound', ['sound']]);
}

/** Dropped together the game's file is read first, so each is judged once; what isn't the game's is shown. */
async function together() {
  await fresh();
  await browser.run(`{ const send = Worker.prototype.postMessage; window.asked = [];
    Worker.prototype.postMessage = function (data, ...more) { window.asked.push(data.job + ' ' + data.file?.name); send.call(this, data, ...more); }; }`);
  await browser.drop(gameFile, written('notes.txt', 'notes about the rooms'), mineFile);
  await read(3);
  await drawn('MAP01');
  await judged();
  check('of files that are dropped together mine is shown', [await textOf('#crumbs'), await codes()], ['mine.wadMAP01', 'W9 1 · W10 1']);
  check('in the order of the drop', await textsOf('#files .row-name'), ['game.wad', 'notes.txt', 'mine.wad']);
  const asked = await browser.run(`window.asked.filter((one) => /^(open|survey|look) /.test(one)).sort()`);
  check('each was judged once', asked, ['look mine.wad', 'open game.wad', 'open mine.wad', 'open notes.txt', 'survey game.wad', 'survey mine.wad']);
}

/** Of several games' files the first serves whose levels are named as the file's own, and else the first. */
async function several() {
  const first = written('first.wad', wad([...rooms('E1M1'), ['TEXTURE1', textures(['STEP1', 'STONE2', 'NOWALL'])], ...flats('FLOOR0_1', 'CEIL1_1')], 'IWAD'));
  const odd = written('odd.wad', wad(rooms('START')));
  await fresh();
  await browser.drop(mineFile, odd, first);
  await read(3);
  await drawn('MAP01');
  await judged();
  check('the only game serves all', await held(), ['1 level over first.wad · 1 demo', '1 level over first.wad', '1 level']);
  check('and has a texture', await textsOf('#levels .row-state'), ['ends the game: 1 warning · W10']);
  await redrawn(() => browser.drop(gameFile), 'MAP01');
  await read(4);
  await judged();
  const sorted = ['1 level over game.wad · 1 demo', '1 level over first.wad', '1 level', '1 level'];
  check('one with levels of such names takes its place', await held(), sorted);
  check('and what is unknown there is told', [await textsOf('#levels .row-state'), await codes()], [['ends the game: 2 warnings · W9 W10'], 'W9 1 · W10 1']);
  await browser.drop(written('second.wad', game));
  await read(5);
  check('a later one does not', await held(), [...sorted, '1 level']);
  await browser.until("document.querySelector('#crumbs').textContent === 'second.wadMAP01'", 'and is shown');
}

/** A file's own textures count, whatever its label; what no file has isn't looked for. */
async function own() {
  await fresh();
  await browser.drop(written('own.wad', wad([...rooms('MAP01', { damage: twoUnknown }), ['TEXTURE1', textures(['STEP1', 'STONE2'])]])));
  await drawn('MAP01');
  await judged();
  check('textures of its own', [await textsOf('#levels .row-state'), await codes()], [['ends the game: 1 warning · W9'], 'W9 1']);
  check('flats of none', await note(), `W10, W25 weren't looked for: no file has F_START, F_END${HELPS}`);
  await fresh();
  await browser.drop(written('label.wad', wad([...rooms('TEXTURE1', { damage: twoUnknown }), ...rooms('NOFLAT', { flat: 'LEVEL' }), ...wallsOfRooms()])));
  await drawn('TEXTURE1');
  await judged();
  check('a label is a flat, too, and hides no later textures', [await textsOf('#levels .row-state'), await codes()], [['ends the game: 2 warnings · W9 W25', 'ends the game: 2 warnings · W10'], 'W9 1 · W25 1']);
  await pick('levels', 'NOFLAT');
  await drawn('NOFLAT');
  check('the copy that is asked has a label that is no flat', await codes(), 'W10 2');
  await fresh();
  await browser.drop(written('bare.wad', wad(rooms('MAP01'), 'IWAD')));
  await drawn('MAP01');
  check("a game's file that has none", await note(), NEITHER.replace(HELPS, '.'));
}

/** A game's file that can't be read any more is told by its name, and what was found before isn't told as found over it. */
async function gone() {
  await fresh();
  await browser.drop(written('gone.wad', game));
  await drawn('MAP01');
  await judged();
  await withhold('open');
  await browser.drop(mineFile);
  await browser.until("document.querySelector('#work-label').textContent === 'Reading mine.wad'", 'a file under way');
  await browser.press('#stop'); // so that its worker, which has the game's file, is no more
  await browser.run('free()');
  written('gone.wad', 'now another');
  await browser.drop(written('again.wad', mine));
  await read(3);
  await browser.until("document.querySelector('#map-none').textContent", 'why it is not judged');
  check("a game's file that can't be read", await textOf('#map-none'), "gone.wad: can't be read");
}

export async function games() {
  for (const one of [later, together, several, own, gone]) await one();
}
