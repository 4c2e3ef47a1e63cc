// The cases of the page: see `page`, which runs this.
import { readFileSync, rmSync, writeFileSync } from 'node:fs';
import { join } from 'node:path';
import { wait } from './browser.mjs';
import { measure } from './measure.mjs';
import { contrast, keys, keysAlone, labels, phone } from './page_access.mjs';
import { asks } from './page_asked.mjs';
import { drops } from './page_drops.mjs';
import { follows } from './page_follow.mjs';
import { games } from './page_games.mjs';
import { judgings } from './page_judged.mjs';
import { layout } from './page_layout.mjs';
import { mapper } from './page_mapper.mjs';
import { offlines, unserved } from './page_offline.mjs';
import { savedPictures } from './page_saved.mjs';
import { unjudged } from './page_unjudged.mjs';
import {
  FINDING, answerLate, askable, browser, built, check, codes, comes, drawn, drawnAnew, dropRooms, filterBy, found, fresh, hasInk, inkComes, isHidden, isNative,
  judged, legend, listen, marked, options, pick, pictures, pinAt, pinBy, placeOf, pointTold, printed, programs, room, roomsFile, root, saved, server,
  textOf, textsOf, twoRooms, valueOf, viewOf, withhold, withoutHandles, written,
} from './person.mjs';
import { addUp, fail, skipped } from '../../tests/harness.mjs';
import { pythonHost, runProgram, serve } from './server.mjs';
import { demo, farLinedef, lostLinedef, oneMistaken, rooms, twoOverlooked, wad, words } from './wads.mjs';

async function files() {
  await fresh();
  check('no file yet', await textOf('#welcome-title'), 'Drop WAD files here');
  await browser.drop(roomsFile, written('notes.txt', 'notes about the rooms'), written('walk.lmp', demo(35)), written('short.wad', 'PWAD'));
  await browser.until("document.querySelectorAll('#files .row').length === 4 && !document.querySelector('#files').textContent.includes('reading')", 'four files');
  check('each file, its kind or why it was refused', await textsOf('#files .row-state'), ['PWAD', 'refused', 'demo', 'refused']);
  check('a refusal in words', (await textsOf('#files .row-more'))[1], 'not a WAD file: it begins with neither IWAD nor PWAD');
  check('another', (await textsOf('#files .row-more'))[3], 'shorter than a WAD header');
  await pick('files', 'notes.txt');
  check('what a refused file holds', await textOf('#levels-none'), 'Refused: not a WAD file: it begins with neither IWAD nor PWAD.');
  check('what a file holds', (await textsOf('#files .row-more'))[0].split(' · ').slice(1), ['2 levels', '1 demo']);
  await fresh();
  await browser.choose('#file', roomsFile, join(room, 'walk.lmp'));
  await browser.until("document.querySelectorAll('#files .row').length === 2 && !document.querySelector('#files').textContent.includes('reading')", 'two files');
  check('files that are chosen', await textsOf('#files .row-name'), ['rooms.wad', 'walk.lmp']);
  await drawn('MAP01');
}

/** A file that is chosen while it is read is shown once it is. */
async function reading() {
  const none = () => textOf('#levels-none');
  for (const [name, told, isDemo] of /** @type {[string, string, boolean][]} */ ([['walk.lmp', 'No levels in this file.', true],
    ['notes.txt', 'Refused: not a WAD file: it begins with neither IWAD nor PWAD.', false]])) {
    await fresh();
    await withhold('open', name);
    await browser.drop(roomsFile, join(room, name));
    await drawn('MAP01');
    await pick('files', name);
    check(`while it is read: ${name}`, [await none(), await isHidden('#levels-none')], [`Reading ${name} …`, false]);
    await browser.run('free()');
    await browser.until("!document.querySelector('#files').textContent.includes('reading')", 'a file that was chosen');
    check(`and once it is: ${name}`, [await none(), !await isHidden('#demos-part'), (await textsOf('#demos .row-name')).length], [told, isDemo, Number(isDemo)]);
  }
}

async function levels() {
  await judged();
  check('the levels', await textsOf('#levels .row-name'), ['MAP01 doom', 'MAP02 doom']);
  check('what was found', await textsOf('#levels .row-state'), ['sound', '1 note · N3']);
  check('their counts', (await textsOf('#levels .row-more'))[0], '7 linedefs · 2 sectors · 9 things');
  await filterBy('map02');
  check('the filter', await textsOf('#levels .row-name'), ['MAP02 doom']);
  await filterBy('n3 sound');
  check('a filter by code', await textsOf('#levels .row-name'), ['MAP02 doom']);
  await filterBy('nothing');
  check('a filter that nothing passes', await textOf('#levels-none'), 'No level matches.');
  await filterBy('');
  await browser.press('#only');
  check('those with findings', await textsOf('#levels .row-name'), ['MAP02 doom']);
  await browser.press('#only');
  await browser.run("document.querySelector('#levels').focus()");
  await browser.key('ArrowDown');
  await drawn('MAP02');
  check('an arrow key chooses the next level', await textOf('#levels [aria-selected=true] .row-name'), 'MAP02 doom');
  await browser.key('Home');
  await drawn('MAP01');
  check('its verdict', await textOf('#told'), 'sound');
  check('its counts', (await textsOf('#counts div')).join(' '), 'things9 linedefs7 sidedefs8 vertexes6 segs8 ssectors2 nodes1 sectors2');
}

/** The colours of the ground in the west and in the east. @returns {Promise<number[][]>} */
const groundOfRooms = async () => {
  await drawnAnew();
  return browser.run(`(() => { const e = document.querySelector('#map canvas'), p = e.getContext('2d');
    return [0.35, 0.65].map((x) => [...p.getImageData(e.width * x, e.height * 0.46, 1, 1).data]); })()`);
};

async function picture() {
  await askable('MAP01');
  check('as many paths as the picture has', await browser.run("document.querySelector('#map').dataset.paths"), '4'); // two sectors, one-sided, two-sided
  await browser.mouse('mouseMoved', ...await placeOf(130, 100));
  check('what lies under the pointer', await textOf('#under'), 'sector 0 · floor 0 FLOOR0_1 · ceiling 128 CEIL1_1 · light 160 · special 0 · tag 0');
  await browser.mouse('mouseMoved', ...await placeOf(384, 128));
  check('a thing under the pointer', (await textOf('#under')).split('  –  ')[0], 'thing 1: former human · monster · faces east · in easy, medium, hard');
  await browser.mouse('mouseMoved', ...await placeOf(130, -8));
  check('nothing under the pointer', await textOf('#under'), 'nothing is shown here');
  const [west, east] = await groundOfRooms();
  check('the brighter room is drawn brighter', east[0] > west[0], true);
}

async function point() {
  const [, east] = await groundOfRooms();
  await pinAt(100, 100);
  await browser.until("!document.querySelector('#point').hidden && document.querySelector('#point-clear').textContent !== ''", 'a pinned point');
  const line = await textOf('#point-line'), at = `${line.split(' ').slice(0, 2).join(' ')}\n`;
  check('the line of a pinned point is the program\'s', `${line}\n`, printed(['points', 'MAP01', 'f'], twoRooms, at).toString());
  check('its sector', line.split(' ').slice(2, 4), ['sector', '0']);
  check('the linedefs of its block', `${await textOf('#point-block .numbers')}\n`, printed(['blocks', 'MAP01', 'f'], twoRooms, at).toString().split(' lines ')[1]);
  check('what the picture tells of that', await textOf('#point-sector'), '0 · floor 0 FLOOR0_1 · ceiling 128 CEIL1_1 · light 160 · special 0 · tag 0');
  check('what REJECT lets it see', await textOf('#point-clear'), '0');
  check('and what not', await textOf('#point-blocked'), '1');
  check('there is nothing that it does not tell', await isHidden('#unknown-row'), true);
  check('what it cannot see is dark on the map', (await groundOfRooms())[1][0] < east[0], true);
  check('and told by a legend', await legend(), ['pinned sector', 'REJECT lets it see', 'linedefs of its block']);
  await pinBy('300 100');
  await pointTold('300 100');
  check('a point by its numbers', await textOf('#point-line'), '300 100 sector 1 ssector 1');
  check('what it sees', await textOf('#point-clear'), '0 1');
  await pinBy('20000 0');
  await pointTold('20000');
  check('a point out of range', await textOf('#point-line'), "20000 0 isn't told: places reach from -16384 to 16383");
  await browser.press('#unpin');
  check('unpinned', await isHidden('#point'), true);
  await browser.press('#fit');
  check('and the map is as before', await comes(async () => (await groundOfRooms())[1], east), east);
}

/** What REJECT doesn't tell stays as it is, and is no answer of another kind. */
async function unknown() {
  const damage = (/** @type {Record<string, Buffer>} */ lumps) => {
    lumps.SECTORS = Buffer.concat(Array.from({ length: 200 }, () => lumps.SECTORS));
    lumps.REJECT = Buffer.alloc(0);
  };
  const file = wad(rooms('MAP01', { damage })), all = Array.from({ length: 400 }, (_, k) => k);
  const told = () => Promise.all(['#point-clear', '#point-blocked', '#point-unknown'].map(textOf));
  await fresh();
  await browser.drop(written('untold.wad', file));
  await drawn('MAP01');
  const ground = await groundOfRooms();
  await pinBy('100 100');
  await pointTold('100 100');
  check('the program tells it as unknown', printed(['sight', 'MAP01', 'f'], file, '0 0\n0 399\n').toString(), '0 0 unknown\n0 399 unknown\n');
  check('and the page', await told(), ['none', 'none', all.join(' ')]);
  check('what is unknown is not dark on the map', (await groundOfRooms())[1], ground[1]);
  check('and the legend tells of no sight', await legend(), ['pinned sector', 'linedefs of its block']);
  const isMore = () => browser.run("document.querySelector('#point-unknown .numbers').classList.contains('more')");
  check('a list that goes on fades', await isMore(), true);
  await browser.run("{ const e = document.querySelector('#point-unknown .numbers'); e.scrollTop = e.scrollHeight; }");
  await drawnAnew();
  check('and not at its end', await isMore(), false);

  await withhold('sight');
  await pinBy('300 100');
  await browser.until("document.querySelector('#point-line').textContent.startsWith('300 100')", 'a point without its sight');
  await browser.run("document.querySelector('#stop').click()");
  await pointTold('300 100');
  check('a sight that was stopped is unknown', [...(await told()).slice(0, 2), await isHidden('#unknown-row')], ['unknown', 'unknown', true]);
  await browser.run('free()');
  await pinBy('100 100');
  await pointTold('100 100');
  check('and told anew', (await told())[2], all.join(' '));
}

async function moves() {
  await browser.press('#fit');
  await drawnAnew();
  const [x, y, zoom] = await viewOf(), [mx, my] = await browser.middle('#map');
  await browser.mouse('mouseWheel', mx, my, { deltaX: 0, deltaY: -200 });
  await drawnAnew();
  const nearer = (await viewOf())[2];
  check('the wheel zooms', nearer > zoom, true);
  await browser.mouse('mousePressed', mx, my);
  for (const step of [20, 40, 60]) await browser.mouse('mouseMoved', mx + step, my, { button: 'left', buttons: 1 });
  await browser.mouse('mouseReleased', mx + 60, my);
  await drawnAnew();
  check('a drag moves', (await viewOf())[0] < x, true);
  check('a drag pins nothing', await isHidden('#point'), true);
  await browser.run("document.querySelector('#map').focus()");
  await browser.key('0');
  await drawnAnew();
  check('0 shows all', (await viewOf()), [x, y, zoom]);
  await browser.key('ArrowLeft');
  await browser.key('+');
  await drawnAnew();
  const moved = await viewOf();
  check('keys move and zoom', moved[0] < x && moved[2] > zoom, true);
  await browser.key('Enter');
  await browser.until("!document.querySelector('#point').hidden", 'a point by a key');
  check('Enter pins the middle', (await textOf('#point-line')).split(' ').slice(0, 2), [String(Math.floor(moved[0])), String(Math.floor(moved[1]))]);
  await browser.key('Escape');
  check('Escape unpins it', await isHidden('#point'), true);
}

async function finer() {
  const place = await placeOf(128, 128);
  await browser.mouse('mouseMoved', ...place);
  for (let k = 0; k < 4; k++) await browser.mouse('mouseWheel', ...place, { deltaX: 0, deltaY: -300 });
  await browser.until("document.querySelector('#map').dataset.fine === '1'", 'cells of a unit');
  await browser.mouse('mouseMoved', place[0] + 1, place[1]);
  check('what lies under the pointer, in finer cells', (await textOf('#under')).startsWith('sector 0 · floor 0 FLOOR0_1'), true);
}

async function findings() {
  await pick('levels', 'MAP02');
  await drawn('MAP02');
  check('a finding\'s codes', await codes(), 'N3 1');
  check('a finding', await found(), ['N3', 'linedef 4', 'Two-sided, without a back sidedef, from (256, 256) to (512, 256)']);
  const before = await viewOf();
  await browser.press(FINDING);
  await browser.until("document.querySelector('#map').dataset.view.startsWith('384.000 256.000')", 'the view at the finding');
  check('a finding moves the view to its place', before.slice(0, 2).join(' ') !== (await viewOf()).slice(0, 2).join(' '), true);
  check('and is marked there', await inkComes('fault', 384, 256, 19), true);
}

/**
 * Whether the mark of a chosen finding is about a place: an arm of it stands above. A slow machine draws it only once the map stands still.
 * @param {number} x @param {number} y
 */
const isMarked = (x, y) => comes(async () => hasInk('fault', x, y + 24 / (await viewOf())[2]), true);

/** A row that is pressed is chosen, also where an answer makes it anew before it is let go. */
async function pressed() {
  await fresh();
  await withhold('survey');
  await browser.drop(roomsFile);
  await drawn('MAP01');
  await browser.run("[...document.querySelectorAll('#levels .row')][1].id = 'pressed'");
  const at = await browser.middle('#pressed');
  await browser.mouse('mouseMoved', ...at);
  await browser.mouse('mousePressed', ...at);
  await browser.run('free()');
  await judged();
  check('a row is made anew', await browser.run("document.querySelector('#pressed')"), null);
  await browser.mouse('mouseReleased', ...at);
  await drawn('MAP02');
  check('and chosen', await textOf('#levels [aria-selected=true] .row-name'), 'MAP02 doom');
}

/** What is chosen before the picture is there is marked in it. */
async function early() {
  await dropRooms();
  await withhold('picture');
  await pick('levels', 'MAP02');
  await browser.until(`document.querySelector('${FINDING}')`, 'the findings before the picture');
  await browser.press(FINDING);
  await pinBy('300 100');
  await pointTold('300 100');
  check('no picture yet tells of its sector', [await isHidden('#sector-row'), await legend()], [true, []]);
  await browser.run('free()');
  await drawn('MAP02');
  await browser.until("document.querySelector('#map').dataset.view.startsWith('384.000 256.000')", 'the finding that was chosen');
  check('a finding that was chosen before the picture is marked', await isMarked(384, 256), true);
  check('and so is the point', await inkComes('ink', 300, 100), true);
  await browser.until("document.querySelector('#asked-title').textContent === 'Linedef 4' && !document.querySelector('#asked-part').hidden", 'what the finding is about');
  check('and told is what the finding is about', (await textOf('#under')).split('  –  ')[0], 'Linedef 4');
  check('what the picture tells of it', await textOf('#point-sector'), '1 · floor 24 FLOOR0_1 · ceiling 128 CEIL1_1 · light 224 · special 0 · tag 0');
  check('and the legend', [await isHidden('#sector-row'), await legend()], [false, ['pinned sector', 'REJECT lets it see', 'linedefs of its block', 'findings']]);

  await browser.screen(390, 844, 'dark', true);
  await fresh();
  await withhold('picture');
  await browser.drop(written('overlooked.wad', wad(rooms('MAP01', { damage: twoOverlooked }))));
  await browser.until(`document.querySelector('${FINDING}')`, 'the findings before the picture');
  await browser.press('.tabs [data-to=notes]');
  await browser.press(FINDING);
  await browser.run('free()');
  await drawn('MAP01');
  await browser.press('.tabs [data-to=map]');
  await browser.until("document.querySelector('#map').dataset.view.split(' ')[2] > 0.5", 'the whole map, where it was not seen yet');
  check('and where the map was not seen yet', await isMarked(512, 128), true);
}

/** The place of a finding that is told late doesn't win over a later choice. */
async function late() {
  const damage = (/** @type {Record<string, Buffer>} */ lumps) => {
    lumps.SIDEDEFS.writeInt16LE(-1, 28);
    oneMistaken(lumps);
  };
  await fresh();
  await withhold('ends');
  await browser.drop(written('late.wad', wad(rooms('MAP01', { damage }))));
  await drawn('MAP01');
  check('a finding whose place is asked for, and one that tells it', (await textsOf(`${FINDING} .row-message`)).slice(0, 2),
    ["Sector 65535 isn't there (2 sectors), of linedef 0", 'Two-sided, without a back sidedef, from (256, 256) to (512, 256)']);
  await browser.press(FINDING);
  await browser.run("document.querySelector('#findings').focus()");
  for (let k = 0; k < 2; k++) await browser.key('ArrowDown'); // past a heading
  await browser.until("document.querySelector('#map').dataset.view.startsWith('384.000 256.000')", 'the later finding');
  await browser.run('free()');
  await marked();
  check('the later of two choices is marked', [await isMarked(384, 256), (await viewOf()).slice(0, 2)], [true, [384, 256]]);
}

/** Counts from now on what the page asks its workers for, and what those answer. */
const countQuestions = () => browser.run(`{ const send = Worker.prototype.postMessage, heard = new Set();
  Object.assign(window, { asks: 0, answers: 0 });
  Worker.prototype.postMessage = function (...question) {
    if (!heard.has(this)) this.addEventListener('message', () => window.answers++);
    heard.add(this);
    window.asks++;
    send.apply(this, question); }; }`);

/** Waits until the map is at rest: 200 ms after it was moved its part in view is asked for, and again where that was moved meanwhile. */
async function rested() {
  await drawnAnew();
  await browser.run('new Promise((go) => setTimeout(go, 300))'); // later than the page's own, however slow the page is
  await browser.until('window.asks === window.answers', 'answers to all that was asked');
}

/** The part in view is asked for anew where it isn't there, in a map that is lower than the view too, and once, at the edge of all places too. */
async function edge() {
  const damage = (/** @type {Record<string, Buffer>} */ lumps) => {
    lumps.VERTEXES = Buffer.concat([lumps.VERTEXES, words(-20000, 128, 32767, 128)]);
    lumps.LINEDEFS = Buffer.concat([lumps.LINEDEFS, words(6, 7, 1, 0, 0, 0, -1)]);
  };
  const fine = () => browser.run("document.querySelector('#map').dataset.fine");
  await fresh();
  await browser.drop(written('edge.wad', wad(rooms('MAP01', { damage }))));
  await drawn('MAP01');
  await judged();
  await askable('MAP01');
  await countQuestions();
  const middle = await placeOf(6000, 128);
  // From 1.25 on cells of two units are coarse, too, which a slow machine is given on the way.
  for (; (await viewOf())[2] < 1.25; await drawnAnew()) await browser.mouse('mouseWheel', ...middle, { deltaX: 0, deltaY: -300 });
  await rested();
  check('finer cells of a low map', await fine(), '1');
  await browser.run("{ window.asks = window.answers = 0; document.querySelector('#map').focus(); }");
  for (let k = 0; k < 8; k++) await browser.key('ArrowRight', 8);
  await rested();
  check('finer cells of another part are asked for', await browser.run('window.asks > 0'), true);
  await browser.key('0');
  await drawnAnew();
  await browser.run("delete document.querySelector('#map').dataset.fine");
  const place = await placeOf(32767, 128);
  for (let k = 0; k < 20; k++) {
    await browser.mouse('mouseWheel', ...place, { deltaX: 0, deltaY: -300 });
    await drawnAnew();
  }
  for (; (await viewOf())[0] < 32760; await drawnAnew()) await browser.key('ArrowRight', 8);
  await rested();
  check('finer cells at the edge', await fine(), '1');
  await browser.run('{ window.asks = 0; }');
  await wait(500);
  check('a map at rest asks no more', await browser.run('window.asks'), 0);
}

/** What no fault is, and no mapper wants. */
async function warnings() {
  const file = wad([...rooms('MAP01', { damage: twoOverlooked }), ...rooms('MAP02')]);
  await fresh();
  await browser.drop(written('overlooked.wad', file));
  await drawn('MAP01');
  await judged();
  check('warnings beside the verdict', await textsOf('#levels .row-state'), ['2 warnings · W2 W3', 'sound']);
  check('how many of them', await textOf('#told'), '2 warnings, otherwise sound');
  check('their codes', await codes(), 'W2 1 · W3 1');
  check('each in words', await found(), ['W2', 'linedef 5', 'No middle texture in front, from (512, 256) to (512, 0)',
    'W3', 'thing 1', 'Stands in the void, at (536, 128)']);
  await askable('MAP01');
  await marked();
  check('the legend tells of them', await legend(), ['findings']);
  check('where they are on the map', [await hasInk('fault', 512, 128), await hasInk('fault', 536, 128, 5), await hasInk('fault', 0, 128)], [true, true, false]);
  await pinBy('300 100');
  await browser.until("document.querySelector('#point-block .numbers')", 'a block whose list names them');
  await drawnAnew();
  check('and over the lines of a block', await inkComes('fault', 512, 128), true);
  await browser.mouse('mouseMoved', ...await placeOf(511, 40));
  check('a warning under the pointer', (await textOf('#under')).split('  –  '), ['W2 linedef 5 · No middle texture in front', 'linedef 5: one-sided', 'sector 1 · floor 24 FLOOR0_1 · ceiling 128 CEIL1_1 · light 224 · special 0 · tag 0']);
  await browser.press(FINDING);
  await browser.until("document.querySelector('#map').dataset.view.startsWith('512.000 128.000')", 'the linedef of a warning');
  await browser.run("document.querySelector('#findings').focus()");
  for (let k = 0; k < 2; k++) await browser.key('ArrowDown'); // past a heading
  await browser.until("document.querySelector('#map').dataset.view.startsWith('536.000 128.000')", 'the thing of a warning');
  await filterBy('w3');
  check('a filter by a warning', await textsOf('#levels .row-name'), ['MAP01 doom']);
  await filterBy('');
  await pick('levels', 'MAP02');
  await drawn('MAP02');
  check('a level without any', [await textOf('#told'), await textOf('#findings-none')], ['sound', 'Nothing was found: all links and nodes hold together, and there is nothing to warn of.']);
}

async function faults() {
  const lost = Buffer.concat(Array.from({ length: 100 }, () => lostLinedef));
  const file = wad([...rooms('MAP01', { linedefs: lost }), ['MAP02', Buffer.alloc(0)], ['THINGS', Buffer.alloc(0)], ['MAP03', Buffer.alloc(0)], ['TEXTMAP', Buffer.alloc(0)]]);
  await fresh();
  await browser.drop(written('lost.wad', file));
  await drawn('MAP01');
  await judged();
  check('levels that are not judged', await textsOf('#levels .row-state'), ['100 faults · F3', 'not judged', 'not judged']);
  check('and why', (await textsOf('#levels .row-more')).slice(1), ['incomplete: no LINEDEFS where it belongs', 'udmf: not read']);
  check('the verdict of a level with faults', await textOf('#told'), '100 faults');
  check('all of them are listed at once', [await codes(), await browser.run("document.querySelector('#findings .row:not(.odd)').ariaSetSize")], ['F3 100', '100']);
  check('each in words', await textOf(`${FINDING} .row-message`), "Start vertex 4000 isn't there (6 vertexes)");
  await pick('levels', 'MAP02');
  await browser.until("document.querySelector('#title').textContent === 'MAP02' && document.querySelector('#map-none').textContent !== ''", 'MAP02');
  check('no picture of it', await browser.run("document.querySelector('#map').dataset.drawn ?? ''"), '');
  check('nor is it told as that of another', await browser.run("document.querySelector('#map').ariaLabel"), 'Map');
}

/** A level without a place has findings and no picture. */
async function undrawn() {
  const file = wad(rooms('MAP01', { damage: (lumps) => { lumps.VERTEXES = Buffer.alloc(0); } }));
  await fresh();
  await browser.drop(written('nowhere.wad', file));
  await drawn('MAP01');
  check('the program draws nothing', runProgram(programs, room, ['picture', 'MAP01', 'f'], [file], Buffer.alloc(0)).refused, 'wadlens: MAP01: nothing to draw');
  check('and the page tells why', await textOf('#map-none'), 'nothing to draw: no linedef has both of its vertexes');
  check('its findings are there', (await textsOf(`${FINDING} .row-name`)).length > 0, true);
  check('no picture is saved', await browser.run("document.querySelector('#save-svg').disabled"), true);
}

async function demos() {
  await dropRooms();
  await answering('a demo of 10000 tics, to its table', () => browser.press('#demos .row'), "document.querySelectorAll('.cells-row').length > 0");
  await browser.until("document.querySelector('#told').textContent", 'the line of the demo');
  check('a demo in one line', await textOf('#told'), 'version 109, Hurt me plenty (skill 3), MAP04, 1 player, 10000 tics, 4:45.71');
  check('only rows in view are made', await browser.run("document.querySelectorAll('.cells-row').length < 80"), true);
  check('of all its commands', await browser.run("document.querySelector('#commands').getAttribute('aria-rowcount')"), '10001');
  await browser.run("{ document.querySelector('#tic').value = '9000'; }");
  await answering('a tic of it', () => browser.press('#tic-form button'), "[...document.querySelectorAll('.cells-row')].some((row) => row.firstChild.textContent === '9000')");
  check('a command', await browser.run("[...document.querySelectorAll('.cells-row')].find((row) => row.firstChild.textContent === '9000').innerText.split(/\\s+/)"),
    ['9000', '1', '50', '0', '0', '–']);
  await spoken();
  await pick('levels', 'MAP01');
  await drawn('MAP01');
  check('back to the level', await isHidden('#demo'), true);
}

/** A demo as players name it: by the levels of its file, or by both names; turns with a sign, and buttons by name. */
async function spoken() {
  const table = () => browser.run("[...document.querySelectorAll('.cells-row')].slice(0, 8).map((row) => [...row.children].slice(4).map((e) => e.textContent).join(' '))");
  const listed = (/** @type {string} */ name) => browser.until(`document.querySelector('#title').textContent === '${name}' && document.querySelector('.cells-row')`, name);
  const commands = [[50, 0, 254, 0x81], [50, 0, 128, 0x82 + (3 << 2)], [206, 0, 127, 3], [0, 0, 0, 4 + (6 << 3)], [0, 0, 1, 1 + 4], [0, 24, 0, 0]];
  const walk = Buffer.from([109, 4, 1, 9, 0, 0, 0, 0, 0, 1, 0, 0, 0, ...commands.flat(), 128]);
  const long = Buffer.from([111, 0, 2, 3, 0, 0, 0, 0, 0, 1, 0, 0, 0, 50, 0, 0x00, 0xff, 0, 50, 0, 0x01, 0x02, 2, 128]);
  await browser.drop(written('spoken.lmp', walk));
  await listed('spoken.lmp');
  check('a demo beside no level has both names of its map', await textOf('#told'), 'version 109, Nightmare! (skill 5), E1M9 or MAP09, 1 player, 6 tics, 0:00.17');
  check('turns have a sign, and buttons names', await table(), ['-2 pause', '-128 save, slot 4', '+127 attack, use', '0 BFG 9000', '+1 attack, fist', '0 –']);
  check('what a sign means is told', await browser.run("[...document.querySelectorAll('.cells-head span')].map((e) => e.title).filter(Boolean)"),
    ['+ forward, - back', '+ right, - left', '+ left, - right']);
  check('the table has the width of its part', await browser.run("(() => { const [row, part] = ['.cells-row', '#commands'].map((s) => document.querySelector(s)); return part.clientWidth - row.lastChild.getBoundingClientRect().right + part.getBoundingClientRect().left < 40; })()"), true);
  await browser.drop(written('long.lmp', long));
  await listed('long.lmp');
  check('turns of two bytes, and a later episode', [(await textOf('#told')).split(', ').slice(1, 3), (await table()).slice(0, 2)],
    [["I'm too young to die (skill 1)", 'E2M3'], ['-256 –', '+513 use']]);
  await pick('files', 'rooms.wad');
  await drawn('MAP01');
}

/** A demo of a later engine in a wrapper: what stands around it, its options, and what is added to its commands. */
async function laterDemos() {
  const pairs = () => browser.run("[...document.querySelectorAll('#options div')].map((pair) => [...pair.children].map((part) => part.textContent).join(' '))");
  await fresh();
  await browser.drop(written('later.lmp', readFileSync(join(root, 'tests', 'recorded_demos', 's255ex.lmp'))));
  await browser.until("document.querySelector('#options div') && document.querySelector('.cells-row')", 'a demo of a later engine');
  check('a later engine and a wrapper in one line', await textOf('#told'),
    'version 221 (MBF21) in DSDA 2, Ultra-Violence (skill 4), E1M1 or MAP01, 1 player, 43 tics, 0:01.22, after 177');
  check('the wrapper and the first options', (await pairs()).slice(0, 8),
    ['wrapper DSDA 2', 'marker 367', 'tics 43', 'flags 0', 'monsters remember 1', 'weapon recoil 0', 'player bobbing 1', 'rngseed 3591932331']);
  check('the compatibility options', (await pairs()).at(-1), 'comp 0 0 0 0 0 0 0 0 0 0 0 0 1 0 0 1 0 0 0 0 0 1 1 0 1');
  check('the commands alone are rows', await browser.run("document.querySelector('#commands').getAttribute('aria-rowcount')"), '44');
  check('what DSDA-Doom adds to one', await browser.run("[...document.querySelectorAll('.cells-row')].find((row) => row.firstChild.textContent === '7').lastChild.textContent"), 'jump');
  await browser.drop(written('doom.lmp', demo(35)));
  await browser.until("document.querySelector('#title').textContent === 'doom.lmp' && document.querySelector('.cells-row')", "a demo of Doom's");
  check("Doom's own has no options", await isHidden('#options-part'), true);
}

async function saves() {
  await dropRooms();
  await judged();
  check('the saved level is the program\'s', await saved('pwad', 'MAP01.wad'), printed(['extract', 'MAP01', 'f'], twoRooms).toString('latin1'));
  check('the saved report', await saved('report', 'rooms.wad.txt'), printed(['check', '--map', '--max', '0', 'rooms.wad'], twoRooms).toString('latin1'));
  check('the saved survey', await saved('json', 'rooms.wad.jsonl'), printed(['survey', '--map', 'rooms.wad'], twoRooms).toString('latin1'));
  await withhold('cut');
  await browser.press('#save-pwad');
  await pick('levels', 'MAP02');
  await drawn('MAP02');
  await listen();
  await browser.run('free()');
  await browser.until("window.heard.some((one) => one.endsWith(' saved'))", 'a level that is left is saved');
  check('a level that is left meanwhile is saved under its own name', await browser.run("window.heard.filter((one) => one.endsWith(' saved'))"), ['MAP01.wad saved']);
}

async function markup() {
  const label = '<img on=', name = '<img src=x onerror=document.title=1>.wad';
  await fresh();
  await browser.drop(written(name, wad(rooms(label, { flat: '<b>"&\'</' }))));
  const shown = '<img\\x20on='; // as names are shown
  await judged();
  check('a hostile label stays text', await textsOf('#title, #levels .row-name'), [`${shown} doom`, shown]);
  check('so does a file\'s name', await textOf('#files .row-name'), name);
  check('nothing of it is made', await browser.run("document.querySelectorAll('img, b').length"), 0);
  await drawn(shown);
  await browser.mouse('mouseMoved', ...await placeOf(130, 100));
  check('so does a flat', (await textOf('#under')).includes(' · floor 0 <b>"&\'</ · '), true);
  await pinAt(100, 100);
  await browser.until("!document.querySelector('#point').hidden", 'a point of a level that no name finds');
  check('a level that no name finds is asked', (await textOf('#point-line')).split(' ').slice(2), ['sector', '0', 'ssector', '0']);
}

/** Begins to watch for how long the page doesn't answer. */
const watch = () => browser.run(`{ window.longest = 0; let last = performance.now();
  window.watched ??= requestAnimationFrame(function tick() { const now = performance.now(); window.longest = Math.max(window.longest, now - last); last = now; requestAnimationFrame(tick); }); }`);
/**
 * Does something, tells how long it took, and checks that the page answered all the while.
 * @param {string} what @param {() => Promise<unknown>} act @param {string} condition
 */
async function answering(what, act, condition) {
  await watch();
  const began = performance.now();
  await act();
  await browser.until(condition, what, 300);
  const took = performance.now() - began, longest = await browser.run('window.longest');
  if (isWhole) console.log(`${what}: ${took.toFixed(0)} ms, in which the page was silent for ${longest.toFixed(0)} ms at most`);
  check(`the page answers meanwhile: ${what}`, longest < 1000, true);
}
const isWhole = options.includes('--hostile');

async function hostile() {
  const count = isWhole ? 1_000_000 : 50_000, file = written('levels.wad', wad(Array.from({ length: count + 1 }, () => ['THINGS', Buffer.alloc(0)])));
  await fresh();
  await answering(`a file of ${count} levels, to their list`, () => browser.drop(file), `document.querySelector('#levels-count').textContent === '${count}'`);
  await answering('until all are judged', async () => {}, "document.querySelector('#levels .row-state')?.textContent === 'not judged'");
  check('only rows in view', await browser.run("document.querySelectorAll('#levels .row').length < 80"), true);
  await browser.run("document.querySelector('#levels').focus()");
  await answering('the last of them, by a key', () => browser.key('End'), `document.querySelector('#levels [aria-selected=true]')?.getAttribute('aria-posinset') === '${count}'`);
  await answering('a filter over all', () => filterBy('linedefs incomplete'), `document.querySelector('#levels-count').textContent === '${count} of ${count}'`);
  check('the chosen one stays in view', await browser.run("document.querySelector('#levels [aria-selected=true]')?.getAttribute('aria-posinset')"), String(count));
}

async function manyFindings() {
  const lost = isWhole ? 1_400_000 : 120_000, file = written('lost.wad', wad(rooms('MAP01', { linedefs: Buffer.alloc(14 * lost, lostLinedef) })));
  await fresh();
  await answering(`a level of ${lost} findings, to its picture`, () => browser.drop(file), "document.querySelector('#map').dataset.drawn === 'MAP01'");
  check('very many are listed in part', [await codes(), (await textsOf(`${FINDING} .row-name`)).length < 40], [`F3 ${lost}`, true]);
  await browser.run("document.querySelector('#findings').focus()");
  await browser.key('End');
  const last = () => "Number(document.querySelector('#findings [aria-selected=true]')?.ariaPosInSet)";
  check('a row stands for the others', await browser.run("document.querySelector('#findings [aria-selected=true] .row-name').textContent"), `${lost - 20} more`);
  await answering('the list of all', () => browser.key('Enter'), "document.querySelector('#findings [aria-selected=true] .row-name')?.textContent === 'linedef 27'");
  await answering('the last of them, by a key', () => browser.key('End'), `${last()} === ${lost}`);
  check('the last of very many findings', await textOf('#findings [aria-selected=true] .row-name'), `linedef ${lost + 6}`);
  check('only findings in view', await browser.run("document.querySelectorAll('#findings .row').length < 40"), true);
  await browser.run("document.querySelector('#map').focus()");
  await answering('a point', () => browser.key('Enter'), "!document.querySelector('#point').hidden");
}

/** A file of 64 MB. */
async function large() {
  const file = written('bulk.wad', wad([...rooms('MAP01'), ['BULK', Buffer.alloc(64_000_000, 'wadlook ')], ...rooms('MAP02')]));
  await fresh();
  await answering('a file of 64 MB, to the list of its levels', () => browser.drop(file), "document.querySelector('#levels-count').textContent === '2'");
  await answering('until all are judged and one is drawn', judged, "document.querySelector('#map').dataset.drawn === 'MAP01'");
  check('its levels', await textsOf('#levels .row-state'), ['sound', 'sound']);
  await answering('another level of it', () => pick('levels', 'MAP02'), "document.querySelector('#map').dataset.drawn === 'MAP02'");
  await answering('a point of it', () => pinBy('300 100'), "document.querySelector('#point-line').textContent === '300 100 sector 1 ssector 1'");
}

/** One stop ends the reading of all files. */
async function stopAll() {
  await fresh();
  await withhold('open');
  await browser.drop(roomsFile, join(room, 'walk.lmp'), join(room, 'short.wad'));
  await browser.until("document.querySelector('#work-label').textContent === 'Reading rooms.wad' && !document.querySelector('#work').hidden", 'a file under way');
  await browser.press('#stop');
  await browser.until("document.querySelector('#files .row-state').textContent === 'refused'", 'a stop');
  await drawnAnew();
  check('all that were not read are stopped', await textsOf('#files .row-more'), Array.from({ length: 3 }, () => 'stopped before it was read'));
  check('and nothing is under way', await isHidden('#work'), true);
}

/** What fails is seen until it is closed, and doesn't read as if it had been stopped. */
async function refusals() {
  const notices = () => textsOf('#notices .notice p');
  await fresh();
  await withhold('survey');
  await browser.drop(written('gone.wad', twoRooms));
  await drawn('MAP01');
  check('what goes well is told and not seen', [await textOf('#said'), await isHidden('#notices')], ['MAP01 drawn, sound', true]);
  await browser.press('#in');
  await browser.until("document.querySelector('#map').dataset.fine", 'the worker of parts has read the file, too');
  written('gone.wad', 'now another');
  await browser.run('free()');
  await browser.until("document.querySelector('#notices .notice')", 'a survey that fails');
  const gone = "gone.wad: can't be read. It was changed, moved or is a folder: drop it again, and of a folder its files.";
  check('why a survey fails is seen', [await notices(), await isHidden('#notices')], [[gone], false]);
  check('and its levels are not told as stopped', [await textsOf('#levels .row-state'), await textOf('#levels-none')],
    [['not judged', 'not judged'], "Not judged: can't be read. Try again"]);
  await pick('levels', 'MAP02');
  await drawn('MAP02');
  check('what then goes well leaves it', await notices(), [gone]);
  await browser.press('#save-report');
  await browser.until("document.querySelectorAll('#notices .notice').length === 2", 'a report that fails');
  check('why nothing is saved is seen', [(await notices())[1], await textOf('#notices-count')], ["Not saved: can't be read.", '2 messages']);
  await browser.press('#notices .notice .close');
  check('until it is closed', await notices(), ["Not saved: can't be read."]);
  await browser.press('#notices .notice .close');
  check('and so are all', [await notices(), await isHidden('#notices')], [[], true]);
  await withhold('survey');
  await browser.press('#levels-none button');
  await browser.press('#stop');
  await browser.until("document.querySelector('#levels-none').textContent.startsWith('Stopped')", 'a survey that is stopped');
  check('what was stopped is told as such, and not seen', [await textsOf('#levels .row-state'), await isHidden('#notices')], [['stopped', 'stopped'], true]);
}

async function stop() {
  await fresh();
  await withhold('survey');
  await browser.drop(roomsFile);
  await drawn('MAP01');
  check('what is under way', await textOf('#work-label'), 'Judging rooms.wad');
  await browser.press('#stop');
  await browser.until("document.querySelector('#levels-none').textContent.startsWith('Stopped')", 'a stop');
  check('nothing is under way', await isHidden('#work'), true);
  check('its levels are not judged', await textsOf('#levels .row-state'), ['stopped', 'stopped']);
  check('what was found stays', await textOf('#told'), 'sound');
  await browser.run('free()');
  await browser.press('#levels-none button');
  await judged();
  await browser.until("document.querySelector('#levels .row-state').textContent === 'sound'", 'the rest');
  check('and gone on', await textsOf('#levels .row-state'), ['sound', '1 note · N3']);

  await withhold('picture');
  await pick('levels', 'MAP02');
  await browser.until("document.querySelector('#work-label').textContent === 'Drawing MAP02' && !document.querySelector('#work').hidden", 'a picture under way');
  await browser.press('#stop');
  await browser.until("document.querySelector('#map-none').textContent === 'Stopped. Choose the level again to draw it.'", 'a stopped picture');
  check('its findings stay', await textsOf(`${FINDING} .row-name`), ['linedef 4']);
  await browser.run('free()');
  await pick('levels', 'MAP02');
  await drawn('MAP02');
  check('and it is drawn', await isHidden('#map-none'), true);

  await withhold('ends');
  await pick('levels', 'MAP01');
  await drawn('MAP01');
  await browser.run("document.querySelector('#stop').click()");
  await browser.run('free()');
  await pinBy('100 100');
  await pointTold('100 100');
  await browser.until("document.querySelector('#point-block .numbers')", 'the block');
  check('where linedefs lie is asked anew', await inkComes('accent', 0, 128), true);
}

async function wide() {
  await fresh();
  const far = wad(rooms('MAP01', { damage: ({ SIDEDEFS }) => SIDEDEFS.writeInt16LE(-1, 28) }));
  await browser.drop(written('wide.wad', far));
  await drawn('MAP01');
  check('signed', await textOf(`${FINDING} .row-message`), "Sector 65535 isn't there (2 sectors), of linedef 0");
  await browser.press('#wide');
  await browser.until("document.querySelector('#findings .row-message')?.textContent.includes('65535')", 'the wide reading');
  check('wide', await textOf(`${FINDING} .row-message`), "Sector 65535 isn't there (2 sectors), of linedef 0");

  await fresh();
  await browser.drop(written('large.wad', wad(rooms('MAP01', { linedefs: farLinedef, vertexes: 40001 }))));
  await drawn('MAP01');
  check('faults under the signed reading alone', [await textOf('#told'), (await found())[2]], ['1 fault', "Start vertex 40000 isn't there (40001 vertexes)"]);
  check('are told as such', [await isHidden('#read-wide'), await textOf('#advice')],
    [false, 'Read with unsigned indexes, as larger levels for ports use them, its links and its nodes are whole.']);
  await browser.press('#read-wide');
  await browser.until("document.querySelector('#told').textContent === '3 warnings, otherwise sound'", 'the wide reading');
  await judged();
  check('are none under the wide one', await textOf('#levels .row-state'), '3 warnings · W1 W6');
}

async function unable() {
  const { identifier } = await browser.send('Page.addScriptToEvaluateOnNewDocument', { source: 'WebAssembly.validate = () => false' });
  await fresh();
  check('a browser that cannot is told so', (await textOf('#unable')).startsWith("This browser can't run the engine: it has no 64-bit WebAssembly memory."), true);
  check('and takes no files', await browser.run("document.querySelector('#choose-too').disabled"), true);
  await browser.send('Page.removeScriptToEvaluateOnNewDocument', { identifier });
}

/** Without its module the page says that it isn't there. */
async function engineless() {
  const bare = await serve(join(root, 'web'), room), before = browser.complaints.length;
  await fresh(bare.address);
  await browser.drop(roomsFile);
  await browser.until("document.querySelector('#files .row-state')?.textContent === 'refused'", 'a page without its module');
  check('a module that is not there', await textOf('#files .row-more'), "the engine of this page, wad_page.wasm, isn't beside its files");
  await fresh(); // the page that is left asks and complains no more
  check('which the browser tells too', browser.complaints.splice(before).filter((told) => !/404.*wad_page\.wasm$/.test(told)), []);
  hosts.push(bare.address);
  bare.close();
}

/** Any host of files will do: one that doesn't know what a module is, and Python's. */
async function anyHost() {
  if (isNative) return;
  const plain = await serve(built, room, undefined, 'application/octet-stream'), python = await pythonHost(built);
  for (const host of [plain, ...python ? [python] : []]) {
    await fresh(host.address);
    await browser.drop(roomsFile);
    await drawn('MAP01');
    await judged();
    check(`from ${host === plain ? 'a host of bytes' : "Python's"}`, await textsOf('#levels .row-state'), ['sound', '1 note · N3']);
    hosts.push(host.address);
    host.close();
  }
}
const hosts = [server.address];
const offline = () => offlines(hosts);

/** What the page's own policy refuses. */
async function policy() {
  await fresh();
  const told = await browser.run(`(async () => { const script = document.createElement('script');
    script.textContent = 'window.ran = 1';
    document.body.append(script);
    return [await fetch('https://example.invalid/').then(() => 'fetched', () => 'refused'), window.ran ?? 'refused', document.cookie, localStorage.length + (await indexedDB.databases()).length]; })()`);
  check('nothing is fetched from elsewhere, no script is put in, nothing is kept', told, ['refused', 'refused', '', 0]);
}

async function alone() {
  const away = browser.requests.filter((url) => !hosts.some((host) => url.startsWith(host)) && !/^(blob:|about:)/.test(url));
  check('no request leaves the page', away, []);
  check('requests were watched', browser.requests.some((url) => url.endsWith('/worker.mjs')), true);
  check('no complaint of the browser', browser.complaints, []);
}

const isThere = await Promise.race([browser.attach().then(() => true, () => false), wait(60000).then(() => false)]);
if (!isThere) skipped("Chromium doesn't start here", 'the page');
let at = 'the start';
try {
  if (isThere) await withoutHandles();
  if (isThere && valueOf('--late')) await answerLate(Number(valueOf('--late')));
  const all = [drops, follows, files, levels, picture, point, moves, finer, findings, reading, pressed, early, late, edge, unknown, warnings, games,
    judgings, asks, mapper, faults, unjudged, undrawn, demos, laterDemos, saves, savedPictures, markup, hostile, manyFindings, large, stop, stopAll,
    refusals, wide, contrast, labels, keys, keysAlone, phone, layout, unable, unserved, offline, engineless, anyHost, alone, policy];
  const only = valueOf('--only').split(',');
  for (const one of all.filter(({ name }) => isThere && (!only[0] || only.includes(name)))) {
    at = one.name;
    await browser.screen(1440, 900, 'dark');
    await one();
  }
  const folder = valueOf('--games');
  if (folder && isThere) await measure({ browser, address: server.address, games: folder, pictures, check, programs });
} catch (error) {
  fail(`at ${at}\n${error instanceof Error ? error.stack : error}\n${browser.complaints.join('\n')}`);
  if (pictures) writeFileSync(join(pictures, 'failed.png'), await browser.picture());
} finally {
  await browser.close();
  server.close();
  rmSync(room, { recursive: true, force: true, maxRetries: 5 });
}
process.exit(addUp());
