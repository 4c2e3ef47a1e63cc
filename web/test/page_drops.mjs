// The cases of the page of what is dropped: many files at once, archives, folders, what is refused; and how a file is closed.
import { mkdirSync, writeFileSync } from 'node:fs';
import { join } from 'node:path';
import { browser, check, codes, drawn, drawnAnew, fresh, isHidden, judged, pick, room, textOf, textsOf, withhold, written } from './person.mjs';
import { demo, rooms, twoUnknown, wad, wallsOfRooms, zipped } from './wads.mjs';

const one = wad(rooms('MAP01')), names = () => textsOf('#files .row-name'), notices = () => textsOf('#notices .notice p');
const HELP = 'Drop a WAD file, a demo, or a ZIP or PK3 that has some.';
/** @param {number} count */
const read = (count) => browser.until(`document.querySelectorAll('#files .row').length === ${count} && !document.querySelector('#files').textContent.includes('reading')`, `${count} files`);
/** Whether the row of a file is seen whole. @param {string} name */
const isInView = (name) => browser.run(`(() => { const list = document.querySelector('#files'), row = [...list.querySelectorAll('.row')].find((e) => e.querySelector('.row-name').textContent === ${JSON.stringify(name)});
  const [a, b] = [row, list].map((e) => e.getBoundingClientRect()); return a.top >= b.top - 1 && a.bottom <= b.bottom + 1; })()`);

/** Of twenty files at once each is told, the chosen one is in view, and the list has the room that is there. */
async function twenty() {
  const files = Array.from({ length: 10 }, (_, k) => [written(`level${k}.wad`, one), written(`text${k}.txt`, 'notes about the rooms')]).flat();
  await fresh();
  await browser.drop(...files);
  await read(20);
  await drawn('MAP01');
  check('each refusal is told', [await textOf('#notices-count'), (await notices())[9]],
    ['10 messages', `text9.txt: not a WAD file: it begins with neither IWAD nor PWAD. ${HELP}`]);
  check('the chosen file is in view', await isInView('level0.wad'), true);
  await browser.press('#notices-close');
  check('all messages are closed at once', [await notices(), await isHidden('#notices')], [[], true]);
  check('the list of files takes the room that is there', await browser.run("document.querySelector('#files').clientHeight > 0.45 * innerHeight"), true);
  await browser.drop(written('late.txt', 'more notes'));
  await read(21);
  await drawnAnew();
  check('a refused file comes into view', [await isInView('late.txt'), (await notices()).length], [true, 1]);
  await browser.drop(written('last.wad', wad(rooms('MAP07'))));
  await drawn('MAP07');
  check('and so does a new one', await isInView('last.wad'), true);
  check('the message stays', (await notices()).length, 1);
  await browser.drop(written('late.txt', one));
  await browser.until("document.querySelector('#notices').hidden", 'a file that is mended');
  check('until its file is opened', (await textsOf('#files .row-state')).filter((told) => told === 'refused').length, 10);
  await browser.screen(390, 844, 'dark', true);
  await browser.drop(written('again.txt', 'notes'));
  await browser.until("document.querySelector('#notices .notice')", 'a message on a phone');
  check('a refusal is seen on a phone, whatever is shown there', await browser.run("document.querySelector('#notices .notice').checkVisibility()"), true);
  await browser.press('.tabs [data-to=files]');
  await drawnAnew();
  check('and its row, once the files are', await isInView('again.txt'), true);
}

/** Archives are opened: their levels and demos stand as files, and each that isn't has its reason. */
async function archives() {
  const inner = zipped([['deep.wad', one]]);
  const archive = zipped([['readme.txt', Buffer.from('a level')], ['maps/MAP01.wad', one], ['walk.lmp', demo(35)], ['inner.pk3', inner],
    ['locked.wad', one, { flags: 1 }], ['lies.wad', one, { size: 100 }]]);
  await fresh();
  await browser.drop(written('levels.zip', archive));
  await read(5);
  await drawn('MAP01');
  await judged();
  check('files of an archive', await names(), ['levels.zip/maps/MAP01.wad', 'levels.zip/walk.lmp', 'levels.zip/inner.pk3/deep.wad', 'levels.zip/locked.wad', 'levels.zip/lies.wad']);
  check('their kinds', await textsOf('#files .row-state'), ['PWAD', 'demo', 'PWAD', 'refused', 'refused']);
  check('what is refused, and why', await notices(), ['levels.zip/locked.wad: encrypted: unpack it with its password, and drop it.', 'levels.zip/lies.wad: it states 100 bytes, and has more.']);
  check('the first is shown', await textOf('#crumbs'), 'levels.zip/maps/MAP01.wadMAP01');
  check('and judged', await textsOf('#levels .row-state'), ['sound']);
  await fresh();
  const cases = /** @type {[string, Buffer, string][]} */ ([
    ['texts.zip', zipped([['readme.txt', Buffer.from('a level')]]), 'a ZIP without a WAD file or a demo: it has 1 other files'],
    ['cut.zip', archive.subarray(0, 500), 'a ZIP without its end: it was cut short'],
    ['level.7z', Buffer.from('7z\xbc\xaf and more', 'latin1'), "a 7z archive, which isn't read here: unpack it, and drop its files"],
    ['level.rar', Buffer.from('Rar!\x1a\x07 and more', 'latin1'), "a RAR archive, which isn't read here: unpack it, and drop its files"],
  ]);
  await browser.drop(...cases.map(([name, body]) => written(name, body)));
  await browser.until(`document.querySelectorAll('#notices .notice').length === ${cases.length}`, 'a message of each');
  check('archives that have nothing, or are none', await notices(), cases.map(([name, , why]) => `${name}: ${why}.`));
  await fresh();
  await browser.drop(written('level.bin', zipped([['a.wad', one]])), written('game.zip', zipped([['game.wad', wad([...rooms('MAP01'), ...wallsOfRooms()], 'IWAD')]])));
  await read(2);
  check('an archive is known by how it begins', await names(), ['level.bin/a.wad', 'game.zip/game.wad']);
  await browser.until("document.querySelector('#files .row-more').textContent.includes(' over game.zip/game.wad')", 'a game in an archive');
  await fresh();
  await withhold('unpack');
  await browser.drop(written('levels.zip', archive));
  await browser.until("document.querySelector('#work-label').textContent === 'Unpacking levels.zip' && !document.querySelector('#work').hidden", 'an archive under way');
  await browser.press('#stop');
  await browser.until("document.querySelector('#notices .notice')", 'a stop');
  check('an archive that is stopped', await notices(), ['levels.zip: stopped. Drop it again to read it.']);
}

/** A folder is taken apart: what is named as a level, a demo or an archive is opened. */
async function folders() {
  const folder = join(room, 'project'), bare = join(room, 'bare');
  mkdirSync(join(folder, 'maps/old'), { recursive: true });
  mkdirSync(bare, { recursive: true });
  for (const [name, body] of /** @type {[string, Buffer | string][]} */ ([['maps/two.wad', one], ['maps/old/one.WAD', one], ['walk.lmp', demo(35)], ['maps/notes.txt', 'notes'],
    ['pack.zip', zipped([['in.wad', one]])]])) writeFileSync(join(folder, name), body);
  writeFileSync(join(bare, 'notes.txt'), 'notes');
  await fresh();
  await browser.drop(folder, bare);
  await read(5);
  await drawn('MAP01');
  check('files of a folder', (await names()).slice(0, 4), ['project/maps/old/one.WAD', 'project/maps/two.wad', 'project/pack.zip/in.wad', 'project/walk.lmp']);
  check('one without any', await notices(), ['bare: a folder without a WAD file, a demo or a ZIP.']);
}

/** A file is closed by a button, a key and its cross. */
async function closing() {
  const shown = async () => [await names(), await textOf('#crumbs')];
  const game = written('doom.wad', wad([...rooms('MAP01'), ...wallsOfRooms()], 'IWAD')), mine = written('pwad.wad', wad(rooms('MAP01', { damage: twoUnknown })));
  await fresh();
  await browser.drop(game, mine, written('other.wad', wad(rooms('MAP02'))), written('notes.txt', 'notes about the rooms'));
  await read(4);
  await drawn('MAP01');
  await judged();
  check('over a game', [await codes(), (await textsOf('#files .row-more'))[1].includes('over doom.wad')], ['W9 1 · W10 1', true]);
  await browser.run("document.querySelector('#files .row .shut').id = 'shut'");
  await browser.press('#shut');
  await browser.until("!document.querySelector('#findings .row')", 'a level that stands on no game any more');
  check('a cross closes a file that is not shown', await shown(), [['pwad.wad', 'other.wad', 'notes.txt'], 'pwad.wadMAP01']);
  check('and what stood on it is judged anew', (await textsOf('#files .row-more'))[0].includes('over'), false);
  await browser.press('#close-file');
  await drawn('MAP02');
  check('a button closes the one that is, and the next is shown', await shown(), [['other.wad', 'notes.txt'], 'other.wadMAP02']);
  await pick('files', 'notes.txt');
  await browser.run("document.querySelector('#files').focus()");
  await browser.key('Delete');
  await drawn('MAP02');
  check('a key closes a file, and its message goes', [await shown(), await notices(), await browser.run('document.activeElement.id')], [[['other.wad'], 'other.wadMAP02'], [], 'files']);
  await browser.key('Delete');
  await browser.until("document.body.classList.contains('empty')", 'no file');
  check('the last one leaves the page as it was', [await shown(), await browser.run("document.querySelector('#welcome').checkVisibility()"), await browser.run('document.title')],
    [[[], ''], true, 'level inspector – wadlook']);
  await browser.drop(mine);
  await drawn('MAP01');
  check('and it goes on from there', await shown(), [['pwad.wad'], 'pwad.wadMAP01']);
  await withhold('open', 'other.wad');
  await browser.drop(join(room, 'other.wad'));
  await browser.until("document.querySelectorAll('#files .row').length === 2", 'a file under way');
  await browser.run("[...document.querySelectorAll('#files .shut')][1].click()");
  await browser.run('free()');
  await drawnAnew();
  check('a file that is closed while it is read stays closed', await shown(), [['pwad.wad'], 'pwad.wadMAP01']);
}

export async function drops() {
  for (const part of [twenty, archives, folders, closing]) {
    await browser.screen(1440, 900, 'dark');
    await part();
  }
}
