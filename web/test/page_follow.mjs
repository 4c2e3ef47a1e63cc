// The cases of the page of files that another program saves while they are open.
import { rmSync } from 'node:fs';
import { join } from 'node:path';
import { wait } from './browser.mjs';
import {
  FINDING, browser, check, codes, drawn, drawnAnew, fresh, inkComes, isHidden, pick, pinBy, pointTold, room, textOf, textsOf, viewOf, withHandles, written,
} from './person.mjs';
import { oneMistaken, rooms, twoOverlooked, twoUnknown, wad, wallsOfRooms, zipped } from './wads.mjs';

/** @param {...(lumps: Record<string, Buffer>) => void} damages */
const level = (...damages) => wad([...rooms('MAP00'), ...rooms('MAP01', { damage: (lumps) => damages.forEach((damage) => damage(lumps)) })]);
const changes = async () => await isHidden('#changes') ? null : [(await textOf('#changes-title')).replace(/ at [^:]*:[^ ]*( [AP]M)?:/, ':'), ...await textsOf('#changes-list li')];
const verdict = (/** @type {string} */ told) => browser.until(`document.querySelector('#told').textContent === ${JSON.stringify(told)} && document.querySelector('#map').dataset.drawn`, told);
const names = () => textsOf('#files .row-name'), notices = () => textsOf('#notices .notice p');
const chosen = () => browser.run("document.querySelector('#findings [aria-selected=true] .row-name')?.firstChild.textContent ?? ''");

/** A file that is saved is judged again by itself, and what was chosen stays. */
async function saved() {
  await fresh();
  await browser.drop(written('saved.wad', level(twoOverlooked)));
  await drawn('MAP00');
  await pick('levels', 'MAP01');
  await verdict('2 warnings, otherwise sound');
  check('a file that is read first has no changes', await changes(), null);
  await browser.press(`${FINDING}:nth-child(4)`);
  await browser.until("document.querySelector('#map').dataset.view.startsWith('536.000 128.000')", 'the second finding');
  await pinBy('480 100');
  await pointTold('480 100 sector');
  await browser.press('#in');
  await drawnAnew();
  const view = await viewOf(), point = await textOf('#point-line');
  written('saved.wad', level(twoOverlooked, oneMistaken));
  await verdict('2 warnings, 1 note, otherwise sound');
  check('what came is told', await changes(), ['Saved: 1 came, 0 went', 'came: N3 linedef 4: Two-sided, without a back sidedef, from (256, 256) to (512, 256)']);
  check('and marked in the list', await browser.run("[...document.querySelectorAll('#findings .fresh')].map((e) => e.parentElement.firstChild.textContent)"), ['linedef 4']);
  check('the chosen finding stays chosen', [await chosen(), await inkComes('fault', 536, 128, 19)], ['thing 1', true]);
  check('so do the view and the point', [await viewOf(), await textOf('#point-line')], [view, point]);
  check('and the level', await textOf('#title'), 'MAP01');
  written('saved.wad', level());
  await verdict('sound');
  check('what went is told', await changes(), ['Saved: 0 came, 3 went', ...['W2 linedef 5: No middle texture in front, from (512, 256) to (512, 0)',
    'W3 thing 1: Stands in the void, at (536, 128)', 'N3 linedef 4: Two-sided, without a back sidedef, from (256, 256) to (512, 256)'].map((told) => `went: ${told}`)]);
  await browser.run("{ document.querySelector('#changes-title').textContent = ''; }");
  written('saved.wad', level());
  await browser.until("document.querySelector('#changes-title').textContent", 'a file that is saved as it was');
  check('nor is anything told where nothing changed', await changes(), ['Saved: nothing came or went']);
  await pick('levels', 'MAP00');
  await drawn('MAP00');
  check('another level has no changes', await changes(), null);
}

/** A file that can't be read is told as such, and never by an old answer; nor is half of one. */
async function unreadable() {
  await fresh();
  await browser.drop(written('gone.wad', level(twoOverlooked)));
  await drawn('MAP00');
  await pick('levels', 'MAP01');
  await verdict('2 warnings, otherwise sound');
  rmSync(join(room, 'gone.wad'));
  await browser.until("document.querySelector('#map-none').textContent.startsWith('Refused')", 'a file that is gone');
  const why = "it was changed or moved, and can't be read";
  check('nothing old is told of it', [await textOf('#told'), await textsOf('#levels .row'), await textsOf('#findings .row'), await textOf('#map-none')], ['', [], [], `Refused: ${why}.`]);
  check('and the reason is', (await notices())[0].startsWith(`gone.wad: ${why}`), true);
  written('gone.wad', level(twoOverlooked).subarray(0, 900));
  await browser.until("!/moved|reading/.test(document.querySelector('#files').textContent)", 'half of a file');
  check('half of it is refused', await textsOf('#files .row-state'), ['refused']);
  written('gone.wad', level(oneMistaken));
  await verdict('1 note, otherwise sound');
  check('once it is there again it is shown', [await textOf('#title'), await notices()], ['MAP01', []]);
  check('with what changed since it was read', (await changes())?.[0], 'Saved: 1 came, 2 went');
}

/** What a game's file or an archive has is followed, too. */
async function others() {
  const walls = wallsOfRooms(), game = (/** @type {[string, Buffer][]} */ lumps) => wad([...rooms('MAP01'), ...lumps], 'IWAD');
  await fresh();
  await browser.drop(written('doom.wad', game(walls)), written('pwad.wad', wad(rooms('MAP01', { damage: twoUnknown }))));
  await verdict('ends the game: 2 warnings');
  written('doom.wad', game(walls.slice(1)));
  await browser.until("document.querySelectorAll('#findings .odd').length === 1", "a game's file that lists no textures");
  check('by what it has now', await codes(), 'W10 1');
  check('what stands on a file that was saved is judged anew', await textOf('#title'), 'MAP01');
  await fresh();
  await browser.drop(written('pack.zip', zipped([['a.wad', level()], ['b.wad', level(oneMistaken)]])));
  await drawn('MAP00');
  written('pack.zip', zipped([['b.wad', level()], ['c.wad', level()], ['d.wad', level()]]));
  await browser.until("document.querySelectorAll('#files .row').length === 3 && !document.querySelector('#files').textContent.includes('reading')", 'another archive');
  check('an archive has the files that it has now', (await names()).sort(), ['pack.zip/b.wad', 'pack.zip/c.wad', 'pack.zip/d.wad']);
}

/** Files that are chosen are followed where the browser hands out handles; else a button chooses them again. */
async function reloads() {
  await fresh();
  await browser.run(`(async () => { const folder = await navigator.storage.getDirectory(), handle = await folder.getFileHandle('chosen.wad', { create: true });
    window.save = async (bytes) => { const file = await handle.createWritable(); await file.write(Uint8Array.from(bytes)); await file.close(); };
    await window.save(${JSON.stringify([...level(oneMistaken)])});
    window.showOpenFilePicker = async () => [handle]; })()`);
  await browser.press('#choose-too');
  await drawn('MAP00');
  await pick('levels', 'MAP01');
  await verdict('1 note, otherwise sound');
  await browser.run(`window.save(${JSON.stringify([...level()])})`);
  await verdict('sound');
  check('a file that was chosen is followed', (await changes())?.[0], 'Saved: 0 came, 1 went');
  await browser.run("{ document.querySelector('#changes-title').textContent = ''; }");
  await browser.press('#reload-file');
  await browser.until("document.querySelector('#changes-title').textContent", 'a file that is read again');
  check('and is read again by a button', await textOf('#told'), 'sound');
  await browser.run("navigator.storage.getDirectory().then((folder) => folder.removeEntry('chosen.wad'))");
}

/** Without handles a button chooses the file again, and nothing is read by itself. */
async function unfollowed() {
  await fresh();
  await browser.choose('#file', written('plain.wad', level(oneMistaken)));
  await drawn('MAP00');
  written('plain.wad', level());
  await wait(1500);
  check('without a handle nothing is read by itself', await textsOf('#files .row-state'), ['PWAD']);
  await browser.run("{ window.clicks = 0; document.querySelector('#file').click = () => { window.clicks++; }; }");
  await browser.press('#reload-file');
  check('and a button asks for the file', await browser.run('window.clicks'), 1);
  await pick('levels', 'MAP01');
  await browser.until("document.querySelector('#told').textContent || document.querySelector('#map-none').textContent", 'a level');
  check('a level that is read already is told', await textOf('#told'), '1 note, otherwise sound');
}

export async function follows() {
  await withHandles(async () => {
    for (const one of [saved, unreadable, others, reloads]) await one();
  });
  await unfollowed();
}
