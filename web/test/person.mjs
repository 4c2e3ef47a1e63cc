// What the cases of the page stand on: the page in a browser, and what a person sees and does there.
import { existsSync, mkdirSync, mkdtempSync, readFileSync, rmSync, statSync, writeFileSync } from 'node:fs';
import { tmpdir } from 'node:os';
import { join } from 'node:path';
import { built, check, programs, root } from '../../tests/harness.mjs';
import { Browser, chromium, wait } from './browser.mjs';
import { runProgram, serve } from './server.mjs';
import { demo, oneMistaken, rooms, wad } from './wads.mjs';

export { built, check, programs, root };
export const options = process.argv.slice(2);
export const valueOf = (/** @type {string} */ name) => options.includes(name) ? options[options.indexOf(name) + 1] : '';
export const isNative = options.includes('--native') || !existsSync(join(built, 'wad_page.wasm'));
export const pictures = valueOf('--pictures');
if (pictures) mkdirSync(pictures, { recursive: true });
if (isNative) console.log("the programs answer in the module's place");

export const room = mkdtempSync(join(tmpdir(), 'page-'));
export const server = isNative ? await serve(join(root, 'web'), room, programs) : await serve(built, room);
export const browser = new Browser(chromium(), join(room, 'profile'));

/** Browsers hand out handles of files, or don't; the cases go without, so that no file that they write is read by itself. */
const WITHOUT_HANDLES = 'delete DataTransferItem.prototype.getAsFileSystemHandle; delete window.showOpenFilePicker;';
let handles = '';
export async function withoutHandles() {
  handles = (await browser.send('Page.addScriptToEvaluateOnNewDocument', { source: WITHOUT_HANDLES })).identifier;
}
/** Does something where the browser hands out handles. @param {() => Promise<void>} act */
export async function withHandles(act) {
  await browser.send('Page.removeScriptToEvaluateOnNewDocument', { identifier: handles });
  await act();
  await withoutHandles();
}

/** Sends each question to its worker up to so many milliseconds late, in their order, as on a slow machine. @param {number} most */
export const answerLate = (most) => browser.send('Page.addScriptToEvaluateOnNewDocument', { source: `{ const send = Worker.prototype.postMessage, last = new WeakMap();
  Worker.prototype.postMessage = function (data, ...more) {
    const kept = structuredClone(data), before = last.get(this) ?? Promise.resolve();
    last.set(this, before.then(() => new Promise((go) => setTimeout(go, ${most} * Math.random()))).then(() => send.call(this, kept, ...more))); }; }` });

// What a person sees and does ---------------------------------------------------------------------------------------------------

export const textOf = (/** @type {string} */ selector) => browser.run(`document.querySelector(${JSON.stringify(selector)}).textContent`);
export const textsOf = (/** @type {string} */ selector) => browser.run(`[...document.querySelectorAll(${JSON.stringify(selector)})].map((e) => e.textContent)`);
/** What is listed of what was found: code, where and words of each, flat. @returns {Promise<string[]>} */
export const found = () => browser.run(`(() => { let code = '';
  return [...document.querySelectorAll('#findings .row')].flatMap((row) => { code = row.querySelector('.code')?.textContent ?? code;
    return row.classList.contains('odd') ? [] : [code, ...[...row.children].map((e) => e.textContent)]; }); })()`);
/** The headings of what was found, each as its code and how many there are. @returns {Promise<string>} */
export const codes = () => browser.run("[...document.querySelectorAll('#findings .odd')].map((row) => `${row.querySelector('.code').textContent} ${row.querySelector('.group-count').textContent.slice(2)}`).join(' · ')");
/** A finding's row, the first that is listed where no words tell it. */
export const FINDING = '#findings .row:not(.odd)';
export const isHidden = (/** @type {string} */ selector) => browser.run(`document.querySelector(${JSON.stringify(selector)}).hidden`);
export const viewOf = async () => (await browser.run("document.querySelector('#map').dataset.view")).split(' ').map(Number);
export const judged = () => browser.until("!!document.querySelector('#levels .row-state') && ![...document.querySelectorAll('#levels .row-state')].some((e) => e.textContent === '…')", 'all judged');
export const pointTold = (/** @type {string} */ begin) => browser.until(`document.querySelector('#point-line').textContent.startsWith(${JSON.stringify(begin)}) && !document.querySelector('#point').hidden && document.querySelector('#point-clear').textContent !== ''`, `the point ${begin}`);
/** Clicks the row of a list whose name is this. @param {string} list @param {string} name */
export const pick = async (list, name) => {
  const at = await browser.run(`(() => { const row = [...document.querySelectorAll('#${list} .row')].find((r) => r.querySelector('.row-name').firstChild.textContent === ${JSON.stringify(name)});
    row.scrollIntoView({ block: 'nearest' }); const b = row.getBoundingClientRect(); return [b.x + 40, b.y + b.height / 2]; })()`);
  await browser.click(at[0], at[1]);
};
/** Waits until what was done is drawn. */
export const drawnAnew = () => browser.run('new Promise((go) => requestAnimationFrame(() => requestAnimationFrame(() => go(1))))');
/** Waits until a level's map is there, and in the frame that says where it stands. @param {string} name */
export const drawn = async (name) => {
  await browser.until(`document.querySelector('#map').dataset.drawn === ${JSON.stringify(name)}`, `the level ${name}`);
  await drawnAnew();
};
/** Waits until a level's map can be asked what lies there. @param {string} name */
export const askable = (name) => browser.until(`document.querySelector('#map').dataset.asked === ${JSON.stringify(name)}`, `${name}, to be asked`);
/** Waits until what was found is marked on the map. */
export const marked = async () => {
  await browser.until("document.querySelector('#legend').classList.contains('found')", 'the marks');
  await drawnAnew();
};
/** Types into a filter, and waits for a turn of the page's timers, which a slow machine takes on the way. @param {string} id @param {string} words */
export const sift = (id, words) => browser.run(`{ const e = document.querySelector('#${id}'); e.value = ${JSON.stringify(words)}; e.dispatchEvent(new Event('input')); }
  new Promise((go) => setTimeout(go))`);
export const filterBy = (/** @type {string} */ words) => sift('filter', words);
export const fresh = async (address = server.address) => {
  await browser.send('Page.navigate', { url: address });
  await browser.until("document.body?.dataset.ready === 'yes'", 'the page');
};
/** @param {string} name @param {Buffer | string} body */
export const written = (name, body) => {
  writeFileSync(join(room, name), body);
  return join(room, name);
};
/** Takes a file away that was saved before. @param {string} name */
export const rm = (name) => rmSync(join(room, name), { force: true });
/** What a program prints of a file, or of several. @param {string[]} words @param {Buffer | Buffer[]} files @param {string} [input] */
export const printed = (words, files, input = '') => runProgram(programs, room, words, [files].flat(), Buffer.from(input)).answer;
/** The place on the screen of a place of the map. @param {number} x @param {number} y @returns {Promise<[number, number]>} */
export const placeOf = async (x, y) => {
  const [vx, vy, zoom] = await viewOf(), [mx, my] = await browser.middle('#map');
  return [mx + (x - vx) * zoom, my - (y - vy) * zoom];
};

/**
 * Whether an ink of page.css is on the map at a place, or in one of the pixels that stand so far to its right.
 * @param {string} ink @param {number} x @param {number} y @param {number} [from] @param {number} [to]
 */
export const hasInk = async (ink, x, y, from = 0, to = from) => {
  const [vx, vy, zoom] = await viewOf();
  return browser.run(`(() => { const e = document.querySelectorAll('#map canvas')[1], d = getComputedStyle(document.documentElement).getPropertyValue('--${ink}').trim().slice(1);
    const wanted = [0, 2, 4].map((k) => parseInt(d.slice(k, k + 2), 16)), left = e.width / 2 + (${x} - ${vx}) * ${zoom}, top = e.height / 2 - (${y} - ${vy}) * ${zoom};
    const isIt = (right) => { const at = e.getContext('2d').getImageData(Math.floor(left + right), Math.floor(top), 1, 1).data;
      return at[3] > 120 && wanted.every((v, k) => Math.abs(at[k] - v) < 40); };
    for (let right = ${from}; right <= ${to}; right++) if (isIt(right)) return true;
    return false; })()`);
};
/**
 * Waits until what is asked is as it's wanted, and answers what it is then, or at last. A slow machine draws a map that moves once it rests.
 * @template T @param {() => Promise<T>} ask @param {T} wanted @returns {Promise<T>}
 */
export const comes = async (ask, wanted) => {
  let came = await ask();
  for (const end = Date.now() + 30000; JSON.stringify(came) !== JSON.stringify(wanted) && Date.now() < end; came = await ask()) await drawnAnew();
  return came;
};
/** Waits for ink at a place, which comes with an answer of the engine. @param {string} ink @param {number} x @param {number} y */
export const inkComes = (ink, x, y, from = 0, to = from) => comes(() => hasInk(ink, x, y, from, to), true);
/** What the legend tells. @returns {Promise<string[]>} */
export const legend = () => browser.run("[...document.querySelectorAll('#legend li')].filter((e) => e.checkVisibility()).map((e) => e.textContent)");
/** Pins a point by its numbers. @param {string} numbers */
export const pinBy = async (numbers) => {
  await browser.run(`{ document.querySelector('#at').value = ${JSON.stringify(numbers)}; }`);
  await browser.press('#pin');
};
/** Pins a point by a click. @param {number} x @param {number} y */
export const pinAt = async (x, y) => browser.click(...await placeOf(x, y));

/** Two levels, and a demo. */
export const twoRooms = wad([...rooms('MAP01'), ...rooms('MAP02', { damage: oneMistaken }), ['DEMO1', demo(10000)]]);
export const roomsFile = written('rooms.wad', twoRooms);
export const dropRooms = async () => {
  await fresh();
  await browser.drop(roomsFile);
  await drawn('MAP01');
};

/**
 * Holds the questions of a job back, or those of one file, until `free()` in the page sends them.
 * @param {string} job @param {string} [name]
 */
export const withhold = (job, name = '') => browser.run(`{ const send = Worker.prototype.postMessage, kept = [];
  window.free = () => { Worker.prototype.postMessage = send; kept.forEach(([worker, data]) => worker.postMessage(data)); };
  Worker.prototype.postMessage = function (data, ...more) {
    if (data.job === '${job}' && ['', data.file.name].includes(${JSON.stringify(name)})) kept.push([this, data]); else send.call(this, data, ...more); }; }`);

/** Keeps from now on all that the page says, also where it says the next thing soon. */
export const listen = () => browser.run(`{ const said = document.querySelector('#said');
  window.heard = [];
  window.hearing?.disconnect();
  window.hearing = new MutationObserver((all) => window.heard.push(...all.flatMap(({ addedNodes }) => [...addedNodes].map((node) => node.textContent))));
  window.hearing.observe(said, { childList: true }); }`);

/** Saves by a button, and reads what was saved under a name. @param {string} id @param {string} name */
export async function saved(id, name) {
  await browser.send('Browser.setDownloadBehavior', { behavior: 'allow', downloadPath: room });
  rmSync(join(room, name), { force: true }); // so that no file of an earlier case is read
  await listen();
  await browser.press(`#save-${id}`);
  await browser.until("window.heard.some((one) => one.endsWith(' saved'))", `${name} saved`);
  const isThere = () => existsSync(join(room, name)) && statSync(join(room, name)).size > 0; // its name may be taken before its bytes are there
  for (let k = 0; !isThere() && k < 500; k++) await wait(10);
  return readFileSync(join(room, name)).toString('latin1');
}
