// What is measured on Freedoom's levels, beside the native program in the same run, and pictures of it.
import { execFileSync } from 'node:child_process';
import { writeFileSync } from 'node:fs';
import { join } from 'node:path';
import { wait } from './browser.mjs';

/**
 * @typedef {{ browser: import('./browser.mjs').Browser, address: string, games: string, pictures: string,
 *   programs: import('./server.mjs').Programs, check: (what: string, came: unknown, wanted: unknown) => void }} Given
 */

/**
 * Runs `act`, and waits for a condition in the page; answers the milliseconds.
 * @param {Given} given @param {() => Promise<unknown>} act @param {string} condition
 */
async function timed({ browser }, act, condition) {
  const began = performance.now();
  await act();
  await browser.until(condition, condition, 300);
  return performance.now() - began;
}

/** @param {() => unknown} act */
function timeOf(act) {
  const began = performance.now();
  act();
  return performance.now() - began;
}

/** Pictures of MAP12, of which docs/ has the first two, and what is chosen and pinned in them. */
const VIEWS = /** @type {[string, number, number, boolean, 'dark' | 'light'][]} */ ([['page-map12', 1200, 800, false, 'dark'], ['page-phone', 390, 844, true, 'dark'],
  ['page-map12-light', 1200, 800, false, 'light'], ['page-phone-light', 390, 844, true, 'light']]);
const FINDING = 'linedef 7036';
const PINNED = '-1500 -1300';
const ASIDE = /** @type {[number, number]} */ ([-80, 150]); // how far the map is then dragged, as the finding is at its edge

const tell = (/** @type {string} */ what, /** @type {number} */ page, /** @type {number} */ native) =>
  console.log(`${what}: ${page.toFixed(0)} ms, the program ${native.toFixed(0)} ms, ratio ${(page / native).toFixed(2)}`);

/** @param {Given} given @param {string} name */
async function level({ browser }, name) {
  await browser.run(`{ const e = document.querySelector('#filter'); e.value = '${name}'; e.dispatchEvent(new Event('input')); }`);
  await browser.until(`document.querySelectorAll('#levels .row').length === 1 && document.querySelector('#levels .row-name').firstChild.textContent === '${name}'`);
}

/** @param {Given} given @param {string} name */
async function keep({ browser, pictures }, name) {
  await wait(1200);
  if (pictures) writeFileSync(join(pictures, `${name}.png`), await browser.picture());
}

/** @param {Given} given */
async function levels(given) {
  const { browser, games, programs: { wadlens } } = given, file = join(games, 'freedoom2.wad');
  const native = timeOf(() => execFileSync(wadlens, ['survey', '--map', file]));
  tell('a file of 28 MB to the list of its levels', await timed(given, () => browser.drop(file), "document.querySelector('#levels-count').textContent === '32'"), native);
  tell('until all are judged', await timed(given, async () => {}, "document.querySelector('#levels .row-state').textContent !== '…'"), native);
  await browser.until("document.querySelector('#map').dataset.drawn");
  await level(given, 'MAP12');
  tell('MAP12, from the click to its picture', await timed(given, () => browser.press('#levels .row'), "document.querySelector('#map').dataset.drawn === 'MAP12'"),
    timeOf(() => execFileSync(wadlens, ['picture', 'MAP12', file], { maxBuffer: 1 << 28 })));
  await points(given, file);
}

/** Points about the middle of the map, pinned by clicks. @param {Given} given @param {string} file */
async function points({ browser, check, programs: { wadlook } }, file) {
  const [x, y] = await browser.middle('#map'), times = [], lines = [], runs = [];
  for (const [dx, dy] of [-140, -60, 10, 30, 90].flatMap((across) => [-80, 10, 90].map((down) => [across, down]))) {
    await browser.run("delete document.querySelector('#point').dataset.ms");
    await browser.click(x + dx, y + dy);
    await browser.until("document.querySelector('#point').dataset.ms && document.querySelector('#point-clear').textContent !== ''");
    times.push(Number(await browser.run("document.querySelector('#point').dataset.ms")));
    lines.push(`${await browser.run("document.querySelector('#point-line').textContent")}\n`);
    runs.push(timeOf(() => execFileSync(wadlook, ['points', 'MAP12', file], { input: '0 0\n' })));
  }
  const input = lines.map((line) => `${line.split(' ').slice(0, 2).join(' ')}\n`).join('');
  check("points of MAP12 are the program's", lines.join(''), execFileSync(wadlook, ['points', 'MAP12', file], { input }).toString());
  [times, runs].forEach((all) => all.sort((a, b) => a - b));
  tell(`a pinned point, the median of ${times.length}`, times[times.length >> 1], runs[runs.length >> 1]);
  tell('the slowest of them', times[times.length - 1], runs[runs.length - 1]);
}

/** @param {Given} given */
async function looks(given) {
  const { browser, games } = given;
  const [x, y] = await browser.middle('#map');
  for (let k = 0; k < 3; k++) await browser.mouse('mouseWheel', x + 10, y + 10, { deltaX: 0, deltaY: -260 });
  await browser.run("document.querySelector('#filter').value = ''; document.querySelector('#filter').dispatchEvent(new Event('input'))");
  await keep(given, 'pinned-dark');
  await browser.screen(1200, 800, 'light');
  await keep(given, 'pinned-light');
  await browser.drop(join(games, 'freedoom1.wad'));
  await browser.until("document.querySelector('#levels-count').textContent === '36' && document.querySelector('#levels .row-state').textContent !== '…'");
  await level(given, 'E3M7');
  await browser.press('#levels .row');
  await browser.until("document.querySelector('#map').dataset.drawn === 'E3M7'");
  await browser.press('#findings .row:not(.odd)');
  await keep(given, 'finding-light');
  await browser.screen(390, 844, 'light', true);
  for (const pane of ['files', 'levels', 'map', 'notes']) {
    await browser.press(`.tabs [data-to=${pane}]`);
    await keep(given, `phone-${pane}-light`);
  }
  await browser.screen(390, 844, 'dark', true);
  await browser.press('.tabs [data-to=map]');
  await browser.touch('touchStart', [188, 300]);
  await browser.touch('touchEnd');
  await browser.until("!document.querySelector('#point').hidden");
  await keep(given, 'phone-map-dark');
  await browser.press('.tabs [data-to=levels]');
  await browser.press('#demos .row');
  await browser.until("document.querySelector('.cells-row')");
  await keep(given, 'phone-demo-dark');
}

/** Drags the map. @param {Given} given @param {number} dx @param {number} dy */
async function dragged({ browser }, dx, dy) {
  const [x, y] = await browser.middle('#map');
  await browser.mouse('mousePressed', x, y);
  for (const part of [0.5, 1]) await browser.mouse('mouseMoved', x + part * dx, y + part * dy, { button: 'left', buttons: 1 });
  await browser.mouse('mouseReleased', x + dx, y + dy);
}

/**
 * MAP12 as Freedoom 2 has it, with one of its findings chosen and a point pinned.
 * @param {Given} given
 */
async function shown(given) {
  const { browser, games } = given;
  for (const [name, width, height, mobile, scheme] of VIEWS) {
    await browser.screen(width, height, scheme, mobile);
    await browser.send('Page.navigate', { url: given.address });
    await browser.until("document.body?.dataset.ready === 'yes'");
    await browser.drop(join(games, 'freedoom2.wad'));
    await browser.until("document.querySelector('#levels-count').textContent === '32' && document.querySelector('#levels .row-state')?.textContent !== '…'");
    await browser.run("document.querySelector('.tabs [data-to=levels]').click()");
    await level(given, 'MAP12');
    await browser.press('#levels .row');
    await browser.until("document.querySelector('#map').dataset.asked === 'MAP12'");
    await browser.run("{ const e = document.querySelector('#filter'); e.value = ''; e.dispatchEvent(new Event('input')); }");
    await browser.run("document.querySelector('.tabs [data-to=notes]').click()");
    await browser.run(`[...document.querySelectorAll('#findings .row')].find((row) => row.textContent.includes('${FINDING}')).click()`);
    await wait(1500);
    await browser.run(`document.querySelector('#at').value = '${PINNED}'; document.querySelector('#point-form').requestSubmit()`);
    await browser.until("document.querySelector('#point-clear').textContent !== ''");
    for (let k = mobile ? 1 : 0; k < 2; k++) await browser.press('#out');
    await dragged(given, ...ASIDE);
    await browser.mouse('mouseMoved', 5, 5);
    await keep(given, name);
    if (!mobile) continue;
    for (const pane of ['files', 'levels', 'notes']) {
      await browser.run(`document.querySelector('.tabs [data-to=${pane}]').click()`);
      await keep(given, `${name}-${pane}`);
    }
  }
}

/** @param {Given} given */
export async function measure(given) {
  await given.browser.screen(1440, 900, 'dark');
  await given.browser.send('Page.navigate', { url: given.address });
  await given.browser.until("document.body?.dataset.ready === 'yes'");
  await levels(given);
  if (!given.pictures) return;
  await looks(given);
  await shown(given);
}
