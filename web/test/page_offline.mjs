// The cases of the page without a network, and of one that is opened as a file.
import { readFileSync, readdirSync } from 'node:fs';
import { join } from 'node:path';
import { pathToFileURL } from 'node:url';
import { wait } from './browser.mjs';
import { browser, built, check, drawn, fresh, isNative, judged, room, roomsFile, root, textsOf } from './person.mjs';
import { serve } from './server.mjs';

const folder = isNative ? join(root, 'web') : built;
/** What the page consists of: all that a host has of it and a browser asks for. */
const files = ['', ...readdirSync(folder).filter((name) => /\.(html|css|mjs|svg|json|wasm)$/.test(name) && name !== 'offline.mjs')].sort();

/** What a browser says of a host that is gone. @param {() => Promise<void>} act */
async function withoutHost(act) {
  const before = browser.complaints.length;
  await act();
  check('nothing but the host is missed', browser.complaints.splice(before).filter((told) => !/ERR_CONNECTION_REFUSED|ERR_FAILED/.test(told)), []);
}

/** A page that was opened once starts without its host, and does all that it does with it. */
async function offline() {
  const host = await serve(folder, room), { address } = host;
  await fresh(address);
  await browser.run('navigator.serviceWorker.ready.then(() => 1)');
  const kept = async () => (await browser.run("caches.open('wadlook').then((kept) => kept.keys()).then((all) => all.map((one) => one.url))"))
    .map((/** @type {string} */ url) => url.slice(address.length)).sort();
  check('all that the page consists of is kept, and nothing else', await kept(), files);
  host.close();
  await withoutHost(async () => {
    await fresh(`${address}?again`);
    await browser.drop(roomsFile);
    await drawn('MAP01');
    await judged();
    check('without its host it starts and judges', await textsOf('#levels .row-state'), ['sound', '1 note · N3']);
    await browser.run("{ document.querySelector('#stop').click(); document.querySelector('#map').dataset.drawn = ''; }");
    await browser.drop(roomsFile);
    await drawn('MAP01');
    await judged();
    check('and so does a worker that begins anew', await textsOf('#levels .row-state'), ['sound', '1 note · N3']);
  });
  return address;
}

/** How many of the page's workers have their engine. @returns {Promise<number>} */
async function loaded() {
  const has = (/** @type {string} */ one) => browser.run("performance.getEntriesByType('resource').some(({ name, responseEnd }) => name.endsWith('wad_page.wasm') && responseEnd)", one);
  return (await Promise.all(browser.workers.map((one) => has(one).catch(() => false)))).filter(Boolean).length;
}

/** All that is needed is there before the first file is dropped, also where no service worker keeps it. */
async function early() {
  const { identifier } = await browser.send('Page.addScriptToEvaluateOnNewDocument', { source: 'delete Navigator.prototype.serviceWorker' });
  const host = await serve(folder, room), { address } = host;
  await fresh(address);
  for (let k = 0; k < 3000 && await loaded() < 3; k++) await wait(10);
  host.close();
  await withoutHost(async () => {
    await browser.drop(roomsFile);
    await drawn('MAP01');
    await judged();
    check('a page that was opened goes on without its host', await textsOf('#levels .row-state'), ['sound', '1 note · N3']);
  });
  await browser.send('Page.removeScriptToEvaluateOnNewDocument', { identifier });
  return address;
}

/** The manifest, by which the page is kept as an app, as Chromium reads it. */
async function manifest() {
  await fresh();
  const { errors, data } = await browser.send('Page.getAppManifest');
  check('a manifest without errors', errors, []);
  check('which is the one of the page', data, readFileSync(join(root, 'web/manifest.json'), 'utf8'));
}

/** Opened as a file the page says at once what to type, with its own folder. */
export async function unserved() {
  const [asked, complained] = [browser.requests.length, browser.complaints.length], page = join(root, 'web/index.html');
  await browser.send('Page.navigate', { url: pathToFileURL(page).href });
  await browser.until("document.body?.classList.contains('as-file')", 'the page as a file');
  check('it is seen at once', await browser.run("document.querySelector('.unserved').checkVisibility({ visibilityProperty: true })"), true);
  check('what to type on each system', await textsOf('.unserved dt'), ['Windows', 'macOS, Linux']);
  check('and where', await textsOf('.unserved dd'), [`py -m http.server --directory "${join(root, 'web')}"`, `python3 -m http.server --directory "${join(root, 'web')}"`]);
  await fresh();
  await wait(3500);
  check('and one that is served', await browser.run("document.querySelector('.unserved').checkVisibility({ visibilityProperty: true })"), false);
  const served = (/** @type {string[]} */ told, /** @type {number} */ from) => told.splice(from, Infinity, ...told.slice(from).filter((one) => !one.includes('file:')));
  served(browser.requests, asked);
  served(browser.complaints, complained);
}

/** The README beside the page is short, and every line of it fits a terminal. */
function readme() {
  const lines = readFileSync(join(root, 'web/README.txt'), 'utf8').trimEnd().split('\n');
  check('a README of some twenty lines', [lines.length <= 22, lines.filter((line) => line.length > 80)], [true, []]);
}

/** @param {string[]} hosts those from which the page may ask */
export async function offlines(hosts) {
  readme();
  await manifest();
  if (!isNative) hosts.push(await offline(), await early());
}
