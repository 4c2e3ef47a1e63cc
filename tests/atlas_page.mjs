// Looks at an atlas' page in headless Chromium, beside what `wadlens survey` and `wadlens check` say of the same files, with warnings.
import { spawnSync } from 'node:child_process';
import { existsSync, mkdirSync, mkdtempSync, readFileSync, readdirSync, rmSync, writeFileSync } from 'node:fs';
import { tmpdir } from 'node:os';
import { join } from 'node:path';
import { inflateSync } from 'node:zlib';
import { Browser, chromium } from '../web/test/browser.mjs';
import { oneMistaken, rooms, twoOverlooked, wad } from '../web/test/wads.mjs';
import { addUp, check, programs, skipped } from './harness.mjs';

const rest = process.argv.slice(2);
/** @param {string} name @returns {string | undefined} */
const option = (name) => (rest.includes(name) ? rest.splice(rest.indexOf(name), 2)[1] : undefined);
const pictures = option('--pictures'), games = option('--games');
const program = rest[0] ?? programs.wadlens;
const room = mkdtempSync(join(tmpdir(), 'atlas-'));

/** Of which atlas the cases are. */
let atlasName = '';
/** @param {string} name @param {unknown} came @param {unknown} [wanted] */
const is = (name, came, wanted = true) => check(`${atlasName}: ${name}`, came, wanted);

/** Small files, which are made: a name that is markup, faults, warnings, levels that aren't judged, one without a picture, none at all. */
function smallFiles() {
  const nothing = Buffer.alloc(0);
  /** @type {[string, Buffer][]} */
  const made = [
    ['two.wad', wad([...rooms('E1M1'), ...rooms('E1M2', { flat: 'NUKAGE1' })])],
    ['none.wad', nothing],
    ['<b>&".wad', wad(rooms('<i>&"'))],
    ['others.wad', wad([['MAP03', nothing], ['TEXTMAP', nothing], ...rooms('MAP04').slice(0, 8)])],
    ['bare.wad', wad(rooms('MAP05', { damage: (lumps) => { lumps.LINEDEFS = nothing; } }))],
    ['mistaken.wad', wad(rooms('MAP06', { damage: oneMistaken }))],
    ['overlooked.wad', wad(rooms('MAP07', { damage: twoOverlooked }))],
  ];
  return made.map(([name, bytes]) => {
    writeFileSync(join(room, name), bytes);
    return name;
  });
}

/** The files of Freedoom 0.12.1 in a folder. @param {string} folder */
const gamesIn = (folder) => ['freedoom1.wad', 'freedoom2.wad', 'freedm.wad'].map((name) => join(folder, name));
/** What the page says of them. Of the warnings 1288 are W2, 17 W4, 33 W5, 1 W6, 1 W8, 44 W14, 22 W16, 4 W17, 3 W18, 1 W21 and 28 W22. */
const GAMES = '100 levels 3 files 0 faults 1 notes 1442 warnings 0 not judged';

/** The atlases that are looked at: their names, and the files that they are made of. @returns {[string, string[]][]} */
function atlases() {
  if (games) return [['games', gamesIn(games)]];
  const folder = process.env.FREEDOOM || '/usr/share/games/doom', given = gamesIn(folder);
  if (given.every((path) => existsSync(path))) return [['small', smallFiles()], ['games', given]];
  skipped(`there are no freedoom1.wad, freedoom2.wad and freedm.wad in ${folder}`, 'the page of many levels');
  return [['small', smallFiles()]];
}

const COUNTS = ['things', 'linedefs', 'sidedefs', 'vertexes', 'segs', 'ssectors', 'nodes', 'sectors'];

/** What the page has to say of a level, by its object of the survey: texts that its row has. @param {any} one */
function texts(one) {
  const counts = one.format === 'doom' ? COUNTS.map((name) => `${one[name]} ${name}`) : [];
  return [one.level, one.file, `entry ${one.entry}, ${one.format}`, ...(one.sound ? ['sound'] : []), ...counts];
}

/** The items of what was found at a level, in order: faults, notes and then warnings, each with its class. @param {any} one */
function items(one) {
  /** @param {string} code */
  const kind = (code) => (code.startsWith('F') ? 'fault' : code.startsWith('N') ? 'note' : 'warning');
  const found = Object.entries({ ...one.findings, ...one.warnings });
  return [...(one.sound ? ['sound: sound'] : []), ...found.map(([code, count]) => `${kind(code)}: ${code} × ${count}`)];
}

/** A place as a line tells it. @param {any} place */
function placeText(place) {
  const spot = (/** @type {number[]} */ at) => `(${at.join(', ')})`;
  if (!place) return '';
  if (place.at) return `, at ${spot(place.at)}`;
  return place.from ? `, from ${spot(place.from)} to ${spot(place.to)}` : `, of linedef ${place.linedef}`;
}

/** The part of a picture about a place, 256 map units around; of a place that is a linedef's it isn't known here. @param {any} place */
function view({ at, from = at, to = at }) {
  if (!from) return '';
  const size = [0, 1].map((k) => Math.abs(from[k] - to[k]) + 512);
  return `#svgView(viewBox(${[Math.min(from[0], to[0]) - 256, -Math.max(from[1], to[1]) - 256, ...size]}))`;
}

/** A message of a card, by its object of the check: its class, its text, and where its link goes. @param {any} told @param {string} picture */
function message(told, picture) {
  const kind = { F: 'fault', N: 'note', W: 'warning' }[/** @type {string} */ (told.code)[0]];
  if (told.more) return `${kind}: ${told.code}: ${told.more} more`;
  const index = Array.isArray(told.index) ? ` (${told.index.join(', ')})` : told.index === undefined ? '' : ` ${told.index}`;
  const link = picture && told.place ? ` > ${picture}${view(told.place)}` : '';
  return `${kind}: ${told.code} ${told.kind}${index}: ${told.message}${placeText(told.place)}${link}`;
}

/** What each row of the page shows, its text with single blanks. */
const ROWS = `[...document.querySelectorAll('main > ol > li')].map((row) => ({
  text: row.innerText.replace(/\\s+/g, ' '),
  items: [...row.querySelectorAll('.found li')].map((item) => item.className + ': ' + item.innerText),
  messages: [...row.querySelectorAll('.messages li')].map((item) => [item.className, item.innerText, item.querySelector('a')?.getAttribute('href') ?? '']),
  href: row.querySelector('a.map')?.getAttribute('href') ?? '',
  size: Math.max(row.querySelector('img')?.naturalWidth ?? 0, row.querySelector('img')?.naturalHeight ?? 0),
}))`;

/** @param {Browser} browser @param {any[]} objects @param {any[]} checked what a check tells of the levels @param {string} folder */
async function look(browser, objects, checked, folder) {
  const levels = objects.filter((one) => 'level' in one);
  const isFaulty = (/** @type {any} */ one) => (one.format === 'doom' ? !one.sound : 'lump' in one);
  const wanted = [...levels.filter(isFaulty), ...levels.filter((one) => !isFaulty(one))];
  await browser.run(`document.querySelectorAll('img').forEach((image) => { image.loading = 'eager'; })`);
  await browser.until(`[...document.images].every((image) => image.complete)`, 'all pictures are there', 120);
  const rows = await browser.run(ROWS);
  is('as many rows as levels', rows.length, wanted.length);
  wanted.forEach((one, k) => {
    const missing = texts(one).filter((text) => !rows[k].text.includes(text));
    is(`row ${k + 1}, ${one.file} ${one.level}`, missing, []);
    is(`row ${k + 1}, what was found`, rows[k].items, items(one));
    const messages = checked.filter(({ file, entry }) => file === one.file && entry === one.entry);
    const lines = rows[k].messages.map(([kind, text, href], /** @type {number} */ n) =>
      `${kind}: ${text}${href ? ` > ${messages[n]?.place?.linedef === undefined ? href : href.split('#')[0]}` : ''}`);
    is(`row ${k + 1}, its messages`, lines, messages.map((each) => message(each, rows[k].href)));
  });
  const shown = rows.map((/** @type {any} */ row) => row.href).filter(Boolean).sort();
  is('a link to each picture', shown, readdirSync(folder).filter((name) => name.endsWith('.svg')).sort());
  is('each picture is drawn, in its own size', rows.filter((/** @type {any} */ row) => row.href && row.size !== 1024), []);
  const warnings = levels.flatMap((one) => Object.values(one.warnings ?? {})).reduce((sum, count) => sum + count, 0);
  const totals = await browser.run(`document.querySelector('.totals').innerText.replace(/\\s+/g, ' ')`);
  is('there are warnings, and how many', warnings > 0 && totals.includes(`${warnings} warnings`));
  if (atlasName === 'games') is('the totals', totals, GAMES);
  const codes = new Set(levels.flatMap((one) => Object.keys({ ...one.findings, ...one.warnings })));
  const legend = await browser.run(`[...document.querySelectorAll('.legend b')].map((item) => item.innerText)`);
  is('a legend of the codes that are found', legend.sort(), [...codes].sort());
  const refused = objects.filter((one) => 'refused' in one);
  const told = await browser.run(`[...document.querySelectorAll('.refused li')].map((item) => item.innerText)`);
  is('a line for each refused file', told, refused.map((one) => `${one.file} ${one.refused}`));
  is('no name makes markup', await browser.run(`document.querySelectorAll('h2 *, .where > :not(span), i, script').length`), 0);
}

/** How bright a colour is, by WCAG 2. @param {string} colour */
function brightness(colour) {
  const [red, green, blue] = (colour.match(/\d+/g) ?? []).slice(0, 3).map((part) => {
    const share = Number(part) / 255;
    return share <= 0.04045 ? share / 12.92 : ((share + 0.055) / 1.055) ** 2.4;
  });
  return 0.2126 * red + 0.7152 * green + 0.0722 * blue;
}

/** The classes of what was found, with their colours. */
const COLOURS = `Object.fromEntries([...document.querySelectorAll('.found li')].map((item) => {
  const style = getComputedStyle(item);
  return [item.className, [style.color, style.backgroundColor]];
}))`;

/** Each class has colours of its own, which can be read. @param {Browser} browser @param {string} name */
async function reads(browser, name) {
  /** @type {Record<string, string[]>} */
  const colours = await browser.run(COLOURS);
  is(`${name}: warnings are there`, 'warning' in colours);
  is(`${name}: colours of their own`, new Set(Object.values(colours).flat()).size, 2 * Object.keys(colours).length);
  for (const [kind, pair] of Object.entries(colours)) {
    const [less, more] = pair.map(brightness).sort((a, b) => a - b);
    is(`${name}: ${kind} can be read`, (more + 0.05) / (less + 0.05) >= 4.5);
  }
}

/** @param {Browser} browser @param {number} width @param {'dark' | 'light'} scheme */
async function fits(browser, width, scheme) {
  await browser.screen(width, 900, scheme, width < 500);
  const name = `${width} wide, ${scheme}`;
  is(`${name}: nothing sticks out`, await browser.run('document.documentElement.scrollWidth <= innerWidth'));
  const ground = await browser.run(`getComputedStyle(document.body).backgroundColor.match(/\\d+/g).slice(0, 3).map(Number)`);
  is(`${name}: the ground`, ground.every((/** @type {number} */ part) => (scheme === 'dark' ? part < 64 : part > 192)));
  await reads(browser, name);
  const picture = await browser.picture();
  is(`${name}: a picture of it`, sizeOf(picture), [width, 900]);
  is(`${name}: .. isn't blank`, valuesOf(picture) > 64);
  if (pictures) writeFileSync(join(pictures, `${atlasName}-${width}-${scheme}.png`), picture);
}

/** How wide and how high a PNG is (RFC 2083, 4.1.1). @param {Buffer} png */
const sizeOf = (png) => [png.readUInt32BE(16), png.readUInt32BE(20)];

/** How many values the bytes of a PNG's rows have: that of a plain ground has few, one of letters and pictures nearly all. @param {Buffer} png */
function valuesOf(png) {
  const packed = [];
  for (let at = 8; at < png.length; at += 12 + png.readUInt32BE(at)) {
    if (png.toString('latin1', at + 4, at + 8) === 'IDAT') packed.push(png.subarray(at + 8, at + 8 + png.readUInt32BE(at)));
  }
  return new Set(inflateSync(Buffer.concat(packed))).size;
}

/** Makes an atlas of files beside their survey, and looks at its page. @param {string[]} given */
async function atlas(given) {
  const folder = join(room, atlasName);
  const run = (/** @type {string[]} */ ...words) => spawnSync(program, words, { cwd: room, encoding: 'utf8', maxBuffer: 1 << 28 });
  const survey = run('survey', '--map', ...given), made = run('atlas', '--map', '--out', folder, ...given);
  is('the status of both', made.status, survey.status);
  is('the survey', readFileSync(join(folder, 'survey.jsonl'), 'utf8'), survey.stdout);
  const objectsOf = (/** @type {string} */ lines) => lines.trimEnd().split('\n').map((line) => JSON.parse(line));
  const objects = objectsOf(survey.stdout);
  const checked = objectsOf(run('check', '--map', '--json', '--max', '3', ...given).stdout).filter((one) => 'code' in one);
  const browser = new Browser(chromium(), join(room, `${atlasName}-profile`));
  try {
    await browser.attach();
    await browser.screen(1200, 900, 'light');
    await browser.send('Page.navigate', { url: `file://${folder}/index.html` });
    await browser.until(`document.readyState === 'complete'`);
    await look(browser, objects, checked, folder);
    for (const width of [1200, 390]) for (const scheme of /** @type {('dark' | 'light')[]} */ (['dark', 'light'])) await fits(browser, width, scheme);
    is('nothing is fetched from elsewhere', browser.requests.filter((url) => !url.startsWith(`file://${folder}/`)), []);
    is('no complaint', browser.complaints, []);
    await follow(browser);
    await browser.send('Page.navigate', { url: `file://${folder}/index.html` });
    await browser.until(`document.readyState === 'complete' && document.querySelector('.messages')`);
    await goTo(browser);
  } finally {
    await browser.close();
  }
}

/** A click on a picture shows it alone. @param {Browser} browser */
async function follow(browser) {
  const first = await browser.run(`document.querySelector('a.map').getAttribute('href')`);
  await browser.screen(1200, 900, 'light');
  await browser.press('a.map');
  await browser.until(`location.pathname.endsWith('/${first}') && document.documentElement.localName === 'svg'`, 'a click shows the picture');
  is('a click on it', true);
}

/** The messages whose mistakes a picture marks. */
const MARKED = /^(N3|W1|W2|W3|W6|W11|W14|W15|W16|W17|W21) /;

/** The mark in the middle of what is seen, if there is one. */
const MIDDLE = `[...document.querySelectorAll('.f, .a')].some((mark) => {
  const { left, right, top, bottom } = mark.getBoundingClientRect(), { width, height } = document.documentElement;
  return Math.abs(left + right - width.baseVal.value) < 6 && Math.abs(top + bottom - height.baseVal.value) < 6;
})`;

/** A click on a message shows its place in the middle of the picture. @param {Browser} browser */
async function goTo(browser) {
  const [name, x, y] = await browser.run(`(() => {
    const link = [...document.querySelectorAll('.messages a')].find((one) => ${MARKED}.test(one.innerText));
    link.scrollIntoView({ block: 'center' });
    const line = link.getClientRects()[0];
    return [link.getAttribute('href'), line.x + line.width / 2, line.y + line.height / 2];
  })()`);
  await browser.click(x, y);
  await browser.until(`location.href.endsWith('/${name}') && document.documentElement.localName === 'svg'`, 'a click on a message shows its picture');
  is('a click on a message shows its place', await browser.run(MIDDLE));
  if (pictures) writeFileSync(join(pictures, `${atlasName}-place.png`), await browser.picture());
}

try {
  if (pictures) mkdirSync(pictures, { recursive: true });
  for (const [name, given] of atlases()) {
    atlasName = name;
    await atlas(given);
  }
} catch (error) {
  is(String(error), false);
} finally {
  rmSync(room, { recursive: true, force: true, maxRetries: 5 });
}
process.exitCode = addUp();
