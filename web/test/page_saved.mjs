// The case of the picture that is saved: the program's shapes, in the colours of the page, with its marks.
import { writeFileSync } from 'node:fs';
import { join } from 'node:path';
import { browser, check, drawn, fresh, marked, pick, pictures, printed, rm, saved, written } from './person.mjs';
import { rooms, twoOverlooked, twoUnknown, wad } from './wads.mjs';

/** A picture without what the page gives it: colours and marks. @param {string} svg */
const bare = (svg) => svg.replace(/<style>[^<]*<\/style>/, '').replace(/fill="#[0-9a-f]{6}"/g, '').replace(/<g class="found">[^]*?<\/g>\n/, '');

/** The colours of the page's style sheet. @param {...string} names @returns {Promise<string[]>} */
const inks = (...names) => browser.run(`${JSON.stringify(names)}.map((name) => getComputedStyle(document.documentElement).getPropertyValue('--' + name).trim())`);

/** What the picture itself shows, opened alone: of some of its parts the colour of line or fill, and how many there are. @param {string} file */
async function shown(file) {
  await browser.send('Page.navigate', { url: `file://${file}` });
  await browser.until("document.documentElement.localName === 'svg' && document.readyState === 'complete'", 'the picture');
  return browser.run(`(() => { const hex = (colour) => '#' + colour.match(/\\d+/g).slice(0, 3).map((v) => Number(v).toString(16).padStart(2, '0')).join('');
    const style = (selector) => getComputedStyle(document.querySelector(selector));
    return { void: hex(style('rect').fill), wall: hex(style('.w').stroke), step: hex(style('.t').stroke), fault: hex(style('.found path:not(.case)').stroke),
      width: parseFloat(style('.t').strokeWidth), titles: [...document.querySelectorAll('.found title')].map((e) => e.textContent) }; })()`);
}

export async function savedPictures() {
  const flat = '<b>"&\'</', damage = (/** @type {Record<string, Buffer>} */ lumps) => [twoOverlooked, twoUnknown].forEach((one) => one(lumps));
  const file = wad([...rooms('MAP01', { damage, flat }), ...rooms('MAP02')]);
  for (const scheme of /** @type {const} */ (['dark', 'light'])) {
    await browser.screen(1440, 900, scheme);
    await fresh();
    await browser.drop(written('colours.wad', file));
    await drawn('MAP01');
    await marked();
    const [dark, wall, step, fault] = await inks('void', 'wall', 'step', 'fault');
    rm('MAP01.svg');
    const svg = await saved('svg', 'MAP01.svg');
    check(`the shapes are the program's, ${scheme}`, bare(svg), bare(printed(['picture', '--cells', '512', 'MAP01', 'f'], file).toString('latin1')));
    await pick('levels', 'MAP02');
    await drawn('MAP02');
    rm('MAP02.svg');
    check(`a level without findings has no marks, ${scheme}`, (await saved('svg', 'MAP02.svg')).includes('class="found"'), false);
    const at = written(`${scheme}.svg`, Buffer.from(svg, 'latin1')), { width, titles, ...colours } = await shown(at);
    check(`its colours are the page's, ${scheme}`, colours, { void: dark, wall, step, fault });
    check(`two-sided lines are seen, ${scheme}`, width >= 1, true);
    check(`what was found is marked, ${scheme}`, titles, ['W3 thing 1: Stands in the void']);
    if (pictures) writeFileSync(join(pictures, `saved-${scheme}.png`), await browser.picture());
  }
  const left = (/** @type {string[]} */ told) => told.splice(0, Infinity, ...told.filter((one) => !one.includes('file:')));
  left(browser.requests);
  left(browser.complaints);
}
