// The cases of the page for those who see little, use keys, or hold a phone.
import {
  FINDING, askable, browser, check, comes, drawn, drawnAnew, dropRooms, fresh, hasInk, judged, marked, pick, pinBy, pointTold, textOf, viewOf, withhold,
  written,
} from './person.mjs';
import { rooms, twoOverlooked, wad } from './wads.mjs';

/** WCAG's contrast: of the colours of page.css, of walls on each colour of the map's cells, and of its marks, which lie on their cases. */
export async function contrast() {
  const script = `(async () => { const { cellColour, themeNow } = await import(new URL('inks.mjs', document.baseURI)), theme = themeNow(), { inks } = theme;
    const style = getComputedStyle(document.documentElement);
    const named = (name) => { const d = style.getPropertyValue('--' + name).trim().slice(1); return [0, 2, 4].map((k) => parseInt(d.slice(k, k + 2), 16)); };
    const light = (colour) => { const [r, g, b] = colour.map((v) => v / 255).map((c) => c <= 0.04045 ? c / 12.92 : ((c + 0.055) / 1.055) ** 2.4);
      return 0.2126 * r + 0.7152 * g + 0.0722 * b; };
    const ratio = (a, b) => { const [x, y] = [light(a), light(b)].sort((p, q) => q - p); return (x + 0.05) / (y + 0.05); };
    const texts = ['ink', 'soft'].flatMap((a) => ['ground', 'panel', 'raised'].map((b) => [a, b, 4.5]));
    const more = [['ink', 'wash', 4.5], ['fault', 'panel', 4.5], ['fault', 'wash', 4.5], ['fault', 'fault-wash', 4.5], ['on-accent', 'accent', 4.5], ['soft', 'void', 4.5],
      ['edge', 'panel', 3], ['edge', 'ground', 3], ['accent', 'panel', 3], ['wall', 'void', 3], ...['accent', 'fault', 'start', 'monster', 'weapon', 'key', 'other', 'ink'].map((mark) => [mark, 'void', 3])];
    const low = [...texts, ...more].filter(([a, b, least]) => ratio(named(a), named(b)) < least).map(([a, b]) => a + ' on ' + b + ' ' + ratio(named(a), named(b)).toFixed(2));
    for (const sight of ['here', 'clear', 'blocked', 'unknown']) for (const isUnder of [false, true]) for (let k = 0; k <= 20; k++) {
      const found = ratio(inks.wall, cellColour(theme, k / 20, sight, isUnder));
      if (found < 3) low.push('wall on ' + sight + (isUnder ? ' under the pointer ' : ' ') + k / 20 + ' ' + found.toFixed(2));
    }
    return low; })()`;
  await fresh();
  await browser.drop(written('marked.wad', wad(rooms('MAP01', { damage: twoOverlooked }))));
  await drawn('MAP01');
  await marked();
  for (const scheme of /** @type {const} */ (['dark', 'light'])) {
    await browser.screen(1440, 900, scheme);
    check(`contrast, ${scheme}`, await browser.run(script), []);
    await drawnAnew();
    const zoom = (await viewOf())[2];
    const inks = (/** @type {[string, number, number, number?, number?][]} */ ...at) => () => Promise.all(at.map((one) => hasInk(...one)));
    check(`a finding's line and its case, ${scheme}`, await comes(inks(['fault', 512, 100], ['void', 512, 100, 1, 4], ['void', 512, 100, -4, -1]), [true, true, true]), [true, true, true]);
    check(`a start and its case, ${scheme}`, await comes(inks(['start', 64, 64], ['void', 64, 64, 7 * zoom, 8 * zoom + 3]), [true, true]), [true, true]);
    check(`a monster that looks east, ${scheme}`, await comes(inks(['monster', 550, 128], ['monster', 522, 128]), [true, false]), [true, false]);
  }
}

/** Names of all that can be used and is smaller than 24 pixels, which WCAG AA wants; a box is used by its label, too. */
const small = () => browser.run(`[...document.querySelectorAll('button, input')].map((e) => e.type === 'checkbox' ? e.closest('label') : e).filter((e) => e.checkVisibility())
  .filter((e) => { const { width, height } = e.getBoundingClientRect(); return width < 24 || height < 24; }).map((e) => e.id || e.textContent)`);

export async function labels() {
  await dropRooms();
  await pinBy('100 100');
  await pointTold('100 100');
  const { nodes } = await browser.send('Accessibility.getFullAXTree');
  const named = ['button', 'textbox', 'searchbox', 'checkbox', 'listbox', 'spinbutton', 'option', 'tree', 'treeitem', 'table', 'application'];
  const bare = nodes.filter((/** @type {any} */ node) => !node.ignored && named.includes(node.role?.value) && !node.name?.value);
  check('all that can be used has a name', bare.map((/** @type {any} */ node) => node.role.value), []);
  check('and is large enough', await small(), []);
}

export async function phone() {
  for (const width of [320, 390]) {
    await browser.screen(width, 844, 'dark', true);
    await dropRooms();
    for (const pane of ['files', 'levels', 'notes', 'map']) {
      await browser.press(`.tabs [data-to=${pane}]`);
      check(`one pane at a time: ${pane}`, await browser.run("[...document.querySelectorAll('.pane')].filter((e) => e.checkVisibility()).map((e) => e.dataset.pane)"), [pane]);
      check(`nothing wider than a phone: ${pane}`, await browser.run("[document.documentElement, ...document.querySelectorAll('.pane, .plate, .head')].map((e) => e.scrollWidth).filter((w) => w > innerWidth)"), []);
      check(`large enough for a thumb: ${pane}`, await small(), []);
    }
    check('saves are told as such', await browser.run("document.querySelector('.plate .saves').innerText.split('\\n')[0]"), 'Save');
    check('no count is cut', await browser.run("[...document.querySelectorAll('#counts div')].filter((e) => e.getBoundingClientRect().right > innerWidth).length"), 0);
  }
  const zoom = (await viewOf())[2], [mx, my] = await browser.middle('#map');
  await browser.touch('touchStart', [mx - 50, my], [mx + 50, my]);
  for (const d of [10, 20, 30]) await browser.touch('touchMove', [mx - 50 - d, my], [mx + 50 + d, my]);
  await browser.touch('touchEnd');
  await drawnAnew();
  check('two fingers zoom', (await viewOf())[2] > zoom, true);
  await browser.touch('touchStart', [mx, my]);
  await browser.touch('touchEnd');
  await browser.until("!document.querySelector('#point').hidden", 'a point by a tap');
  check('a tap pins', /sector/.test(await textOf('#under')), true);
  await browser.press('.tabs [data-to=levels]');
  await pick('levels', 'MAP02');
  await drawn('MAP02');
  await browser.press('.tabs [data-to=notes]');
  await browser.press(FINDING);
  await browser.until("document.querySelector('#map').dataset.view.startsWith('384.000 256.000')", 'the finding on a phone');
  check('a finding leads to the map', await browser.run('document.body.dataset.pane'), 'map');
}

/** Where one part is shown at a time arrows stay in their list, and Enter leads on; what leads elsewhere shows it. */
export async function keysAlone() {
  const at = () => browser.run('[document.body.dataset.pane, document.activeElement.id]');
  const show = (/** @type {string} */ name) => browser.run(`document.querySelector('.tabs [data-to=${name}]').click()`);
  await browser.screen(640, 400, 'dark');
  await dropRooms();
  await judged();
  await browser.run("document.querySelector('#levels').focus()");
  await browser.key('ArrowDown');
  await drawn('MAP02');
  check('an arrow shows the next level, and the list of them stays', await at(), ['levels', 'levels']);
  await withhold('look');
  await browser.key('Enter');
  check('Enter leads to the map', await at(), ['map', 'map']);
  check('which is there, and not drawn anew', await browser.run("document.querySelector('#map').dataset.drawn"), 'MAP02');
  await browser.run('free()');
  await askable('MAP02');
  await show('notes');
  await browser.run("document.querySelector('#findings').focus()");
  for (let k = 0; k < 2; k++) await browser.key('ArrowDown'); // past a heading
  await browser.until("document.querySelector('#asked-title').textContent === 'Linedef 4'", 'what a finding is about');
  check('an arrow chooses the next finding, and the list of them stays', [await at(), await textOf('#findings [aria-selected=true] .row-name')], [['notes', 'findings'], 'linedef 4']);
  await browser.key('Enter');
  await browser.until("document.querySelector('#map').dataset.view.startsWith('384.000 256.000')", 'the finding');
  check('and Enter leads to its place', await at(), ['map', 'map']);
  await show('notes');
  await browser.run("document.querySelector('#at').focus()");
  await browser.send('Input.insertText', { text: 'thing 1' });
  await browser.key('Enter');
  await browser.until("document.body.dataset.pane === 'map'", 'the thing');
  check('and so does what is gone to', await at(), ['map', 'map']);
  await show('files');
  await browser.key('/');
  check('a key leads to the filter of levels', await at(), ['levels', 'filter']);
  await browser.run("document.querySelector('.skip').focus()");
  await browser.key('Enter');
  check('and a link to the map', await at(), ['map', 'map']);
  await show('levels');
  await browser.run("document.querySelector('#demos').focus()");
  await browser.key('ArrowDown');
  check('an arrow shows a demo, and the list of them stays', await at(), ['levels', 'demos']);
  await browser.key('Enter');
  check('Enter leads to its commands', await at(), ['map', 'commands']);
}

/** All is reached by Tab and seen there, and the way to a finding needs no pointer. */
export async function keys() {
  await dropRooms();
  await judged();
  const reached = [];
  for (let k = 0; k < 60; k++) {
    await browser.key('Tab');
    const at = await browser.run(`(() => { const e = document.activeElement, style = getComputedStyle(e.querySelector('[aria-selected=true]') ?? e);
      return { name: e.id || e.className, isSeen: e === document.body || style.outlineStyle !== 'none' }; })()`);
    if (!at.name) break;
    check(`the keys' place is seen: ${at.name}`, at.isSeen, true);
    reached.push(at.name);
  }
  const wanted = ['skip', 'choose', 'wide', 'files', 'save-report', 'save-json', 'only', 'filter', 'levels', 'demos', 'save-pwad', 'save-svg', 'map', 'in', 'out', 'fit', 'at', 'pin'];
  check('all is reached by Tab, in its order', reached.filter((name) => wanted.includes(name)), wanted);
  await browser.key('/');
  await browser.send('Input.insertText', { text: 'map02' });
  await browser.until("document.querySelectorAll('#levels .row').length === 1", 'the filter by keys');
  await browser.key('Enter');
  await drawn('MAP02');
  for (let k = 0; k < 30 && await browser.run("document.activeElement.id !== 'findings'"); k++) await browser.key('Tab');
  for (let k = 0; k < 2; k++) await browser.key('ArrowDown');
  await browser.until("document.querySelector('#map').dataset.view.startsWith('384.000 256.000')", 'a finding by keys');
  check('a finding by keys', await textOf('#findings [aria-selected=true] .row-name'), 'linedef 4');
}
