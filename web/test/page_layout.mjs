// The cases of the page at sizes of windows, from a phone's to a desk's, and zoomed.
import {
  FINDING, askable, browser, check, drawn, drawnAnew, fresh, isHidden, judged, legend, marked, pinBy, placeOf, pointTold, textOf, textsOf, viewOf,
  withhold, written,
} from './person.mjs';
import { demo, oneLost, oneMistaken, rooms, twoOverlooked, twoUnknown, wad } from './wads.mjs';

/** Widths and heights, in the pixels that are left of a window once it is zoomed. */
const SIZES = [
  [320, 480], [480, 320], [360, 640], [640, 360], [390, 844], [844, 390], [932, 430], // phones, upright and sideways
  [768, 1024], [1024, 768], [880, 600], [881, 481], [1280, 480], [1280, 800], [1920, 1080], [2560, 1440],
  [640, 400], [426, 266], [320, 200], // 1280 by 800 at 200, 300 and 400 %
  [320, 256], [80, 120], [120, 80], // 1280 by 1024 and a phone at 400 %
];

const demos = ['DEMO1', 'DEMO2', 'DEMO3', 'DEMO4'].map((name) => /** @type {[string, Buffer]} */ ([name, demo(35)]));
/** Several levels, of which the first has findings of many kinds, and demos. */
const full = wad([
  ...rooms('MAP01', { damage: (lumps) => [twoOverlooked, twoUnknown, oneMistaken].forEach((damage) => damage(lumps)) }),
  ...rooms('MAP02', { damage: oneLost }), ...['MAP03', 'MAP04', 'MAP05', 'MAP06', 'MAP07', 'MAP08'].flatMap((name) => rooms(name)), ...demos,
]);
const LONG = 'a_level_of_a_community_project_whose_name_is_longer_than_any_column_of_the_page_is_wide_v1.0.2.wad';

/** Names what can be used and isn't on top in its middle, once it is brought into view. @returns {Promise<string[]>} */
const covered = () => browser.run(`(() => {
  const name = (e) => e && (e.id || e.className || e.textContent.trim().slice(0, 30) || e.tagName);
  const all = document.querySelectorAll('button, input, label, a:not(.skip), summary, .row, .ask');
  const used = [...all].filter((e) => e.checkVisibility({ visibilityProperty: true }));
  return used.flatMap((e) => {
    e.scrollIntoView({ block: e.offsetHeight > innerHeight ? 'center' : 'nearest', inline: e.offsetWidth > innerWidth ? 'center' : 'nearest' });
    const { x, y, width, height } = e.getBoundingClientRect(), hit = document.elementFromPoint(x + width / 2, y + height / 2);
    return hit && (e.contains(hit) || hit.closest('label')?.contains(e)) ? [] : [name(e) + ' under ' + name(hit)];
  }); })()`);

/** Names what is wider than the window, and what of the page is below it. */
const beyond = () => browser.run(`[document.documentElement, ...document.querySelectorAll('.bar, .pane, .plate, .head, .readout, .legend')]
  .filter((e) => e.scrollWidth > innerWidth || e.getBoundingClientRect().right > innerWidth + 1).map((e) => e.className || e.tagName)
  .concat(document.documentElement.scrollHeight > innerHeight ? ['higher than its window'] : [])`);

/** What is wrong with the parts of the page that are shown, one after the other. @param {boolean} isTiny whether the page scrolls as a whole */
async function wrong(isTiny) {
  const told = [], panes = await browser.run("document.querySelector('.tabs').checkVisibility()") ? ['files', 'levels', 'map', 'notes'] : ['all'];
  for (const pane of panes) {
    if (pane !== 'all') await browser.run(`document.querySelector('.tabs [data-to=${pane}]').click()`);
    await drawnAnew();
    for (const one of [...await covered(), ...isTiny ? [] : await beyond()]) told.push(`${pane}: ${one}`);
    await browser.run('document.documentElement.scrollTo(0, 0)');
  }
  return told;
}

/** At no size does anything cover what can be used, and at none but the smallest is the page larger than its window. */
async function sizes() {
  const file = written(LONG, full), notes = written(`not_${LONG}.txt`, 'notes about the rooms');
  for (const [width, height] of SIZES) {
    const isTiny = height <= 320 || width <= 260, at = `${width} by ${height}`;
    await browser.screen(width, height, 'dark');
    await fresh();
    check(`nothing is covered before any file, ${at}`, [...await covered(), ...isTiny ? [] : await beyond()], []);
    await browser.drop(file, notes);
    await drawn('MAP01');
    await judged();
    check(`nor is it with files, ${at}`, await wrong(isTiny), []);
    await browser.run("{ document.querySelector('#at').value = '100 100'; document.querySelector('#pin').click(); document.querySelector('#findings .ask').click(); }");
    await pointTold('100 100');
    await browser.run("document.querySelector('#fit').click()");
    check(`nor with a pinned point and a code explained, ${at}`, await wrong(isTiny), []);
    await browser.run("document.querySelector('#demos .row').click()");
    await browser.until("document.querySelectorAll('.cells-row').length", 'a demo');
    check(`nor with a demo, ${at}`, await wrong(isTiny), []);
  }
}

/** All of the map is beside the legend and the buttons, and those don't lie on each other. */
async function fits() {
  const screens = /** @type {[number, number, boolean][]} */ ([[1440, 900, false], [390, 844, true], [320, 480, true], [844, 390, true], [640, 400, false]]);
  for (const [width, height, isTouched] of screens) {
    await browser.screen(width, height, 'dark', isTouched);
    await fresh();
    await browser.drop(written('full.wad', full));
    await drawn('MAP01');
    await browser.run("document.querySelector('.tabs [data-to=notes]').click()");
    await pinBy('100 100');
    await pointTold('100 100');
    await browser.run("document.querySelector('.tabs [data-to=map]').click()");
    await browser.until("document.querySelector('#legend').classList.contains('sight')", 'the legend');
    await browser.press('#fit');
    await drawnAnew();
    const [x, y, zoom] = await viewOf();
    check(`the legend tells all, ${width}`, (await legend()).length, 4);
    check(`no room and no button lies under another, ${width}`, await browser.run(`(() => {
      const boxOf = (e) => e.getBoundingClientRect(), frame = boxOf(document.querySelector('#map')), left = frame.x + frame.width / 2, top = frame.y + frame.height / 2;
      const rooms = { left: left - ${x * zoom}, right: left + ${(512 - x) * zoom}, top: top - ${(256 - y) * zoom}, bottom: top + ${y * zoom} };
      const [buttons, legend] = ['.zoom', '#legend'].map((s) => boxOf(document.querySelector(s)));
      const isApart = (a, b) => a.right <= b.left || b.right <= a.left || a.bottom <= b.top || b.bottom <= a.top;
      return [isApart(rooms, buttons), isApart(rooms, legend), isApart(buttons, legend), rooms.left >= frame.left && rooms.top >= frame.top]; })()`), [true, true, true, true]);
  }
}

/** In how many lines the name of the level stands beside that of its file. @returns {Promise<number>} */
const linesOfName = () => browser.run(`(() => { const range = document.createRange();
  range.selectNodeContents(document.querySelector('#crumbs .here'));
  return new Set([...range.getClientRects()].map((box) => box.top)).size; })()`);

/** What is long is read whole: names of files, why one is refused, the counts of a level each in one piece, and its name. */
async function wraps() {
  const cut = (/** @type {string} */ selector) => browser.run(`[...document.querySelectorAll('${selector}')].filter((e) => e.checkVisibility() && (e.scrollWidth > e.clientWidth + 1 ||
    e.scrollHeight > e.clientHeight + 3)).map((e) => e.textContent)`);
  const notes = written(`not_${LONG}.txt`, 'notes about the rooms');
  for (const width of [320, 390, 1024, 1440]) {
    await browser.screen(width, 800, 'light');
    await fresh();
    await withhold('survey');
    await browser.drop(written(LONG, full), notes);
    await drawn('MAP01');
    await browser.run("document.querySelector('.tabs [data-to=files]').click()");
    check(`a long name is read whole while it is judged, ${width}`, [await isHidden('#work'), ...await cut('#crumbs, #files .row, #files .row-name, #files .row-more')], [false]);
    await browser.run('free()');
    await browser.until("document.querySelector('#work').hidden", 'the end of it');
    check(`the buttons of a file stand in a line, ${width}`, await browser.run("new Set([...document.querySelectorAll('.files .saves button')].map((e) => e.offsetTop)).size"), 1);
    check(`a long name is read whole, ${width}`, await cut('#crumbs, #files .row, #files .row-name, #files .row-more'), []);
    await browser.run("document.querySelector('.tabs [data-to=map]').click()");
    await drawnAnew();
    check(`each count is in one piece, ${width}`, await browser.run("[...document.querySelectorAll('#counts div')].filter((e) => e.getBoundingClientRect().height > 24 || e.getBoundingClientRect().right > innerWidth).length"), 0);
  }
  check('the names', await textsOf('#files .row-name'), [LONG, `not_${LONG}.txt`]);
  for (const [width, name] of /** @type {[number, string][]} */ ([[320, 'a.wad'], [320, 'halls.wad'], [320, 'hangar_v2.wad'], [320, LONG], [360, 'hangar_v2.wad'], [1024, LONG]])) {
    await browser.screen(width, 480, 'dark');
    await fresh();
    await browser.drop(written(name, full));
    await drawn('MAP01');
    check(`the level's name is in one piece, ${width}, ${name}`, await linesOfName(), 1);
  }
}

/** What is under way moves nothing that is pressed. */
async function steady() {
  for (const [width, height] of [[390, 844], [640, 400], [1280, 800]]) {
    await browser.screen(width, height, 'dark');
    await fresh();
    await withhold('survey');
    await browser.drop(written('full.wad', full));
    await drawn('MAP01');
    const places = () => browser.run("['.bar', 'main', '#choose', '#levels', '#filter'].map((s) => { const { x, y, width, height } = document.querySelector(s).getBoundingClientRect(); return [x, y, width, height]; })");
    const before = await places();
    check(`work is under way, ${width}`, await isHidden('#work'), false);
    await browser.run('free()');
    await browser.until("document.querySelector('#work').hidden", 'the end of it');
    check(`work that ends moves nothing, ${width}`, await places(), before);
  }
}

/** A map whose place changes is drawn anew before it's seen there: its emptied canvas is black. */
async function redrawn() {
  await browser.screen(1280, 800, 'light');
  await fresh();
  await browser.drop(written('full.wad', full));
  await drawn('MAP01');
  const corners = await browser.run(`new Promise((go) => { const seen = [], map = document.querySelector('#map'), canvas = map.querySelector('canvas');
    new ResizeObserver(() => {
      seen.push([...canvas.getContext('2d').getImageData(4, 4, 1, 1).data].join());
      if (seen.length === 1) document.querySelector('.readout').style.minHeight = '200px'; else go([seen[0] === seen[1], seen[0] !== '0,0,0,255', canvas.height === map.clientHeight]);
    }).observe(map); })`);
  check('a map that is made lower is drawn at once', corners, [true, true, true]);
}

/** The east wall lacks its texture and lowers a lift, and a thing stands before it: all of that lies under one place. @param {Record<string, Buffer>} lumps */
function crowded(lumps) {
  twoOverlooked(lumps);
  const { LINEDEFS, SECTORS, THINGS } = lumps;
  THINGS.writeInt16LE(506, 10);
  LINEDEFS.writeUInt16LE(62, 5 * 14 + 6);
  LINEDEFS.writeUInt16LE(7, 5 * 14 + 8);
  SECTORS.writeUInt16LE(7, 26 + 24);
}
const CROWD = /** @type {[number, number]} */ ([511, 128]);

/** Shows the crowded level's map, in letters that stand so far apart. @param {string} file @param {string} apart */
async function showCrowd(file, apart) {
  await fresh();
  await browser.run(`{ document.body.style.letterSpacing = '${apart}'; }`);
  await browser.drop(file);
  await drawn('MAP01');
  await askable('MAP01');
  await marked();
  await browser.run("document.querySelector('.tabs [data-to=map]').click()");
  await browser.middle('#map'); // which brings it into view
  await drawnAnew();
}

/** Where the map stands in the window. @returns {Promise<number[]>} */
const mapBox = () => browser.run("(() => { const { x, y, width, height } = document.querySelector('#map').getBoundingClientRect(); return [x, y, width, height]; })()");
/** The things that are told below the map, which have to have room there. */
const toldBelow = async () => {
  check('what is told has room', await browser.run("(() => { const e = document.querySelector('#under'); return [e.scrollHeight <= e.clientHeight, e.scrollWidth <= e.clientWidth]; })()"), [true, true]);
  return (await textOf('#under')).split('  –  ');
};

/** Whatever the pointer is over, the map stays where it is, in wide letters, too; what has no room is told in fewer words. */
async function stays() {
  const file = written('crowded.wad', wad(rooms('MAP01', { damage: crowded })));
  /** @type {string[]} */
  let all = [];
  for (const [width, height] of [[2560, 1440], [1920, 1080], [1440, 900], [1280, 800], [1240, 700], [1024, 768], [881, 481], [1280, 480], [768, 1024],
    [640, 400], [480, 320], [390, 844], [320, 480]]) {
    for (const apart of ['normal', '.12em']) {
      const at = `${width} by ${height}, ${apart}`;
      await browser.screen(width, height, 'dark');
      await showCrowd(file, apart);
      const box = await mapBox(), view = await viewOf();
      for (const place of /** @type {[number, number][]} */ ([[130, 100], CROWD, [-8, 100], [400, 254]])) {
        await browser.mouse('mouseMoved', ...await placeOf(...place));
        await drawnAnew();
        check(`the map stays, ${at}, over ${place}`, [await mapBox(), await viewOf()], [box, view]);
        const came = await toldBelow();
        if (place !== CROWD) continue;
        if (!all.length) all = came;
        check(`what lies there is told from its first on, ${at}`, came.map((one, k) => all[k].startsWith(one.replace(/ …$/, ''))), came.map(() => true));
      }
      await browser.mouse('mouseWheel', ...await placeOf(...CROWD), { deltaX: 0, deltaY: -100 });
      await drawnAnew();
      check(`nor does the scale move it, ${at}`, await mapBox(), box);
    }
  }
  check('where there is room all of it is told', [all.length, /linedef 5/.test(all[0]), ...all.slice(1).map((one) => one.split(/[: ·]+/).slice(0, 2).join(' ')), all.join().includes('…')],
    [4, true, 'thing 1', 'linedef 5', 'sector 1', false]);
  for (const [width, height] of [[390, 844], [844, 390], [640, 360], [480, 320], [320, 480]]) {
    await browser.screen(width, height, 'dark', true);
    await showCrowd(file, 'normal');
    const box = await mapBox(), at = await placeOf(384, 100);
    await browser.touch('touchStart', at);
    await browser.touch('touchEnd');
    await pointTold('38');
    await drawnAnew();
    check(`nor does a tap move it, ${width} by ${height}`, [await mapBox(), /sector 1/.test((await toldBelow()).join())], [box, true]);
  }
}

/** What is shown next is shown from its top, and the tabs and the map are in view where the page scrolls as a whole. */
async function tops() {
  const many = wad(rooms('MAP01', { damage: (lumps) => {
    lumps.SECTORS = Buffer.concat(Array.from({ length: 400 }, () => lumps.SECTORS));
    lumps.REJECT = Buffer.alloc(0);
    oneMistaken(lumps);
  } }));
  const toEnd = () => browser.run('document.documentElement.scrollTo(0, 1e6)'), top = () => browser.run('document.documentElement.scrollTop');
  const inView = (/** @type {string} */ selector) => browser.run(`[...document.querySelectorAll('${selector}')].every((e) => { const { top, bottom } = e.getBoundingClientRect(); return top >= 0 && bottom <= innerHeight + 1; })`);
  for (const [width, height] of [[480, 320], [320, 256]]) {
    await browser.screen(width, height, 'dark');
    await fresh();
    await browser.drop(written('many.wad', many));
    await drawn('MAP01');
    await browser.run("document.querySelector('.tabs [data-to=notes]').click()");
    await pinBy('100 100');
    await pointTold('100 100');
    check(`a long list of numbers scrolls by itself, ${width}`, await browser.run("[...document.querySelectorAll('.numbers')].every((e) => e.offsetHeight <= 108)"), true);
    await toEnd();
    check(`the tabs are at hand at the end of the page, ${width}`, [await top() > 100, await inView('.tabs button')], [true, true]);
    await browser.run("document.querySelector('.tabs [data-to=levels]').click()");
    check(`and lead to the top of a part, ${width}`, await top(), 0);
    await browser.run("document.querySelector('.tabs [data-to=notes]').click()");
    await browser.press(FINDING);
    await browser.until("document.body.dataset.pane === 'map'", 'the map');
    check(`a finding leads to where the map is in view, ${width}`, await inView('#map'), true);
  }
  await browser.screen(640, 360, 'dark');
  await fresh();
  await browser.drop(written('full.wad', full), written(`not_${LONG}.txt`, 'notes about the rooms'));
  await drawn('MAP01');
  await browser.run("document.querySelector('.tabs [data-to=map]').click()");
  const scrolled = () => browser.run("document.querySelector('.stage').scrollTop");
  await browser.run("document.querySelector('.stage').scrollTo(0, 1000)");
  check('a low part is scrolled', await scrolled() > 0, true);
  await browser.run("document.querySelector('#demos .row').click()");
  await browser.until("document.querySelectorAll('.cells-row').length", 'a demo');
  check('and a demo is shown from its top, though it is low, too', [await scrolled(), await browser.run("{ const { scrollHeight, clientHeight } = document.querySelector('.stage'); scrollHeight > clientHeight; }")], [0, true]);
  check('in the place of a map', await browser.run("['#map', '#demo'].map((part) => document.querySelector(part).checkVisibility())"), [false, true]);
}

/** What is told in a map's place is told whole. */
async function untold() {
  const file = written('text.wad', wad([['MAP01', Buffer.alloc(0)], ['TEXTMAP', Buffer.from('namespace = "zdoom";')], ['ENDMAP', Buffer.alloc(0)]]));
  for (const [width, height] of [[1280, 800], [320, 480], [640, 360], [320, 256]]) {
    await browser.screen(width, height, 'dark', width < 640);
    await fresh();
    await browser.drop(file);
    await browser.until("document.querySelector('#map-none').textContent", 'what is told in the place of the map');
    await browser.run("document.querySelector('.tabs [data-to=map]').click()");
    check(`what is told in the place of a map is told whole, ${width} by ${height}`, await browser.run(`(() => { const frame = document.querySelector('#map'), range = document.createRange(), stage = frame.parentElement;
      range.selectNodeContents(document.querySelector('#map-none'));
      stage.scrollTo(0, 1e6);
      const words = range.getBoundingClientRect(), box = frame.getBoundingClientRect(), below = stage.getBoundingClientRect().bottom;
      return [words.top >= box.top, words.bottom <= box.bottom, box.bottom <= below + 1, document.querySelector('.readout').checkVisibility()]; })()`), [true, true, true, false]);
  }
}

/** Forced colours take no colour of the legend, and leave the shown part told. */
async function forced() {
  await browser.screen(390, 844, 'dark', true);
  await browser.send('Emulation.setEmulatedMedia', { features: [{ name: 'forced-colors', value: 'active' }] });
  await fresh();
  await browser.drop(written('full.wad', full));
  await drawn('MAP01');
  await browser.press('.tabs [data-to=map]');
  await marked();
  const ink = await browser.run(`(() => { const style = getComputedStyle(document.querySelector('#legend .mark'), '::before'), e = document.createElement('i');
    e.style.cssText = 'forced-color-adjust: none; color: var(--fault)';
    document.body.append(e);
    return [style.backgroundColor === getComputedStyle(e).color, style.forcedColorAdjust]; })()`);
  check('the legend keeps its colours', ink, [true, 'none']);
  check('the part that is shown stands out', await browser.run(`(() => { const [on, off] = ['[aria-current]', ':not([aria-current])'].map((s) => getComputedStyle(document.querySelector('.tabs button' + s)).borderTopColor); return on !== off; })()`), true);
}

export async function layout() {
  for (const one of [sizes, fits, wraps, steady, redrawn, stays, tops, untold, forced]) await one();
  await browser.screen(1440, 900, 'dark');
}
