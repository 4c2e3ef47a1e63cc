// The cases of the page of what the map is asked: linedefs, things, sectors and vertexes.
import { wait } from './browser.mjs';
import {
  FINDING, askable, browser, check, drawn, drawnAnew, fresh, hasInk, inkComes, isHidden, marked, pinBy, placeOf, pointTold, textOf, textsOf, viewOf,
  written,
} from './person.mjs';
import { oneMistaken, rooms, twoOverlooked, wad, words } from './wads.mjs';

/** Gives linedef 2 a door's special, linedef 4 a lift's with tag 7, which sector 1 has; thing 1 looks north-east, and waits in hard alone. */
const asked = (/** @type {Record<string, Buffer>} */ { LINEDEFS, SECTORS, THINGS }) => {
  LINEDEFS.writeUInt16LE(1, 2 * 14 + 6);
  LINEDEFS.writeUInt16LE(62, 4 * 14 + 6);
  LINEDEFS.writeUInt16LE(7, 4 * 14 + 8);
  SECTORS.writeUInt16LE(7, 26 + 24);
  SECTORS.writeUInt16LE(9, 26 + 22);
  THINGS.writeUInt16LE(45, 10 + 4);
  THINGS.writeUInt16LE(4 + 8, 10 + 8);
};
const title = () => textOf('#asked-title');
/** What is told of what was asked, by what it is about. @returns {Promise<Record<string, string>>} */
const facts = () => browser.run("Object.fromEntries([...document.querySelectorAll('#asked-facts dt')].map((e) => [e.textContent, e.nextSibling.textContent]))");
const told = (/** @type {string} */ name) => browser.until(`document.querySelector('#asked-title').textContent === ${JSON.stringify(name)} && !document.querySelector('#asked-part').hidden`, name);
/** Opens a level, and waits until it can be asked. @param {string} file @param {Buffer} body */
async function open(file, body) {
  await fresh();
  await browser.drop(written(file, body));
  await drawn('MAP01');
  await askable('MAP01');
}
const goTo = async (/** @type {string} */ typed) => {
  await browser.run(`{ const e = document.querySelector('#at'); e.value = ${JSON.stringify(typed)}; e.dispatchEvent(new Event('input')); }`);
  await browser.press('#pin');
};

/** A linedef and a thing tell what they are where the pointer is over them, and where they are clicked. */
async function answers() {
  await open('asked.wad', wad(rooms('MAP01', { damage: asked })));
  await browser.mouse('mouseMoved', ...await placeOf(259, 100));
  check('a linedef under the pointer', (await textOf('#under')).split('  –  ')[0], 'linedef 2: two-sided · door opens, waits and closes, by hand, again and again');
  await browser.mouse('mouseMoved', ...await placeOf(384, 128));
  check('a thing under the pointer', (await textOf('#under')).split('  –  ')[0], 'thing 1: former human · monster · faces north-east · in hard');
  await browser.click(...await placeOf(400, 254));
  await told('Linedef 4');
  check('a linedef that is clicked', await facts(), {
    Special: '62: lift lowers, waits and rises, by a switch, again and again', Tag: '7, of sectors 1', Flags: 'impassable',
    Front: 'sidedef 4, sector 1: upper -, middle STONE2, lower STEP1', Back: 'none', Ends: 'vertex 2 to vertex 4', Length: '256',
  });
  await pointTold('4');
  await drawnAnew();
  check('is marked, with a tick in front', [await inkComes('ink', 300, 256), await inkComes('ink', 384, 256 - 5 / (await viewOf())[2])], [true, true]);
  check('and the point is pinned, too', [(await textOf('#point-line')).split(' ').slice(2), await isHidden('#unpin')], [['sector', '1', 'ssector', '1'], false]);
  await browser.click(...await placeOf(384, 128));
  await told('Thing 1: former human');
  check('a thing that is clicked', await facts(), {
    Type: '3004, monster', Place: '(384, 128)', Faces: 'north-east, 45°', Skills: 'hard', Flags: 'waits until it sees or is hit',
  });
  await browser.click(...await placeOf(130, 100));
  await browser.until("document.querySelector('#asked-part').hidden", 'nothing that is clicked');
  await pointTold('1');
  check('the ground tells none of them', (await textOf('#point-line')).split(' ').slice(2, 4), ['sector', '0']);
}

/** What has a number is gone to by words, and a number that nothing has is told. */
async function numbers() {
  for (const [typed, name, at] of /** @type {[string, string, string][]} */ ([['linedef 5', 'Linedef 5', '512.000 128.000'], ['l 0', 'Linedef 0', '0.000 128.000'],
    ['Sector 1', 'Sector 1', '384.000 128.000'], ['thing #0', 'Thing 0: player 1 start', '64.000 64.000'], ['v 4', 'Vertex 4', '512.000 256.000']])) {
    await goTo(typed);
    await told(name);
    await browser.until(`document.querySelector('#map').dataset.view.startsWith('${at}')`, `the view at ${name}`);
    check(`${typed} is gone to`, await title(), name);
  }
  check('a vertex has linedefs', await facts(), { Place: '(512, 256)', Linedefs: '4 5' });
  await goTo('sector 1');
  await told('Sector 1');
  check('a sector, by its own record', await facts(), {
    Floor: '24, FLOOR0_1', Ceiling: '128, CEIL1_1', Height: '104', Light: '224', Special: '9: secret', Tag: '7, of linedefs 4',
  });
  await browser.until("document.querySelector('#map').dataset.view.startsWith('384.000 128.000')", 'the view at the sector');
  await drawnAnew();
  check('its outline is marked', [await inkComes('ink', 256, 60), await inkComes('ink', 512, 60), await hasInk('ink', 0, 60)], [true, true, false]);
  await goTo('linedef 7');
  check('a number that nothing has is told', await browser.run("document.querySelector('#at').validationMessage"), 'There is no linedef 7.');
  await goTo('door 7');
  check('and so are other words', await browser.run("document.querySelector('#at').checkValidity()"), false);
  await goTo('100 100');
  await pointTold('100 100');
  await browser.press('#unask');
  check('what was asked is closed', [await isHidden('#asked-part'), await browser.run('document.activeElement.id')], [true, 'map']);
}

/** Numbers of a point, of tags and of findings lead to what has them, by a click or by keys. */
async function links() {
  await pinBy('300 100');
  await pointTold('300 100');
  check('numbers of a block are links', (await textsOf('#point-block a')).join(' '), '0 1 2 3 4 5 6');
  await browser.press('#point-block a:nth-of-type(3)');
  await told('Linedef 2');
  check('to linedefs', (await facts()).Ends, 'vertex 2 to vertex 3');
  await browser.run("document.querySelector('#point-clear a').focus()");
  await browser.key('ArrowRight');
  check('an arrow goes on to the next', await browser.run('document.activeElement.getAttribute("aria-label")'), 'sector 1');
  await browser.key('Enter');
  await told('Sector 1');
  check('and Enter leads to it', (await facts()).Tag, '7, of linedefs 4');
  check('one of each list is reached by Tab', await browser.run("document.querySelectorAll('#point-clear a[tabindex=\"0\"]').length"), 1);
  await browser.press('#asked-facts a');
  await told('Linedef 4');
  check('a tag leads to its linedefs', (await facts()).Tag, '7, of sectors 1');
  await browser.press('#asked-facts .numbers a');
  await told('Sector 1');
  await browser.press('#point-sector a');
  check('and so does the sector of a point', await title(), 'Sector 1');
  check('no address is left', await browser.run('location.hash'), '');
}

/** A mark that is clicked chooses its finding, which tells what it is about. */
async function marks() {
  await open('marks.wad', wad(rooms('MAP01', { damage: (lumps) => [twoOverlooked, oneMistaken].forEach((damage) => damage(lumps)) })));
  await marked();
  const view = await viewOf(), chosen = () => browser.run("document.querySelector('#findings [aria-selected=true] .row-name')?.textContent ?? ''");
  await browser.press('#findings .group-name'); // which folds the first
  await browser.click(...await placeOf(511, 128));
  await told('Linedef 5');
  check('a mark that is clicked chooses its finding', [await chosen(), await isHidden('#point')], ['linedef 5', true]);
  check('and opens its heading', await browser.run("document.querySelector('#findings .odd').ariaExpanded"), 'true');
  await browser.click(...await placeOf(536, 128));
  await told('Thing 1: former human');
  check('so does the ring about a thing', await chosen(), 'thing 1');
  check('what is seen stays as it is', await viewOf(), view);
  await browser.press('#unask');
  const rowTop = () => browser.run("document.querySelector('#findings .row:not(.odd)').getBoundingClientRect().top"), top = await rowTop();
  await browser.press(FINDING);
  await told('Linedef 5');
  check('a finding that is chosen stays where it is', await rowTop(), top);
  check('a finding that is chosen tells what it is about', (await facts()).Front, 'sidedef 5, sector 1: upper -, middle -, lower STEP1');
}

/** Records that name nothing are told as such, with unsigned numbers. */
async function broken() {
  await open('broken.wad', wad(rooms('MAP01', { damage: ({ LINEDEFS, SIDEDEFS }) => {
    LINEDEFS.writeUInt16LE(60000, 5 * 14 + 10);
    LINEDEFS.writeUInt16LE(50000, 6 * 14);
    LINEDEFS.writeUInt16LE(65535, 6 * 14 + 6);
    SIDEDEFS.writeUInt16LE(40000, 28);
  } })));
  await goTo('linedef 5');
  await told('Linedef 5');
  check("a sidedef that isn't there", (await facts()).Front, "sidedef 60000, which isn't there");
  await goTo('linedef 6');
  await told('Linedef 6');
  const six = await facts();
  check("a vertex that isn't there, and a special that nothing has", [six.Ends, six.Length, six.Special], ["vertex 50000, which isn't there to vertex 3", undefined, "65535: none of the game's"]);
  await goTo('linedef 0');
  await told('Linedef 0');
  check("a sector that isn't there", (await facts()).Front, "sidedef 0, sector 40000, which isn't there: upper -, middle STONE2, lower STEP1");
}

/** A tap asks, too, and keys alone do. */
async function ways() {
  await browser.screen(390, 844, 'dark', true);
  await open('asked.wad', wad(rooms('MAP01', { damage: asked })));
  await browser.press('.tabs [data-to=map]');
  await drawnAnew();
  const at = await placeOf(400, 250);
  await browser.touch('touchStart', at);
  await browser.touch('touchEnd');
  await told('Linedef 4');
  await browser.until("document.querySelector('#under').textContent.startsWith('Linedef 4')", 'what was tapped');
  check('a tap is answered below the map', (await textOf('#under')).split('  –  ')[0], 'Linedef 4');
  await browser.screen(1440, 900, 'dark');
  await open('asked.wad', wad(rooms('MAP01', { damage: asked })));
  await browser.run("document.querySelector('#at').focus()");
  await browser.send('Input.insertText', { text: 'thing 1' });
  await browser.key('Enter');
  await told('Thing 1: former human');
  await browser.until("document.querySelector('#map').dataset.view.startsWith('384.000 128.000')", 'the view at a thing');
  await browser.press('#unask');
  await browser.run("document.querySelector('#map').focus()");
  await wait(400);
  await browser.key('Enter');
  await told('Thing 1: former human');
  check('Enter on the map tells what is in its middle', (await facts()).Place, '(384, 128)');
}

/** What the game does with a special, by its own lists (P_CrossSpecialLine, P_UseSpecialLine, P_ShootSpecialLine), and all kinds of its things. */
async function tables() {
  const listed = (/** @type {string} */ text) => text.split(' ').flatMap((one) => {
    const [from, to = from] = one.split('-').map(Number);
    return Array.from({ length: to - from + 1 }, (_, k) => from + k);
  });
  const crossed = listed('2-6 8 10 12 13 16 17 19 22 25 30 35-40 44 52-54 56-59 72-77 79-84 86-98 100 104-110 119-121 124-126 128-130 141');
  const used = listed('1 7 9 11 14 15 18 20 21 23 26-29 31-34 41-43 45 49-51 55 60-71 99 101-103 111-118 122 123 127 131-140');
  const once = listed('2-25 29-41 44 47 49-59 71 100-104 108-113 118 119 121 122 124 125 127 130 131 133 135 137 140 141');
  const came = (/** @type {string} */ which) => browser.run(`(async () => { const { linedefSpecial } = await import(new URL('specials.mjs', document.baseURI));
    return Array.from({ length: 400 }, (_, k) => k).filter((k) => /${which}/.test(linedefSpecial(k))); })()`);
  check('each special that is crossed', await came('when crossed'), crossed);
  check('that is used', await came('by hand|by a switch'), used);
  check('that is shot, and that scrolls', [await came('by a shot'), await came('scrolls')], [[24, 46, 47], [48]]);
  check('that acts once', await came('once$'), once);
  check('and none but those', (await came("none of the game's")).length, 400 - 1 - crossed.length - used.length - 3 - 1);
  const kinds = await browser.run("import(new URL('thing_kinds.mjs', document.baseURI)).then(({ KNOWN }) => KNOWN.sort((a, b) => a - b))");
  check('each kind of the game has a name, and no other', kinds, listed('1-89 2001-2008 2010-2015 2018 2019 2022-2026 2028 2035 2045-2049 3001-3006'));
}

/** A level of 65,536 linedefs, vertexes, things and sectors answers in time. */
async function most() {
  const many = 65536, all = (/** @type {(k: number) => number[]} */ record) => Buffer.from(Uint16Array.from({ length: many }, (_, k) => k).reduce((out, k) => {
    record(k).forEach((word, n, { length }) => { out[length * k + n] = word; });
    return out;
  }, new Uint16Array(many * record(0).length)).buffer);
  const place = (/** @type {number} */ k) => [64 * (k % 256), 64 * (k >> 8)], sector = Buffer.concat([words(0, 128), Buffer.from('FLOOR0_1CEIL1_1\0'), words(160, 0, 1)]);
  await open('most.wad', wad(rooms('MAP01', { damage: (lumps) => Object.assign(lumps, {
    VERTEXES: all(place), THINGS: all((k) => [...place(k), 0, 3001, 7]), LINEDEFS: all((k) => [k, k ^ 1, 1, 62, 1, 0, 65535]),
    SECTORS: Buffer.alloc(many * sector.length, sector), SIDEDEFS: lumps.SIDEDEFS,
  }) })));
  const began = await browser.run('performance.now()');
  await goTo('linedef 65535');
  await told('Linedef 65535');
  check('the last linedef, whose tag very many sectors have', (await facts()).Tag.startsWith('1, of sectors 0 1 2 3 4 '), true);
  check('of which some are links', await browser.run("document.querySelectorAll('#asked-facts .numbers a').length"), 500);
  await goTo('vertex 257');
  await told('Vertex 257');
  check('its linedefs', (await facts()).Linedefs, '256 257');
  await browser.until("document.querySelector('#map').dataset.view.startsWith('64.000 64.000')", 'the view at a vertex');
  await drawnAnew();
  const [x, y] = await placeOf(40, 64), before = await browser.run('performance.now()');
  for (let k = 0; k < 10; k++) await browser.mouse('mouseMoved', x + k / 4, y);
  check('a pointer over very many', (await textOf('#under')).split('  –  ').at(-1)?.startsWith('linedef 256: one-sided'), true);
  const ended = await browser.run('performance.now()');
  check('and in time', [ended - before < 5000, ended - began < 20000], [true, true]);
}

export async function asks() {
  for (const one of [answers, numbers, links, marks, broken, ways, tables, most]) {
    await browser.screen(1440, 900, 'dark');
    await one();
  }
}
