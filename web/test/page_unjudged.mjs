// The cases of the page of levels that aren't judged: what can be read of them is drawn, and what to do next is told.
import { writeFileSync } from 'node:fs';
import { join } from 'node:path';
import {
  browser, check, drawnAnew, fresh, hasInk, isHidden, judged, pick, pictures, pinBy, placeOf, printed, rm, saved, textOf, textsOf, written,
} from './person.mjs';
import { BUILT, inHexen, lostLinedef, rooms, wad, without, words } from './wads.mjs';

/** Waits until a level that isn't judged is shown. @param {string} name */
async function sketched(name) {
  await browser.until(`document.querySelector('#map').dataset.sketched === ${JSON.stringify(name)}`, `the level ${name}`);
  await drawnAnew();
}
/** Opens a file whose first level isn't judged. @param {string} file @param {Buffer} body @param {string} name */
async function open(file, body, name) {
  await fresh();
  await browser.drop(written(file, body));
  await judged();
  await sketched(name);
}
const counts = () => textsOf('#counts div');
/** Keeps a picture of the page, where that is asked for. @param {string} name */
const keep = async (name) => { if (pictures) writeFileSync(join(pictures, `unjudged-${name}.png`), await browser.picture()); };
const isOff = (/** @type {string} */ id) => browser.run(`document.querySelector('#${id}').disabled`);
/** What was asked of the map, by what it is about. @returns {Promise<Record<string, string>>} */
const facts = () => browser.run("Object.fromEntries([...document.querySelectorAll('#asked-facts dt')].map((e) => [e.textContent, e.nextSibling.textContent]))");
const title = (/** @type {string} */ wanted) => browser.until(`document.querySelector('#asked-title').textContent === ${JSON.stringify(wanted)} && !document.querySelector('#asked-part').hidden`, wanted);

/** A level without nodes: what an editor writes where no node builder is chosen. */
async function unbuilt() {
  const lumps = without(rooms('MAP01', { linedefs: lostLinedef, damage: (all) => { all.SECTORS = Buffer.concat([all.SECTORS, words(7)]); } }), ...BUILT);
  await open('unbuilt.wad', wad([...lumps, ...rooms('MAP02')]), 'MAP01');
  check('an unbuilt level says so', await textOf('#told'), 'incomplete: no SEGS where it belongs');
  check('what is there', await textOf('#findings-none'), 'Not judged. There: THINGS 9, LINEDEFS 8, SIDEDEFS 8, VERTEXES 6, SECTORS 2. SECTORS ends within a record, 2 bytes left over. '
    + "1 linedef without a place: of each a vertex isn't there. The level can't be cut out: MAP01: incomplete: no SEGS where it belongs.");
  check('and what helps', await textOf('#advice'), "Its nodes weren't built. “zdbsp -o built.wad file.wad” builds SEGS to BLOCKMAP, and so does an editor that saves it with a node builder.");
  check('its records are counted', await counts(), ['things9', 'linedefs8', 'sidedefs8', 'vertexes6', 'sectors2']);
  check('its walls, its step and its things are drawn', [await hasInk('wall', 0, 128), await hasInk('wall', 128, 256), await hasInk('start', 64, 64), await hasInk('monster', 384, 128)], [true, true, true, true]);
  await keep('unbuilt');
  check('no words lie over the map', await isHidden('#map-none'), true);
  check('it is saved as a picture, and not alone', [await isOff('save-svg'), await isOff('save-pwad')], [false, true]);
  await browser.mouse('mouseMoved', ...await placeOf(259, 100));
  check('a linedef under the pointer', await textOf('#under'), 'linedef 2: two-sided');
  await browser.click(...await placeOf(384, 128));
  await title('Thing 1: former human');
  check('a point is pinned without an answer', [await textOf('#point-line'), await browser.run("document.querySelector('#point .facts').checkVisibility()")],
    ['384 128: what lies there is told once the level is judged', false]);
  await pinBy('sector 1');
  await title('Sector 1');
  check('a sector is gone to', (await facts()).Floor, '24, FLOOR0_1');
  rm('MAP01.svg');
  const svg = await saved('svg', 'MAP01.svg');
  check('the picture that is saved', [(svg.match(/<path class="p /g) ?? []).length, /<title>([^<]*)/.exec(svg)?.[1], (/class="t" d="([^"]*)/.exec(svg) ?? [])[1]],
    [9, 'MAP01: incomplete: no SEGS where it belongs', 'M256 256L256 0']);
  await pick('levels', 'MAP02');
  await browser.until("document.querySelector('#map').dataset.drawn === 'MAP02'", 'a level that is judged');
  check('a level behind it is judged', [await textOf('#told'), await isHidden('#advice'), await isOff('save-pwad')], ['sound', true, false]);
}

/** Hexen's records are drawn, and told by their own numbers. */
async function hexen() {
  const file = wad(inHexen(rooms('MAP01')));
  await open('hexen.wad', file, 'MAP01');
  check('a level of Hexen', [await textOf('#told'), await counts()], ['hexen: not read', ['things9', 'linedefs7', 'sidedefs8', 'vertexes6', 'sectors2']]);
  check('is drawn, with its starts', [await hasInk('wall', 0, 128), await hasInk('start', 64, 64), await hasInk('monster', 384, 128)], [true, true, false]);
  await pinBy('linedef 2');
  await title('Linedef 2');
  check('its linedefs have arguments', await facts(), {
    Special: '12, arguments 1 2 3 4 5', Flags: 'two-sided', Front: 'sidedef 2, sector 0: upper -, middle STONE2, lower STEP1',
    Back: 'sidedef 7, sector 1: upper -, middle STONE2, lower STEP1', Ends: 'vertex 2 to vertex 3', Length: '256',
  });
  await pinBy('thing 1');
  await title('Thing 1');
  check('its things have heights', await facts(), {
    Type: '3004', Place: '(384, 128), 16 above the floor', Faces: 'east, 0°', Skills: 'easy, medium, hard', Flags: '7', Identifier: '7', Special: 'none',
  });
  await keep('hexen');
  rm('MAP01.wad');
  check('it is saved alone', await saved('pwad', 'MAP01.wad'), printed(['cut', '--entry', '0', 'f'], file).toString('latin1'));
}

/** Levels with later nodes, in text, and with a lump outside the file. */
async function others() {
  const nodes = (/** @type {string} */ tag) => wad(rooms('MAP01', { damage: (all) => { all.NODES = Buffer.from(tag); } }));
  await open('broken.wad', nodes('XNOD'), 'MAP01');
  check('broken nodes', [await textOf('#told'), (await textOf('#advice')).split('. ')[0]], ['extended nodes XNOD: NODES ends within its vertexes',
    "Its nodes, ZDoom's extended nodes, are broken: they were cut short, or VERTEXES was changed after they were built"]);
  check('are a fault', [await textOf('#levels .row-state.fault'), await textOf('#levels .row-more')], ['not judged', 'extended nodes XNOD: NODES ends within its vertexes']);
  await open('later.wad', nodes('ZNOD'), 'MAP01');
  check('later nodes', [await textOf('#told'), (await textOf('#advice')).split('. ')[0]],
    ['extended nodes ZNOD: not read', "Its nodes are of a later format, ZDoom's extended nodes, compressed, and aren't read here"]);
  check('are drawn without them', [await hasInk('wall', 512, 128), await isOff('save-pwad')], [true, false]);
  /** @type {[string, Buffer][]} */
  const text = [['MAP01', Buffer.alloc(0)], ['TEXTMAP', Buffer.from('namespace = "zdoom";')], ['ZNODES', Buffer.alloc(3)], ['ENDMAP', Buffer.alloc(0)]];
  await open('text.wad', wad(text), 'MAP01');
  check('a level in text says what is there', (await textOf('#map-none')).split('. ').slice(0, 2), ['UDMF: not read', 'There: TEXTMAP 20 bytes, ZNODES 3 bytes, ENDMAP 0 bytes']);
  await keep('text');
  rm('MAP01.wad');
  check('and is saved alone', [await isOff('save-svg'), await saved('pwad', 'MAP01.wad')], [true, printed(['cut', '--entry', '0', 'f'], wad(text)).toString('latin1')]);
  await open('endless.wad', wad(without(text, 'ENDMAP')), 'MAP01');
  check('but without an end', [await isOff('save-pwad'), await browser.run("document.querySelector('#save-pwad').title")], [true, "the level can't be cut out: MAP01: udmf: no ENDMAP"]);
  const outside = wad(rooms('MAP01')), sectors = outside.readInt32LE(8) + 16 * 8;
  outside.writeInt32LE(outside.length, sectors);
  await open('outside.wad', outside, 'MAP01');
  check('a lump outside the file', [await textOf('#told'), await textOf('#advice')], ['outside: SECTORS', 'The file ends before SECTORS does, or its directory is wrong: get the file anew, or save it again.']);
  check('what is inside is drawn', [await hasInk('wall', 0, 128), await counts()], [true, ['things9', 'linedefs7', 'sidedefs8', 'vertexes6']]);
}

export async function unjudged() {
  await unbuilt();
  await hexen();
  await others();
}
