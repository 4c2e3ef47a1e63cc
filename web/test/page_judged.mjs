// The cases of the page about how often a level is judged.
import { wait } from './browser.mjs';
import { askable, browser, check, codes, drawn, fresh, isNative, judged, pick, textOf, written } from './person.mjs';
import { oneMistaken, rooms, wad, wallsOfRooms } from './wads.mjs';

/** Lets the workers of the page that are there keep the names of the engine's calls. */
const COUNTING = `{ const { Instance } = WebAssembly;
  self.calls = [];
  const get = (exports, name) => {
    if (typeof exports[name] === 'function') self.calls.push(name);
    return exports[name];
  };
  WebAssembly.Instance = function (...given) { return { exports: new Proxy(new Instance(...given).exports, { get }) }; }; }`;

/** What the engine was asked since it was looked at last. @returns {Promise<string[]>} */
async function asked() {
  const told = await Promise.all(browser.workers.map((one) => browser.run('self.calls.splice(0)', one)));
  return told.flat();
}

/** A click on a level asks for its findings once: what the file's survey told of it isn't asked again. */
export async function judgings() {
  if (isNative) return;
  await fresh();
  for (let k = 0; k < 3000 && browser.workers.length < 3; k++) await wait(10);
  await Promise.all(browser.workers.map((one) => browser.run(COUNTING, one)));
  await browser.drop(written('twice.wad', wad([...rooms('MAP01'), ...rooms('MAP02', { damage: oneMistaken }), ...wallsOfRooms()])));
  await askable('MAP01');
  await judged();
  await asked();
  await pick('levels', 'MAP02');
  await drawn('MAP02');
  await askable('MAP02');
  check('a click cuts a level out, and judges it once beside its picture', await asked(), ['run_wadlens', 'run_wadlens', 'draw_picture', 'list_linedefs']);
  check('with the sums of the survey', [await textOf('#told'), await codes()], ['1 note, otherwise sound', 'N3 1']);
  await pick('levels', 'MAP01');
  await drawn('MAP01');
  await browser.until("document.querySelector('#told').textContent === 'sound'", 'the first level');
  check('and one that is cut out already is judged alone', (await asked()).slice(0, 2), ['run_wadlens', 'draw_picture']);
}
