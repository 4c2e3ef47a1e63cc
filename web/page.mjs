// The page: which files are open, which level or demo is shown, and how the parts tell one another.
import { meaningOf } from './codes.mjs';
import { DemoTable } from './demo_table.mjs';
import { demoLine, optionsIn } from './demo_words.mjs';
import { Follower, stampOf } from './follow.mjs';
import { gameOf } from './games.mjs';
import { byRank } from './groups.mjs';
import { themeNow } from './inks.mjs';
import { LevelView } from './level_view.mjs';
import { Lines } from './lines.mjs';
import { ListBox } from './list.mjs';
import { forget, tell } from './notices.mjs';
import { Stopped } from './questions.mjs';
import { make } from './rows.mjs';
import { savedPicture } from './saved_picture.mjs';
import { droppedFiles, pickedOf, refusal, takeApart } from './sources.mjs';
import { canRun } from './wad_page.mjs';
import { field, get, helpOf, isFatal, isNarrow, notJudged, pane, plural, say, sizeOf, toMap, verdict, wordsOf } from './words.mjs';
import { desk, finer, judge } from './workers.mjs';

/** @typedef {import('./words.mjs').Level} Level @typedef {import('./sources.mjs').Source} Source */
/** @typedef {import('./sources.mjs').Handle} Handle */
/**
 * @typedef {{ key: string, file: File, handle: Handle | null, stamp: string, kind: string, refused: string, heads: Lines, survey: Lines | null,
 *   demos: Lines, stopped: boolean, failed: string, surveys: number, game: OpenFile | null, wasGame: boolean }} OpenFile  `handle` reads it again, and
 *   `stamp` is of the saving that was read; `heads` and `demos` are lines of `lumps`, `survey` those of the engine's answer, once all is judged;
 *   `failed` tells why it isn't; `game` is the game's file on which it stands; `wasGame` tells whether a game's file was there before, in whose place
 *   it stands
 */

const none = () => new Lines({ bytes: new Uint8Array(), ends: new Uint32Array() });

const state = {
  files: /** @type {OpenFile[]} */ ([]),
  file: /** @type {OpenFile | null} */ (null), // whose levels are listed
  of: /** @type {OpenFile | null} */ (null), // whose level or demo is shown
  shown: -1, // the level's number in its file; -1 for a demo, or where nothing of the file is shown
  name: '', // of the level that was shown last
  seen: /** @type {OpenFile | null} */ (null), // whose row is to be in view
  wide: false,
};

// Work -------------------------------------------------------------------------------------------------------------------------

function changed() {
  const label = desk.label ?? judge.label;
  get('work').hidden = !label;
  if (label) get('work-label').textContent = label;
}
desk.changed = judge.changed = changed;

/** What each question about a file has. @param {OpenFile} f */
const asking = (f) => ({ key: f.key, file: f.file, wide: state.wide, game: f.game && { key: f.game.key, file: f.game.file } });
/** A file's name as a word, which begins with no dash. @param {OpenFile} f */
const pathOf = (f) => f.file.name.replace(/^-/, './-');

// Files ------------------------------------------------------------------------------------------------------------------------

/** @type {ListBox<OpenFile>} */
const files = new ListBox(get('files'), (f) => {
  const held = [sizeOf(f.file.size), f.heads.count && `${plural(f.heads.count, 'level')}${f.game ? ` over ${f.game.file.name}` : ''}`,
    f.kind !== 'demo' && f.demos.count && plural(f.demos.count, 'demo')];
  const more = make('span', 'row-more', f.refused || held.filter(Boolean).join(' · '));
  return [
    make('span', 'row-name', f.file.name),
    make('span', `row-state${f.refused ? ' fault' : ''}`, f.refused ? 'refused' : f.kind || 'reading'),
    shut(f),
    more,
  ];
}, (f) => {
  chooseFile(f);
  if (f !== state.of) showOf(f);
  if (f.heads.count || f.demos.count) pane('levels');
}, { isShort: true });
/** A cross that closes a file, for a row whose keys do the same. @param {OpenFile} f */
function shut(f) {
  const cross = make('span', 'shut', '×');
  cross.title = `Close ${f.file.name} (Delete)`;
  cross.setAttribute('aria-hidden', 'true');
  cross.addEventListener('click', (event) => {
    event.stopPropagation();
    close(f);
  });
  return cross;
}
const showFiles = () => files.show(state.files.length, (k) => state.files[k], state.file ? state.files.indexOf(state.file) : -1, true);

/**
 * Lists files that are opened, each in the place of one of its name that was there before, which is left.
 * @param {OpenFile[]} fresh
 */
function list(fresh) {
  for (const f of fresh) {
    const at = state.files.findIndex((one) => one.file.name === f.file.name && !fresh.includes(one)), before = state.files[at];
    if (before) {
      before.surveys++; // its late answer is let go
      f.wasGame = before.kind === 'IWAD' || before.wasGame;
      if (before === state.file) state.file = f;
      state.files[at] = f;
    } else state.files.push(f);
  }
  showFiles();
  for (const f of [fresh.at(-1), fresh[0]]) reveal(f ?? null);
}

/** Whether what is shown is of an earlier file of this name, in whose place this one stands. @param {OpenFile} f */
const isAgain = (f) => !!state.of && !state.files.includes(state.of) && state.of.file.name === f.file.name;

/** Brings the row of a file into view. @param {OpenFile | null} [f] */
function reveal(f = state.seen) {
  state.seen = f;
  if (f) files.rows.reveal(state.files.indexOf(f));
}

/** Shows the parts of the page that files have. */
const unveil = () => document.body.classList.remove('empty');

/** Files as they are opened. @param {Source[]} picked */
const apartOf = (picked) => takeApart(picked, (file) => {
  unveil();
  return desk.ask('unpack', { file }, `Unpacking ${file.name}`);
});

/** Opens what was dropped or chosen, of which archives are taken apart. @param {Source[]} picked */
async function take(picked) {
  if (picked.length) open(await apartOf(picked));
}

/** Lets the browser choose files: by handles, where it has them, so that they can be followed. */
async function choose() {
  const { showOpenFilePicker } = /** @type {any} */ (window);
  if (!showOpenFilePicker) return field('file').click();
  try {
    take(await pickedOf(await showOpenFilePicker({ multiple: true })));
  } catch (error) { if (/** @type {Error} */ (error).name !== 'AbortError') field('file').click(); }
}

/**
 * Opens again what was read by a handle: what an archive has no more is closed, and what can't be read is told as such.
 * @param {Handle} handle @param {boolean} isThere
 */
async function openAgain(handle, isThere) {
  const mine = () => state.files.filter((f) => f.handle === handle);
  let sources = /** @type {Source[]} */ ([]);
  if (isThere) sources = await pickedOf([handle]).then(apartOf).catch(() => []);
  const gone = mine().filter(({ file }) => !sources.some((one) => one.file.name === file.name));
  if (!sources.length) return open(gone.map(({ file, stamp }) => refusal(file.name, "it was changed or moved, and can't be read", handle, stamp)));
  gone.forEach(close);
  open(sources);
}

/**
 * Opens files, the games' first, so that what stands on them is judged once. What is shown of a file that is opened again is shown of the new
 * one. Else the first that isn't refused is shown, of others than games' where there are any; and not the game's of what is shown already.
 * @param {Source[]} sources
 */
async function open(sources) {
  /** @type {OpenFile[]} */
  const fresh = sources.map(({ file, handle, stamp = stampOf(file), refused = '' }, k) => ({
    key: `${performance.now()} ${k}`, file, handle, stamp, kind: '', refused, heads: none(), survey: null, demos: none(), stopped: false, failed: '', surveys: 0,
    game: null, wasGame: false,
  }));
  const games = fresh.filter((_, k) => sources[k].isGame), others = fresh.filter((_, k) => !sources[k].isGame), all = [...games, ...others];
  const first = all.length && read(all[0], false); // which is asked for before the page is laid out with it
  unveil();
  list(fresh);
  let isShown = fresh.some(isAgain), isStopped = false;
  for (const f of all) {
    if (!state.files.includes(f)) continue; // opened again meanwhile, or closed
    isStopped = !!await (f === all[0] ? first : read(f, isStopped));
    if (!state.files.includes(f)) continue;
    setOnGames(f.kind === 'IWAD' || f.wasGame ? state.files : [f], f);
    if (isAgain(f)) showAgain(f);
    else if (f === state.file && f === state.of) { // it was chosen while it was read
      isShown = true;
      showOf(f);
    }
    if (f === state.file) showFile(); else showFiles();
    const shown = [...others, ...games].find((one) => !one.refused && one !== state.of?.game);
    if (!isShown && shown?.kind) {
      isShown = true;
      showFirst(shown);
    }
    survey(f);
  }
  reveal(fresh.find((f) => f === state.file) ?? fresh.find(({ refused }) => refused) ?? fresh[0]);
}

/**
 * Reads what a file has; one that is refused is told. Whether the reading was stopped: a stop is of all files.
 * @param {OpenFile} f @param {boolean} isStopped
 */
async function read(f, isStopped) {
  try {
    if (isStopped) throw new Stopped();
    if (!f.refused) {
      const { levels, demos, ...told } = await desk.ask('open', asking(f), `Reading ${f.file.name}`);
      Object.assign(f, told, !told.refused && { heads: new Lines(levels), demos: new Lines(demos) });
    }
  } catch (error) {
    isStopped = error instanceof Stopped;
    f.refused = isStopped ? 'stopped before it was read' : wordsOf(error);
  }
  if (f.refused) tell({ about: f.file.name, words: f.refused, help: helpOf(f.refused) }); else forget(f.file.name);
  return isStopped;
}

/** Sets files on their games; one that then stands on another, and isn't the fresh one, is judged anew. @param {OpenFile[]} which @param {OpenFile} [fresh] */
function setOnGames(which, fresh) {
  const games = state.files.filter(({ kind }) => kind === 'IWAD');
  for (const f of which) {
    const game = gameOf(f, games);
    if (game === f.game) continue;
    f.game = game;
    if (f !== fresh) judgeAnew(f);
  }
}

/** Closes a file. What stands on it is judged anew; where it was the one that is shown, the next one is. @param {OpenFile} f */
function close(f) {
  const at = state.files.indexOf(f);
  if (at < 0) return;
  state.files.splice(at, 1);
  f.surveys++; // its late answer is let go
  for (const questions of [desk, judge, finer]) questions.tell('close', { key: f.key });
  forget(f.file.name);
  say(`${f.file.name} closed`);
  setOnGames(state.files);
  const next = state.files[Math.min(at, state.files.length - 1)];
  if (!next) return closeAll();
  if (f === state.of || !state.of) {
    chooseFile(next);
    showOf(next);
  } else if (f === state.file) chooseFile(state.files.includes(state.of) ? state.of : next);
  else showFiles();
  reveal(state.file);
}

/** Shows the page as it was before any file. */
function closeAll() {
  Object.assign(state, { file: null, of: null, shown: -1, name: '', seen: null });
  demoShown = -1;
  view.asked = null;
  view.clear('');
  showFiles();
  stage('map', null, '');
  document.body.classList.add('empty');
  pane('files');
  get('choose-too').focus();
}

/** @param {OpenFile} f */
function showFirst(f) {
  chooseFile(f);
  pane('levels');
  if (f.heads.count) chooseLevel(0); else if (f.demos.count) chooseDemo(0); else showNothing(f);
}

/** Shows of a file that is opened again what is shown of it from before: the level or the demo of the same name. @param {OpenFile} f */
function showAgain(f) {
  const before = /** @type {OpenFile} */ (state.of), name = state.shown < 0 && demoShown >= 0 ? ` ${before.demos.at(demoShown).split(' ')[3]}` : '';
  const level = sameLevel(f, state.shown), demoAt = name ? f.demos.endingWith(name) : -1;
  state.file = f;
  if (demoAt >= 0) chooseDemo(demoAt); else if (level >= 0) chooseLevel(level); else showOf(f);
}

/**
 * The level of a file that has the name of the one that was shown last, at its place `k` if it is there; -1 where none has it.
 * @param {OpenFile} f @param {number} [k]
 */
function sameLevel({ heads }, k = -1) {
  if (!state.name) return -1;
  return k >= 0 && k < heads.count && heads.at(k).split(' ')[3] === state.name ? k : heads.endingWith(` ${state.name}`);
}

/** Shows the level of the chosen file that is called as the one that was shown last, or else what it has first. @param {OpenFile} f */
function showOf(f) {
  if (f.heads.count) chooseLevel(Math.max(0, sameLevel(f)));
  else if (f.demos.count) chooseDemo(0);
  else showNothing(f);
  showLevels();
}

/** Takes what is shown of another file away, where the chosen one has nothing to show. @param {OpenFile} f */
function showNothing(f) {
  state.of = f;
  state.shown = demoShown = -1;
  view.asked = null;
  view.clear(whyNone(f));
  stage('map', f, '');
  get('title').textContent = 'No level';
}

/** Judges all levels of a file again, and shows anew what is shown of it. @param {OpenFile} f */
function judgeAnew(f) {
  f.survey = null;
  survey(f);
  if (f === state.file) showLevels(true);
  if (f === state.of && state.shown >= 0) showLevel();
}

/** Judges all levels of a file. @param {OpenFile} f */
async function survey(f) {
  if (!f.heads.count) return;
  const mine = ++f.surveys; // a late answer of an earlier one is let go
  f.stopped = false;
  f.failed = '';
  try {
    const told = await judge.ask('survey', { ...asking(f), path: pathOf(f), count: f.heads.count }, `Judging ${f.file.name}`);
    if (mine !== f.surveys) return;
    f.survey = new Lines(told.lines);
    say(`${f.file.name}: ${plural(f.heads.count, 'level')}${told.judged < f.heads.count ? `, ${told.judged}` : ''} judged`);
  } catch (error) {
    if (mine !== f.surveys) return;
    f.stopped = error instanceof Stopped;
    f.failed = f.stopped ? '' : wordsOf(error);
    if (f.failed) tell({ about: f.file.name, words: f.failed, help: helpOf(f.failed) });
  }
  if (f === state.file) showLevels(true);
  if (f === state.of && state.shown >= 0 && f.survey && !view.level && levelOf(f, state.shown).format !== 'doom') showLevel(); // now it can say why
}

/** @param {OpenFile} f */
function chooseFile(f) {
  state.file = f;
  field('filter').value = '';
  field('only').checked = false;
  showFile();
  reveal(f);
}

/** Shows what the chosen file holds. */
function showFile() {
  showFiles();
  showLevels();
  get('demos-part').hidden = !state.file?.demos.count;
  showDemos();
}

// Levels -----------------------------------------------------------------------------------------------------------------------

/** @param {OpenFile} f @param {number} k @returns {Level} */
function levelOf(f, k) {
  if (f.survey) return JSON.parse(f.survey.at(k));
  const [entry, , , name] = f.heads.at(k).split(' ');
  return { level: name, entry: Number(entry) };
}

/** @type {ListBox<{ k: number, level: Level }>} */
const levels = new ListBox(get('levels'), ({ level }) => {
  const { format, faults } = level, doom = format === 'doom', hidden = view.hiddenIn(state.file?.file.name ?? '');
  const codes = byRank(Object.keys({ ...level.findings, ...level.warnings }).filter((code) => !hidden.has(code)), (code) => code);
  const told = doom ? `${verdict(level, hidden)}${codes.length ? ` · ${codes.join(' ')}` : ''}` : format || state.file?.failed ? 'not judged' : state.file?.stopped ? 'stopped' : '…';
  const isFault = faults || isFatal(level, hidden) || format === 'incomplete' || format === 'outside' || level.broken;
  const found = make('span', `row-state${isFault ? ' fault' : codes.length ? ' noted' : ''}`, told);
  found.title = [told, ...codes.map(meaningOf)].join('\n'); // it may be cut off
  const more = doom ? `${level.linedefs} linedefs · ${level.sectors} sectors · ${level.things} things` : format ? notJudged(level) : `entry ${level.entry}`;
  const name = make('span', 'row-name level-name', make('span', '', level.level), ...(format ? [' ', make('span', 'format', format)] : []));
  return [make('span', 'row-head', name, found), make('span', 'row-more', more)];
}, ({ k }, _, isPassed) => {
  chooseLevel(k);
  if (isNarrow() && !isPassed) toMap();
});

/** Whether the level is among those asked for. @param {Level} level @param {string[]} words @param {boolean} only */
function isWanted(level, words, only) {
  const { faults, format } = level;
  const hidden = view.hiddenIn(state.file?.file.name ?? '');
  const codes = Object.keys({ ...level.findings, ...level.warnings }).filter((code) => !hidden.has(code)).join(' ');
  if (only && !codes && format === 'doom') return false;
  const told = `${level.level} ${format} ${level.lump ?? level.tag ?? ''} ${codes} ${faults ? 'faults' : faults === 0 ? 'sound' : ''}`.toLowerCase();
  return words.every((word) => told.includes(word));
}

let filtering = 0; // counts filters, so that an earlier one ends where a later one began

/** Lists the file's levels that are wanted, a part at a time where they are very many. @param {boolean} [kept] */
async function showLevels(kept = false) {
  const f = state.file, mine = ++filtering, words = field('filter').value.toLowerCase().split(/\s+/).filter(Boolean), only = field('only').checked;
  if (!f) return;
  showSaves();
  const count = f.survey?.count ?? f.heads.count;
  /** @type {number[] | null} */
  let wanted = null;
  if (words.length || only) {
    wanted = [];
    for (let k = 0, until = performance.now() + 20; k < count; k++) {
      if (isWanted(levelOf(f, k), words, only)) wanted.push(k);
      if (k % 256 || performance.now() < until) continue;
      await new Promise((go) => setTimeout(go));
      if (mine !== filtering) return;
      until = performance.now() + 20;
    }
  }
  const chosen = state.of !== f ? -1 : wanted ? wanted.indexOf(state.shown) : state.shown, which = wanted;
  levels.show(which?.length ?? count, (row) => {
    const k = which ? which[row] : row;
    return { k, level: levelOf(f, k) };
  }, chosen, kept);
  get('levels-count').textContent = which ? `${which.length} of ${count}` : String(count);
  tellNone(f, count, which?.length ?? count);
}

/** Why a file has no level to show. @param {OpenFile} f */
const whyNone = (f) => f.refused ? `Refused: ${f.refused}.` : f.kind ? 'No levels in this file.' : `Reading ${f.file.name} …`;

/** What stands where there is no level to list, or none judged. @param {OpenFile} f @param {number} count @param {number} listed */
function tellNone(f, count, listed) {
  const told = get('levels-none'), goOn = make('button', '', f.failed ? 'Try again' : 'Go on'), isUnjudged = f.stopped || !!f.failed;
  goOn.addEventListener('click', () => {
    survey(f);
    showLevels(true);
  });
  const why = f.refused || !count ? whyNone(f) : f.failed ? `Not judged: ${f.failed}. ` : f.stopped ? 'Stopped before all levels were judged. ' : 'No level matches.';
  told.hidden = listed > 0 && !isUnjudged;
  told.replaceChildren(why, ...(isUnjudged ? [goOn] : []));
}

/** Shows a level; one that is shown already, or about to be, stays as it is. @param {number} k */
function chooseLevel(k) {
  if (!state.file || (state.file === state.of && k === state.shown && !view.isLacking)) return;
  state.of = state.file;
  state.shown = k;
  state.name = levelOf(state.of, k).level;
  showDemos();
  showLevel();
}

/** Shows the chosen level. */
function showLevel() {
  const f = state.of;
  if (!f) return;
  const level = levelOf(f, state.shown), { level: name, entry } = level;
  stage('map', f, name);
  view.show({ ...asking(f), entry, name, known: f.survey && level, wantsGame: f.kind === 'PWAD' && !f.game });
}

/** @param {'map' | 'demo'} which @param {OpenFile | null} f none where all are closed @param {string} name */
function stage(which, f, name) {
  const isOther = get('demo').hidden === (which === 'demo');
  get('demo').hidden = which !== 'demo';
  document.body.classList.toggle('at-demo', which === 'demo');
  if (isOther) get('demo').parentElement?.scrollTo(0, 0); // where it's too low for the one, it may not be for the other
  get('crumbs').replaceChildren(...(f ? [make('span', '', f.file.name)] : []), ...(!f || f.kind === 'demo' || !name ? [] : [make('span', 'here', name)]));
  document.title = `${name || (f ? f.file.name : 'level inspector')} – wadlook`;
}

const view = new LevelView(desk, finer, () => {
  field('wide').checked = true;
  readAnew();
}, () => showLevels(true));

/** Reads all indexes as the box says, and judges and draws anew. */
function readAnew() {
  state.wide = field('wide').checked;
  judge.stop();
  state.files.forEach(judgeAnew);
}

// Demos ------------------------------------------------------------------------------------------------------------------------

/** @type {ListBox<string>} */
const demos = new ListBox(get('demos'), (line) => [make('span', 'row-name', state.file?.kind === 'demo' ? state.file.file.name : line.split(' ')[3])], (_, k, isPassed) => {
  chooseDemo(k);
  if (isNarrow() && !isPassed) toMap();
});
let demoShown = -1;
function showDemos() {
  const f = state.file;
  if (f) demos.show(f.demos.count, (k) => f.demos.at(k), state.of === f && state.shown < 0 ? demoShown : -1, true);
}
const table = new DemoTable(get('commands'));

/** @param {number} k */
async function chooseDemo(k) {
  const f = state.file;
  if (!f) return;
  const [, at, size, lump] = f.demos.at(k).split(' '), name = f.kind === 'demo' ? f.file.name : lump;
  state.of = f;
  state.shown = -1;
  demoShown = k;
  view.asked = null;
  view.clear('A demo has no findings.');
  showLevels(true);
  showDemos();
  stage('demo', f, name);
  get('title').textContent = name;
  showOptions([]);
  table.show(null);
  const told = await desk.ask('demo', { ...asking(f), at: Number(at), size: Number(size) }, `Reading ${name}`).catch((error) => ({ refused: wordsOf(error) }));
  if (state.of !== f || state.shown >= 0 || demoShown !== k) return;
  get('told').textContent = told.refused ? `refused: ${told.refused}` : demoLine(told.line, f.heads.count ? f.heads.at(0).split(' ')[3] : '');
  get('told').className = told.refused ? 'fault' : '';
  showOptions(table.show(told.listing ? new Lines(told.listing) : null));
}

/** The options of a demo of a later engine, and what stands around it. @param {string[]} lines of its listing, before the commands */
function showOptions(lines) {
  const pairs = lines.flatMap(optionsIn);
  get('options-part').hidden = !pairs.length;
  get('options').replaceChildren(...pairs.map(([name, value]) => make('div', '', make('dt', '', name), make('dd', '', value))));
}

get('tic-form').addEventListener('submit', (event) => {
  event.preventDefault();
  table.goTo(Number(field('tic').value));
});

// Save -------------------------------------------------------------------------------------------------------------------------

/** @param {BlobPart} part @param {string} name @param {string} type */
function save(part, name, type) {
  const link = document.createElement('a');
  link.href = URL.createObjectURL(new Blob([part], { type }));
  link.download = name.replace(/[^\w.-]+/g, '_');
  link.click();
  setTimeout(() => URL.revokeObjectURL(link.href), 10000);
  say(`${link.download} saved`);
}

/** What can be saved of the chosen file: its report where it has levels, and their survey once they are judged. */
function showSaves() {
  get('save-report').toggleAttribute('disabled', !state.file?.heads.count);
  get('save-json').toggleAttribute('disabled', !state.file?.survey);
  get('reload-file').title = state.file?.handle ? 'Read the chosen file again; it is read by itself once it is saved' : 'Choose the file again, to see what was saved';
}

/** @type {Record<string, (f: OpenFile) => unknown>} what is saved of the level, or of the chosen file */
const saves = {
  'save-pwad': async () => {
    const { asked } = view; // another may be shown when the answer is there
    if (asked) save(await desk.ask('cut', asked), `${asked.name}.wad`, 'application/octet-stream');
  },
  'save-svg': () => view.svg && save(savedPicture(view.svg, themeNow(), view.map.places), `${view.asked?.name}.svg`, 'image/svg+xml'),
  'save-report': async (f) => save(await judge.ask('report', { ...asking(f), path: pathOf(f) }, `Checking ${f.file.name}`), `${f.file.name}.txt`, 'text/plain'),
  'save-json': (f) => f.survey && save(f.survey.bytes, `${f.file.name}.jsonl`, 'application/jsonl'),
};
for (const [id, act] of Object.entries(saves)) {
  get(id).addEventListener('click', async () => {
    try { if (state.file) await act(state.file); } catch (error) { if (!(error instanceof Stopped)) tell({ about: 'Not saved', words: wordsOf(error) }); }
  });
}

// The window -------------------------------------------------------------------------------------------------------------------

for (const id of ['choose', 'choose-too']) get(id).addEventListener('click', choose);
field('file').addEventListener('change', () => {
  take([...field('file').files ?? []].map((file) => ({ file, handle: null })));
  field('file').value = ''; // so that the same file can be chosen again
});
for (const tab of /** @type {NodeListOf<HTMLElement>} */ (document.querySelectorAll('.tabs button'))) {
  tab.addEventListener('click', () => {
    pane(tab.dataset.to ?? '');
    if (tab.dataset.to === 'files') reveal();
  });
}
for (const id of ['filter', 'only']) get(id).addEventListener('input', () => showLevels());
field('filter').addEventListener('keydown', (event) => {
  if (event.key !== 'ArrowDown' && event.key !== 'Enter') return;
  event.preventDefault();
  get('levels').focus();
  levels.pick(Math.max(0, levels.at), event.key === 'ArrowDown');
});
field('wide').addEventListener('input', readAnew);
get('reload-file').addEventListener('click', () => {
  if (state.file?.handle) openAgain(state.file.handle, true); else choose();
});
get('close-file').addEventListener('click', () => state.file && close(state.file));
get('files').addEventListener('keydown', ({ key }) => {
  if (key === 'Delete' && files.at >= 0) close(files.item(files.at));
});
get('stop').addEventListener('click', () => [desk, judge].forEach((questions) => questions.stop()));
addEventListener('keydown', (event) => {
  if (event.key !== '/' || /** @type {Element} */ (event.target).matches('input')) return;
  event.preventDefault();
  if (isNarrow()) pane('levels');
  field('filter').focus();
});
/** @type {HTMLElement} */ (document.querySelector('.skip')).addEventListener('click', () => pane('map'));

let over = 0; // how many elements the dragged files are over
const dragged = (/** @type {number} */ now) => {
  over = Math.max(0, now);
  document.body.classList.toggle('dragged', over > 0);
};
addEventListener('dragenter', () => dragged(over + 1));
addEventListener('dragleave', () => dragged(over - 1));
addEventListener('dragover', (event) => event.preventDefault());
addEventListener('drop', async (event) => {
  event.preventDefault();
  dragged(0);
  if (canRun() && event.dataTransfer?.items.length) take(await droppedFiles(event.dataTransfer));
});

new Follower(() => state.files, openAgain);
pane('files');
document.body.dataset.ready = 'yes';
if (!canRun()) {
  get('unable').hidden = false;
  get('unable').textContent = "This browser can't run the engine: it has no 64-bit WebAssembly memory. Chrome and Edge have it from 133 on, Firefox from 134 on.";
  for (const id of ['choose', 'choose-too']) get(id).toggleAttribute('disabled', true);
}
