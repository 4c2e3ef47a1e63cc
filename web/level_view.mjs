// One level: its picture, the pinned point, its findings.
import { changesOf, placeAgain } from './changes.mjs';
import { inFewWords } from './facts.mjs';
import { FoundList } from './found_list.mjs';
import { lineOf } from './linedefs.mjs';
import { Lines } from './lines.mjs';
import { link, numbers } from './links.mjs';
import { MapView } from './map_view.mjs';
import { tell } from './notices.mjs';
import { Stopped } from './questions.mjs';
import { Readout } from './readout.mjs';
import { RecordView, askedBy } from './record_view.mjs';
import { make } from './rows.mjs';
import { textOf } from './sketch.mjs';
import { partWords, whatIsThere, whatNext } from './sketch_words.mjs';
import { adviceOf, get, field, inShort, isFatal, isNarrow, notJudged, say, sentence, toMap, unlookedWords, verdict, wordsOf } from './words.mjs';

/** @typedef {import('./words.mjs').Level} Level */
/** @typedef {import('./findings.mjs').Finding} Finding @typedef {import('./findings.mjs').Spots} Spots */
/** @typedef {import('./questions.mjs').Questions} Questions @typedef {import('./map_view.mjs').View} View @typedef {import('./map_view.mjs').Under} Under */
/** @typedef {{ linedefs: Int32Array, first: Int32Array, bounds: Int32Array }} Linedefs  their numbers, and which are about each sector: see linedefs.mjs */
/**
 * @typedef {{ view: View | null, pinned: { x: number, y: number } | null, findings: Finding[], chosen: Finding | null }} Kept  of a level that may be shown
 *   again: its view, its pinned point, what was found in it, and which of that was chosen
 */
/** @typedef {import('./worker.mjs').AskedLevel & { wantsGame: boolean }} Asked  what a question about a level has */

const CELLS = 512; // of the picture of a level
const FINE_CELLS = 1024; // and of that of a part
const COARSE = 2.5; // pixels to a cell from which on a part is asked for in smaller ones
const SLICE = 20; // ms of marking, after which the page answers
const MARKED_LINES = 20000; // of the places of findings that are marked while none is chosen; of a sector, which may have many, no more either
const COUNTS = /** @type {const} */ (['things', 'linedefs', 'sidedefs', 'vertexes', 'segs', 'ssectors', 'nodes', 'sectors']);

/** What is counted of a level that isn't judged. */
const SKETCHED = /** @type {const} */ ([['things', 'thing'], ['linedefs', 'linedef'], ['sidedefs', 'sidedef'], ['vertexes', 'vertex'], ['sectors', 'sector']]);
const SAVES_PWAD = 'This level alone, as a WAD file';

/** @param {string} name @param {number | undefined} count */
const countOf = (name, count) => make('div', '', make('dt', '', name), make('dd', '', String(count)));

/** Where each of REJECT's answers is listed. */
const SIGHTS = [['point-clear', 'clear'], ['point-blocked', 'blocked'], ['point-unknown', 'unknown']];

/** Whether two questions are about one level. In a file that is opened again it may have another entry. @param {Asked} a @param {Asked} b */
const isSame = (a, b) => a.file.name === b.file.name && a.name === b.name && (a.key !== b.key || a.entry === b.entry);

const whyNot = (/** @type {unknown} */ error) => error instanceof Stopped ? 'Stopped. Choose the level again to draw it.' : wordsOf(error);

const LEGEND = { width: 120, height: 46 }; // pixels of a legend of one line and what is about it

/** What the buttons and the legend take of the map's edges; there is room for a line of the legend before it is shown. */
function taken() {
  const frame = get('map').getBoundingClientRect(), [zoom, legend] = ['.zoom', '#legend'].map((part) => get('map').querySelector(part)?.getBoundingClientRect());
  return {
    right: zoom?.width ? frame.right - zoom.left : 0,
    corner: legend?.height ? { width: legend.right - frame.left, height: frame.bottom - legend.top } : LEGEND,
  };
}

export class LevelView {
  /**
   * @param {Questions} desk @param {Questions} finer @param {() => void} readWide called where the wide reading is chosen
   * @param {() => void} hid called where a code is hidden or shown
   */
  constructor(desk, finer, readWide, hid) {
    this.desk = desk;
    this.finer = finer;
    /** @type {Map<string, Set<string>>} codes that are hidden, by the names of files */
    this.hidden = new Map();
    /** @type {Asked | null} */
    this.asked = null;
    /** @type {Asked | null} the level that was shown last, also where none is shown now */
    this.last = null;
    this.isLacking = false; // whether something of it was stopped or couldn't be read: it's asked for anew where it's chosen again
    /** @type {Level | null} */
    this.level = null;
    /** @type {Uint8Array | null} the picture's text */
    this.svg = null;
    /** @type {Promise<Linedefs> | undefined} */
    this.ends = undefined;
    this.pins = 0; // a late answer of an earlier pin is let go
    this.choices = 0; // so is the late place of an earlier finding
    this.marking = 0; // and so are marks of earlier findings
    this.sector = -1; // of the pinned point
    /** @type {Finding | null} */
    this.unshown = null; // a finding that was chosen before the records were there
    /** @type {Kept | null} */
    this.kept = null; // what a level that is shown again will have in view
    /** @type {Promise<unknown>} */
    this.drawing = Promise.resolve();
    this.readout = new Readout(get('under'));
    this.map = new MapView(get('map'), {
      hover: (x, y, under) => this.#hover(x, y, under),
      leave: () => this.#rest(),
      press: (x, y, under) => this.#press(x, y, under),
      unpin: () => this.unpin(),
      moved: (view) => this.#moved(view),
      taken,
    });
    this.record = new RecordView(this.map, () => this.#linedefs(), () => this.#rest());
    this.found = new FoundList({
      choose: (finding, isPassed) => this.#choose(finding, false, isPassed),
      listAll: (code, place) => this.#listAll(code, place),
      changed: () => this.#mark(),
      hid: () => {
        this.#tell();
        hid();
      },
    });
    get('read-wide').addEventListener('click', readWide);
    get('unpin').addEventListener('click', () => this.unpin());
    get('point-form').addEventListener('submit', (event) => {
      event.preventDefault();
      this.#goTo(field('at').value);
    });
    field('at').addEventListener('input', () => field('at').setCustomValidity(''));
    get('point-form').closest('.notes')?.addEventListener('click', (event) => this.#follow(/** @type {MouseEvent} */ (event)), { capture: true });
    get('in').addEventListener('click', () => this.map.zoom(1.5));
    get('out').addEventListener('click', () => this.map.zoom(1 / 1.5));
    get('fit').addEventListener('click', () => this.map.fit());
  }

  /**
   * Shows a level: what was found first, and then its picture; of one that isn't judged what can be read. One that was shown last keeps its view
   * and its point.
   * @param {Asked} asked
   */
  async show(asked) {
    const again = this.last && isSame(this.last, asked), { known } = asked;
    this.before = this.last?.file; // which isn't another saving where only the reading is
    this.last = this.asked = asked;
    if (this.finer.open.size) this.finer.stop(); // else it stays, with all that it needs
    this.clear('');
    if (!again) this.kept = null;
    get('title').textContent = asked.name;
    try {
      await this.drawing.catch(() => {}); // one at a time, so that a held arrow key draws only where it ends
      if (this.asked !== asked) return;
      this.drawing = known && known.format !== 'doom' ? this.#sketch(asked, known) : this.#look(asked);
      await this.drawing;
    } catch (error) {
      if (this.asked === asked) this.clear(whyNot(error));
    }
  }

  /** What a level that is shown has; no part of it is in view where that is the whole picture. @returns {Kept} */
  #inView() {
    const { picture, fitted, view, pinned } = this.map;
    return { view: picture && !fitted ? view : null, pinned, findings: this.found.all(), chosen: this.found.chosen };
  }

  /** The codes that are hidden in a file. @param {string} name */
  hiddenIn(name) {
    const found = this.hidden.get(name) ?? new Set();
    this.hidden.set(name, found);
    return found;
  }

  /**
   * No level, and why.
   * @param {string} why
   */
  clear(why) {
    this.kept ??= this.level ? this.#inView() : null;
    this.isLacking = !!why;
    this.level = null;
    this.svg = null;
    this.ends = undefined;
    this.unshown = null;
    this.map.linedefs = new Int32Array();
    this.record.take(null);
    this.unpin();
    this.#legend('found', false);
    this.map.show(null);
    for (const name of ['drawn', 'asked', 'sketched', 'fine', 'paths']) delete get('map').dataset[name];
    get('map').setAttribute('aria-label', 'Map');
    this.#none(why);
    get('counts').replaceChildren();
    get('told').textContent = '';
    get('told').className = '';
    get('of-level').hidden = true;
    get('found-count').textContent = '';
    this.found.clear();
    for (const id of ['changes', 'advice', 'read-wide']) get(id).hidden = true;
    get('findings-none').hidden = false;
    get('findings-none').textContent = why;
    get('unlooked').hidden = true;
    for (const id of ['save-pwad', 'save-svg', 'pin']) get(id).toggleAttribute('disabled', true);
    get('save-pwad').title = SAVES_PWAD;
    this.#rest();
  }

  /** @param {string} why no picture is there */
  #none(why) {
    get('map-none').hidden = !why;
    get('map-none').textContent = why;
  }

  /** @param {Asked} asked */
  async #look(asked) {
    const began = performance.now();
    const { level, findings, lacking, spots } = await this.desk.ask('look', asked, `Judging ${asked.name}`);
    if (this.asked !== asked) return;
    if (level.format !== 'doom') return this.#sketch(asked, level);
    this.level = level;
    get('save-pwad').removeAttribute('disabled');
    this.#tell();
    this.#list(new Lines(findings), spots);
    if (this.kept) this.#compare(this.kept, asked);
    const left = unlookedWords(level, lacking, asked.wantsGame);
    get('unlooked').textContent = left;
    get('unlooked').hidden = !left;
    get('pin').removeAttribute('disabled');
    const { kept } = this;
    if (kept?.pinned) this.pin(kept.pinned.x, kept.pinned.y);
    const { picture, svg, why } = await this.desk.ask('picture', { ...asked, cells: CELLS }, `Drawing ${asked.name}`)
      .catch((error) => ({ why: whyNot(error) })); // the findings stay
    if (this.asked !== asked) return;
    this.svg = svg ?? null;
    this.isLacking = !svg;
    get('save-svg').toggleAttribute('disabled', !svg);
    this.#none(why ?? '');
    this.map.show(picture ?? null, kept?.view);
    this.kept = null;
    this.#tellSector(); // of a point that was pinned meanwhile
    get('map').setAttribute('aria-label', `Map of ${asked.name}: ${this.#verdict()}`);
    Object.assign(get('map').dataset, { drawn: asked.name, paths: picture?.paths ?? 0, ms: (performance.now() - began).toFixed(0) });
    this.#rest();
    say(`${asked.name}${picture ? ' drawn' : ''}, ${this.#verdict()}`);
    this.#takeRecords(asked);
    this.#mark();
  }

  /** Shows what can be read of a level that isn't judged, and what to do next. @param {Asked} asked @param {Level} level */
  async #sketch(asked, level) {
    const why = notJudged(level), { sketch, lumps, parts, uncut, ...bounds } = await this.desk.ask('sketch', { ...asked, format: level.format }, `Reading ${asked.name}`);
    if (this.asked !== asked) return;
    const { picture, form, linedefs } = sketch, isText = level.format === 'udmf', there = isText ? partWords(parts) : whatIsThere(sketch);
    this.level = level;
    this.ends = Promise.resolve({ linedefs, ...bounds });
    get('told').textContent = why;
    get('counts').replaceChildren(...SKETCHED.flatMap(([name, kind]) => sketch.lumps[kind].count < 0 ? [] : [countOf(name, sketch.lumps[kind].count)]));
    get('findings-none').textContent = `Not judged. ${there}`;
    get('advice').textContent = whatNext(level, sketch, parts);
    get('advice').hidden = false;
    get('save-pwad').toggleAttribute('disabled', !!uncut);
    get('save-pwad').title = uncut || SAVES_PWAD;
    if (uncut) get('findings-none').textContent += ` ${sentence(uncut)}.`;
    this.svg = picture && new TextEncoder().encode(textOf(`${asked.name}: ${why}`, picture));
    for (const id of ['save-svg', 'pin']) get(id).toggleAttribute('disabled', !picture);
    this.#none(picture ? '' : `${sentence(why).replace(/^Udmf/, 'UDMF')}. ${there} ${whatNext(level, sketch, parts)}`);
    this.map.linedefs = linedefs;
    this.record.take(lumps, form);
    this.map.show(picture, this.kept?.view);
    const pinned = this.kept?.pinned;
    this.kept = null;
    if (picture && pinned) this.pin(pinned.x, pinned.y);
    if (picture) get('map').setAttribute('aria-label', `Map of ${asked.name}, which isn't judged`);
    Object.assign(get('map').dataset, { sketched: asked.name, paths: picture?.paths ?? 0 });
    this.#rest();
    say(`${asked.name}${picture ? ' drawn' : ''}, ${why}`);
  }

  /** What was found in the level, without what is hidden. */
  #verdict() {
    return this.level ? verdict(this.level, this.hiddenIn(this.asked?.file.name ?? ''), true) : '';
  }

  /** Tells the level's verdict, its counts and its codes. */
  #tell() {
    const { level, asked } = this;
    if (!level || !asked) return;
    get('told').textContent = this.#verdict();
    get('told').className = level.sound && !isFatal(level, this.hiddenIn(asked.file.name)) ? '' : 'fault';
    get('counts').replaceChildren(...COUNTS.map((name) => countOf(name, level[name])));
  }

  /** @param {Lines} objects of `check`, of which the last has the sums @param {Spots} spots */
  #list(objects, spots) {
    const { level, asked } = this;
    if (!level || !asked) return;
    this.found.show(objects, spots, this.hiddenIn(asked.file.name));
    const { unbuilt, isWide } = adviceOf(objects);
    get('advice').textContent = [unbuilt, isWide ? 'Read with unsigned indexes, as larger levels for ports use them, its links and its nodes are whole.' : ''].filter(Boolean).join(' ');
    get('advice').hidden = !get('advice').textContent;
    get('read-wide').hidden = !isWide;
    get('found-count').textContent = String(this.found.total || '');
    get('findings-none').hidden = this.found.count > 0;
    get('findings-none').textContent = 'Nothing was found: all links and nodes hold together, and there is nothing to warn of.';
  }

  /** Tells what came and what went since the level was shown before, and chooses what was chosen then. @param {Kept} kept @param {Asked} asked */
  #compare({ findings, chosen }, asked) {
    const now = this.found.all(), { came, went } = changesOf(findings, now), at = placeAgain(now, chosen);
    if (at >= 0) {
      this.found.choose(this.found.placeOf(now[at]), true);
      this.#placeOf(now[at]).then((place) => this.asked === asked && this.map.mark(place, true));
    }
    if (asked.file === this.before) return;
    this.found.tellFresh(came);
    const time = new Date(asked.file.lastModified).toLocaleTimeString();
    get('changes-title').textContent = came.length || went.length ? `Saved at ${time}: ${came.length} came, ${went.length} went` : `Saved at ${time}: nothing came or went`;
    get('changes-list').replaceChildren(...[...came.map((one) => ['came', one]), ...went.map((one) => ['went', one])].map(([what, one]) => {
      const { code, where, message } = /** @type {Finding} */ (one);
      return make('li', '', `${what}: ${code} ${where}: ${message}`);
    }));
    get('changes').hidden = false;
  }

  /**
   * Lists all findings, where there are too many to be listed at first; the next of a code is chosen, where the list stays in view.
   * @param {string} code @param {number} place of it among those of its code
   */
  async #listAll(code, place) {
    const { asked } = this, mine = this.choices;
    if (!asked) return;
    try {
      const { findings, spots } = await this.desk.ask('look', { ...asked, isWhole: true }, 'Listing all findings');
      if (this.asked !== asked) return;
      this.#list(new Lines(findings), spots);
      if (mine === this.choices) this.found.choose(this.found.firstOf(code) + place, isNarrow());
    } catch (error) { if (!(error instanceof Stopped)) tell({ about: asked.name, words: wordsOf(error) }); }
  }

  /** @param {Finding} finding @param {boolean} [stays] whether the view stays as it is @param {boolean} [isPassed] whether the list stays in view, too */
  async #choose(finding, stays = false, isPassed = false) {
    const { asked } = this, mine = ++this.choices, place = await this.#placeOf(finding);
    if (this.asked !== asked || mine !== this.choices) return;
    if (place && this.map.picture && isNarrow() && !isPassed) this.#toMap();
    this.map.mark(place, stays);
    await this.#showOf(finding);
    this.#rest();
    if (!place) this.readout.tell(`${finding.code} ${finding.where} has no place on the map.`.trim());
  }

  /** Shows the map, where one pane is shown at a time. */
  #toMap() {
    toMap();
    get('map').scrollIntoView({ block: 'nearest' });
  }

  /** Shows the record that a finding is about, where that is one that can be asked for. @param {Finding} finding */
  async #showOf(finding) {
    const { kind, index, linedef } = finding;
    this.unshown = this.record.records ? null : finding;
    const isThere = await (linedef >= 0 ? this.record.show('linedef', linedef, 'unmarked') : this.record.show(kind, index, 'unmarked'));
    if (!isThere) this.record.hide();
    this.found.reveal();
  }

  /** Tells above the picture what was found of the level as a whole: the picture has no place for it. */
  #tellOfLevel() {
    const all = this.found.ofLevel();
    get('of-level').textContent = all.map(({ code, title }) => `${code} ${title}`).join(' · ');
    get('of-level').hidden = !all.length;
  }

  /** Marks the places of all findings that are shown, a part at a time where they are very many, and says how many those are where there are more. */
  async #mark() {
    const { asked, found } = this, mine = ++this.marking, shown = found.shown(), places = [];
    this.#tellOfLevel();
    if (!this.map.picture) return;
    let lines = 0, until = performance.now() + SLICE;
    for (const k of shown) {
      const finding = found.finding(k), at = await this.#placeOf(finding);
      if (at) places.push({ at, k, title: `${finding.code} ${finding.where}: ${finding.title}` });
      lines += (at?.length ?? 0) / 4;
      if (lines >= MARKED_LINES) break;
      if (performance.now() < until) continue;
      await new Promise((go) => setTimeout(go));
      if (this.asked !== asked || mine !== this.marking) return;
      until = performance.now() + SLICE;
    }
    if (this.asked !== asked || mine !== this.marking) return;
    this.map.markAll(places);
    const isWhole = lines < MARKED_LINES && shown.length === found.total;
    get('legend-found').textContent = isWhole ? 'findings' : `${places.length} of ${found.total} findings`;
    this.#legend('found', places.length > 0);
  }

  /** Whether the legend tells of something. @param {'pinned' | 'sight' | 'found'} what @param {boolean} isThere */
  #legend(what, isThere) {
    get('legend').classList.toggle(what, isThere && !!this.map.picture);
  }

  /** Where a finding is, if it is anywhere: its own place, a linedef, or the outline of a sector. @param {Finding} finding */
  async #placeOf({ place, linedef, sector }) {
    if (place || (linedef < 0 && sector < 0)) return place;
    const { linedefs, first, bounds } = await this.#linedefs();
    const end = Math.min(first[sector + 1] ?? 0, first[sector] + MARKED_LINES); // 0 where no linedef faces it, nor a later one
    const lines = linedef >= 0 ? [linedef] : [...bounds.subarray(end ? first[sector] : 0, end)];
    const at = lines.flatMap((k) => lineOf(linedefs, k));
    return at.length ? at : null;
  }

  /** Where linedefs lie, asked for once, and again where that was stopped. */
  #linedefs() {
    if (this.ends) return this.ends;
    const ends = this.desk.ask('ends', this.asked ?? {}).catch((error) => {
      if (error instanceof Stopped && this.ends === ends) this.ends = undefined;
      return { linedefs: new Int32Array(), first: new Int32Array(), bounds: new Int32Array() };
    });
    return this.ends = ends;
  }

  /** Asks for what lies on the map in numbers, so that a pinned point and the pointer needn't wait for them. @param {Asked} asked */
  async #takeRecords(asked) {
    const ends = this.#linedefs(), lumps = await this.desk.ask('records', asked).catch(() => null), { linedefs } = await ends;
    if (this.asked !== asked) return;
    this.map.linedefs = linedefs;
    this.record.take(lumps);
    this.isLacking ||= !lumps;
    get('map').dataset.asked = asked.name; // for the tests
    if (!this.unshown) return;
    await this.#showOf(this.unshown);
    if (this.record.told) this.#rest();
  }

  // What is asked of the map -----------------------------------------------------------------------------------------------------

  /**
   * A click or a tap: on a mark it chooses the finding, and else it pins the point and shows what lies there.
   * @param {number} x @param {number} y @param {Under} under
   */
  #press(x, y, { thing, linedef, found }) {
    if (found) {
      this.found.choose(found.k, true);
      this.#choose(this.found.finding(found.k), true);
      return;
    }
    this.pin(x, y);
    if (thing >= 0) this.record.show('thing', thing, 'there');
    else if (linedef >= 0) this.record.show('linedef', linedef, 'there');
    else this.record.hide();
  }

  /** Goes to a point, or to what has a number, as the field of the point says. @param {string} words */
  async #goTo(words) {
    const [x, y] = words.match(/-?\d+/g) ?? [], asked = askedBy(words);
    if (!asked) {
      if (y !== undefined) this.pin(Number(x), Number(y));
      return;
    }
    if (await this.#go(asked.kind, asked.index)) return;
    field('at').setCustomValidity(`There is no ${asked.kind} ${asked.index}.`);
    field('at').reportValidity();
  }

  /** Shows a record, and on a phone the map, where it has a place. @param {string} kind @param {number} index */
  async #go(kind, index) {
    const isThere = await this.record.show(kind, index);
    if (isThere && this.map.asked && isNarrow()) this.#toMap();
    if (isThere) say(this.record.told);
    this.#rest();
    return isThere;
  }

  /** A link to a record is followed; what it stands in isn't chosen. @param {MouseEvent} event */
  #follow(event) {
    const anchor = /** @type {HTMLElement | null} */ (/** @type {Element} */ (event.target).closest('a.go'));
    if (!anchor) return;
    event.preventDefault();
    event.stopPropagation();
    this.#go(anchor.dataset.kind ?? '', Number(anchor.dataset.index));
  }

  // Point ------------------------------------------------------------------------------------------------------------------------

  /** @param {number} x @param {number} y */
  async pin(x, y) {
    const { asked, level } = this, mine = ++this.pins, began = performance.now();
    if (!asked || !level) return;
    this.map.pin({ x, y });
    if (level.format !== 'doom') return this.#pinUnjudged(x, y);
    const [point, block] = ['points', 'blocks'].map((word) => this.desk.ask('pin', { ...asked, word, x, y }).catch(wordsOf));
    const line = await point, sector = /^-?\d+ -?\d+ sector (\d+) /.exec(line)?.[1];
    if (mine !== this.pins) return;
    get('point').dataset.ms = (performance.now() - began).toFixed(1); // for the tests
    get('point').hidden = get('unpin').hidden = false;
    get('point-none').hidden = true;
    get('point-line').textContent = this.#inWords(line, x, y);
    this.#rest();
    this.sector = Number(sector ?? -1);
    this.#tellSector();
    if (sector === undefined) this.#tellSight(-1, []); else this.#sight(Number(sector), mine);
    const told = await block, { linedefs } = await this.#linedefs();
    if (mine === this.pins) this.map.showBlock(this.#tellBlock(told).flatMap((k) => lineOf(linedefs, k)));
  }

  /** Marks a point of a level of which no sector and no block is told. @param {number} x @param {number} y */
  #pinUnjudged(x, y) {
    get('point').hidden = get('unpin').hidden = false;
    get('point').classList.add('unjudged');
    get('point-none').hidden = true;
    get('point-line').textContent = `${x} ${y}: what lies there is told once the level is judged`;
    this.#rest();
  }

  /** Tells what only the picture knows of the pinned point's sector. */
  #tellSector() {
    const title = this.sector < 0 ? '' : inShort(this.map.titleOf(this.sector));
    const [number = '', ...rest] = title.replace(/^sector /, '').split(' · ');
    get('point-sector').replaceChildren(...(title ? [link('sector', Number(number), number), ...rest.map((one) => ` · ${one}`)] : []));
    get('sector-row').hidden = !title;
    this.#legend('pinned', this.sector >= 0);
    this.#legend('sight', this.map.seen.answers.includes('clear'));
  }

  /** @param {string} line @param {number} x @param {number} y */
  #inWords(line, x, y) {
    if (/audit$/.test(line)) return `${x} ${y} can't be answered while the level has faults`;
    return line === 'refused: range' ? `${x} ${y} isn't told: places reach from -16384 to 16383` : line;
  }

  /** Tells the line of `blocks`; answers its linedefs. @param {string} line @returns {number[]} */
  #tellBlock(line) {
    const found = /^-?\d+ -?\d+ block (\d+) (\d+) lines ?(.*)$/.exec(line);
    const list = found?.[3] ? found[3].split(' ').map(Number) : [], isLed = list[0] === 0, lines = isLed ? list.slice(1) : list;
    const words = found ? [`${found[1]} ${found[2]}, its list `, numbers('linedef', lines, isLed ? '0 ' : '')] : [line.replace(/^-?\d+ -?\d+ /, '')];
    get('point-block').replaceChildren(...words);
    return lines; // the word 0 that lists begin with names no linedef of the block
  }

  /** Asks what REJECT says of each sector from one. @param {number} sector @param {number} mine */
  async #sight(sector, mine) {
    for (const [id] of SIGHTS) get(id).textContent = '';
    /** @type {string[]} */
    const answers = await this.desk.ask('sight', { ...this.asked, sector, sectors: this.level?.sectors }).catch(() => []);
    if (mine === this.pins) this.#tellSight(sector, answers);
  }

  /** @param {number} sector @param {string[]} answers of each sector; none where nothing is told */
  #tellSight(sector, answers) {
    this.map.sight(sector, answers);
    for (const [id, answer] of SIGHTS) {
      const list = answers.flatMap((told, other) => told === answer ? [other] : []);
      get(id).replaceChildren(list.length ? numbers('sector', list) : answers.length ? 'none' : 'unknown');
    }
    get('unknown-row').hidden = !answers.includes('unknown');
    this.#legend('sight', answers.includes('clear'));
  }

  unpin() {
    this.pins++;
    this.sector = -1;
    this.map.pin(null);
    get('point').hidden = get('unpin').hidden = true;
    get('point').classList.remove('unjudged');
    this.#legend('pinned', false);
    get('point-none').hidden = false;
    this.#rest();
  }

  // The map's readout ------------------------------------------------------------------------------------------------------------

  /** @param {number} x @param {number} y @param {Under} under */
  #hover(x, y, { sector, thing, linedef, found }) {
    const { records } = this.record, few = (/** @type {string} */ kind, /** @type {number} */ k) => records && k >= 0 ? inFewWords(records, kind, k) : '';
    if (!this.map.picture) return;
    get('where').textContent = `${x} ${y}`;
    const told = [inShort(found?.title ?? ''), few('thing', thing), few('linedef', linedef), inShort(sector)];
    this.readout.tell(...(told.some(Boolean) ? told : ['nothing is shown here']));
  }

  /** What the readout says while nothing is under the pointer. */
  #rest() {
    const point = get('point').hidden ? '' : get('point-line').textContent ?? '', told = [this.record?.told ?? '', point];
    get('where').textContent = '';
    this.readout.tell(...(told.some(Boolean) ? told : [this.map?.picture ? 'Click or tap the map to pin a point.' : '']));
  }

  /** @param {View} view */
  #moved({ x, y, zoom }) {
    get('map').dataset.view = `${x.toFixed(3)} ${y.toFixed(3)} ${zoom.toFixed(4)}`;
    const units = 2 ** Math.max(0, Math.floor(Math.log2((isNarrow() ? 60 : 110) / zoom)));
    get('scale-bar').style.width = `${units * zoom}px`;
    get('scale-text').textContent = `${units} units`;
    clearTimeout(this.resting);
    this.resting = setTimeout(() => this.#sharpen(), 200);
  }

  /** Zoomed in, the cells show; then the part in view is asked for in smaller ones, of a worker of its own. */
  async #sharpen() {
    const { asked, map } = this;
    if (!asked || map.cell * map.view.zoom < COARSE || this.finer.open.size) return;
    const frame = map.part, [x0, y0, x1, y1] = frame;
    if (Math.ceil((Math.max(x1 - x0, y1 - y0) + 1) / FINE_CELLS) >= map.cell) return; // as fine already
    try {
      const { picture } = await this.finer.ask('picture', { ...asked, cells: FINE_CELLS, frame });
      if (this.asked !== asked || !picture) return;
      map.sharpen(picture);
      get('map').dataset.fine = String(picture.size);
      this.#sharpen(); // where the map was moved meanwhile
    } catch (error) { if (!(error instanceof Stopped)) tell({ about: asked.name, words: wordsOf(error) }); }
  }
}
