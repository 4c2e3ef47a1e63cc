// What was found in a level, as a tree: a heading for each code, which folds, hides and is explained, and under it each finding.
import { explanationOf, meaningOf } from './codes.mjs';
import { findingOf } from './findings.mjs';
import { listedIn, rankWords } from './groups.mjs';
import { Lines } from './lines.mjs';
import { linked } from './links.mjs';
import { ListBox } from './list.mjs';
import { make } from './rows.mjs';
import { field, get, sentence } from './words.mjs';

/** @typedef {import('./findings.mjs').Finding} Finding @typedef {import('./findings.mjs').Spots} Spots */
/**
 * @typedef {import('./groups.mjs').Listed & { passed: number[] | null }} Group  the findings of a code, and those that the filter passes, where there is one
 * @typedef {{ group: Group, k: number }} Item  a row: a finding, or with -1 the heading of its group
 */
/**
 * @typedef {{ choose: (finding: Finding, isPassed: boolean) => void, listAll: (code: string, place: number) => void, changed: () => void,
 *   hid: () => void }} Tell
 *   what is called where a finding is chosen, where all of a code are asked for, where other findings are shown, and where a code is hidden or shown
 */

const OPEN = 12; // a group of no more findings is open at first, and so is the only one
const KEPT = 5000; // findings of a level that are made once, so that one can be told from another
const FILTERED = 8; // findings from which on there is a filter
const SLICE = 20; // ms of filtering, after which the page answers

const none = () => new Lines({ bytes: new Uint8Array(), ends: new Uint32Array() });
const isFault = (/** @type {string} */ code) => code.startsWith('F');

export class FoundList {
  /** @param {Tell} tell */
  constructor(tell) {
    this.tell = tell;
    this.objects = none();
    this.count = this.total = 0; // findings that are listed or folded, and all that were found
    /** @type {Spots} */
    this.spots = {};
    /** @type {Group[]} what matters most first */
    this.groups = [];
    /** @type {Set<string>} codes that are hidden, of the file */
    this.hidden = new Set();
    /** @type {Map<string, boolean>} whether groups are open that were folded by hand */
    this.folded = new Map();
    this.explained = ''; // the code whose meaning is folded out
    /** @type {Set<Finding>} that came since the level was shown before */
    this.fresh = new Set();
    /** @type {Map<number, Finding>} */
    this.made = new Map();
    this.filtering = 0; // counts filters, so that an earlier one ends where a later one began
    this.list = new ListBox(get('findings'), (/** @type {Item} */ item) => this.#draw(item), (item, _, isPassed) => this.#chosen(item, isPassed), {
      isButton: ({ k, group }) => k < 0 || k === group.to, describe: ({ group }) => meaningOf(group.code), branch: (item) => this.#branch(item),
      fold: ({ group }, isOpen) => this.#fold(group, isOpen),
    });
    get('findings').addEventListener('click', (event) => this.#clicked(event), { capture: true });
    get('findings').addEventListener('keydown', ({ key }) => this.#key(key));
    field('found-filter').addEventListener('input', () => {
      this.folded.clear(); // what is passed is seen
      this.#filter();
    });
    get('hidden-codes').addEventListener('click', ({ target }) => {
      const { code } = /** @type {HTMLElement} */ (target).dataset;
      if (code) this.hide(code, false);
    });
  }

  /**
   * Shows what was found.
   * @param {Lines} objects of `check`, of which the last has the sums @param {Spots} spots @param {Set<string>} hidden codes, of the file
   */
  show(objects, spots, hidden) {
    Object.assign(this, { objects, spots, hidden, made: new Map(), fresh: new Set() });
    this.groups = listedIn(objects).map((listed) => ({ ...listed, passed: null }));
    this.count = this.groups.reduce((sum, { from, to }) => sum + to - from, 0);
    this.total = this.groups.reduce((sum, { total }) => sum + total, 0);
    get('found-bar').hidden = this.count < FILTERED;
    if (this.count < FILTERED) field('found-filter').value = '';
    this.#filter();
  }

  /** Shows nothing, and forgets what was folded. */
  clear() {
    this.folded.clear();
    this.explained = '';
    field('found-filter').value = '';
    this.show(none(), {}, new Set());
  }

  /** A finding by the place of its object. @param {number} k */
  finding(k) {
    const finding = this.made.get(k) ?? findingOf(this.objects.at(k), this.spots);
    if (this.count <= KEPT) this.made.set(k, finding);
    return finding;
  }

  /** All findings, where they are few enough to be compared. */
  all() {
    return this.count > KEPT ? [] : this.groups.flatMap(({ from, to }) => Array.from({ length: to - from }, (_, n) => this.finding(from + n)));
  }

  /** The places of the objects of what isn't hidden, and passes the filter. */
  shown() {
    return this.#seen().flatMap(({ from, to, passed }) => passed ?? Array.from({ length: to - from }, (_, n) => from + n));
  }

  /** What is shown of the level as a whole. All of a code are about one kind of record. */
  ofLevel() {
    const whole = this.#seen().filter(({ from, to }) => from < to && this.finding(from).kind === 'level');
    return whole.flatMap(({ from, to, passed }) => passed ?? Array.from({ length: to - from }, (_, n) => from + n)).map((k) => this.finding(k));
  }

  /** What is chosen, if it is a finding. */
  get chosen() {
    const item = this.list.at >= 0 ? this.list.item(this.list.at) : null;
    return item && item.k >= 0 && item.k < item.group.to ? this.finding(item.k) : null;
  }

  /** Marks a finding as chosen and brings it into view, where its group isn't hidden. @param {number} k of its object @param {boolean} [isQuiet] */
  choose(k, isQuiet = false) {
    const group = this.#seen().find(({ from, to }) => k >= from && k < to);
    if (!group) return;
    this.folded.set(group.code, true);
    this.#list(false, group, k);
    if (!isQuiet) this.tell.choose(this.finding(k), false);
  }

  /** The place of the object of a finding that `all` has. @param {Finding} finding */
  placeOf(finding) {
    return [...this.made].find(([, one]) => one === finding)?.[0] ?? -1;
  }

  /** Brings what is chosen into view, where the list has less room than before. */
  reveal() {
    if (this.list.at >= 0) this.list.rows.reveal(this.list.at);
  }

  /** Tells findings as new. @param {Finding[]} came */
  tellFresh(came) {
    this.fresh = new Set(came);
    this.#list(true);
  }

  /** Where the findings of a code begin. @param {string} code */
  firstOf(code) {
    return this.groups.find((group) => group.code === code)?.from ?? -1;
  }

  /** Hides a code in all levels of the file, or shows it again: a fault can't be hidden. @param {string} code @param {boolean} isHidden */
  hide(code, isHidden) {
    if (isFault(code)) return;
    if (isHidden) this.hidden.add(code); else this.hidden.delete(code);
    this.#list(true);
    this.tell.hid();
    this.tell.changed();
    if (!isHidden) get('findings').focus(); // its button is gone
  }

  /** Folds out what a code means, or in where it is what is shown, and brings its heading into view. @param {string} code */
  explain(code) {
    if (!explanationOf(code)) return;
    this.explained = this.explained === code ? '' : code;
    if (this.hidden.has(code)) return this.hide(code, false);
    this.#list(true);
    const at = this.#rowOf(code);
    if (at >= 0) this.list.rows.reveal(at);
  }

  // Rows -------------------------------------------------------------------------------------------------------------------------

  /** The groups that aren't hidden, and in which the filter passes something. */
  #seen() {
    return this.groups.filter(({ code, passed }) => !this.hidden.has(code) && passed?.length !== 0);
  }

  /** @param {Group} group */
  #isOpen({ code, from, to, passed }) {
    return this.folded.get(code) ?? (!!passed || to - from <= OPEN || this.#seen().length === 1);
  }

  /** How many rows stand under a group's heading: one may stand for those that aren't listed. @param {Group} group */
  #under(group) {
    if (!this.#isOpen(group)) return 0;
    return group.passed?.length ?? group.to - group.from + Number(group.to - group.from < group.total);
  }

  /** The row of a code's heading. @param {string} code */
  #rowOf(code) {
    let row = 0;
    for (const group of this.#seen()) {
      if (group.code === code) return row;
      row += 1 + this.#under(group);
    }
    return -1;
  }

  /** @param {Group} group @param {number} n its row under the heading @returns {Item} */
  #itemOf(group, n) {
    return { group, k: group.passed ? group.passed[n] : group.from + n };
  }

  /** Lists the groups. @param {boolean} kept whether what is chosen stays @param {Group} [to] what is chosen else, with its object @param {number} [k] */
  #list(kept, to, k = -1) {
    const { list } = this, was = kept && list.at >= 0 && list.at < list.count ? list.item(list.at) : null, groups = this.#seen();
    const heads = /** @type {number[]} */ ([]);
    let count = 0;
    for (const group of groups) {
      heads.push(count);
      count += 1 + this.#under(group);
    }
    const item = (/** @type {number} */ row) => {
      const at = heads.findLastIndex((head) => head <= row), group = groups[at];
      return row === heads[at] ? { group, k: -1 } : this.#itemOf(group, row - heads[at] - 1);
    };
    const wanted = to ?? was?.group, object = to ? k : was?.k ?? -1, head = groups.findIndex((group) => group === wanted);
    const place = head < 0 || object < 0 ? -1 : wanted?.passed ? wanted.passed.indexOf(object) : object - (wanted?.from ?? 0);
    const chosen = head < 0 ? -1 : heads[head] + (place < 0 || place >= this.#under(groups[head]) ? 0 : 1 + place);
    list.show(count, item, chosen, kept || !to, heads);
    if (to && chosen >= 0) list.rows.reveal(chosen);
    this.#tellHidden();
  }

  /** What is hidden, each with a button that shows it again. */
  #tellHidden() {
    const codes = this.groups.filter(({ code }) => this.hidden.has(code)), part = get('hidden-codes');
    part.hidden = !codes.length;
    part.replaceChildren('Hidden in this file: ', ...codes.flatMap(({ code, total }, n) => {
      const button = make('button', '', `${code}, ${total}`);
      button.setAttribute('type', 'button');
      button.dataset.code = code;
      button.title = `Show again: ${meaningOf(code)}`;
      return n ? [' ', button] : [button];
    }));
  }

  /** Where a row stands in the tree. @param {Item} item @returns {import('./list.mjs').Branch} */
  #branch({ group, k }) {
    const groups = this.#seen();
    if (k < 0) return { level: 1, at: groups.indexOf(group) + 1, of: groups.length, isOpen: this.#isOpen(group) };
    return { level: 2, at: 1 + (group.passed ? group.passed.indexOf(k) : k - group.from), of: group.passed?.length ?? group.total };
  }

  /** @param {Item} item */
  #draw({ group, k }) {
    if (k < 0) return this.#heading(group);
    if (k === group.to) return [make('span', 'row-name', `${group.total - (group.to - group.from)} more`), make('span', 'row-message', 'Choose this to list them all.')];
    const finding = this.finding(k), message = make('span', 'row-message', ...linked(finding.message));
    message.title = finding.message; // where it is cut off
    return [make('span', 'row-name', finding.where, ...(this.fresh.has(finding) ? [make('span', 'fresh', 'new')] : [])), message];
  }

  /** A heading in plain words, with what folds out its code's meaning and what hides it, for a row whose keys do the same. @param {Group} group */
  #heading(group) {
    const { code, total, passed } = group, told = explanationOf(code), isExplained = this.explained === code;
    const part = (/** @type {string} */ name, /** @type {string} */ words, /** @type {string} */ title) => {
      const span = make('span', name, words);
      Object.assign(span, { title });
      span.dataset.code = code;
      span.setAttribute('aria-hidden', 'true');
      return span;
    };
    const count = make('span', 'group-count', `, ${passed && passed.length < total ? `${passed.length} of ` : ''}${total}`);
    return [
      make('span', `row-name group-name${this.#isOpen(group) ? ' open' : ''}`, sentence(told?.text ?? code), count),
      ...(told ? [part('ask', '?', `What ${code} means, and what to do (?)`)] : []),
      ...(isFault(code) ? [] : [part('shut', '×', `Hide ${code} in this file (Delete)`)]),
      make('span', 'row-more', make('span', `code${isFault(code) ? ' fault' : ''}`, code), ' ', rankWords(code)),
      ...(isExplained && told ? [make('div', 'explained', ...told.parts.map((words) => make('p', '', words)))] : []),
    ];
  }

  // What is done ---------------------------------------------------------------------------------------------------------------------

  /** @param {Item} item @param {boolean} isPassed whether the keys are on their way */
  #chosen({ group, k }, isPassed) {
    if (k < 0) this.#fold(group, !this.#isOpen(group));
    else if (k === group.to) this.tell.listAll(group.code, group.to - group.from);
    else this.tell.choose(this.finding(k), isPassed);
  }

  /** @param {Group} group @param {boolean} isOpen */
  #fold(group, isOpen) {
    if (this.#isOpen(group) === isOpen) return;
    this.folded.set(group.code, isOpen);
    this.#list(true);
  }

  /** What stands in a heading is clicked: the heading itself isn't chosen then. @param {MouseEvent} event */
  #clicked(event) {
    const part = /** @type {HTMLElement | null} */ (/** @type {Element} */ (event.target).closest('.ask, .shut, .explained'));
    if (!part) return;
    event.stopPropagation();
    if (part.classList.contains('ask')) this.explain(part.dataset.code ?? '');
    if (part.classList.contains('shut')) this.hide(part.dataset.code ?? '', true);
  }

  /** @param {string} key */
  #key(key) {
    if (this.list.at < 0) return;
    const { code } = this.list.item(this.list.at).group;
    if (key === '?') this.explain(code);
    if (key === 'Delete') this.hide(code, true);
  }

  /** Lists what has all words of the filter, a part at a time where it is very much. */
  async #filter() {
    const mine = ++this.filtering, words = field('found-filter').value.toLowerCase().split(/\s+/).filter(Boolean), { groups } = this;
    const passed = /** @type {(number[] | null)[]} */ ([]);
    let until = performance.now() + SLICE;
    for (const { code, from, to } of groups) {
      const list = words.length ? /** @type {number[]} */ ([]) : null, head = `${code} ${explanationOf(code)?.text ?? ''}`;
      for (let k = from; list && k < to; k++) {
        const { where, message } = this.finding(k), told = `${head} ${where} ${message}`.toLowerCase();
        if (words.every((word) => told.includes(word))) list.push(k);
        if (k % 256 || performance.now() < until) continue;
        await new Promise((go) => setTimeout(go));
        if (mine !== this.filtering) return;
        until = performance.now() + SLICE;
      }
      passed.push(list);
    }
    groups.forEach((group, at) => { group.passed = passed[at]; });
    this.#list(true);
    get('found-none').hidden = !words.length || this.list.count > 0;
    this.tell.changed();
  }
}
