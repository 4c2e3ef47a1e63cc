// A demo's commands as a table.
import { actionsOf, buttonsOf, turnOf } from './demo_words.mjs';
import { make, Rows } from './rows.mjs';

/** The columns, and what a sign means in them. */
const COLUMNS = [['tic', ''], ['player', ''], ['forward', '+ forward, - back'], ['side', '+ right, - left'], ['turn', '+ left, - right'], ['buttons', '']];
const TURN = 4, BUTTONS = 5, ACTIONS = 6;
const MOST_BEFORE = 4; // lines that may stand before the commands

/** @param {string} tag @param {string} role @param {string} text @param {string} [name] */
function cell(tag, role, text, name) {
  const element = make(tag, name, text);
  element.setAttribute('role', role);
  return element;
}

export class DemoTable {
  /** @param {HTMLElement} viewport the part that scrolls */
  constructor(viewport) {
    const head = make('div', 'cells-head', ...COLUMNS.map(([name, signs]) => {
      const title = cell('span', 'columnheader', name);
      title.title = signs;
      return title;
    }));
    head.setAttribute('role', 'row');
    const body = make('div', 'cells');
    body.setAttribute('role', 'rowgroup');
    viewport.replaceChildren(head, body);
    viewport.setAttribute('role', 'table');
    viewport.tabIndex = 0;
    this.viewport = viewport;
    /** @type {import('./lines.mjs').Lines | null} */
    this.lines = null;
    this.version = 0;
    this.before = 1; // lines before the commands
    this.rows = new Rows(viewport, body, (k) => this.#row(k));
  }

  /**
   * Shows a listing: lines of the header and of what stands around it, the commands, a line of what they add up to. None with null. The
   * lines behind the first one and before the commands are given back.
   * @param {import('./lines.mjs').Lines | null} lines
   */
  show(lines) {
    this.lines = lines;
    this.version = Number(/ version (\d+)/.exec(lines?.at(0) ?? '')?.[1] ?? 0);
    this.before = 1;
    while (lines && this.before < MOST_BEFORE && /^[wou]/.test(lines.at(this.before))) this.before++;
    const count = lines ? Math.max(0, lines.count - this.before - 1) : 0;
    this.viewport.setAttribute('aria-rowcount', String(count + 1));
    this.rows.show(count);
    return Array.from({ length: this.before - 1 }, (_, k) => lines?.at(k + 1) ?? '');
  }

  /**
   * Brings a tic's first command to the top.
   * @param {number} tic
   */
  goTo(tic) {
    let low = 0, high = this.rows.count;
    while (low < high) {
      const middle = (low + high) >> 1;
      if (parseInt(this.#line(middle), 10) < tic) low = middle + 1; else high = middle;
    }
    this.rows.reveal(low, true);
  }

  /** @param {number} k */
  #line(k) {
    return this.lines?.at(k + this.before) ?? '';
  }

  /** @param {number} k */
  #row(k) {
    const row = make('div', 'cells-row'), words = this.#line(k).split(' '), actions = words.length > ACTIONS ? actionsOf(words.slice(ACTIONS)) : '';
    words.slice(0, ACTIONS).forEach((word, column) => {
      const held = column === BUTTONS ? [buttonsOf(parseInt(word, 16)), actions].filter(Boolean).join(', ') : '';
      const told = column === TURN ? turnOf(Number(word), this.version) : column === BUTTONS ? held || '–' : word;
      row.append(cell('span', 'cell', told, column > 1 && /^(0|–)$/.test(told) ? 'nil' : ''));
    });
    row.setAttribute('role', 'row');
    row.setAttribute('aria-rowindex', String(k + 2));
    return row;
  }
}
