// A list whose rows are chosen by pointer or keys: the listbox pattern of ARIA, or that of a tree where rows stand under headings.
import { make, Rows, WholeRows } from './rows.mjs';

/**
 * @template T
 * @typedef {{ isButton?: (item: T) => boolean, describe?: (item: T) => string, isShort?: boolean, branch?: (item: T, k: number) => Branch,
 *   fold?: (item: T, isOpen: boolean) => void }} Manner  whether a row does something, and so waits for Enter or a click where keys only pass it; what a
 *   row means, for those who hear it; whether all rows are made, each as tall as it has to be; of a tree, where a row stands in it, and what an arrow
 *   to the right or to the left does
 */
/** @typedef {{ level: number, at: number, of: number, isOpen?: boolean }} Branch  a row of a tree: its place among its like; of a heading whether it's open */

/** The row that something stands in. @param {EventTarget | null} target @returns {HTMLElement | null} */
const rowOf = (target) => /** @type {Element} */ (target).closest('.row');

/** @template T */
export class ListBox {
  /**
   * @param {HTMLElement} element @param {(item: T, k: number) => (Node | string)[]} draw what stands in a row
   * @param {(item: T, k: number, isPassed: boolean) => void} choose `isPassed` where the keys are on their way @param {Manner<T>} [manner]
   */
  constructor(element, draw, choose, { isButton = () => false, describe = () => '', isShort = false, branch, fold = () => {} } = {}) {
    this.element = element;
    this.draw = draw;
    this.choose = choose;
    this.isButton = isButton;
    this.describe = describe;
    this.branch = branch;
    this.fold = fold;
    this.count = 0;
    /** @type {(k: number) => T} */
    this.item = () => { throw new RangeError('an empty list'); };
    this.at = -1; // the chosen row
    const body = make('div', 'rows');
    body.setAttribute('role', 'presentation');
    element.replaceChildren(body);
    element.setAttribute('role', branch ? 'tree' : 'listbox');
    element.tabIndex = 0;
    this.rows = new (isShort ? WholeRows : Rows)(element, body, (k) => this.#row(k));
    element.addEventListener('keydown', (event) => this.#key(event));
    element.addEventListener('click', ({ target }) => {
      const row = rowOf(target);
      if (row) this.pick(Number(row.dataset.at));
    });
    /** @type {HTMLElement | null} */
    this.pressed = null;
    element.addEventListener('pointerdown', ({ target, button }) => { this.pressed = button ? null : rowOf(target); });
    element.addEventListener('pointerup', (event) => this.#released(event));
  }

  /** A row that was made anew since a mouse pressed it has no click: what stands there now is clicked in its place. @param {PointerEvent} event */
  #released({ target, pointerType }) {
    const { pressed } = this, isIt = !!pressed && !pressed.isConnected && rowOf(target)?.dataset.at === pressed.dataset.at;
    this.pressed = null;
    if (isIt && pointerType === 'mouse') /** @type {HTMLElement} */ (target).click();
  }

  /**
   * Shows `count` items, of which row `chosen` is marked and in view; the list stays where it was scrolled to if it is `kept`.
   * @param {number} count @param {(k: number) => T} item @param {number} [chosen] @param {boolean} [kept] @param {number[]} [odd] rows of heights of their own
   */
  show(count, item, chosen = -1, kept = false, odd = []) {
    this.count = count;
    this.item = item;
    this.at = chosen;
    this.element.hidden = !count;
    this.element.style.setProperty('--count', String(Math.min(count, 100))); // for page.css
    if (kept) this.rows.redraw(count, odd); else this.rows.show(count, odd);
    if (!kept && chosen >= 0) this.rows.reveal(chosen);
    this.#mark();
  }

  /** Marks row `k` and chooses it, unless it is one that waits and the keys only pass it. @param {number} k @param {boolean} [isPassed] */
  pick(k, isPassed = false) {
    if (k < 0 || k >= this.count) return;
    const item = this.item(k);
    this.at = k;
    this.rows.reveal(k);
    this.#mark();
    if (!isPassed || !this.isButton(item)) this.choose(item, k, isPassed);
  }

  /** @param {number} k */
  #row(k) {
    const item = this.item(k), row = make('div', 'row', ...this.draw(item, k)), meaning = this.describe(item);
    if (meaning) row.setAttribute('aria-description', meaning);
    row.id = `${this.element.id}-${k}`;
    row.dataset.at = String(k);
    row.setAttribute('aria-selected', String(k === this.at));
    this.#tellPlace(row, item, k);
    return row;
  }

  /** Tells those who hear a row where it stands. @param {HTMLElement} row @param {T} item @param {number} k */
  #tellPlace(row, item, k) {
    const { level = 0, at = k + 1, of = this.count, isOpen } = this.branch?.(item, k) ?? {};
    row.setAttribute('role', level ? 'treeitem' : 'option');
    row.setAttribute('aria-posinset', String(at));
    row.setAttribute('aria-setsize', String(of));
    if (level) row.setAttribute('aria-level', String(level));
    if (isOpen !== undefined) row.setAttribute('aria-expanded', String(isOpen));
  }

  #mark() {
    for (const [k, row] of this.rows.made) row.setAttribute('aria-selected', String(k === this.at));
    const row = this.rows.row(this.at);
    if (row) this.element.setAttribute('aria-activedescendant', row.id);
    else this.element.removeAttribute('aria-activedescendant');
  }

  /** @param {KeyboardEvent} event */
  #key(event) {
    if (event.altKey || event.ctrlKey || event.metaKey) return;
    if (this.branch && /^Arrow(Left|Right)$/.test(event.key)) {
      event.preventDefault();
      if (this.at >= 0) this.fold(this.item(this.at), event.key === 'ArrowRight');
      return;
    }
    const page = Math.max(1, Math.floor(this.element.clientHeight / (this.rows.height || 40)) - 1), last = this.count - 1;
    /** @type {Record<string, number>} */
    const places = {
      ArrowDown: this.at + 1, ArrowUp: this.at - 1, PageDown: this.at + page, PageUp: this.at - page,
      Home: 0, End: last, Enter: this.at, ' ': this.at,
    };
    if (!(event.key in places)) return;
    event.preventDefault();
    this.pick(Math.max(0, Math.min(last, places[event.key])), event.key !== 'Enter' && event.key !== ' ');
  }
}
