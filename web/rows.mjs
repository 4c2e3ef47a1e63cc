// The rows of a list or a table that scrolls: only those in view are made, so a million of them cost no more than a screen. All are equally tall,
// but for a few that are as tall as what stands in them, as headings are: those are always made.

/** Browsers give no element more than some ten million pixels; a longer list scrolls in larger steps. */
const TALLEST = 8_000_000;

/**
 * An element with a class and children; strings become text, never markup.
 * @param {string} tag @param {string} [name] @param {...(Node | string)} children
 */
export function make(tag, name = '', ...children) {
  const element = document.createElement(tag);
  if (name) element.className = name;
  element.append(...children);
  return element;
}

export class Rows {
  /**
   * @param {HTMLElement} viewport the part that scrolls; its `--row` is the height of a row in pixels
   * @param {HTMLElement} body the part that is as tall as all rows @param {(k: number) => HTMLElement} draw makes row `k`
   */
  constructor(viewport, body, draw) {
    this.viewport = viewport;
    this.body = body;
    this.draw = draw;
    this.count = 0;
    this.offset = 0; // pixels of rows above the first that is seen
    this.placed = -1; // where the viewport was last scrolled to from here
    /** @type {number[]} */
    this.odd = []; // rows that are as tall as what stands in them, in their order
    /** @type {{ at: number, tall: number }[]} */
    this.heights = []; // of these, as they were measured
    /** @type {Map<number, HTMLElement>} */
    this.made = new Map();
    viewport.addEventListener('scroll', () => this.#scrolled(), { passive: true });
    viewport.addEventListener('wheel', (event) => this.#wheel(event), { passive: false });
    new ResizeObserver(() => this.#measure()).observe(viewport);
  }

  /**
   * Shows `count` rows from the first on.
   * @param {number} count @param {number[]} [odd] those that are as tall as what stands in them
   */
  show(count, odd) {
    this.offset = 0;
    this.redraw(count, odd);
  }

  /** Makes the rows in view anew, and `count` of them all. @param {number} [count] @param {number[]} [odd] */
  redraw(count = this.count, odd = []) {
    this.count = count;
    this.odd = odd;
    this.#clear();
    this.#measure();
  }

  /**
   * Scrolls no further than is needed to see row `k`, or until it is the first that is seen: so, too, while there is no room for it.
   * @param {number} k @param {boolean} [first]
   */
  reveal(k, first = false) {
    const top = this.#top(k), end = this.#top(k + 1), view = this.#view();
    if (first || top < this.offset || view < end - top) this.offset = top;
    else if (end > this.offset + view) this.offset = end - view;
    this.#place();
  }

  /** Pixels of the rows before row `k`. @param {number} k */
  #top(k) {
    let top = k * this.height;
    for (const { at, tall } of this.heights) if (at < k) top += tall - this.height;
    return top;
  }

  /** The row that has a pixel of all rows. @param {number} y */
  #rowAt(y) {
    let next = 0, top = 0; // a row, and the pixels before it
    for (const { at, tall } of this.heights) {
      const from = top + (at - next) * this.height;
      if (y < from) break;
      if (y < from + tall) return at;
      next = at + 1;
      top = from + tall;
    }
    return next + Math.floor((y - top) / this.height);
  }

  /** Row `k` where it is made. @param {number} k */
  row(k) {
    return this.made.get(k);
  }

  #clear() {
    for (const row of this.made.values()) row.remove();
    this.made.clear();
  }

  /** The height in which rows are seen; what stands above the body takes its part. */
  #view() {
    return Math.max(0, this.viewport.clientHeight - this.body.offsetTop);
  }

  #measure() {
    this.height = parseFloat(getComputedStyle(this.viewport).getPropertyValue('--row')) || 40;
    for (const k of this.odd) this.#make(k).classList.add('odd');
    this.heights = this.odd.map((at) => ({ at, tall: this.made.get(at)?.offsetHeight || this.height }));
    this.body.style.height = `${Math.min(TALLEST, this.#top(this.count))}px`;
    this.#place();
  }

  /** Pixels of rows to a pixel of scrolling. */
  #ratio() {
    const view = this.#view(), total = this.#top(this.count);
    return total <= TALLEST ? 1 : (total - view) / (TALLEST - view);
  }

  #scrolled() {
    if (Math.abs(this.viewport.scrollTop - this.placed) >= 1) this.offset = this.viewport.scrollTop * this.#ratio();
    this.#fill();
  }

  /** @param {WheelEvent} event */
  #wheel(event) {
    if (this.#ratio() === 1 || event.ctrlKey) return;
    event.preventDefault();
    this.offset += event.deltaY * (event.deltaMode === 1 ? this.height : 1);
    this.#place();
  }

  #place() {
    this.offset = Math.max(0, Math.min(this.offset, this.#top(this.count) - this.#view()));
    this.viewport.scrollTop = this.offset / this.#ratio();
    this.placed = this.viewport.scrollTop;
    this.#fill();
  }

  #fill() {
    const first = Math.max(0, this.#rowAt(this.offset) - 4), last = Math.min(this.count, this.#rowAt(this.offset + this.#view()) + 5);
    for (const [k, row] of this.made) {
      if ((k >= first && k < last) || row.classList.contains('odd')) continue;
      row.remove();
      this.made.delete(k);
    }
    const moved = this.#ratio() === 1 ? 0 : this.viewport.scrollTop - this.offset;
    for (let k = last - 1; k >= first; k--) this.#make(k);
    for (const [k, row] of this.made) row.style.transform = `translateY(${this.#top(k) + moved}px)`;
  }

  /** Row `k`, which is made where it isn't there. Rows stand in their order, for those who hear them read. @param {number} k */
  #make(k) {
    const found = this.made.get(k);
    if (found) return found;
    const row = this.draw(k), next = Math.min(...[...this.made.keys()].filter((other) => other > k));
    this.made.set(k, row);
    this.body.insertBefore(row, this.made.get(next) ?? null);
    return row;
  }
}

/** The rows of a list that is short: all are made, each as tall as what stands in it. It is used as `Rows` is. */
export class WholeRows {
  /** @param {HTMLElement} viewport the part that scrolls @param {HTMLElement} body @param {(k: number) => HTMLElement} draw makes row `k` */
  constructor(viewport, body, draw) {
    this.viewport = viewport;
    this.body = body;
    this.draw = draw;
    this.count = 0;
    /** @type {Map<number, HTMLElement>} */
    this.made = new Map();
    viewport.classList.add('whole');
  }

  /** The height of a row, as far as one is like the other. */
  get height() {
    return this.made.get(0)?.offsetHeight ?? 0;
  }

  /** Shows `count` rows from the first on. @param {number} count */
  show(count) {
    this.redraw(count);
    this.viewport.scrollTop = 0;
  }

  /** Makes all rows anew. @param {number} [count] */
  redraw(count = this.count) {
    this.count = count;
    this.made = new Map(Array.from({ length: count }, (_, k) => [k, this.draw(k)]));
    this.body.replaceChildren(...this.made.values());
  }

  /** Scrolls no further than is needed to see row `k`. @param {number} k */
  reveal(k) {
    this.row(k)?.scrollIntoView({ block: 'nearest' });
  }

  /** Row `k`. @param {number} k */
  row(k) {
    return this.made.get(k);
  }
}
