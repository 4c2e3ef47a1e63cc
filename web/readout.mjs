// The line under the map. It is as tall as page.css has it, so that the map stays where it is; what has no room there is told in fewer words.

const BETWEEN = ' · ', APART = '  –  '; // facts of a thing, and things
const MORE = ' …';

export class Readout {
  /** @param {HTMLElement} box */
  constructor(box) {
    this.box = box;
    /** @type {string[]} */
    this.told = [];
    new ResizeObserver(() => this.#show()).observe(box);
  }

  /** Tells of things, what matters most first. @param {...string} told */
  tell(...told) {
    this.told = told.filter(Boolean);
    this.#show();
  }

  /** Where there is no room for all, the last facts go, of the last thing first, and then things do. */
  #show() {
    const { box, told } = this, left = told.map((one) => one.split(BETWEEN));
    box.textContent = told.join(APART);
    while (box.scrollHeight > box.clientHeight && left.flat().length > 1) {
      const facts = left.findLast((one) => one.length > 1) ?? left;
      facts.pop();
      box.textContent = this.#words(left);
    }
  }

  /** What is left of the things, with what tells that there is more. @param {string[][]} left */
  #words(left) {
    const words = left.map((facts) => facts.join(BETWEEN)), isLast = (/** @type {number} */ k) => k === left.length - 1 && k < this.told.length - 1;
    return words.map((one, k) => one === this.told[k] && !isLast(k) ? one : `${one}${MORE}`).join(APART);
  }
}
