// The page's end of a worker: questions with answers, what is under way, and a stop that ends it all at once.

/** What a question that was stopped ends with. */
export class Stopped extends Error {}

export class Questions {
  constructor() {
    this.changed = () => {}; // called where what is under way may have changed
    /** @type {Map<number, { resolve: (value: any) => void, reject: (why: Error) => void, label?: string }>} */
    this.open = new Map();
    this.next = 1;
    /** @type {Worker | null} */
    this.worker = null;
    this.asked = -Infinity; // when it was asked last
    this.started = () => {}; // called where the worker has answered first, or is ended
  }

  /**
   * Asks the worker. While it lasts `label` tells what is under way; what is quick has none.
   * @param {string} job @param {object} body @param {string} [label] @returns {Promise<any>}
   */
  ask(job, body, label) {
    this.#begin();
    const id = this.next++;
    this.asked = performance.now();
    return new Promise((resolve, reject) => {
      this.open.set(id, { resolve, reject, label });
      this.worker?.postMessage({ id, job, ...body });
      this.changed();
    });
  }

  /** Starts the worker before anything is asked; ends where all that it needs is there. @returns {Promise<void>} */
  start() {
    this.#begin();
    this.tell('ready', {});
    return new Promise((go) => { this.started = go; });
  }

  #begin() {
    if (this.worker) return;
    this.worker = new Worker(new URL('worker.mjs', import.meta.url), { type: 'module' });
    this.worker.onmessage = ({ data }) => this.#answered(data);
    this.worker.onerror = (event) => this.stop(new Error(event.message || 'the worker ended'));
  }

  /** Whether nothing is under way, and nothing was asked for so many milliseconds. @param {number} ms */
  isAtRest(ms) {
    return !this.open.size && performance.now() - this.asked > ms;
  }

  /** Tells the worker, if there is one, what has no answer. @param {string} job @param {object} body */
  tell(job, body) {
    this.worker?.postMessage({ id: 0, job, ...body });
  }

  /** What is under way: of what has a label, what was asked first; undefined where there is none. */
  get label() {
    return [...this.open.values()].find(({ label }) => label)?.label;
  }

  /**
   * Ends all that is under way; the next question starts a new worker, which reads its file again.
   * @param {Error} [why]
   */
  stop(why = new Stopped('stopped')) {
    this.worker?.terminate();
    this.worker = null;
    const open = [...this.open.values()];
    this.open.clear();
    for (const { reject } of open) reject(why);
    this.started();
    this.changed();
  }

  /** @param {{ id: number, result?: any, fault?: string }} data */
  #answered({ id, result, fault }) {
    this.started();
    const asked = this.open.get(id);
    if (!asked) return;
    this.open.delete(id);
    if (fault !== undefined) asked.reject(new Error(fault)); else asked.resolve(result);
    this.changed();
  }
}
