// Follows files that another program saves, where the browser handed out handles by which they can be read again.

/** @typedef {import('./sources.mjs').Handle} Handle */
/** @typedef {{ handle: Handle | null, stamp: string }} Followed  a file that is open, and when it was changed last as it was read */

const PAUSE = 500; // ms between two looks at all files

/** What tells one saving from another: when it was, and the size. @param {File} file */
export const stampOf = ({ lastModified, size }) => `${lastModified} ${size}`;

export class Follower {
  /**
   * @param {() => Followed[]} followed the files that are open
   * @param {(handle: Handle, isThere: boolean) => void} changed called once a change rests: a program may still be writing
   */
  constructor(followed, changed) {
    this.followed = followed;
    this.changed = changed;
    /** @type {Map<Handle, string>} what a look found that was new, which the next has to find again; nothing where the file is gone */
    this.found = new Map();
    /** @type {WeakMap<Handle, string>} what was told last */
    this.told = new WeakMap();
    document.addEventListener('visibilitychange', () => this.#look());
    this.#look();
  }

  async #look() {
    clearTimeout(this.waiting);
    const stamps = new Map(this.followed().flatMap(({ handle, stamp }) => handle ? [[handle, stamp]] : []));
    for (const [handle, stamp] of document.hidden ? [] : stamps) await this.#lookAt(handle, stamp);
    clearTimeout(this.waiting);
    this.waiting = setTimeout(() => this.#look(), PAUSE);
  }

  /** @param {Handle} handle @param {string} stamp of the file as it was read */
  async #lookAt(handle, stamp) {
    const now = await handle.getFile().then(stampOf, () => ''), isKnown = now === (this.told.get(handle) ?? stamp), isSecond = this.found.get(handle) === now;
    if (isKnown || isSecond) this.found.delete(handle); else this.found.set(handle, now);
    if (isKnown || !isSecond) return;
    this.told.set(handle, now);
    this.changed(handle, now !== '');
  }
}
