// Answers of many lines, kept as bytes: a line becomes a string when it is asked for, so that a million of them cost no more than
// their bytes.

/** @typedef {{ bytes: Uint8Array, ends: Uint32Array }} LinesData  what a worker sends of them */

const decoder = new TextDecoder('utf-8', { ignoreBOM: true });

/**
 * Where each line ends; what follows the last line break is no line.
 * @param {Uint8Array} bytes @returns {LinesData}
 */
export function linesOf(bytes) {
  let count = 0;
  for (let at = bytes.indexOf(10); at >= 0; at = bytes.indexOf(10, at + 1)) count++;
  const ends = new Uint32Array(count);
  for (let k = 0, at = 0; k < count; k++, at++) {
    at = bytes.indexOf(10, at);
    ends[k] = at;
  }
  return { bytes, ends };
}

export class Lines {
  /** @param {LinesData} data */
  constructor({ bytes, ends }) {
    this.bytes = bytes;
    this.ends = ends;
  }

  get count() {
    return this.ends.length;
  }

  /**
   * Line `k`, without its line break.
   * @param {number} k
   */
  at(k) {
    return decoder.decode(this.bytes.subarray(k ? this.ends[k - 1] + 1 : 0, this.ends[k]));
  }

  /**
   * The first line that ends with these letters, of which none takes more than a byte; -1 where there is none. Nothing becomes a string.
   * @param {string} letters
   */
  endingWith(letters) {
    return this.ends.findIndex((end, k) => {
      const from = end - letters.length;
      let at = from < (k ? this.ends[k - 1] + 1 : 0) ? -1 : 0;
      while (at >= 0 && at < letters.length) at = this.bytes[from + at] === letters.charCodeAt(at) ? at + 1 : -1;
      return at >= 0;
    });
  }
}
