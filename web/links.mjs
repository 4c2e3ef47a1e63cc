// Numbers of linedefs, sectors, things and vertexes as links: each leads to what has the number.
import { make } from './rows.mjs';

const MOST = 500; // links of a list; what follows is text
const NAMED = /\b(linedef|sidedef|sector|thing|vertex) (\d+)/g;

/** A link to a record. @param {string} kind @param {number} index @param {string} [words] */
export function link(kind, index, words = `${kind} ${index}`) {
  const anchor = /** @type {HTMLAnchorElement} */ (make('a', 'go', words));
  anchor.href = `#${kind}-${index}`;
  anchor.dataset.kind = kind;
  anchor.dataset.index = String(index);
  return anchor;
}

/** Words in which each record that they name is a link, by pointers alone: the row in which they stand has keys of its own. @param {string} words */
export function linked(words) {
  const parts = /** @type {(Node | string)[]} */ ([]);
  let at = 0;
  for (const found of words.matchAll(NAMED)) {
    const anchor = link(found[1], Number(found[2]), found[0]);
    anchor.tabIndex = -1;
    parts.push(words.slice(at, found.index), anchor);
    at = found.index + found[0].length;
  }
  return [...parts, words.slice(at)];
}

/** Goes from link to link of a list by arrows, of which the first is reached by Tab. @param {KeyboardEvent} event */
function step(event) {
  const way = /** @type {Record<string, 'nextElementSibling' | 'previousElementSibling'>} */ ({
    ArrowRight: 'nextElementSibling', ArrowDown: 'nextElementSibling', ArrowLeft: 'previousElementSibling', ArrowUp: 'previousElementSibling',
  })[event.key];
  const from = /** @type {HTMLElement} */ (event.target), to = way && /** @type {HTMLElement | null} */ (from[way]);
  if (!way) return;
  event.preventDefault();
  if (!to) return;
  from.tabIndex = -1;
  to.tabIndex = 0;
  to.focus();
}

/**
 * Numbers in a part that scrolls, as links; it fades below while there are more.
 * @param {string} kind @param {ArrayLike<number>} list @param {string} [before] what stands before them, and is no link
 */
export function numbers(kind, list, before = '') {
  const part = make('span', 'numbers', before), fade = () => part.classList.toggle('more', part.scrollTop + part.clientHeight < part.scrollHeight - 1);
  for (let k = 0; k < Math.min(list.length, MOST); k++) {
    const anchor = link(kind, list[k], String(list[k]));
    anchor.tabIndex = k ? -1 : 0;
    anchor.setAttribute('aria-label', `${kind} ${list[k]}`);
    part.append(...k ? [' '] : [], anchor);
  }
  if (list.length > MOST) part.append(` ${Array.prototype.slice.call(list, MOST).join(' ')}`);
  part.addEventListener('keydown', step);
  part.addEventListener('scroll', fade, { passive: true });
  new ResizeObserver(fade).observe(part);
  return part;
}
