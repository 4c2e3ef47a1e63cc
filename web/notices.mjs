// Messages that stay until they are closed: why something was refused or failed, and what to do.
import { make } from './rows.mjs';
import { get } from './words.mjs';

/** @typedef {{ about: string, words: string, help?: string }} Notice  what it is about, of which the newest stays; what happened; what to do */

/** @type {Map<string, HTMLElement>} by what they are about */
const shown = new Map();

/** Shows how many there are, and a button that closes all where there are several. */
function showCount() {
  const { size } = shown, bar = get('notices-bar');
  get('notices').hidden = !size;
  bar.hidden = size < 2;
  get('notices-count').textContent = `${size} messages`;
}

/** @param {Notice} notice */
function noticeOf({ about, words, help = '' }) {
  const close = make('button', 'close', '×'), told = make('p', '', make('b', '', about), about ? ': ' : '', `${words}.`, help && ` ${help}`);
  close.setAttribute('type', 'button');
  close.setAttribute('aria-label', `Close the message${about ? ` about ${about}` : ''}`);
  close.addEventListener('click', () => forget(about));
  return make('div', 'notice', told, close);
}

/** Tells something until it is closed. @param {Notice} notice */
export function tell(notice) {
  const fresh = noticeOf(notice), before = shown.get(notice.about);
  if (before) before.replaceWith(fresh); else get('notices-list').append(fresh);
  shown.set(notice.about, fresh);
  showCount();
  fresh.scrollIntoView({ block: 'nearest' });
}

/** Takes the message about something away. @param {string} about */
export function forget(about) {
  shown.get(about)?.remove();
  shown.delete(about);
  showCount();
}

get('notices-close').addEventListener('click', () => [...shown.keys()].forEach(forget));
