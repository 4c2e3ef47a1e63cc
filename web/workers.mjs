// The page's workers, of which each starts before it's needed. This is loaded before the rest of the page, so that the first is soon there.
import { Questions } from './questions.mjs';
import { canRun } from './wad_page.mjs';

const CALM = 1000; // ms

export const desk = new Questions(); // what is waited for
export const judge = new Questions(); // what takes longer: whole files
export const finer = new Questions(); // pictures of parts

/** Waits until nothing was asked for a while: a file that is dropped at once, and what is asked of it, come first. */
async function calm() {
  do await new Promise((go) => setTimeout(go, CALM)); while (![desk, judge, finer].every((questions) => questions.isAtRest(CALM)));
}

/** Starts the workers one after the other, and at last the one that keeps the page's files, without which the page works while it is served. */
async function start() {
  if (canRun()) {
    await desk.start();
    for (const questions of [judge, finer]) {
      await calm();
      await questions.start();
    }
  }
  await calm();
  /** @type {any} */ (navigator).serviceWorker?.register('offline.mjs').catch(() => {});
}
start();
