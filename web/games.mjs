// Which game's file another file stands on: textures and flats of the game are looked up there.

/** @typedef {{ kind: string, heads: import('./lines.mjs').Lines }} Opened  a file as `lumps` tells it: its kind, and its levels' lines */

/** Whether a file begins as a game's does. @param {Uint8Array} begin its first four bytes */
export const isGame = (begin) => String.fromCharCode(...begin) === 'IWAD';

/** How a file names its levels, by the first of them: as E1M1, as MAP01, or otherwise. @param {Opened} opened */
function namingOf({ heads }) {
  const name = heads.count ? heads.at(0).split(' ')[3] : '';
  return /^E\dM\d$/.test(name) ? 'ExMy' : /^MAP\d\d$/.test(name) ? 'MAPxx' : '';
}

/**
 * The game's file on which a file stands: of several the first that names its levels in the same way, and else the first. None where there
 * is none, or the file is no PWAD.
 * @template {Opened} F @param {F} opened @param {F[]} games in their order @returns {F | null}
 */
export function gameOf(opened, games) {
  if (opened.kind !== 'PWAD') return null;
  const naming = namingOf(opened);
  return games.find((game) => namingOf(game) === naming) ?? games[0] ?? null;
}
