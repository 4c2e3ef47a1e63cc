// What was dropped or chosen, as files: folders are taken apart, and archives are handed to `unpack`.
import { stampOf } from './follow.mjs';
import { isGame } from './games.mjs';
import { isZip } from './zip.mjs';

/**
 * @typedef {any} Handle  a FileSystemHandle, where the browser hands one out
 * @typedef {{ file: File, handle: Handle | null, stamp?: string, refused?: string, isGame?: boolean }} Source  a file, by what it may be read again, of
 *   which saving it is, or why it isn't taken; and whether it begins as a game's does
 * @typedef {{ file: File, handle: Handle | null }} Picked  a file as it was handed over: it may be an archive
 * @typedef {{ path: string, get: () => Promise<Picked> }} Found  a file of a folder
 * @typedef {(file: File) => Promise<{ files: { path: string, blob: Blob }[], refused: { path: string, why: string }[], others: number }>} Unpack
 */

const MOST_FILES = 500; // of a folder
const IS_WANTED = /\.(wad|lmp|zip|pk3)$/i, IS_ARCHIVE = /\.(zip|pk3)$/i;
/** How other archives begin. */
const OTHERS = /** @type {[string, number[]][]} */ ([['a 7z archive', [0x37, 0x7a, 0xbc, 0xaf]], ['a RAR archive', [0x52, 0x61, 0x72, 0x21]], ['a gzip archive', [0x1f, 0x8b]]]);

/**
 * A file that isn't taken.
 * @param {string} name @param {string} refused @param {Handle | null} [handle] @param {string} [stamp] @returns {Source}
 */
export const refusal = (name, refused, handle = null, stamp = '') => ({ file: new File([], name), handle, stamp, refused });

/** A file under its path. @param {Blob} blob @param {string} path @param {number} lastModified */
const under = (blob, path, lastModified) => new File([blob], path, { lastModified });

// Folders ----------------------------------------------------------------------------------------------------------------------

/** The files below a folder's handle. @param {Handle} folder @param {string} path @returns {AsyncGenerator<Found>} */
async function* below(folder, path) {
  for await (const handle of folder.values()) {
    const at = `${path}/${handle.name}`;
    if (handle.kind === 'directory') yield* below(handle, at); else yield { path: at, get: async () => ({ file: await handle.getFile(), handle }) };
  }
}

/** The files below a folder's entry, which older browsers have. @param {any} folder @param {string} path @returns {AsyncGenerator<Found>} */
async function* belowEntry(folder, path) {
  const reader = folder.createReader();
  for (;;) {
    const entries = await new Promise((go, no) => reader.readEntries(go, no)); // some of them; none at the end
    if (!entries.length) return;
    for (const entry of entries) {
      const at = `${path}/${entry.name}`;
      if (entry.isDirectory) yield* belowEntry(entry, at);
      else yield { path: at, get: async () => ({ file: await new Promise((go, no) => entry.file(go, no)), handle: null }) };
    }
  }
}

/**
 * The files of a folder that are levels, demos or archives by their names.
 * @param {AsyncIterable<Found>} files @param {string} name
 */
async function inFolder(files, name) {
  const found = [];
  for await (const one of files) if (IS_WANTED.test(one.path)) found.push(one);
  found.sort((a, b) => a.path < b.path ? -1 : 1);
  const taken = await Promise.all(found.slice(0, MOST_FILES).map(async ({ path, get }) => {
    const { file, handle } = await get();
    return { file: under(file, path, file.lastModified), handle };
  }));
  const left = found.length - taken.length;
  if (left) taken.push(refusal(name, `a folder of ${found.length} such files: the first ${MOST_FILES} were opened`));
  return taken.length ? taken : [refusal(name, 'a folder without a WAD file, a demo or a ZIP')];
}

// What was handed over ---------------------------------------------------------------------------------------------------------

/** Where a chosen file may be read again. @param {Handle[]} handles @returns {Promise<Picked[]>} */
export const pickedOf = (handles) => Promise.all(handles.map(async (handle) => ({ file: await handle.getFile(), handle })));

/**
 * The files of a drop. What it has is asked for at once, since a drop forgets it.
 * @param {DataTransfer} dropped @returns {Promise<Source[]>}
 */
export async function droppedFiles(dropped) {
  const items = [...dropped.items].filter(({ kind }) => kind === 'file').map((/** @type {any} */ item) => ({
    handle: item.getAsFileSystemHandle?.().catch(() => null), entry: item.webkitGetAsEntry?.(), file: item.getAsFile(),
  }));
  const sources = await Promise.all(items.map(async ({ handle: asked, entry, file }) => {
    const handle = await asked;
    if (handle?.kind === 'directory') return inFolder(below(handle, handle.name), handle.name);
    if (entry?.isDirectory) return inFolder(belowEntry(entry, entry.name), entry.name);
    const alone = file ? [{ file, handle: null }] : [];
    return handle ? pickedOf([handle]).catch(() => alone) : alone;
  }));
  return sources.flat();
}

const BEGIN = 4; // bytes that tell what a file is

/** How a file begins, which is read once. @param {Blob} file */
const beginOf = async (file) => new Uint8Array(await file.slice(0, BEGIN).arrayBuffer());

/** Which other archive begins so; nothing where none does. @param {Uint8Array} begin */
const otherArchive = (begin) => OTHERS.find(([, bytes]) => bytes.every((byte, k) => begin[k] === byte))?.[0] ?? '';

/**
 * Files as they are opened: those of an archive in its place.
 * @param {Source[]} picked @param {Unpack} unpack @returns {Promise<Source[]>}
 */
export async function takeApart(picked, unpack) {
  const parts = picked.map((source) => source.refused ? [source] : membersOf(source, unpack).catch(() => [source])); // the worker tells why it can't be read
  return (await Promise.all(parts)).flat();
}

/** The files of an archive, or a file itself. @param {Picked} source @param {Unpack} unpack @returns {Promise<Source[]>} */
async function membersOf({ file, handle }, unpack) {
  const { name, lastModified } = file, stamp = stampOf(file), begin = await beginOf(file), other = otherArchive(begin);
  const refused = (/** @type {string} */ path, /** @type {string} */ why) => refusal(path, why, handle, stamp);
  if (other) return [refused(name, `${other}, which isn't read here: unpack it, and drop its files`)];
  if (!IS_ARCHIVE.test(name) && !isZip(begin, file.size)) return [{ file, handle, stamp, isGame: isGame(begin) }];
  let found;
  try { found = await unpack(file); } catch (error) { return [refused(name, error instanceof Error ? error.message : String(error))]; }
  const { files, refused: bad, others } = found, taken = files.map(async ({ path, blob }) =>
    ({ file: under(blob, path, lastModified), handle, stamp, isGame: await beginOf(blob).then(isGame, () => false) }));
  const all = [...await Promise.all(taken), ...bad.map(({ path, why }) => refused(path, why))];
  return all.length ? all : [refused(name, `a ZIP without a WAD file or a demo${others ? `: it has ${others} other files` : ''}`)];
}
