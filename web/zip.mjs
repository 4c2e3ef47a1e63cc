// Reads ZIP archives, of which PK3 is one, by the directory at their end (PKWARE's APPNOTE.TXT): which members they have, and the bytes of one.

/**
 * @typedef {{ path: string, size: number, packed: number, at: number, crc: number, method: number, isEncrypted: boolean }} Member  of the directory:
 *   its size once it is inflated, and how many bytes it takes in the archive behind the header at `at`
 * @typedef {{ path: string, blob: Blob }} Unpacked @typedef {{ path: string, why: string }} Refused
 */

/** Why an archive or a member isn't read. */
export class Unread extends Error {}

/** Limits, which no archive of levels comes near. */
const MOST_MEMBERS = 65534;
const MOST_DIRECTORY = 1 << 24; // bytes
const MOST_OPENED = 500; // files
const MOST_SIZE = 268435456; // bytes of a file, as the page takes no larger one
const MOST_IN_ALL = 536870912; // bytes of all files
const DEEPEST = 3; // archives within archives

/** What begins the parts of an archive. */
const END = 0x06054b50, ENTRY = 0x02014b50, LOCAL = 0x04034b50;
const END_SIZE = 22, ENTRY_SIZE = 46, LOCAL_SIZE = 30, LONGEST_COMMENT = 65535;
const STORED = 0, DEFLATED = 8;
/** Other ways to pack, as programs name them. */
const METHODS = /** @type {Record<number, string>} */ ({ 1: 'shrink', 6: 'implode', 9: 'Deflate64', 12: 'bzip2', 14: 'LZMA', 93: 'Zstandard', 95: 'XZ', 98: 'PPMd' });

const IS_ARCHIVE = /\.(zip|pk3)$/i, IS_WANTED = /\.(wad|lmp|zip|pk3)$/i;

/** Whether a file begins as an archive does, or is an empty one. @param {Uint8Array} begin its first four bytes @param {number} size */
export function isZip(begin, size) {
  if (size < END_SIZE) return false;
  const mark = new DataView(begin.buffer, begin.byteOffset).getUint32(0, true);
  return mark === LOCAL || mark === END;
}

/** @param {Blob} file @param {number} from @param {number} to */
const viewOf = async (file, from, to) => new DataView(await file.slice(from, to).arrayBuffer());

/** Where the directory's end stands, and what it tells. @param {Blob} archive */
async function endOf(archive) {
  const from = Math.max(0, archive.size - END_SIZE - LONGEST_COMMENT), view = await viewOf(archive, from, archive.size);
  let at = view.byteLength - END_SIZE; // its comment, where it has one, is the last of the file
  while (at >= 0 && (view.getUint32(at, true) !== END || at + END_SIZE + view.getUint16(at + 20, true) !== view.byteLength)) at--;
  if (at < 0) throw new Unread('a ZIP without its end: it was cut short');
  const [disk, count] = [4, 10].map((k) => view.getUint16(at + k, true)), [size, begin] = [12, 16].map((k) => view.getUint32(at + k, true));
  return { at: from + at, disk, count, size, begin };
}

/** Letters of a name: UTF-8, and else as Windows writes them. @param {Uint8Array} bytes */
function nameOf(bytes) {
  let name;
  try { name = new TextDecoder('utf-8', { fatal: true }).decode(bytes); } catch { name = new TextDecoder('windows-1252').decode(bytes); }
  return name.replaceAll('\\', '/').replace(/^(\.?\/)+/, '');
}

/** A member of the directory, and how long its entry is. @param {DataView} view @param {number} at @param {number} shift what stands before the archive */
function entryAt(view, at, shift) {
  if (at + ENTRY_SIZE > view.byteLength || view.getUint32(at, true) !== ENTRY) throw new Unread('a ZIP whose directory is damaged');
  const [flags, method] = [8, 10].map((k) => view.getUint16(at + k, true)), [crc, packed, size] = [16, 20, 24].map((k) => view.getUint32(at + k, true));
  const [name, extra, comment] = [28, 30, 32].map((k) => view.getUint16(at + k, true)), length = ENTRY_SIZE + name + extra + comment;
  if (at + length > view.byteLength) throw new Unread('a ZIP whose directory is damaged');
  const path = nameOf(new Uint8Array(view.buffer, at + ENTRY_SIZE, name));
  return { member: { path, size, packed, crc, method, at: view.getUint32(at + 42, true) + shift, isEncrypted: (flags & 1) === 1 }, length };
}

/** The members of an archive, in its order; it throws why there are none that can be read. @param {Blob} archive @returns {Promise<Member[]>} */
export async function membersOf(archive) {
  const { at, disk, count, size, begin } = await endOf(archive), shift = at - size - begin;
  if (disk) throw new Unread('a part of a ZIP of several parts: put them together first');
  if (count > MOST_MEMBERS || size === 0xffffffff || begin === 0xffffffff) throw new Unread("a ZIP64, which isn't read here: unpack it, and drop its files");
  if (size > MOST_DIRECTORY || shift < 0) throw new Unread('a ZIP whose directory is damaged');
  const view = await viewOf(archive, at - size, at), members = [];
  for (let from = 0, k = 0; k < count; k++) {
    const { member, length } = entryAt(view, from, shift);
    members.push(member);
    from += length;
  }
  return members;
}

/** Why a member isn't read; nothing where it may be. @param {Member} member */
function whyNot({ size, packed, method, isEncrypted }) {
  if (isEncrypted) return 'encrypted: unpack it with its password, and drop it';
  if (method !== STORED && method !== DEFLATED) return `packed by ${METHODS[method] ?? `method ${method}`}, which isn't read here: unpack it, and drop it`;
  if (size > MOST_SIZE || packed > MOST_SIZE) return `larger than ${MOST_SIZE} bytes`;
  return method === STORED && size !== packed ? `it states ${size} bytes, and has ${packed}` : '';
}

const CRC = Uint32Array.from({ length: 256 }, (_, byte) => {
  let sum = byte;
  for (let k = 0; k < 8; k++) sum = sum & 1 ? (sum >>> 1) ^ 0xedb88320 : sum >>> 1;
  return sum;
});

/** CRC-32 of bytes, of which some may have been taken before. @param {Uint8Array} bytes @param {number} before */
function crcOf(bytes, before) {
  let sum = ~before;
  for (let k = 0; k < bytes.length; k++) sum = (sum >>> 8) ^ CRC[(sum ^ bytes[k]) & 255];
  return ~sum >>> 0;
}

/** The bytes that a stream has, no more than a member states. @param {ReadableStream<Uint8Array>} stream @param {Member} member */
async function taken(stream, { size, crc }) {
  const reader = stream.getReader(), parts = [];
  let length = 0, sum = 0;
  for (;;) {
    const { done, value } = await reader.read();
    if (done) break;
    length += value.length;
    if (length > size) {
      await reader.cancel();
      throw new Unread(`it states ${size} bytes, and has more`);
    }
    sum = crcOf(value, sum);
    parts.push(value);
  }
  if (length < size) throw new Unread(`it states ${size} bytes, and has ${length}`);
  if (sum !== crc) throw new Unread("damaged: its sum (CRC-32) isn't as the archive has it");
  return new Blob(/** @type {BlobPart[]} */ (parts));
}

/** The bytes of a member; it throws why there are none. @param {Blob} archive @param {Member} member */
export async function unpacked(archive, member) {
  const why = whyNot(member);
  if (why) throw new Unread(why);
  const head = await viewOf(archive, member.at, member.at + LOCAL_SIZE);
  if (head.byteLength < LOCAL_SIZE || head.getUint32(0, true) !== LOCAL) throw new Unread("it isn't where the archive's directory says");
  const from = member.at + LOCAL_SIZE + head.getUint16(26, true) + head.getUint16(28, true);
  if (from + member.packed > archive.size) throw new Unread('the archive was cut short');
  const stream = archive.slice(from, from + member.packed).stream();
  if (member.method === STORED) return taken(stream, member);
  try {
    return await taken(stream.pipeThrough(new DecompressionStream('deflate-raw')), member);
  } catch (error) {
    throw error instanceof Unread ? error : new Unread("damaged: it can't be inflated");
  }
}

/** A reading of archives: what was found so far, and how much of it. */
class Reading {
  constructor() {
    /** @type {Unpacked[]} */
    this.files = [];
    /** @type {Refused[]} */
    this.refused = [];
    this.others = 0; // members whose names aren't those of files that are opened
    this.bytes = 0;
  }

  /** @param {Blob} archive @param {string} path @param {number} depth */
  async archive(archive, path, depth) {
    const members = (await membersOf(archive)).filter((member) => !member.path.endsWith('/'));
    const wanted = members.filter((member) => IS_WANTED.test(member.path) && !member.path.startsWith('__MACOSX/'));
    this.others += members.length - wanted.length;
    for (const member of wanted) {
      const name = `${path}/${member.path}`;
      try {
        await this.#member(archive, member, name, depth);
      } catch (error) { this.refused.push({ path: name, why: error instanceof Error ? error.message : String(error) }); }
    }
  }

  /** @param {Blob} archive @param {Member} member @param {string} path @param {number} depth */
  async #member(archive, member, path, depth) {
    if (this.files.length >= MOST_OPENED) throw new Unread(`no more than ${MOST_OPENED} files of an archive are opened`);
    if (member.size <= MOST_SIZE && this.bytes + member.size > MOST_IN_ALL) throw new Unread(`no more than ${MOST_IN_ALL} bytes of an archive are unpacked`);
    const blob = await unpacked(archive, member);
    this.bytes += blob.size;
    if (!IS_ARCHIVE.test(path)) this.files.push({ path, blob });
    else if (depth >= DEEPEST) throw new Unread('an archive within several others: unpack it, and drop its files');
    else await this.archive(blob, path, depth + 1);
  }
}

/**
 * The WAD files and demos of an archive and of those within it, by their names; which of these can't be read, and why; and how many members
 * have other names. It throws why the archive itself can't be read.
 * @param {Blob} archive @param {string} path
 */
export async function filesIn(archive, path) {
  const reading = new Reading();
  await reading.archive(archive, path, 1);
  const { files, refused, others } = reading;
  return { files, refused, others };
}
