// The cases of web/zip.mjs: see `zip`, which runs this on a folder of archives that other programs made.
import { readFileSync, readdirSync } from 'node:fs';
import { join } from 'node:path';
import { addUp, check, count, fail } from '../../tests/harness.mjs';
import { filesIn, isZip, membersOf } from '../zip.mjs';

const folder = process.argv[2], blob = (/** @type {Buffer} */ bytes) => new Blob(/** @type {BlobPart[]} */ ([bytes]));
const read = (/** @type {string} */ name) => readFileSync(join(folder, name));
const begins = (/** @type {Buffer} */ bytes) => isZip(bytes.subarray(0, 4), bytes.length);
const whyOf = (/** @type {unknown} */ error) => error instanceof Error ? error.message : String(error);

/** What is found in an archive: what is refused, the paths and the bytes of its files, and how many others there are. @param {Buffer} bytes */
async function told(bytes) {
  try {
    const { files, refused, others } = await filesIn(blob(bytes), 'A');
    const texts = await Promise.all(files.map(async ({ path, blob: file }) => `${path}: ${(await file.text()).slice(0, 8)} ${file.size}`));
    return [...refused.map(({ path, why }) => `${path}: ${why}`), ...texts, ...others ? [`${others} others`] : []];
  } catch (error) { return whyOf(error); }
}

/** An archive with some bytes changed. @param {string} name @param {(bytes: Buffer, entry: number, end: number) => void} change where the first entry of its
 *   directory stands, and the end of that */
function changed(name, change) {
  const bytes = Buffer.from(read(name)), end = bytes.lastIndexOf('PK\x05\x06', undefined, 'latin1');
  change(bytes, bytes.readUInt32LE(end + 16), end);
  return bytes;
}

const ALL = ['A/maps/MAP01.wad: PWAD one 4008', 'A/maps/deep/E1M1.WAD: PWAD two 8', 'A/walk.lmp: \x6d\x02demo 6', '2 others'];
for (const name of ['python.zip', 'python.pk3', 'stored.zip', 'infozip.zip', 'prefixed.zip', 'commented.zip']) {
  check(`the files of ${name}`, await told(read(name)), ALL);
  check(`${name} begins as an archive`, begins(read(name)), name !== 'prefixed.zip');
}
check('an archive within another', await told(read('nested.zip')), ['A/inner.zip/maps/MAP01.wad: PWAD one 4008', 'A/inner.zip/maps/deep/E1M1.WAD: PWAD two 8',
  'A/inner.zip/walk.lmp: \x6d\x02demo 6', 'A/own.wad: PWAD own 8', '2 others']);
check('archives within archives end somewhere', await told(read('deep.zip')), ['A/3.zip/2.zip/1.zip: an archive within several others: unpack it, and drop its files']);
check('an empty archive', [await told(read('empty.zip')), begins(read('empty.zip'))], [[], true]);
check('names that are none of UTF-8', await told(read('names.zip')), ['A/caf\u00e9.wad: PWAD own 8', 'A/na\u00efve.wad: PWAD own 8']);
check('many members', (await membersOf(blob(read('many.zip')))).length, 3000);
check('no more of them than a page opens', (await told(read('many.zip'))).length, 3000);
check('and why', (await told(read('many.zip')))[2499], 'A/2999.wad: no more than 500 files of an archive are opened');
if (readdirSync(folder).includes('encrypted.zip')) {
  check('what is encrypted', (await told(read('encrypted.zip')))[0], 'A/maps/MAP01.wad: encrypted: unpack it with its password, and drop it');
}
check('another way to pack', (await told(read('bzip2.zip')))[0], "A/maps/MAP01.wad: packed by bzip2, which isn't read here: unpack it, and drop it");

// What lies, or was damaged.
const first = async (/** @type {Buffer} */ bytes) => (await told(bytes))[0];
check('no more is inflated than is stated', await first(changed('python.zip', (bytes, entry) => bytes.writeUInt32LE(4000, entry + 24))), 'A/maps/MAP01.wad: it states 4000 bytes, and has more');
check('nor less', await first(changed('python.zip', (bytes, entry) => bytes.writeUInt32LE(4100, entry + 24))), 'A/maps/MAP01.wad: it states 4100 bytes, and has 4008');
check('nor very much', await first(changed('python.zip', (bytes, entry) => bytes.writeUInt32LE(0xfffffff0, entry + 24))), 'A/maps/MAP01.wad: larger than 268435456 bytes');
check('a bomb is cut off', await first(read('bomb.zip')), 'A/bomb.wad: it states 100 bytes, and has more');
check('a stored member that lies', await first(changed('stored.zip', (bytes, entry) => bytes.writeUInt32LE(9, entry + 24))), 'A/maps/MAP01.wad: it states 9 bytes, and has 4008');
check('another sum', await first(changed('python.zip', (bytes, entry) => bytes.writeUInt32LE(1, entry + 16))), "A/maps/MAP01.wad: damaged: its sum (CRC-32) isn't as the archive has it");
const spoilt = changed('python.zip', (bytes, entry) => {
  const at = bytes.readUInt32LE(entry + 42);
  bytes.fill(255, at + 50, at + 60);
});
check('bytes that do not inflate', await first(spoilt), "A/maps/MAP01.wad: damaged: it can't be inflated");
check('a member elsewhere', await first(changed('python.zip', (bytes, entry) => bytes.writeUInt32LE(3, entry + 42))), "A/maps/MAP01.wad: it isn't where the archive's directory says");
check('a member behind all', await first(changed('python.zip', (bytes, entry) => bytes.writeUInt32LE(0x7fffffff, entry + 42))), "A/maps/MAP01.wad: it isn't where the archive's directory says");
check('a member that goes on behind all', await first(changed('stored.zip', (bytes, entry) => [20, 24].forEach((k) => bytes.writeUInt32LE(100000, entry + k)))), 'A/maps/MAP01.wad: the archive was cut short');
check('an archive that is cut short', await told(read('python.zip').subarray(0, -30)), 'a ZIP without its end: it was cut short');
check('more entries than are there', await told(changed('python.zip', (bytes, _, end) => bytes.writeUInt16LE(90, end + 10))), 'a ZIP whose directory is damaged');
check('a directory that is none', await told(changed('python.zip', (bytes, entry) => bytes.fill(0, entry, entry + 4))), 'a ZIP whose directory is damaged');
check('a directory before the file', await told(changed('python.zip', (bytes, _, end) => bytes.writeUInt32LE(0x7ffffff0, end + 16))), 'a ZIP whose directory is damaged');
check('a ZIP64', await told(changed('python.zip', (bytes, _, end) => bytes.writeUInt32LE(0xffffffff, end + 16))), "a ZIP64, which isn't read here: unpack it, and drop its files");
check('a part of several', await told(changed('python.zip', (bytes, _, end) => bytes.writeUInt16LE(1, end + 4))), 'a part of a ZIP of several parts: put them together first');
check('what is none', [begins(Buffer.from('IWAD and more than twenty-two bytes')), begins(Buffer.from('PK'))], [false, false]);

// Each byte changed, one after the other: an answer or a reason, and never more than is stated.
const small = read('small.zip');
for (let k = 0; k < small.length; k++) {
  const bytes = Buffer.from(small);
  bytes[k] ^= 0xff;
  const { files, refused } = await filesIn(blob(bytes), 'A').catch((error) => ({ files: [], refused: [{ path: 'A', why: whyOf(error) }] }));
  const isReason = (/** @type {{ why: string }} */ { why }) => /^[a-zA-Z][^\n]{9,}/.test(why) && !/undefined|null|\[object/.test(why);
  if (files.every(({ blob: file }) => file.size === 8) && refused.every(isReason)) count(true); else fail(`byte ${k} changed`, files, refused);
}
process.exit(addUp());
