// Serves the page from a subfolder, as any host does; with programs, these answer in the engine's place.
import { spawn, spawnSync } from 'node:child_process';
import { existsSync, mkdirSync, readFileSync, rmSync, statSync, writeFileSync } from 'node:fs';
import { createServer } from 'node:http';
import { dirname, extname, join, normalize } from 'node:path';
import { isLens, pathsOf } from './asked.mjs';

const TYPES = /** @type {Record<string, string>} */ ({
  '.html': 'text/html', '.css': 'text/css', '.mjs': 'text/javascript', '.svg': 'image/svg+xml', '.json': 'application/json', '.txt': 'text/plain',
});

/** What stands beside the page's files in the engine's place. */
const NATIVE = /** @type {Record<string, string>} */ ({
  'wad_page.mjs': 'native_page.mjs', 'shown_linedefs.mjs': 'shown_linedefs.mjs', 'sketched.mjs': 'sketched.mjs',
});

/** @typedef {{ wadlook: string, wadlens: string }} Programs */
/** @typedef {{ status: number, answer: Buffer, refused: string }} Ended */

/**
 * Runs a program on words that name its files, as `pathsOf` has them: these and the input are bytes.
 * @param {Programs} programs @param {string} room @param {string[]} words @param {Buffer[]} files @param {Buffer} input @returns {Ended}
 */
export function runProgram({ wadlook, wadlens }, room, words, files, input) {
  const paths = pathsOf(words, files.length), folder = join(room, 'run');
  mkdirSync(folder, { recursive: true });
  paths.forEach((path, k) => {
    mkdirSync(join(folder, dirname(path)), { recursive: true }); // a member of an archive stands below the archive's name
    writeFileSync(join(folder, path), files[k]);
  });
  const ran = spawnSync(isLens(words) ? wadlens : wadlook, words, { cwd: folder, input, maxBuffer: 1 << 30 });
  rmSync(folder, { recursive: true, force: true });
  return { status: ran.status ?? 3, answer: ran.stdout, refused: ran.stderr.toString().replace(/^refused: /, '').trimEnd() };
}

/** A question: 4 bytes of length, JSON of words and sizes, the bytes. @param {Buffer} body */
function question(body) {
  const from = 4 + body.readUInt32LE(0), { words, files, input } = JSON.parse(body.toString('utf8', 4, from));
  let at = from;
  const take = (/** @type {number} */ size) => body.subarray(at, at += size);
  return { words, files: files.map(take), input: take(input) };
}

/** @param {Ended} ended */
function answer({ status, answer: bytes, refused }) {
  const head = Buffer.from(JSON.stringify({ status, refused })), size = Buffer.alloc(4);
  size.writeUInt32LE(head.length);
  return Buffer.concat([size, head, bytes]);
}

/**
 * @param {string} folder the page's @param {string} room for files of runs @param {Programs} [programs] @param {string} [wasm] the type of the module
 * @returns {Promise<{ address: string, close: () => void }>}
 */
export async function serve(folder, room, programs, wasm = 'application/wasm') {
  const server = createServer((asked, reply) => {
    const path = normalize(decodeURIComponent(new URL(asked.url ?? '', 'http://x').pathname));
    if (asked.method === 'POST' && programs) {
      /** @type {Buffer[]} */
      const parts = [];
      asked.on('data', (part) => parts.push(part));
      asked.on('end', () => {
        const { words, files, input } = question(Buffer.concat(parts));
        reply.end(answer(runProgram(programs, room, words, files, input)));
      });
      return;
    }
    const name = path.replace(/^\/sub\//, '') || 'index.html';
    const file = programs && NATIVE[name] ? join(import.meta.dirname ?? '', NATIVE[name]) : join(folder, name);
    if (!path.startsWith('/sub/') || !existsSync(file) || !statSync(file).isFile()) return reply.writeHead(404).end();
    reply.writeHead(200, { 'content-type': TYPES[extname(file)] ?? wasm, 'cache-control': 'no-store' });
    reply.end(readFileSync(file));
  });
  await new Promise((go) => server.listen(0, '127.0.0.1', () => go(undefined)));
  const address = /** @type {import('node:net').AddressInfo} */ (server.address());
  return { address: `http://127.0.0.1:${address.port}/sub/`, close: () => server.close() };
}

/**
 * Python's own server of files, where there is one.
 * @param {string} folder @returns {Promise<{ address: string, close: () => void } | null>}
 */
export function pythonHost(folder) {
  const host = spawn('python3', ['-u', '-m', 'http.server', '--bind', '127.0.0.1', '--directory', folder, '0'], { stdio: ['ignore', 'pipe', 'ignore'] });
  return new Promise((go) => {
    host.once('error', () => go(null)).once('exit', () => go(null));
    host.stdout.on('data', (said) => {
      const address = /http:\/\/[\d.]+:\d+\//.exec(String(said))?.[0];
      if (address) go({ address, close: () => { host.kill(); } });
    });
  });
}
