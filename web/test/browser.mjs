// Headless Chromium over its debugging pipe, and what a person does with a page.
import { spawn } from 'node:child_process';
import { existsSync, readdirSync } from 'node:fs';
import { join } from 'node:path';

export const wait = (/** @type {number} */ ms) => new Promise((go) => setTimeout(go, ms));

/** The codes of keys that are no signs. */
const KEYS = /** @type {Record<string, number>} */ ({
  ArrowDown: 40, ArrowUp: 38, ArrowLeft: 37, ArrowRight: 39, Enter: 13, Escape: 27, Tab: 9, End: 35, Home: 36, Delete: 46,
});

/** The machine may have no mouse, and the page is used with one. */
const WITH_MOUSE = '--blink-settings=primaryHoverType=2,availableHoverTypes=2,primaryPointerType=4,availablePointerTypes=4';

// What an expression ends with whose page is left while it is computed.
const LEFT = /navigated or closed|context was destroyed|Cannot find .*context/;

export class Browser {
  /** @param {string} program @param {string} profile a folder of its own */
  constructor(program, profile) {
    const words = ['--headless=new', '--no-sandbox', '--disable-gpu', '--disable-dev-shm-usage', '--hide-scrollbars', '--no-first-run', '--disable-background-networking',
      '--disable-component-update', WITH_MOUSE, '--remote-debugging-pipe', `--user-data-dir=${profile}`, 'about:blank'];
    this.process = spawn(program, words, { stdio: ['ignore', 'ignore', 'ignore', 'pipe', 'pipe'] });
    this.input = /** @type {import('node:stream').Writable} */ (this.process.stdio[3]);
    this.waiting = new Map();
    this.next = 1;
    /** @type {string[]} */
    this.complaints = [];
    /** @type {string[]} */
    this.requests = [];
    /** @type {string[]} the sessions of the page's workers that are there, in the order in which those began */
    this.workers = [];
    const ended = () => { for (const { no, what } of this.waiting.values()) no(new Error(`${what}: the browser ended`)); };
    this.process.once('exit', ended).once('error', ended);
    this.input.on('error', ended);
    let read = '';
    const output = /** @type {import('node:stream').Readable} */ (this.process.stdio[4]);
    output.setEncoding('utf8');
    output.on('data', (part) => {
      const told = (read + part).split('\0');
      read = told.pop() ?? '';
      for (const message of told) this.#told(JSON.parse(message));
    });
  }

  /** @param {any} told */
  #told({ id, method, params, result, error }) {
    if (id) {
      const { go, no, what } = this.waiting.get(id);
      this.waiting.delete(id);
      if (error) no(new Error(`${what}: ${error.message}`)); else go(result);
    } else if (method === 'Runtime.exceptionThrown') {
      this.complaints.push(params.exceptionDetails.exception?.description ?? params.exceptionDetails.text);
    } else if (method === 'Log.entryAdded' && params.entry.level === 'error') {
      this.complaints.push(`${params.entry.text} ${params.entry.url ?? ''}`);
    } else if (method === 'Network.requestWillBeSent') this.requests.push(params.request.url);
    else if (method === 'Target.attachedToTarget') {
      if (params.targetInfo.type === 'worker') this.workers.push(params.sessionId);
      this.#watch(params.sessionId);
    } else if (method === 'Target.detachedFromTarget') this.workers = this.workers.filter((one) => one !== params.sessionId);
  }

  /** Watches what a worker asks for, too. @param {string} session */
  #watch(session) {
    const told = (/** @type {string} */ method) => this.#write({ id: 0, method, params: {}, sessionId: session });
    ['Network.enable', 'Runtime.runIfWaitingForDebugger'].forEach(told);
  }

  /** @param {any} message */
  #write(message) {
    const id = message.id || this.next++;
    if (!message.id) this.waiting.set(id, { go: () => {}, no: () => {}, what: message.method });
    this.input.write(`${JSON.stringify({ ...message, id })}\0`);
  }

  /** @param {string} method @param {object} [params] @param {string} [sessionId] @returns {Promise<any>} */
  send(method, params = {}, sessionId = this.session) {
    const id = this.next++;
    return new Promise((go, no) => {
      this.waiting.set(id, { go, no, what: method });
      this.#write({ id, method, params, ...(sessionId && { sessionId }) });
    });
  }

  /** Takes the page that is there. */
  async attach() {
    const { targetInfos } = await this.send('Target.getTargets');
    const { targetId } = targetInfos.find((/** @type {any} */ target) => target.type === 'page');
    this.session = (await this.send('Target.attachToTarget', { targetId, flatten: true })).sessionId;
    for (const part of ['Page', 'Runtime', 'Log', 'Network']) await this.send(`${part}.enable`);
    await this.send('Target.setAutoAttach', { autoAttach: true, waitForDebuggerOnStart: true, flatten: true });
  }

  /** @param {string} expression @param {string} [session] a worker's, where it isn't the page's @returns {Promise<any>} */
  async run(expression, session) {
    const { result, exceptionDetails } = await this.send('Runtime.evaluate', { expression, awaitPromise: true, returnByValue: true }, session);
    if (exceptionDetails) throw new Error(`${exceptionDetails.exception?.description ?? exceptionDetails.text} in ${expression}`);
    return result.value;
  }

  /** Waits until an expression holds. @param {string} condition @param {string} [what] @param {number} [seconds] */
  async until(condition, what = condition, seconds = 60) {
    for (const end = Date.now() + 1000 * seconds; Date.now() < end; await wait(5)) {
      const value = await this.run(condition).catch((error) => {
        if (!LEFT.test(String(error))) throw error; // a page that is left doesn't answer
      });
      if (value) return value;
    }
    throw new Error(`never: ${what}`);
  }

  /** @param {number} width @param {number} height @param {'dark' | 'light'} scheme @param {boolean} [mobile] */
  async screen(width, height, scheme, mobile = false) {
    await this.send('Emulation.setDeviceMetricsOverride', { width, height, deviceScaleFactor: 1, mobile });
    await this.send('Emulation.setTouchEmulationEnabled', { enabled: mobile, ...(mobile && { maxTouchPoints: 5 }) });
    const features = [{ name: 'prefers-color-scheme', value: scheme }, { name: 'prefers-reduced-motion', value: 'no-preference' }];
    await this.send('Emulation.setEmulatedMedia', { features });
  }

  /** @returns {Promise<Buffer>} a PNG */
  async picture() {
    return Buffer.from((await this.send('Page.captureScreenshot', { format: 'png' })).data, 'base64');
  }

  /** @param {string} type @param {number} x @param {number} y @param {object} [more] */
  mouse(type, x, y, more = {}) {
    const button = /Moved|Wheel/.test(type) ? { button: 'none' } : { button: 'left', clickCount: 1 };
    return this.send('Input.dispatchMouseEvent', { type, x, y, ...button, ...more });
  }

  /** @param {number} x @param {number} y */
  async click(x, y) {
    await this.mouse('mouseMoved', x, y);
    await this.mouse('mousePressed', x, y);
    await this.mouse('mouseReleased', x, y);
  }

  /** Clicks the middle of an element. @param {string} selector */
  async press(selector) {
    await this.click(...await this.middle(selector));
  }

  /** @param {string} selector @returns {Promise<[number, number]>} */
  middle(selector) {
    return this.run(`(() => { const e = document.querySelector(${JSON.stringify(selector)}); e.scrollIntoView({ block: 'nearest' });
      const b = e.getBoundingClientRect(); return [b.x + b.width / 2, b.y + b.height / 2]; })()`);
  }

  /** @param {string} name @param {number} [modifiers] */
  async key(name, modifiers = 0) {
    const text = name.length === 1 || name === 'Enter' ? { text: name === 'Enter' ? '\r' : name } : {};
    await this.send('Input.dispatchKeyEvent', { type: 'text' in text ? 'keyDown' : 'rawKeyDown', key: name, modifiers, windowsVirtualKeyCode: KEYS[name] ?? 0, ...text });
    await this.send('Input.dispatchKeyEvent', { type: 'keyUp', key: name, modifiers });
  }

  /** @param {string} type @param {...[number, number]} points */
  touch(type, ...points) {
    return this.send('Input.dispatchTouchEvent', { type, touchPoints: points.map(([x, y], id) => ({ x, y, id })) });
  }

  /** Drops files on the page. @param {...string} files */
  async drop(...files) {
    const data = { items: [], files, dragOperationsMask: 1 };
    for (const type of ['dragEnter', 'dragOver', 'drop']) await this.send('Input.dispatchDragEvent', { type, x: 60, y: 60, data });
  }

  /** Chooses files in an input. @param {string} selector @param {...string} files */
  async choose(selector, ...files) {
    const { root } = await this.send('DOM.getDocument'), { nodeId } = await this.send('DOM.querySelector', { nodeId: root.nodeId, selector });
    await this.send('DOM.setFileInputFiles', { nodeId, files });
  }

  async close() {
    const gone = new Promise((go) => this.process.once('exit', go));
    this.send('Browser.close').catch(() => {});
    await Promise.race([gone, wait(5000)]);
    this.process.kill('SIGKILL');
  }
}

/** The browser of this machine, if it has one. */
export function chromium() {
  const folders = (process.env.PATH ?? '').split(':').filter((folder) => existsSync(folder));
  const names = ['chromium', 'chromium-browser', 'google-chrome', 'google-chrome-stable'];
  for (const name of names) {
    const folder = folders.find((one) => readdirSync(one).includes(name));
    if (folder) return join(folder, name);
  }
  return '';
}
