// Opens the page of a release in headless Chromium behind Python's server of files, and drops the sample on it: see `release`, which runs this.
import { mkdtempSync, rmSync } from 'node:fs';
import { tmpdir } from 'node:os';
import { join } from 'node:path';
import { Browser, chromium } from '../web/test/browser.mjs';
import { pythonHost } from '../web/test/server.mjs';

const [folder, file, line] = process.argv.slice(2);
const room = mkdtempSync(join(tmpdir(), 'release-'));
const host = await pythonHost(folder), browser = new Browser(chromium(), join(room, 'profile'));

/** @param {string} selector */
const textOf = (selector) => browser.run(`document.querySelector(${JSON.stringify(selector)}).textContent`);

/** What the page says of the file, and of the point in the line. */
async function look() {
  if (!host) throw new Error('Python serves nothing');
  await browser.attach();
  await browser.screen(1280, 800, 'light');
  await browser.send('Page.navigate', { url: host.address });
  await browser.until("document.body?.dataset.ready === 'yes'", 'the page');
  await browser.drop(file);
  await browser.until("document.querySelector('#map').dataset.drawn === 'E1M1'", 'the picture of its level');
  await browser.until("!/^(…)?$/.test(document.querySelector('#levels .row-state')?.textContent ?? '')", 'what was found');
  await browser.run(`{ document.querySelector('#at').value = ${JSON.stringify(line.split(' ').slice(0, 2).join(' '))}; }`);
  await browser.press('#pin');
  await browser.until("!document.querySelector('#point').hidden && document.querySelector('#point-clear').textContent !== ''", 'a pinned point');
  const told = [await textOf('#levels .row-name'), await textOf('#levels .row-state'), await textOf('#point-line')], wanted = ['E1M1 doom', '7 warnings · W1 W7 W8 W19', line];
  if (JSON.stringify(told) !== JSON.stringify(wanted)) throw new Error(`wanted ${wanted}\ncame ${told}`);
  const { address } = host, elsewhere = browser.requests.filter((url) => !url.startsWith(address) && !/^(blob|data):/.test(url));
  if (browser.complaints.length || elsewhere.length) throw new Error([...browser.complaints, ...elsewhere].join('\n'));
}

await look().catch((error) => {
  console.log(String(error));
  process.exitCode = 1;
});
host?.close();
await browser.close();
rmSync(room, { recursive: true, force: true });
