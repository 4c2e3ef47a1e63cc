// The service worker: keeps the page's own files, so that a page that was opened once works without a network, too. It asks for these alone, and
// for each of them first where the page is from, so that a newer page is shown wherever there is one. It is no module.

const KEPT = 'wadlook';
/** All that the page consists of. */
const FILES = ['./', 'index.html', 'page.css', 'icon.svg', 'manifest.json', 'served.mjs', 'wad_page.wasm',
  ...['changes', 'codes', 'demo_table', 'demo_words', 'entries', 'facts', 'findings', 'follow', 'found_list', 'games', 'groups', 'inks',
    'level_view', 'linedefs', 'lines', 'links', 'list', 'map_view', 'notices', 'page', 'picture', 'questions', 'readout', 'record_view', 'records', 'rows',
    'saved_picture', 'sketch', 'sketch_words', 'sources', 'specials', 'thing_kinds', 'wad_page', 'words', 'worker', 'workers', 'zip'].map((name) => `${name}.mjs`)];
const own = new Set(FILES.map((file) => new URL(file, location.href).href));

/** @param {any} event of a life of a service worker, which is to last until something is done @param {() => Promise<unknown>} act */
const during = (event, act) => event.waitUntil(act());

addEventListener('install', (event) => during(event, async () => {
  const kept = await caches.open(KEPT);
  await kept.addAll(FILES.map((file) => new Request(file, { cache: 'no-cache' })));
}));
addEventListener('activate', (event) => during(event, () => /** @type {any} */ (self).clients.claim()));

/** A file from where the page is from, which is then kept; without a network the one that was kept. @param {Request} asked */
async function answer(asked) {
  const kept = await caches.open(KEPT);
  try {
    const told = await fetch(asked);
    if (told.ok) await kept.put(asked, told.clone());
    return told;
  } catch (error) {
    const found = await kept.match(asked, { ignoreSearch: true });
    if (!found) throw error;
    return found;
  }
}

addEventListener('fetch', (/** @type {any} */ event) => {
  const { request } = event;
  if (request.method === 'GET' && own.has(request.url.replace(/[?#].*/, ''))) event.respondWith(answer(request));
});
