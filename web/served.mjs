// Where the page was opened as a file it can't start, since a browser loads no module from there: this is none, and says at once what to type.

/** The folder of the page, as the machine writes it. */
function folderOf() {
  const path = decodeURIComponent(location.pathname).replace(/\/[^/]*$/, '');
  return /^\/[A-Za-z]:/.test(path) ? path.slice(1).replaceAll('/', '\\') : path;
}

if (location.protocol === 'file:') {
  document.addEventListener('DOMContentLoaded', () => {
    const folder = folderOf();
    for (const place of document.querySelectorAll('.unserved .folder')) place.textContent = folder;
    document.body.classList.add('as-file');
  });
}
