// The picture on two canvases: the ground of cells, and over it lines, things and marks; with zoom, pan, keys and a pin.
import { cellColour, css, pixel, themeNow } from './inks.mjs';
import { distance, lineAt } from './linedefs.mjs';
import { CLASSES, THING } from './picture.mjs';

/** @typedef {import('./picture.mjs').Picture} Picture */
/** @typedef {import('./inks.mjs').Colour} Colour @typedef {import('./inks.mjs').Sight} Sight */
/** @typedef {{ x: number, y: number, zoom: number }} View  the map's place in the middle, and pixels to a unit */
/** @typedef {{ at: number[], k: number, title: string }} FindingPlace  of a finding and its object: x y, or x y x y of each of its lines */
/**
 * @typedef {{ sector: string, thing: number, linedef: number, found: FindingPlace | null }} Under  what lies under the pointer: what the picture tells of
 *   a sector, numbers of a thing and a linedef, -1 where there is none, and a finding
 */
/** @typedef {{ at: number[], kind: string }} Asked  the place of what was asked for */
/** @typedef {(colour: Colour, ...lines: [Path2D, number][]) => void} Cased  strokes paths of some widths over their cases */
/**
 * @typedef {{ hover: (x: number, y: number, under: Under) => void, leave: () => void, press: (x: number, y: number, under: Under) => void,
 *   unpin: () => void, moved: (view: View) => void, taken: () => Taken }} Tell
 * @typedef {{ right: number, corner: { width: number, height: number } }} Taken  pixels that are covered along the right edge, and in the lower left
 *   corner
 */

const CLOSEST = 16; // pixels to a unit
const FARTHEST = 32767; // a number of a place is no larger; cells may reach beyond
const SOON = 30; // ms in which an answer is waited for, so that what it changes is drawn with it
const SLOW = 30; // ms: a picture that takes longer is moved as it is, and drawn anew when it rests
const RING = 24; // units about the only end of a linedef
const NEAR = 7, NEAR_TOUCH = 16; // pixels in which a mark, a thing or a linedef is hit by a pointer, and by a finger
const BATCH = 500; // things of a path: a browser takes longer for one of many more than for many of them
const CASE = 1.2; // pixels of the ground's colour about a mark, so that it stands out on each sector, whatever its light and tint

/** Lines of x y x y as a path. @param {ArrayLike<number>} at */
function pathOf(at) {
  const path = new Path2D();
  for (let k = 0; k + 3 < at.length; k += 4) {
    path.moveTo(at[k], at[k + 1]);
    path.lineTo(at[k + 2], at[k + 3]);
  }
  return path;
}

/** The corners of a dart, before it is turned and moved; a thing is drawn so. */
const DART = [[20, 0], [-12, 14], [-12, -14]], DART_SIZE = 12;

/** Adds a dart to a path. @param {Path2D} path @param {number} x @param {number} y @param {number} turn @param {number} scale */
function addDart(path, x, y, turn, scale) {
  const cos = Math.cos(turn * Math.PI / 180) * scale, sin = Math.sin(turn * Math.PI / 180) * scale;
  DART.forEach(([ahead, aside], k) => {
    const to = /** @type {const} */ ([x + ahead * cos - aside * sin, y + ahead * sin + aside * cos]);
    if (k) path.lineTo(...to); else path.moveTo(...to);
  });
  path.closePath();
}

/** Lines of x y x y, and rings about places of x y. @param {number[][]} all */
function marksOf(all) {
  const path = pathOf(all.flatMap((at) => at.length > 2 ? at : []));
  for (const [x, y] of all.filter((at) => at.length === 2)) {
    path.moveTo(x + RING, y);
    path.arc(x, y, RING, 0, 2 * Math.PI);
  }
  return path;
}

/** Whether a finding's place is nearer than this. @param {number[]} at @param {number} x @param {number} y @param {number} near */
function isNear(at, x, y, near) {
  for (let k = 0; k < at.length; k += 4) if (distance(at.slice(k, k + 4), x, y) < near) return true;
  return false;
}

/** The box about a finding's place. @param {number[]} at */
function boxOf(at) {
  const least = [at[0], at[1]], most = [at[0], at[1]];
  at.forEach((v, k) => {
    least[k % 2] = Math.min(least[k % 2], v);
    most[k % 2] = Math.max(most[k % 2], v);
  });
  return { x: (least[0] + most[0]) / 2, y: (least[1] + most[1]) / 2, width: most[0] - least[0], height: most[1] - least[1] };
}

/** A picture's cells as an image of a pixel each, in the inks of the theme. */
class Ground {
  /** @param {Picture} picture */
  constructor(picture) {
    this.picture = picture;
    this.canvas = new OffscreenCanvas(picture.columns, picture.rows);
    this.pen = /** @type {OffscreenCanvasRenderingContext2D} */ (this.canvas.getContext('2d'));
    this.image = this.pen.createImageData(picture.columns, picture.rows);
  }

  /** Paints each sector's cells in the colour that `ink` gives it. @param {(shown: import('./picture.mjs').Shown) => Colour} ink */
  paint(ink) {
    const { columns, rows, cells, shown } = this.picture, inks = new Uint32Array(shown.length + 1);
    shown.forEach((one, k) => { inks[k + 1] = pixel(ink(one)); });
    const pixels = new Uint32Array(this.image.data.buffer);
    for (let j = 0; j < rows; j++) { // the lowest row of the map is the image's last
      const from = j * columns, to = (rows - 1 - j) * columns;
      for (let i = 0; i < columns; i++) pixels[to + i] = inks[cells[from + i]];
    }
    this.pen.putImageData(this.image, 0, 0);
  }

  /** Which sector's cell a place is in. @param {number} x @param {number} y */
  shownAt(x, y) {
    const { x0, y0, size, columns, rows, cells, shown } = this.picture;
    const i = Math.floor((x - x0) / size), j = Math.floor((y - y0) / size);
    return i >= 0 && j >= 0 && i < columns && j < rows ? shown[cells[j * columns + i] - 1] : undefined;
  }

  /** @param {number} x @param {number} y */
  has(x, y) {
    const { x0, y0, size, columns, rows } = this.picture;
    return x >= x0 && y >= y0 && x < x0 + size * columns && y < y0 + size * rows;
  }
}

export class MapView {
  /** @param {HTMLElement} frame @param {Tell} tell */
  constructor(frame, tell) {
    this.frame = frame;
    this.tell = tell;
    this.view = { x: 0, y: 0, zoom: 1 };
    this.size = { width: 1, height: 1 };
    this.ratio = devicePixelRatio;
    this.fitted = true;
    this.base = document.createElement('canvas');
    this.over = document.createElement('canvas');
    frame.prepend(this.base, this.over);
    /** @type {Picture | null} */
    this.picture = null;
    this.linedefs = new Int32Array(); // six numbers of each: see linedefs.mjs
    /** @type {Ground | null} */
    this.ground = null;
    /** @type {Ground | null} */
    this.fine = null; // of the part in view, in smaller cells
    /** @type {Map<number, { x: number, y: number }>} */
    this.pointers = new Map();
    this.forget();
    this.hovered = -1;
    this.dragged = 0;
    this.took = 0; // ms that the last whole drawing took
    this.drawn = { ...this.view };
    /** @type {ReturnType<typeof setTimeout> | undefined} */
    this.soon = undefined;
    new ResizeObserver(() => this.#resize()).observe(frame);
    for (const query of ['(prefers-color-scheme: dark)', '(forced-colors: active)']) {
      matchMedia(query).addEventListener('change', () => this.#theme());
    }
    this.#theme();
    frame.addEventListener('wheel', (event) => this.#wheel(event), { passive: false });
    for (const name of ['pointerdown', 'pointermove', 'pointerup', 'pointercancel', 'pointerleave']) {
      frame.addEventListener(name, (event) => this.#pointer(/** @type {PointerEvent} */ (event)));
    }
    frame.addEventListener('keydown', (event) => this.#key(event));
  }

  /** Lets go of all marks. */
  forget() {
    /** @type {number[] | null} */
    this.found = null;
    /** @type {FindingPlace[]} */
    this.places = [];
    this.placeLines = new Path2D();
    /** @type {{ x: number, y: number } | null} */
    this.pinned = null;
    this.block = new Path2D();
    /** @type {Asked | null} */
    this.asked = null;
    this.seen = { sector: -1, answers: /** @type {string[]} */ ([]) };
  }

  /** Shows a picture, from a view of it or the whole of it; none with null. @param {Picture | null} picture @param {View | null} [view] */
  show(picture, view) {
    this.picture = picture;
    this.ground = picture && new Ground(picture);
    this.fine = null;
    this.hovered = -1;
    if (!picture) this.forget(); // what was marked while it was drawn stays
    if (picture) {
      this.oneSided = pathOf(picture.oneSided);
      this.twoSided = pathOf(picture.twoSided);
      this.mistaken = marksOf(picture.mistaken.map(({ at }) => at));
    }
    this.#ink();
    if (picture && view) this.#set(view); else this.fit();
    if (this.found && this.frame.checkVisibility()) this.mark(this.found, !!view);
  }

  /** What the picture tells of a sector; nothing where it has no cell of it. @param {number} sector */
  titleOf(sector) {
    return this.picture?.shown.find((one) => one.sector === sector)?.title ?? '';
  }

  /** Puts the smaller cells of a part in place of those that are shown. @param {Picture} picture */
  sharpen(picture) {
    this.fine = new Ground(picture);
    this.#ink();
  }

  /** Units to a cell where it is coarsest in view; 0 where no cells are shown. */
  get cell() {
    const { ground, fine, view: { x, y, zoom } } = this, dx = this.size.width / zoom / 2, dy = this.size.height / zoom / 2;
    if (!ground?.picture.shown.length) return 0;
    const { x0, y0, size, columns, rows } = ground.picture; // of which this much is in view:
    const left = Math.max(x0, x - dx), right = Math.min(x0 + size * columns - 1, x + dx, FARTHEST);
    const low = Math.max(y0, y - dy), high = Math.min(y0 + size * rows - 1, y + dy, FARTHEST);
    if (left > right || low > high) return 0;
    return (fine?.has(left, low) && fine.has(right, high) ? fine : ground).picture.size;
  }

  /** Marks the places of findings. @param {FindingPlace[]} places */
  markAll(places) {
    this.places = places;
    this.placeLines = pathOf(places.flatMap(({ at }) => at.length > 2 ? at : []));
    this.#redraw();
  }

  /**
   * Marks the place of a chosen finding (x y, or lines) and brings it to the middle; none with null.
   * @param {number[] | null} place @param {boolean} [stays] whether the view stays as it is
   */
  mark(place, stays = false) {
    this.#resize(); // it may have been hidden until now
    this.found = place;
    if (place && !stays) this.#flyTo(place);
    this.#redraw();
  }

  /** Marks what was asked for, and brings it to the middle; none with null. @param {Asked | null} asked @param {boolean} [stays] */
  ask(asked, stays = false) {
    this.asked = asked;
    if (asked && !stays) this.#flyTo(asked.at);
    this.#redrawSoon();
  }

  /** @param {number[]} place */
  #flyTo(place) {
    const { x, y, width, height } = boxOf(place), near = Math.max(this.view.zoom, Math.min(0.6, this.#whole().zoom * 5));
    const whole = 0.8 * Math.min(this.size.width / width, this.size.height / height); // so that all of an outline is seen, and a small one, too
    this.#fly({ x, y, zoom: place.length > 4 ? Math.min(whole, Math.max(near, 60 / Math.max(1, width, height)), CLOSEST) : near });
  }

  /** Marks the pinned point; none with null. @param {{ x: number, y: number } | null} at */
  pin(at) {
    this.pinned = at;
    if (!at) {
      this.block = new Path2D();
      this.sight(-1, []);
    } else if (this.#outOfView(at.x, at.y)) this.#fly({ ...this.view, ...at });
    this.#redrawSoon();
  }

  /** Draws a block's linedefs. @param {number[]} lines x y x y of each */
  showBlock(lines) {
    this.block = pathOf(lines);
    this.#redraw();
  }

  /** Tints what REJECT says of each sector from `sector`. @param {number} sector @param {string[]} answers */
  sight(sector, answers) {
    this.seen = { sector, answers };
    this.#ink();
  }

  fit() {
    if (!this.picture) return this.#redraw();
    const { x, y, width, height } = this.picture.box, { left, right, bottom, zoom } = this.#whole();
    this.#set({ x: x + width / 2 + (right - left) / 2 / zoom, y: y + height / 2 - bottom / 2 / zoom, zoom });
    this.fitted = true;
  }

  /** The zoom at which all of the map is beside what covers the frame's edges, and what it leaves free there. */
  #whole() {
    const { right, corner } = this.tell.taken(), { width, height } = this.size, box = this.picture?.box ?? this.size;
    const [beside, above] = [{ left: corner.width, right, bottom: 0 }, { left: 0, right, bottom: corner.height }].map((edges) => {
      const free = { width: Math.max(width - edges.left - edges.right, width / 3), height: Math.max(height - edges.bottom, height / 3) };
      return { ...edges, zoom: Math.min(CLOSEST, 0.95 * Math.min(free.width / box.width, free.height / box.height)) };
    });
    return beside.zoom > above.zoom ? beside : above;
  }

  /** Zooms about a place of the frame, the middle where none is given. @param {number} factor @param {number} [px] @param {number} [py] */
  zoom(factor, px = this.size.width / 2, py = this.size.height / 2) {
    const zoom = Math.max(this.#whole().zoom / 2, Math.min(CLOSEST, this.view.zoom * factor)), [x, y] = this.at(px, py);
    this.#set({ zoom, x: x - (px - this.size.width / 2) / zoom, y: y + (py - this.size.height / 2) / zoom });
  }

  /** The map's place under a place of the frame. @param {number} px @param {number} py */
  at(px, py) {
    const { x, y, zoom } = this.view;
    return [x + (px - this.size.width / 2) / zoom, y - (py - this.size.height / 2) / zoom];
  }

  /** The part of the map that is in view, and some around it: x0 y0 x1 y1. */
  get part() {
    const { x, y, zoom } = this.view, dx = 0.6 * this.size.width / zoom, dy = 0.6 * this.size.height / zoom;
    return [x - dx, y - dy, x + dx, y + dy].map((at) => Math.max(-32768, Math.min(FARTHEST, Math.round(at))));
  }

  /** Moves by pixels. @param {number} dx @param {number} dy */
  pan(dx, dy) {
    this.#set({ ...this.view, x: this.view.x - dx / this.view.zoom, y: this.view.y + dy / this.view.zoom });
  }

  /** @param {number} x @param {number} y */
  #outOfView(x, y) {
    return Math.abs(x - this.view.x) * this.view.zoom > this.size.width / 2 || Math.abs(y - this.view.y) * this.view.zoom > this.size.height / 2;
  }

  /** @param {View} to */
  #fly(to) {
    if (matchMedia('(prefers-reduced-motion: reduce)').matches) return this.#set(to);
    const from = { ...this.view }, began = performance.now(), flight = {};
    const step = (/** @type {number} */ now) => {
      if (this.flight !== flight) return;
      const t = Math.min(1, Math.max(0, (now - began) / 320)), s = 1 - (1 - t) ** 3;
      this.#set({ x: from.x + (to.x - from.x) * s, y: from.y + (to.y - from.y) * s, zoom: from.zoom * (to.zoom / from.zoom) ** s }, flight);
      if (t < 1) requestAnimationFrame(step);
    };
    this.flight = flight;
    requestAnimationFrame(step);
  }

  /** @param {View} view @param {object} [flight] any other move ends a flight */
  #set(view, flight) {
    this.flight = flight;
    this.fitted = false;
    this.view = view;
    this.moving = true;
    this.#redraw();
  }

  #redraw() {
    clearTimeout(this.soon);
    this.soon = undefined;
    this.waiting ??= requestAnimationFrame(() => this.#drawNow());
  }

  /** Draws anew where an answer has it done, or else a little later: a drawing would keep the page from hearing the answer. */
  #redrawSoon() {
    if (!this.waiting) this.soon ??= setTimeout(() => this.#redraw(), SOON);
  }

  /** Draws what waits for the next frame. */
  #drawNow() {
    if (this.waiting) cancelAnimationFrame(this.waiting);
    this.waiting = undefined;
    this.#draw();
  }

  // Colours ----------------------------------------------------------------------------------------------------------------------

  #theme() {
    this.theme = themeNow();
    this.#ink();
  }

  /** What is known of a sector from the pinned one. @param {number} sector @returns {Sight} */
  #sightOf(sector) {
    const { seen } = this;
    if (seen.sector < 0) return 'unknown';
    return sector === seen.sector ? 'here' : /** @type {Sight | undefined} */ (seen.answers[sector]) ?? 'unknown';
  }

  #ink() {
    const colour = ({ sector, light }) => cellColour(this.theme, light, this.#sightOf(sector), sector === this.hovered);
    for (const ground of [this.ground, this.fine]) ground?.paint(colour);
    this.#redraw();
  }

  // Drawing ----------------------------------------------------------------------------------------------------------------------

  #draw() {
    if (this.moving) this.tell.moved(this.view);
    clearTimeout(this.resting);
    if (this.moving && this.took > SLOW) {
      const { x, y, zoom } = this.view, scale = zoom / this.drawn.zoom;
      const move = `translate(${(this.drawn.x - x) * zoom}px, ${(y - this.drawn.y) * zoom}px) scale(${scale})`;
      for (const canvas of [this.base, this.over]) canvas.style.transform = move;
      this.moving = false;
      this.resting = setTimeout(() => this.#redraw(), 120);
      return;
    }
    this.moving = false;
    const began = performance.now();
    this.drawn = { ...this.view };
    for (const canvas of [this.base, this.over]) canvas.style.transform = '';
    this.#drawGround();
    this.#drawLines();
    this.took = performance.now() - began;
  }

  #drawGround() {
    const pen = /** @type {CanvasRenderingContext2D} */ (this.base.getContext('2d', { alpha: false })), { base, ground, fine } = this;
    pen.setTransform(1, 0, 0, 1, 0, 0);
    pen.fillStyle = css(this.theme.inks.void);
    pen.fillRect(0, 0, base.width, base.height);
    pen.imageSmoothingEnabled = false;
    if (ground) this.#drawCells(pen, ground);
    if (!fine) return;
    const [x, y, width, height] = this.#place(fine.picture);
    pen.fillRect(x, y, width, height);
    this.#drawCells(pen, fine);
  }

  /** Where all cells of a picture stand on the canvas. @param {Picture} picture */
  #place({ x0, y0, size, columns, rows }) {
    const zoom = this.view.zoom * this.ratio, { base } = this;
    const left = (x0 - this.view.x) * zoom + base.width / 2, top = (this.view.y - y0 - size * rows) * zoom + base.height / 2;
    return [left, top, size * columns * zoom, size * rows * zoom];
  }

  /** Draws the cells that are in view. @param {CanvasRenderingContext2D} pen @param {Ground} ground */
  #drawCells(pen, { picture, canvas }) {
    const [left, top] = this.#place(picture), cell = picture.size * this.view.zoom * this.ratio, { base } = this;
    const i = Math.max(0, Math.floor(-left / cell)), j = Math.max(0, Math.floor(-top / cell));
    const n = Math.min(picture.columns, Math.ceil((base.width - left) / cell)) - i, k = Math.min(picture.rows, Math.ceil((base.height - top) / cell)) - j;
    if (n > 0 && k > 0) pen.drawImage(canvas, i, j, n, k, left + i * cell, top + j * cell, n * cell, k * cell);
  }

  #drawLines() {
    const pen = /** @type {CanvasRenderingContext2D} */ (this.over.getContext('2d')), { picture, ratio } = this, { inks } = this.theme, { x, y, zoom } = this.view;
    pen.setTransform(1, 0, 0, 1, 0, 0);
    pen.clearRect(0, 0, this.over.width, this.over.height);
    if (!picture) return;
    pen.setTransform(zoom * ratio, 0, 0, -zoom * ratio, this.over.width / 2 - x * zoom * ratio, this.over.height / 2 + y * zoom * ratio);
    pen.lineCap = 'round';
    const stroke = (/** @type {Path2D | undefined} */ path, /** @type {string} */ colour, /** @type {number} */ width) => {
      pen.strokeStyle = colour;
      pen.lineWidth = width / zoom;
      if (path) pen.stroke(path);
    };
    /** @type {Cased} */
    const cased = (colour, ...lines) => {
      for (const [path, width] of lines) stroke(path, css(inks.void), width + 2 * CASE);
      for (const [path, width] of lines) stroke(path, css(colour), width);
    };
    stroke(this.twoSided, css(inks.step, 0.6 * Math.min(1, 0.55 + zoom)), 0.8); // texture, which may be faint: what can't be passed is a wall
    stroke(this.oneSided, css(inks.wall), 1.3);
    if (this.mistaken) cased(inks.fault, [this.mistaken, 3.5]);
    this.#drawThings(pen, picture.things);
    cased(inks.accent, [this.block, 2.6]);
    this.#drawPlaces(cased);
    this.#drawAsked(cased);
    this.#drawFound(pen, cased);
    this.#drawPin(pen);
  }

  /** How large a thing is drawn, in units. */
  #thing() {
    return Math.max(10, 1.6 / this.view.zoom);
  }

  /** @param {CanvasRenderingContext2D} pen @param {Int32Array} things */
  #drawThings(pen, things) {
    const { inks } = this.theme, { zoom } = this.view, scale = this.#thing() / DART_SIZE, darts = CLASSES.map(() => [new Path2D()]);
    for (let k = 0, drawn = 0; k < things.length; k += THING) {
      const [x, y, turn, kind] = things.subarray(k, k + THING);
      if (this.#outOfView(x, y)) continue;
      addDart(darts[kind][0], x, y, turn, scale);
      if (++drawn % BATCH === 0) for (const paths of darts) paths.unshift(new Path2D());
    }
    pen.lineJoin = 'round';
    pen.lineWidth = 2 * CASE / zoom;
    pen.strokeStyle = css(inks.void);
    for (const path of darts.flat()) pen.stroke(path);
    CLASSES.forEach((name, kind) => {
      pen.fillStyle = css(inks[name]);
      for (const path of darts[kind]) pen.fill(path);
    });
  }

  /** A line stands out, and a point has a ring. @param {Cased} cased */
  #drawPlaces(cased) {
    const rings = new Path2D(), radius = 5 / this.view.zoom;
    for (const { at: [x, y] } of this.places.filter(({ at }) => at.length === 2)) {
      rings.moveTo(x + radius, y);
      rings.arc(x, y, radius, 0, 2 * Math.PI);
    }
    cased(this.theme.inks.fault, [this.placeLines, 2.4]);
    cased(this.theme.inks.fault, [rings, 2]);
  }

  /** Lines of what was asked for, or a ring about it; a linedef has a tick on its front. @param {Cased} cased */
  #drawAsked(cased) {
    const { asked } = this, { inks } = this.theme, unit = 1 / this.view.zoom;
    if (!asked) return;
    const path = pathOf(asked.at), [ax, ay, bx, by] = asked.at;
    if (asked.at.length === 2) path.arc(ax, ay, (asked.kind === 'thing' ? this.#thing() * 2 + 4 * unit : 7 * unit), 0, 2 * Math.PI);
    const length = Math.hypot(bx - ax, by - ay);
    if (asked.kind === 'linedef' && length) {
      path.moveTo((ax + bx) / 2, (ay + by) / 2);
      path.lineTo((ax + bx) / 2 + 9 * unit * (by - ay) / length, (ay + by) / 2 - 9 * unit * (bx - ax) / length);
    }
    cased(inks.ink, [path, 3]);
  }

  /** @param {CanvasRenderingContext2D} pen @param {Cased} cased */
  #drawFound(pen, cased) {
    const { found } = this, { inks } = this.theme, unit = 1 / this.view.zoom;
    if (!found) return;
    const lines = pathOf(found), target = new Path2D(), { x, y } = boxOf(found);
    if (found.length > 4) return cased(inks.fault, [lines, 5.5]); // the middle of an outline may be outside
    target.arc(x, y, 19 * unit, 0, 2 * Math.PI);
    for (const [dx, dy] of [[1, 0], [-1, 0], [0, 1], [0, -1]]) {
      target.moveTo(x + 19 * dx * unit, y + 19 * dy * unit);
      target.lineTo(x + 29 * dx * unit, y + 29 * dy * unit);
    }
    cased(inks.fault, [target, 2.2], [lines, 4.5]);
    pen.beginPath();
    pen.arc(x, y, 2.5 * unit, 0, 2 * Math.PI);
    pen.fillStyle = css(inks.fault);
    pen.fill();
  }

  /** @param {CanvasRenderingContext2D} pen */
  #drawPin(pen) {
    const { pinned } = this, { inks } = this.theme, unit = 1 / this.view.zoom;
    if (!pinned) return;
    /** @type {[number, string][]} */
    const rings = [[10, css(inks.void)], [8, css(inks.ink)], [5.6, css(inks.void)], [2.6, css(inks.ink)]];
    for (const [radius, colour] of rings) {
      pen.fillStyle = colour;
      pen.beginPath();
      pen.arc(pinned.x, pinned.y, radius * unit, 0, 2 * Math.PI);
      pen.fill();
    }
  }

  #resize() {
    const { width, height } = this.frame.getBoundingClientRect();
    const isSame = width === this.size.width && height === this.size.height && this.ratio === devicePixelRatio;
    if (!width || !height || isSame) return;
    this.ratio = devicePixelRatio;
    this.size = { width, height };
    for (const canvas of [this.base, this.over]) {
      canvas.width = Math.round(width * this.ratio);
      canvas.height = Math.round(height * this.ratio);
    }
    this.took = 0;
    if (this.fitted) this.fit(); else this.#set(this.view);
    this.#drawNow(); // the canvases are empty, and black
  }

  // Pointer and keys -------------------------------------------------------------------------------------------------------------

  /** What lies under a place of the map. @param {number} x @param {number} y @param {number} [near] pixels @returns {Under} */
  #under(x, y, near = NEAR) {
    const reach = near / this.view.zoom, shown = (this.fine?.has(x, y) ? this.fine : this.ground)?.shownAt(x, y);
    if (!this.picture) return { sector: '', thing: -1, linedef: -1, found: null };
    if ((shown?.sector ?? -1) !== this.hovered) {
      this.hovered = shown?.sector ?? -1;
      this.#ink();
    }
    const found = this.places.find(({ at }) => isNear(at, x, y, reach)) ?? null;
    return { sector: shown?.title ?? '', thing: this.#thingAt(x, y, Math.max(this.#thing(), reach)), linedef: lineAt(this.linedefs, x, y, reach), found };
  }

  /** The number of the thing that is nearest to a place; -1 where none is near. @param {number} x @param {number} y @param {number} near units */
  #thingAt(x, y, near) {
    const things = this.picture?.things ?? [];
    let nearest = near, thing = -1;
    for (let k = 0; k < things.length; k += THING) {
      const far = Math.hypot(things[k] - x, things[k + 1] - y);
      if (far > nearest) continue;
      nearest = far;
      thing = Number(/\d+/.exec(this.picture?.thingTitles[k / THING] ?? '')?.[0] ?? -1);
    }
    return thing;
  }

  /** @param {WheelEvent} event */
  #wheel(event) {
    if (!this.picture) return; // what is told in its place may be scrolled
    event.preventDefault();
    const box = this.frame.getBoundingClientRect(), step = event.deltaY * (event.deltaMode === 1 ? 30 : 1) * (event.ctrlKey ? 0.01 : 0.0018);
    this.zoom(Math.exp(-Math.max(-0.6, Math.min(0.6, step))), event.clientX - box.left, event.clientY - box.top);
  }

  /** @param {PointerEvent} event */
  #pointer(event) {
    if (/** @type {Element} */ (event.target).closest('button')) return;
    const box = this.frame.getBoundingClientRect(), at = { x: event.clientX - box.left, y: event.clientY - box.top };
    const before = this.pointers.get(event.pointerId);
    if (event.type === 'pointerdown' && event.button === 0) this.#press(event.pointerId, at);
    else if (event.type === 'pointermove' && before) this.#drag(event.pointerId, before, at);
    else if (event.type === 'pointermove') this.#hover(at);
    else if (event.type === 'pointerleave') this.#leave();
    else if (before) this.#release(event, at);
  }

  /** @param {number} id @param {{ x: number, y: number }} at */
  #press(id, at) {
    if (!this.pointers.size) this.dragged = 0;
    this.pointers.set(id, at);
    this.frame.setPointerCapture(id);
  }

  /** @param {number} id @param {{ x: number, y: number }} before @param {{ x: number, y: number }} at */
  #drag(id, before, at) {
    this.dragged += Math.hypot(at.x - before.x, at.y - before.y);
    const [a, b] = [...this.pointers.values()];
    this.pointers.set(id, at);
    const [c, d] = [...this.pointers.values()];
    if (b && d) {
      this.pan((c.x + d.x - a.x - b.x) / 2, (c.y + d.y - a.y - b.y) / 2);
      this.zoom(Math.hypot(c.x - d.x, c.y - d.y) / Math.max(1, Math.hypot(a.x - b.x, a.y - b.y)), (c.x + d.x) / 2, (c.y + d.y) / 2);
    } else if (this.dragged > 4) {
      this.frame.classList.add('dragging');
      this.pan(at.x - before.x, at.y - before.y);
    }
  }

  /** @param {{ x: number, y: number }} at */
  #hover(at) {
    const [x, y] = this.at(at.x, at.y);
    this.tell.hover(Math.floor(x), Math.floor(y), this.#under(x, y));
  }

  #leave() {
    if (this.hovered >= 0) {
      this.hovered = -1;
      this.#ink();
    }
    this.tell.leave();
  }

  /** @param {PointerEvent} event @param {{ x: number, y: number }} at */
  #release(event, at) {
    this.pointers.delete(event.pointerId);
    this.frame.classList.remove('dragging');
    const [x, y] = this.at(at.x, at.y);
    if (event.type !== 'pointerup' || this.dragged > 4 || this.pointers.size) return;
    this.tell.press(Math.floor(x), Math.floor(y), this.#under(x, y, event.pointerType === 'touch' ? NEAR_TOUCH : NEAR));
  }

  /** Asks what is in the middle: of findings there is a list for keys. */
  #enter() {
    const { x, y } = this.view;
    this.tell.press(Math.floor(x), Math.floor(y), { ...this.#under(x, y), found: null });
  }

  /** @param {KeyboardEvent} event */
  #key(event) {
    if (event.target !== this.frame || event.ctrlKey || event.metaKey || event.altKey) return;
    const step = event.shiftKey ? 240 : 60;
    /** @type {Record<string, () => void>} */
    const keys = {
      ArrowLeft: () => this.pan(step, 0), ArrowRight: () => this.pan(-step, 0), ArrowUp: () => this.pan(0, step), ArrowDown: () => this.pan(0, -step),
      '+': () => this.zoom(1.4), '=': () => this.zoom(1.4), '-': () => this.zoom(1 / 1.4), 0: () => this.fit(),
      Enter: () => this.#enter(), Escape: () => this.tell.unpin(),
    };
    if (!keys[event.key]) return;
    keys[event.key]();
    event.preventDefault();
  }
}
