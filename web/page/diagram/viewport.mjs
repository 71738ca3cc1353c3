/** Views of a diagram: their steps, positions and scale, fitting and zooming. */

/** The factor of zooming by keys and buttons. */
export const ZOOM = 4;
/** The least size in pixels of legible cells, which have a frame around the head. */
export const FRAMED = 6;
// Sizes of single cells, in pixels.
const SIZES = [1, 2, 3, 4, 6, 8, 12, 16, 24, 32, 48, 64];
// The size of cells after going to a step from far away.
const CLOSE_PIXELS = 12;
// The greatest ratio of a cell's width to its height.
const MOST_WIDE = 4;
// Rows are halved down to at least this many steps.
const LEAST_HALVED = 16;
// Smaller zooms go through all sizes.
const LEAST_LEVEL = 2;
// A view opens on a pair whose rows would be nearer than this.
const PAIR_PIXELS = 24;
// Room for the outline of the last row.
const LAST_ROW_PIXELS = 6;

export function isSameView(/** @type {View} */ one, /** @type {View} */ two) {
  const isPlaced = one.top === two.top && one.left === two.left;
  return isPlaced && stepsPerPixel(one) === stepsPerPixel(two) && cellsPerPixel(one) === cellsPerPixel(two);
}

export const stepsPerPixel = (/** @type {View} */ { every, high }) => every / high;

export const cellsPerPixel = (/** @type {View} */ { across, wide }) => across / wide;

/** The greatest cell size up to a number of pixels. */
const cellSize = (/** @type {number} */ pixels) => Math.max(1, ...SIZES.filter((one) => one <= pixels));

/** The nearest scale to `units` per pixel: several units in one pixel, or one in several. */
function unitScale(/** @type {number} */ units) {
  const far = (/** @type {number} */ size) => Math.abs(size - 1 / units);
  const pixels = SIZES.reduce((best, one) => (far(one) < far(best) ? one : best));
  return units >= 1 ? { many: Math.round(units), pixels: 1 } : { many: 1, pixels };
}

/** An interval rounded up so that it halves repeatedly: closer views then share its rows. */
function roundForHalving(/** @type {number} */ every) {
  const times = 2 ** Math.max(0, Math.floor(Math.log2(every / LEAST_HALVED)));
  return Math.ceil(every / times) * times;
}

/** The nearest scale that is the whole's, doubled or halved repeatedly. */
function nearestLevel(/** @type {number} */ steps, /** @type {View} */ home) {
  const level = stepsPerPixel(home) * 2 ** Math.round(Math.log2(steps / stepsPerPixel(home)));
  return level > 1 && Number.isInteger(level) ? level : steps;
}

/**
 * The largest view of a range of steps and positions that fits in so many pixels.
 * @param {number} width @param {number} height
 * @param {{first: number, last: number, low: number, high: number}} range
 */
function fitView(width, height, { first, last, low, high }) {
  const [rows, span] = [last - first + 1, high - low + 3];
  const across = Math.max(1, Math.ceil(span / width));
  const every = roundForHalving(Math.max(across, Math.ceil(rows / Math.max(1, height - LAST_ROW_PIXELS))));
  const tall = every > 1 ? 1 : cellSize(height / (rows + 1));
  const wide = across > 1 ? 1 : cellSize(Math.min(width / span, MOST_WIDE * tall));
  const left = Math.round((low + high + 1) / 2 - (width / wide / 2) * across);
  return { top: first, left, every, high: Math.min(tall, wide), across, wide };
}

/**
 * The view of the whole, and the opening one: on the pair if its rows would be too near each other.
 * @param {number} width @param {number} height
 * @param {{last: number, low: number, high: number}} whole @param {Pair | null} pair
 */
export function fitViews(width, height, whole, pair) {
  const home = fitView(width, height, { first: 0, ...whole });
  if (pair === null || (pair.second - pair.first) / stepsPerPixel(home) >= PAIR_PIXELS) {
    return { home, opening: home };
  }
  const around = Math.max(4, Math.ceil((pair.second - pair.first) / 2));
  const margin = pair.low === null || pair.high === null ? 0 : Math.max(8, pair.high - pair.low);
  const range = {
    first: Math.max(0, pair.first - around),
    last: pair.second + around,
    low: Math.max(whole.low, (pair.low ?? whole.low) - margin),
    high: Math.min(whole.high, (pair.high ?? whole.high) + margin),
  };
  return { home, opening: fitView(width, height, range) };
}

/** Cells per pixel for a number of steps per pixel, between the whole and single cells. */
function cellsAt(/** @type {number} */ steps, /** @type {View} */ home) {
  const even = (cellsPerPixel(home) * steps) / stepsPerPixel(home);
  return steps >= stepsPerPixel(home) ? even : Math.max(even, Math.min(1, cellsPerPixel(home), steps));
}

/**
 * A view zoomed around a fixed point; a factor below 1 zooms out.
 * @param {View} view @param {View} home @param {number} factor @param {Point} point
 */
export function zoomView(view, home, factor, { x, y }) {
  const least = 1 / SIZES[SIZES.length - 1];
  const most = Math.max(stepsPerPixel(home), stepsPerPixel(view)) * 1024;
  const near = Math.min(Math.max(stepsPerPixel(view) / factor, least), most);
  const steps = Math.max(factor, 1 / factor) >= LEAST_LEVEL ? nearestLevel(near, home) : near;
  const [rows, columns] = [unitScale(steps), unitScale(cellsAt(steps, home))];
  const step = view.top + Math.floor(y / view.high) * view.every;
  const position = view.left + Math.floor(x / view.wide) * view.across;
  const top = Math.max(0, Math.round(step / rows.many) - Math.floor(y / rows.pixels)) * rows.many;
  const left = position - Math.floor(x / columns.pixels) * columns.many;
  return { top, left, every: rows.many, high: rows.pixels, across: columns.many, wide: columns.pixels };
}

/**
 * A view centred on a place with visible cells; one with visible cells keeps its scale.
 * @param {{width: number, height: number}} area @param {{step: number, position: number}} place
 * @param {View} view the current one
 */
export function closeView({ width, height }, { step, position }, view) {
  const isClose = view.every === 1 && view.across === 1 && view.high >= FRAMED && view.wide === view.high;
  const size = isClose ? view.high : CLOSE_PIXELS;
  const top = Math.max(0, step - Math.floor(height / size / 2));
  const left = position - Math.floor(width / size / 2);
  return { top, left, every: 1, high: size, across: 1, wide: size };
}

/**
 * Numbers for an axis, at least `least` pixels apart.
 * @param {number} first @param {number} units per pixel @param {number} pixels @param {number} least
 */
export function ticks(first, units, pixels, least) {
  const wanted = Math.max(1, units * least);
  const power = 10 ** Math.floor(Math.log10(wanted));
  const interval = [1, 2, 5, 10].map((one) => one * power).find((one) => one >= wanted) ?? 10 * power;
  const found = [];
  for (let at = Math.ceil(first / interval) * interval; at <= first + units * pixels; at += interval) {
    found.push(at === 0 ? 0 : at);
  }
  return found;
}
