/** Rows, pictures and growth of a machine's run, from its cached trace. */
import { ZOOM, fitViews, zoomView } from "../page/diagram/viewport.mjs";
import { unpackRow } from "./packed-rows.mjs";
import { paintRows } from "./pixels.mjs";
import { RowCache } from "./row-cache.mjs";

// The exponents of the steps between which growth counts as a root.
const ROOT = [0.2, 0.8];

// Of a claim whose trace is larger only the named rows are made.
const MOST_CLAIM_BYTES = 24_000_000;

let cache = /** @type {RowCache | null} */ (null);

const isCached = (/** @type {Run} */ run) => cache?.machine === run.machine && cache.cells === run.cells;

function cacheFor(/** @type {Engine} */ engine, /** @type {Run} */ run) {
  if (cache === null || !isCached(run)) cache = new RowCache(engine, run.machine, run.cells);
  return cache;
}

/** The requested rows, and the last step of the run if fewer than two exist. */
export function traceRows(/** @type {Engine} */ engine, /** @type {Run & RowRequest} */ request) {
  const own = cacheFor(engine, request);
  const { rows: packed } = own.getRows(request, false);
  /** @type {Row[]} */
  const rows = Array.from(packed.steps, (step, k) => {
    const [state, head, low] = [packed.states[k], packed.heads[k], packed.lows[k]];
    return { step, state, head, low, cells: unpackRow(packed, k) };
  });
  const isShort = rows.length < 2 && request.from + request.every <= request.upto;
  return { rows, last: isShort ? own.lastRow(request.upto).step : rows.at(-1)?.step };
}

/**
 * The rows of a claim's steps, and those before; the run's last step if some are missing; and the positions
 * between which the head stays from the first to the last, null if they are too far apart.
 */
export function traceClaim(/** @type {Engine} */ engine, /** @type {Run & {steps: number[]}} */ request) {
  const { machine, cells, steps } = request;
  const between = { from: steps[0], every: 1, upto: steps[steps.length - 1] };
  const own = cacheFor(engine, request);
  const isNear = own.traceSize(between) <= MOST_CLAIM_BYTES;
  const heads = isNear ? own.getRows(between, true).rows.heads.slice().sort() : new Int32Array(0);
  const traced = steps.map((step) =>
    traceRows(engine, { machine, cells, from: Math.max(0, step - 1), every: 1, upto: step }));
  const rows = traced.flatMap(({ rows }, k) => rows.filter(({ step }) => step === steps[k]));
  const before = traced.map(({ rows: [row] }, k) => (row?.step === steps[k] - 1 ? row : null));
  const last = Math.min(...traced.map(({ last }) => last ?? 0));
  return { rows, before, last, low: heads.at(0) ?? null, high: heads.at(-1) ?? null };
}

/** Rows for another worker's cache. */
export const traceAhead = (/** @type {Engine} */ engine, /** @type {AheadRequest} */ request) =>
  cacheFor(engine, request).trace(request, request.space);

/** Caches another worker's rows if they belong to the current run. */
export function storeRows(/** @type {Run & {cached: CachedRows}} */ message) {
  isCached(message) && cache?.store(message.cached);
}

/** The growth of the visited cells, by their numbers after a hundredth, a tenth and all of the steps. */
export function measureGrowth(/** @type {Engine} */ engine, /** @type {Run & {upto: number}} */ request) {
  const { upto } = request;
  const own = cacheFor(engine, request);
  const { step: last, halts, width } = own.lastRow(upto);
  const steps = halts ? upto : last;
  const hundredth = Math.max(1, Math.floor(steps / 100));
  if (Math.floor(last / hundredth) < 100) {
    return { growth: halts ? "halts" : "line", steps: last, visited: [width, width, width] };
  }
  // Row 0 is a hundredth of the steps, row 1 a tenth, row 11 all.
  const { rows } = own.getRows({ from: hundredth, every: 9 * hundredth, upto: 100 * hundredth }, false);
  const visited = [0, 1, 11].map((k) => rows.widths[k]);
  const exponent = Math.log10(visited[2] / visited[0]) / 2;
  const growth = exponent < ROOT[0] ? "logarithm" : exponent < ROOT[1] ? "root" : "line";
  return { growth: visited[1] === visited[2] ? "stays" : growth, steps, visited };
}

/**
 * The picture of a view.
 * @param {Engine} engine
 * @param {Run & {upto: number, view: View | null, width: number, height: number, palette: number[][],
 *   fit: Fit}} request a null view means the best fit
 */
export function makePicture(engine, request) {
  const { upto, width, height, fit, palette } = request;
  const own = cacheFor(engine, request);
  fit.end && own.addLastRow({ ...fit.end, upto: fit.end.step, halts: true });
  const whole = own.lastRow(Math.min(upto, fit.last));
  const { home, opening } = fitViews(width, height, { last: whole.step, ...spanOf(whole) }, fit.pair);
  const view = request.view ?? (fit.opens ? opening : home);
  const top = Math.min(view.top, upto);
  const end = Math.min(upto, top + (rowCount(view, height) - 1) * view.every);
  const wanted = { from: top, every: view.every, upto: end };
  const { rows, cut, every } = own.getRows(wanted, true);
  const columns = Math.ceil(width / view.wide);
  const image = paintRows(rows, view, columns, palette);
  const k = rows.steps.length - 1;
  const isWhole = k < 0 || (end >= whole.step && whole.width > rows.widths[k]);
  const span = spanOf(isWhole ? whole : { low: rows.lows[k], width: rows.widths[k] });
  const isEnd = k < 0 || rows.steps[k] + every <= end || whole.step < Math.min(end, fit.last);
  // The rows of the views one zoom away.
  const [near, far] = [ZOOM, 1 / ZOOM].map((factor) => zoomView(view, home, factor, { x: 0, y: 0 }));
  const beyond = Math.max(0, rowCount(far, height) * far.every - rowCount(view, height) * view.every);
  const ahead = own.aheadRequests(wanted, { closer: near.every, farther: far.every, beyond, most: upto });
  return { rows, cut: cut && isEnd, every, columns, image, ...span, view, home, ahead };
}

/** The lowest and highest positions. */
const spanOf = (/** @type {{low: number, width: number}} */ { low, width }) => {
  return { low, high: low + width - 1 };
};

const rowCount = (/** @type {View} */ { high }, /** @type {number} */ height) => Math.ceil(height / high);
