/**
 * Cached rows of a machine's run. Each trace starts at step 0, so rows are kept, and those of closer,
 * neighbouring and farther views are traced ahead. Most views then need no trace.
 *
 * @typedef {{closer: number, farther: number, beyond: number, most: number}} NextViews the row intervals of a
 *   closer and a farther view, the farther view's steps above and below this one, and the last step
 */
import { parseMachine } from "../common/machine.mjs";
import { parseTrace, selectRows } from "./packed-rows.mjs";

// The most bytes of a trace line besides its cells.
const LINE_BYTES = 64;
// Longer traces get fewer rows.
const MOST_BYTES = 100_000_000;
const MOST_AHEAD_BYTES = 24_000_000;
const MOST_CACHED_BYTES = 40_000_000;
// Views with fewer steps a row get all steps traced ahead, if they fit.
const ALL_STEPS = 32;
// The size of a trace is estimated in this many parts.
const ESTIMATES = 64;
const SIMULATION = { depth: 0, nodes: 0, cyclers: false, translated: false, backward: false };

export class RowCache {
  /** @param {Pick<Engine, "decide" | "traceInPlace">} engine @param {string} machine @param {number} cells */
  constructor(engine, machine, cells) {
    this.engine = engine;
    this.machine = machine;
    this.cells = cells;
    this.symbols = parseMachine(machine).symbols;
    // Most recently used first.
    this.cached = /** @type {CachedRows[]} */ ([]);
    this.lastRows = /** @type {LastRow[]} */ ([]);
  }

  /** The row of a step, or the last one before if the run or its cells end there. */
  lastRow(/** @type {number} */ upto) {
    const known = this.lastRows.find((one) => one.upto === upto);
    if (known !== undefined) return known;
    const row = this.rowExtent(upto);
    const end = row === null ? this.findEnd(upto) : { step: upto, halts: row.states === "Z" };
    const { low, width } = /** @type {{low: number, width: number}} */ (row ?? this.rowExtent(end.step));
    this.addLastRow({ upto, ...end, low, width });
    return { upto, ...end, low, width };
  }

  addLastRow(/** @type {LastRow} */ last) {
    this.lastRows.some(({ upto }) => upto === last.upto) || this.lastRows.push(last);
  }

  /** The state, lowest position and width of a step's row; null if the run ends before. */
  rowExtent(/** @type {number} */ step) {
    const { states, lows, widths } = this.trace({ from: step, every: 1, upto: step }).rows;
    return states === "" ? null : { states, low: lows[0], width: widths[0] };
  }

  /** The last step of a run that ends before `upto`: its halt, or the last one within its cells. */
  findEnd(/** @type {number} */ upto) {
    const { engine, machine, cells } = this;
    const verdictWithin = (/** @type {number} */ steps) =>
      engine.decide([machine], { ...SIMULATION, steps, cells })[0].split(" ").slice(1);
    const [kind, step] = verdictWithin(upto);
    if (kind === "halt") return { step: Number(step), halts: true };
    // Visiting all cells takes at least a step for each but one, and often not many more.
    let [low, high] = [cells - 1, upto];
    for (let stride = 1; high - low > 1; stride *= 2) {
      const middle = low + Math.min(stride, Math.floor((high - low) / 2));
      [low, high] = verdictWithin(middle)[1] === "cells" ? [low, middle] : [middle, high];
    }
    return { step: low, halts: false };
  }

  /** An upper bound for the width of a step's row. */
  maxWidth(/** @type {number} */ step) {
    const known = this.cached.flatMap(({ request: { from, every }, rows: { widths } }) => {
      return widths[Math.max(0, Math.ceil((step - from) / every))] ?? [];
    });
    const lasts = this.lastRows.filter((one) => one.step >= step || one.step < one.upto);
    return Math.min(step + 1, this.cells, ...known, ...lasts.map(({ width }) => width));
  }

  /** An upper bound for the bytes of a trace. */
  traceSize(/** @type {RowRequest} */ { from, every, upto }) {
    const count = Math.floor((upto - from) / every) + 1;
    const part = Math.max(1, Math.ceil(count / ESTIMATES));
    let total = LINE_BYTES;
    for (let first = 0; first < count; first += part) {
      const end = Math.min(count, first + part);
      total += (end - first) * (LINE_BYTES + this.maxWidth(from + (end - 1) * every));
    }
    return total;
  }

  /** The request with an interval doubled until its trace fits. */
  fitRequest(/** @type {RowRequest} */ { from, every: wanted, upto }) {
    let every = Math.max(1, wanted);
    while (this.traceSize({ from, every, upto }) > MOST_BYTES && from + every <= upto) {
      every *= 2;
    }
    return { from, every, upto };
  }

  /** The requested rows, and their interval. Rows of views are cached. */
  getRows(/** @type {RowRequest} */ wanted, /** @type {boolean} */ isView) {
    this.traceSize(wanted) > MOST_BYTES && this.lastRow(wanted.upto);
    const request = this.fitRequest(wanted);
    const found = this.cached.find((one) => covers(one.request, request)) ?? this.trace(request);
    if (isView) this.store(found);
    return { ...pickRows(found, request), every: request.every };
  }

  /** Caches rows as the most recent ones, dropping those that they cover, and the oldest beyond the limit. */
  store(/** @type {CachedRows} */ added) {
    const others = this.cached.filter((one) => !covers(added.request, one.request));
    let total = 0;
    this.cached = [added, ...others].filter(({ rows }) => (total += rows.cells.length) <= MOST_CACHED_BYTES);
  }

  trace(/** @type {RowRequest} */ { from, every, upto }, space = this.traceSize({ from, every, upto })) {
    const line = new TextEncoder().encode(this.machine);
    const options = { steps: upto, cells: this.cells, from, every };
    const { bytes, clean } = this.engine.traceInPlace(line, options, space);
    const rows = parseTrace(bytes, this.symbols);
    const hasEnded = (rows.steps.at(-1) ?? from - every) + every <= upto;
    return { request: { from, every, upto: hasEnded ? Infinity : upto }, rows, cut: !clean };
  }

  /** Requests for closer, neighbouring and farther views that aren't cached. @returns {AheadRequest[]} */
  aheadRequests(/** @type {RowRequest} */ view, /** @type {NextViews} */ { closer, farther, beyond, most }) {
    const request = this.fitRequest(view);
    const { from, upto, every } = request;
    const half = Math.ceil((upto - from) / every / 2) * every;
    const above = Math.floor(Math.min(half, from) / every) * every;
    const neighbours = { every, from: from - above, upto: Math.max(upto, Math.min(most, upto + half)) };
    const [all, near] = [1, closer].map((one) => alignRows(request, one, 0, most));
    const closest = every < ALL_STEPS && this.traceSize(all) <= MOST_AHEAD_BYTES ? all : near;
    return [closest, neighbours, alignRows(request, farther, beyond, most)]
      .filter((one) => !this.cached.some((cached) => covers(cached.request, one)))
      .map((one) => ({ ...one, machine: this.machine, cells: this.cells, space: this.traceSize(one) }))
      .filter(({ space }) => space <= MOST_AHEAD_BYTES);
  }
}

function covers(/** @type {RowRequest} */ cached, /** @type {RowRequest} */ request) {
  const isAligned = (request.from - cached.from) % cached.every === 0 && request.every % cached.every === 0;
  return isAligned && request.from >= cached.from && request.upto <= cached.upto;
}

/**
 * Rows at multiples of an interval, as zoomed views have them, from `beyond` steps above to as many below.
 * @param {RowRequest} request @param {number} every @param {number} beyond @param {number} most the last step
 */
function alignRows({ from, upto }, every, beyond, most) {
  const first = Math.max(0, Math.floor((from - beyond) / every) * every);
  return { from: first, upto: Math.max(upto, Math.min(most, upto + beyond + every)), every };
}

/** @param {CachedRows} cached @param {RowRequest} request */
function pickRows({ request: own, rows, cut }, { from, upto, every }) {
  const first = (from - own.from) / own.every;
  const interval = every / own.every;
  const end = Math.min(rows.steps.length, Math.floor((upto - own.from) / own.every) + 1);
  const count = Math.max(0, Math.ceil((end - first) / interval));
  return { rows: count === rows.steps.length ? rows : selectRows(rows, first, interval, count), cut };
}
