/**
 * The limits and switches of the engine.
 *
 * @typedef {number | bigint} Integer
 * @typedef {keyof typeof RANGES} Limit
 */

/** The range of each limit and its default. `from` and `every` apply to traces. */
export const RANGES = Object.freeze({
  steps: { min: 0n, max: 1_000_000_000_000n, default: 1_000_000n },
  cells: { min: 1n, max: 67_108_864n, default: 65_536n },
  depth: { min: 0n, max: 10_000n, default: 300n },
  nodes: { min: 0n, max: 1_000_000_000_000n, default: 1_000_000n },
  from: { min: 0n, max: 2n ** 64n - 1n, default: 0n },
  every: { min: 1n, max: 2n ** 64n - 1n, default: 1n },
});

/** The limits of decisions and checks, in order. */
export const LIMITS = /** @type {Limit[]} */ (["steps", "cells", "depth", "nodes"]);

/** A limit is out of its range, or the depth doesn't fit in the cells. The message is the program's. */
export class LimitsError extends RangeError {
  /** @param {Limit} limit @param {string} message */
  constructor(limit, message) {
    super(message);
    this.name = "LimitsError";
    this.limit = limit;
  }
}

/**
 * The values of limits and switches, in order. Throws before the engine sees any of them, for the first wrong one.
 * @param {object} options @param {Limit[]} limits @param {Record<string, boolean>} [switches] their defaults
 * @returns {(bigint | boolean)[]}
 */
export function parseOptions(options, limits, switches = {}) {
  if (typeof options !== "object" || options === null) throw new TypeError("limits are named in an object");
  const usual = limits.map((name) => /** @type {const} */ ([name, RANGES[name].default]));
  const values = new Map(/** @type {[string, any][]} */ ([...usual, ...Object.entries(switches)]));
  for (const [name, value] of Object.entries(options)) {
    if (!values.has(name)) throw new TypeError(`no limit or switch has the name ${name}`);
    if (value !== undefined) values.set(name, value);
  }
  const words = Array.from(values, ([name, value]) =>
    Object.hasOwn(switches, name) ? parseSwitch(name, value) : parseLimit(/** @type {Limit} */ (name), value),
  );
  limits.includes("depth") && requireFit(/** @type {bigint[]} */ (words));
  return words;
}

/** A limit in its range. */
export function parseLimit(/** @type {Limit} */ name, /** @type {Integer | null} */ value) {
  if (typeof value !== "number" && typeof value !== "bigint") throw new TypeError(`${name} is no number`);
  if (typeof value === "number" && !Number.isSafeInteger(value)) {
    throw new LimitsError(name, `${name} is not a whole number that is exact; use a BigInt`);
  }
  const { min, max } = RANGES[name];
  if (value < min || value > max) throw new LimitsError(name, `${name} out of range`);
  return BigInt(value);
}

/** Requires that the backward tree's depth fits the cells. */
export function requireFit(/** @type {bigint[]} */ [, cells, depth]) {
  if (2n * depth > cells + 1n) throw new LimitsError("depth", "depth does not fit in cells");
}

function parseSwitch(/** @type {string} */ name, /** @type {boolean} */ value) {
  if (typeof value !== "boolean") throw new TypeError(`${name} is neither true nor false`);
  return value;
}

/** A number of lines or bytes. */
export function parseCount(/** @type {string} */ name, /** @type {number} */ value) {
  if (Number.isSafeInteger(value) && value >= 0) return value;
  throw new TypeError(`${name} is not a whole number from 0`);
}
