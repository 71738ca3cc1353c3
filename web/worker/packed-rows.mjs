/** Rows of a trace with packed cells. */
import { numberAt } from "./replies.mjs";

const SPACE = 32;
const NEWLINE = 10;
const MINUS = 45;
// The lowest bits of four bytes, and the factor that gathers them in the highest four bits.
const LOWEST_BITS = 0x01010101;
const GATHER = 0x10204080;
const NIBBLE = 15;

/** Bytes of a row's cells. */
const packedSize = (/** @type {number} */ cells, /** @type {number} */ bits) => Math.ceil((cells * bits) / 8);

/**
 * The symbol of row `k` at a cell, counted from the lowest.
 * @param {PackedRows} rows @param {number} k @param {number} cell
 */
export function symbolAtCell({ cells, offsets, bits }, k, cell) {
  const bit = cell * bits;
  return (cells[offsets[k] + (bit >> 3)] >> (bit & 7)) & ((1 << bits) - 1);
}

/**
 * The symbol of row `k` at a position; -1 if unvisited.
 * @param {PackedRows} rows @param {number} k @param {number} position
 */
export function symbolAt(rows, k, position) {
  const cell = position - rows.lows[k];
  return cell < 0 || cell >= rows.widths[k] ? -1 : symbolAtCell(rows, k, cell);
}

/** All symbols of row `k`. */
export function unpackRow(/** @type {PackedRows} */ rows, /** @type {number} */ k) {
  const symbols = new Uint8Array(rows.widths[k]);
  for (let cell = 0; cell < symbols.length; cell += 1) {
    symbols[cell] = symbolAtCell(rows, k, cell);
  }
  return symbols;
}

/**
 * A copy of `count` rows, from one on at an interval.
 * @param {PackedRows} rows @param {number} first @param {number} interval @param {number} count
 */
export function selectRows(rows, first, interval, count) {
  const { bits } = rows;
  const numbers = Array.from({ length: count }, (_, row) => first + row * interval);
  const column = (/** @type {Int32Array} */ all) => Int32Array.from(numbers, (k) => all[k]);
  const [heads, lows, widths] = [rows.heads, rows.lows, rows.widths].map(column);
  const steps = Float64Array.from(numbers, (k) => rows.steps[k]);
  const { offsets, cells } = allocateCells(widths, bits);
  numbers.forEach((k, row) => {
    const length = packedSize(widths[row], bits);
    cells.set(rows.cells.subarray(rows.offsets[k], rows.offsets[k] + length), offsets[row]);
  });
  const states = numbers.map((k) => rows.states[k]).join("");
  return { steps, heads, lows, widths, offsets, states, cells, bits };
}

function allocateCells(/** @type {Int32Array} */ widths, /** @type {number} */ bits) {
  let size = 0;
  const offsets = widths.map((width) => (size += packedSize(width, bits)) - packedSize(width, bits));
  return { offsets, cells: new Uint8Array(size) };
}

/** @returns {PackedRows} the rows of a trace of a machine with so many symbols */
export function parseTrace(/** @type {Uint8Array} */ text, /** @type {number} */ symbols) {
  /** @type {Record<"steps" | "heads" | "lows" | "widths" | "begins", number[]>} */
  const columns = { steps: [], heads: [], lows: [], widths: [], begins: [] };
  let states = "";
  for (let from = 0; from < text.length; ) {
    const letter = text.indexOf(SPACE, from) + 1;
    const low = text.indexOf(SPACE, letter + 2) + 1;
    const begin = text.indexOf(SPACE, low) + 1;
    const end = text.indexOf(NEWLINE, begin);
    columns.steps.push(numberAt(text, from));
    columns.heads.push(signedAt(text, letter + 2));
    columns.lows.push(signedAt(text, low));
    columns.widths.push(end - begin);
    columns.begins.push(begin);
    states += String.fromCharCode(text[letter]);
    from = end + 1;
  }
  const bits = symbols === 2 ? 1 : 4;
  const pack = bits === 1 ? packBits : packNibbles;
  const steps = Float64Array.from(columns.steps);
  const integers = [columns.heads, columns.lows, columns.widths];
  const [heads, lows, widths] = integers.map((column) => Int32Array.from(column));
  const { offsets, cells } = allocateCells(widths, bits);
  columns.begins.forEach((begin, k) => pack(cells.subarray(offsets[k]), text, begin, widths[k]));
  return { steps, heads, lows, widths, offsets, states, cells, bits };
}

const signedAt = (/** @type {Uint8Array} */ text, /** @type {number} */ from) =>
  text[from] === MINUS ? -numberAt(text, from + 1) : numberAt(text, from);

/**
 * Packs digits 0 and 1, eight in a byte.
 * @param {Uint8Array} cells @param {Uint8Array} text @param {number} begin @param {number} count
 */
function packBits(cells, text, begin, count) {
  const words = new DataView(text.buffer, text.byteOffset + begin, count);
  const whole = count >> 3;
  for (let k = 0; k < whole; k += 1) {
    cells[k] = packFour(words.getUint32(8 * k, true)) | (packFour(words.getUint32(8 * k + 4, true)) << 4);
  }
  for (let cell = 8 * whole; cell < count; cell += 1) {
    cells[whole] |= (text[begin + cell] & 1) << (cell & 7);
  }
}

/** Four digits 0 or 1 as four bits. */
const packFour = (/** @type {number} */ digits) => Math.imul(digits & LOWEST_BITS, GATHER) >>> 28;

/**
 * Packs digits, two in a byte.
 * @param {Uint8Array} cells @param {Uint8Array} text @param {number} begin @param {number} count
 */
function packNibbles(cells, text, begin, count) {
  for (let cell = 0; cell < count; cell += 1) {
    cells[cell >> 1] |= (text[begin + cell] & NIBBLE) << (4 * (cell & 1));
  }
}
