/**
 * The pixels of a diagram, one for each column and row, in the mean colour of its cells.
 *
 * @typedef {(k: number, from: number, to: number) => number} Mean of the cells `from` to `to` of row `k`
 * @typedef {(rows: PackedRows, view: View, palette: number[][]) => Mean} CreateMean
 */
import { FRAMED } from "../page/diagram/viewport.mjs";
import { symbolAtCell } from "./packed-rows.mjs";

const UNVISITED = 10;
const HEAD = 11;
// The number of 1 bits of each byte.
const ONES = new Uint8Array(256);
for (let byte = 1; byte < ONES.length; byte += 1) {
  ONES[byte] = ONES[byte >> 1] + (byte & 1);
}

const pixelOf = (/** @type {number[]} */ [red, green, blue]) =>
  new Uint32Array(Uint8Array.of(red, green, blue, 255).buffer)[0];

/**
 * The pixels of all rows, transparent if unvisited.
 * @param {PackedRows} rows @param {View} view @param {number} columns @param {number[][]} palette
 */
export function paintRows(rows, view, columns, palette) {
  const image = new Uint32Array(columns * rows.steps.length);
  const colours = Uint32Array.from(palette, pixelOf);
  const mean = (rows.bits === 1 ? meanOfTwoSymbols : meanOfManySymbols)(rows, view, palette);
  for (let k = 0; k < rows.steps.length; k += 1) {
    const pixels = image.subarray(columns * k, columns * (k + 1));
    view.across === 1 ? paintCells(pixels, rows, k, view, colours) : paintMeans(pixels, rows, k, view, mean);
  }
  return new Uint8ClampedArray(image.buffer);
}

/**
 * Paints a pixel for each cell.
 * @param {Uint32Array} pixels @param {PackedRows} rows @param {number} k @param {View} view
 * @param {Uint32Array} colours
 */
function paintCells(pixels, rows, k, view, colours) {
  const { cells, bits } = rows;
  const [begin, low, mask] = [rows.offsets[k], rows.lows[k] - view.left, (1 << bits) - 1];
  const end = Math.min(pixels.length, low + rows.widths[k]);
  for (let x = Math.max(0, low); x < end; x += 1) {
    const bit = (x - low) * bits;
    pixels[x] = colours[(cells[begin + (bit >> 3)] >> (bit & 7)) & mask];
  }
  const head = rows.heads[k] - view.left;
  if ((view.wide < FRAMED || view.high < FRAMED) && head >= 0 && head < pixels.length) {
    pixels[head] = colours[HEAD];
  }
}

/**
 * Paints a pixel for several cells; only the outermost pixels may have unvisited cells.
 * @param {Uint32Array} pixels @param {PackedRows} rows @param {number} k @param {View} view @param {Mean} mean
 */
function paintMeans(pixels, rows, k, { left, across }, mean) {
  const low = rows.lows[k];
  const high = low + rows.widths[k] - 1;
  const first = Math.max(0, Math.floor((low - left) / across));
  const last = Math.min(pixels.length - 1, Math.floor((high - left) / across));
  for (let x = first; x <= last; x += 1) {
    const begin = left + x * across;
    pixels[x] = mean(k, Math.max(begin, low) - low, Math.min(begin + across - 1, high) - low);
  }
}

/** @type {CreateMean} looks up means by the number of 1 cells */
const meanOfTwoSymbols = ({ cells, offsets }, { across }, palette) => {
  const mixed = (/** @type {number} */ ones, /** @type {number} */ visited) =>
    pixelOf(
      palette[UNVISITED].map((unvisited, part) => {
        const known = (visited - ones) * palette[0][part] + ones * palette[1][part];
        return Math.round((known + (across - visited) * unvisited) / across);
      }),
    );
  const colours = Uint32Array.from({ length: across + 1 }, (_, ones) => mixed(ones, across));
  return (k, from, to) => {
    const visited = to - from + 1;
    const ones = countOnes(cells, offsets[k], from, to);
    return visited === across ? colours[ones] : mixed(ones, visited);
  };
};

/** @param {Uint8Array} cells @param {number} begin of the row @param {number} from @param {number} to cell */
function countOnes(cells, begin, from, to) {
  const first = begin + (from >> 3);
  const last = begin + (to >> 3);
  const upper = cells[first] >> (from & 7);
  const lower = (2 << (to & 7)) - 1;
  if (first === last) return ONES[upper & (lower >> (from & 7))];
  let ones = ONES[upper] + ONES[cells[last] & lower];
  for (let at = first + 1; at < last; at += 1) {
    ones += ONES[cells[at]];
  }
  return ones;
}

/** @type {CreateMean} */
const meanOfManySymbols = (rows, { across }, palette) => {
  const [reds, greens, blues] = [0, 1, 2].map((part) => Int32Array.from(palette, (colour) => colour[part]));
  return (k, from, to) => {
    const outside = across - (to - from + 1);
    let [red, green, blue] = palette[UNVISITED].map((one) => one * outside);
    for (let cell = from; cell <= to; cell += 1) {
      const symbol = symbolAtCell(rows, k, cell);
      red += reds[symbol];
      green += greens[symbol];
      blue += blues[symbol];
    }
    return pixelOf([red, green, blue].map((sum) => Math.round(sum / across)));
  };
};
