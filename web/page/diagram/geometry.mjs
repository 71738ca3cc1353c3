/** Steps and positions in the diagram's canvas, and their descriptions. */
import { formatCount, formatNumber, stateText } from "../../common/machine.mjs";
import { symbolAt } from "../../worker/packed-rows.mjs";
import { FRAMED, cellsPerPixel, isSameView, stepsPerPixel } from "./viewport.mjs";

// The axes' sizes. On a narrow canvas the axis of steps is narrower, unless its numbers are too long.
const TOP = 22;
const LEFT = 78;
const LEFT_NARROW = 58;
const NARROW = 500;
const MANY_STEPS = 1_000_000;
// The pointer moves by a cell, or by this many pixels if cells are too small.
const POINTER_PIXELS = 10;
const FAR_PIXELS = 120;
// Cells of the view that stay inside the visited positions.
const OVERLAP = 4;

/** @param {HTMLCanvasElement} canvas @param {number} last step @returns {Area} */
export function pictureArea({ clientWidth: width, clientHeight: height }, last) {
  const x = width < NARROW && last < MANY_STEPS ? LEFT_NARROW : LEFT;
  return { x, y: TOP, width: Math.max(1, width - x), height: Math.max(1, height - TOP) };
}

/** @returns {Point} the middle of a cell in the canvas */
function pointOf(/** @type {Scene} */ { view, area }, /** @type {Place} */ { step, position }) {
  return {
    x: area.x + (position - view.left) / cellsPerPixel(view) + view.wide / 2,
    y: area.y + (step - view.top) / stepsPerPixel(view) + view.high / 2,
  };
}

export function isVisible(/** @type {Scene} */ scene, /** @type {Place} */ place) {
  const { right, down } = offsetTo(scene, place);
  return right === 0 && down === 0;
}

/** The index of a step's row, and the place of its head; null if the picture lacks it. */
function rowOf(/** @type {Picture | null} */ picture, /** @type {number} */ wanted) {
  const { steps, heads } = picture?.rows ?? { steps: [], heads: [] };
  const k = Math.floor((wanted - steps[0]) / (picture?.every ?? 1));
  return k >= 0 && k < steps.length ? { k, step: steps[k], position: heads[k] } : null;
}

/** @returns {Place} the place moved to the step of its row, if it has one */
export const snapToRow = (/** @type {Picture | null} */ picture, /** @type {Place} */ { step, position }) => {
  return { step: rowOf(picture, step)?.step ?? step, position };
};

/** The row at a height in the canvas. */
const rowAt = (/** @type {Scene} */ { view, area, picture }, /** @type {number} */ y) =>
  rowOf(picture, view.top + Math.floor((y - area.y) / view.high) * view.every);

/** @returns {Place | null} */
export function placeAt(/** @type {Scene} */ scene, /** @type {Point} */ { x, y }) {
  const { view, area } = scene;
  const row = rowAt(scene, y);
  const position = view.left + Math.floor((x - area.x) * cellsPerPixel(view));
  return row === null || x < area.x || y < area.y ? null : { step: row.step, position };
}

/** The fixed point of a zoom: the first visible place, the head in the middle row, or the middle. */
export function zoomCentre(/** @type {Scene} */ scene, /** @type {(Place | null)[]} */ places) {
  const { x, y, width, height } = scene.area;
  const centre = { x: x + width / 2, y: y + height / 2 };
  const wanted = [...places, rowAt(scene, centre.y)].find((one) => one !== null && isVisible(scene, one));
  return wanted ? pointOf(scene, wanted) : centre;
}

/**
 * The pointer's next place, at a row.
 * @param {Scene} scene @param {Place} from @param {{right: number, down: number, far: boolean}} move
 * @param {number} upto the last step
 */
export function nextPlace({ view, picture }, from, { right, down, far }, upto) {
  const isSingle = view.wide >= FRAMED && view.high >= FRAMED && !far;
  const pixels = far ? FAR_PIXELS : POINTER_PIXELS;
  const times = (/** @type {number} */ size) => Math.max(1, Math.round(pixels / size));
  const [cells, steps] = isSingle ? [1, 1] : [times(view.wide) * view.across, times(view.high) * view.every];
  const every = picture?.every ?? 1;
  const isOlder = picture !== null && !isSameView(picture.view, view);
  const stride = isOlder ? steps : Math.max(steps, every);
  const step = Math.max(0, Math.min(upto, from.step + down * stride));
  const place = { position: from.position + right * cells, step };
  // If an older picture's rows are farther apart than the stride, snapping would undo the move.
  return every > stride ? place : snapToRow(picture, place);
}

/** @returns {View} a view moved by whole columns and rows, near so many pixels */
export function moveView(/** @type {View} */ view, /** @type {number} */ right, /** @type {number} */ down) {
  const columns = Math.round(right / view.wide);
  const rows = Math.round(down / view.high);
  return { ...view, left: view.left + columns * view.across, top: view.top + rows * view.every };
}

/** The view moved so that it contains visited cells, and none after the last step. */
export function clampView(/** @type {Scene} */ { view, area, picture }, /** @type {number} */ upto) {
  const { low, high } = picture ?? { low: 0, high: 0 };
  const width = area.width * cellsPerPixel(view);
  const overlap = OVERLAP * view.across;
  const left = Math.round(Math.min(Math.max(view.left, low + overlap - width), high - overlap));
  return { ...view, top: Math.max(0, Math.min(view.top, upto)), left };
}

/** The move in pixels that makes a place visible; 0 if it is. */
export function offsetTo(/** @type {Scene} */ scene, /** @type {Place} */ place) {
  const point = pointOf(scene, place);
  const { x, y, width, height } = scene.area;
  return { right: overshoot(point.x, x, width), down: overshoot(point.y, y, height) };
}

/** The distance beyond an edge, plus a quarter of the picture; 0 inside. */
function overshoot(/** @type {number} */ at, /** @type {number} */ low, /** @type {number} */ size) {
  if (at < low) return at - low - size / 4;
  return at >= low + size ? at - low - (3 * size) / 4 : 0;
}

/** A description of a place; empty if the picture lacks its row. */
export function placeText(/** @type {Picture | null} */ picture, /** @type {Place} */ { step, position }) {
  const row = rowOf(picture, step);
  if (picture === null || row === null) return "";
  const symbol = symbolAt(picture.rows, row.k, position);
  const head = row.position === position ? "here" : `at ${formatNumber(row.position)}`;
  const cell = symbol < 0 ? "not visited yet" : `symbol ${symbol}`;
  const place = `position ${formatNumber(position)}: ${cell}; the head is ${head}.`;
  return `Step ${formatNumber(row.step)}, ${stateText(picture.rows.states[row.k])}; ${place}`;
}

/** A description of a picture, and how it is sampled and scaled. */
export function pictureText(/** @type {Picture} */ picture, /** @type {number} */ width) {
  const { rows: { steps }, cut, every, view, low, high } = picture;
  if (steps.length === 0) return "No steps in view.";
  const range = `Steps ${formatNumber(steps[0])} to ${formatNumber(steps[steps.length - 1])}`;
  const parts = [every > 1 ? `${range}, every ${formatNumber(every)} steps` : range];
  const [left, right] = [view.left, view.left + Math.ceil(width * cellsPerPixel(view)) - 1];
  const visited = formatCount(high - low + 1, "visited cell");
  parts.push(low < left || high > right ? `part of ${visited}` : visited);
  if (view.across > 1) {
    parts.push(`one pixel shows the mean colour of ${formatNumber(view.across)} cells`);
  }
  if (cut) parts.push("the limit of cells ends the trace");
  return `${parts.join("; ")}.`;
}
