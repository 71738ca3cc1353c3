/**
 * Paints a diagram: picture, heads, axes and marks.
 *
 * @typedef {{x: number, y: number, wide: number, high: number}} Box
 */
import { formatNumber } from "../../common/machine.mjs";
import { symbolAt } from "../../worker/packed-rows.mjs";
import { colourOf } from "../dom.mjs";
import { FRAMED, cellsPerPixel, stepsPerPixel, ticks } from "./viewport.mjs";

const FONT = "system-ui, sans-serif";
const LABEL_PIXELS = 18;
const LEAST_BAND = 4;
const STEPS_APART = 44;
const POSITIONS_APART = 84;
const LETTERED = 16;
// The gap between a step's number and the picture, beside the arrow at the chosen step.
// Half of the width of a 0 on an axis.
const ZERO_PIXELS = 5;
const NUMBER_PIXELS = 9;
const ARROW_PIXELS = 6;
// The length of the mark at a number, in the middle pixel of its row or column.
const MARK_PIXELS = 4;

/** A picture's pixels as a canvas, for scaling; null if it has none. */
export function createSheet(/** @type {Picture} */ { image, columns, rows: { steps: { length } } }) {
  if (length === 0 || columns < 1) return null;
  const sheet = document.createElement("canvas");
  Object.assign(sheet, { width: columns, height: length });
  sheet.getContext("2d")?.putImageData(new ImageData(image, columns, length), 0, 0);
  return sheet;
}

/** Paints a view in an area of a canvas. */
export class Painter {
  /** @param {HTMLCanvasElement} canvas @param {Scene} scene */
  constructor(canvas, { view, area }) {
    this.ratio = window.devicePixelRatio || 1;
    canvas.width = Math.round(canvas.clientWidth * this.ratio);
    canvas.height = Math.round(canvas.clientHeight * this.ratio);
    this.pen = /** @type {CanvasRenderingContext2D} */ (canvas.getContext("2d"));
    this.pen.scale(this.ratio, this.ratio);
    this.view = view;
    this.area = area;
    this.right = area.x + area.width;
    this.bottom = area.y + area.height;
  }

  /** The top of a step's row. */
  yOf(/** @type {number} */ step) {
    return this.area.y + (step - this.view.top) / stepsPerPixel(this.view);
  }

  /** The left edge of a position's column. */
  xOf(/** @type {number} */ position) {
    return this.area.x + (position - this.view.left) / cellsPerPixel(this.view);
  }

  /**
   * @param {Box} box @param {CanvasRenderingContext2D["strokeStyle"]} style @param {number} width of the line
   * @param {number} inset from the edges; negative outside
   */
  outline({ x, y, wide, high }, style, width, inset) {
    Object.assign(this.pen, { strokeStyle: style, lineWidth: width });
    this.pen.strokeRect(x + inset, y + inset, wide - 2 * inset, high - 2 * inset);
  }

  fillTriangle(/** @type {number[][]} */ ...corners) {
    this.pen.beginPath();
    corners.forEach(([x, y]) => this.pen.lineTo(x, y));
    this.pen.fill();
  }

  /** Paints the pixels, scaled if they were made for another view. */
  paintPicture(/** @type {Picture} */ picture, /** @type {HTMLCanvasElement | null} */ sheet) {
    const { view: own, every, columns, rows } = picture;
    const { pen, area, view } = this;
    pen.fillStyle = colourOf("--unvisited");
    pen.fillRect(area.x, area.y, area.width, area.height);
    if (sheet !== null) {
      const width = (columns * own.across) / cellsPerPixel(view);
      const height = Math.max(1, (rows.steps.length * every) / stepsPerPixel(view));
      pen.imageSmoothingEnabled = false;
      pen.drawImage(sheet, this.xOf(own.left), this.yOf(own.top), width, height);
    }
  }

  /** Frames the heads, with a halo that is visible on every symbol, and with states in large cells. */
  paintHeads(/** @type {Picture} */ { rows }) {
    const { pen, view: { wide, high } } = this;
    if (wide < FRAMED || high < FRAMED) return;
    const line = high >= 12 ? 2 : 1.5;
    const font = `bold ${Math.round(high * 0.6)}px ${FONT}`;
    Object.assign(pen, { font, textAlign: "center", textBaseline: "middle" });
    rows.steps.forEach((step, k) => {
      const box = { x: this.xOf(rows.heads[k]), y: this.yOf(step), wide, high };
      const symbol = symbolAt(rows, k, rows.heads[k]);
      pen.fillStyle = colourOf(symbol < 0 ? "--text" : `--on${symbol}`);
      this.outline(box, pen.fillStyle, 1, line + 0.5);
      this.outline(box, colourOf("--head"), line, line / 2);
      if (high >= LETTERED && wide >= LETTERED) {
        pen.fillText(rows.states[k], box.x + wide / 2, box.y + high / 2 + 1);
      }
    });
  }

  /** Paints steps up to the last one on the left, with an arrow at the chosen one, and positions on top. */
  paintAxes(/** @type {number} */ chosen, /** @type {number} */ last) {
    const { pen, area, view } = this;
    pen.fillStyle = colourOf("--panel");
    pen.fillRect(0, 0, area.x, this.bottom);
    pen.fillRect(0, 0, this.right, area.y);
    Object.assign(pen, { fillStyle: colourOf("--soft"), font: `11px ${FONT}`, textBaseline: "middle" });
    pen.textAlign = "right";
    for (const step of ticks(view.top, stepsPerPixel(view), area.height, STEPS_APART)) {
      const y = this.yOf(step) + view.high / 2;
      if (step <= last && y >= area.y && y < this.bottom - 4) {
        pen.fillText(formatNumber(step), area.x - NUMBER_PIXELS, y);
        pen.fillRect(area.x - MARK_PIXELS, Math.floor(y), MARK_PIXELS, 1);
      }
    }
    pen.textAlign = "center";
    for (const position of ticks(view.left, cellsPerPixel(view), area.width, POSITIONS_APART)) {
      const x = this.xOf(position) + view.wide / 2;
      // The start is numbered also at an edge.
      const isStart = position === 0 && x >= area.x && x < this.right;
      if (isStart || (x > area.x + 8 && x < this.right - 14)) {
        pen.fillText(formatNumber(position), Math.min(x, this.right - ZERO_PIXELS), area.y - 11);
        pen.fillRect(Math.floor(x), area.y - MARK_PIXELS, 1, MARK_PIXELS);
      }
    }
    const y = this.yOf(chosen) + view.high / 2;
    if (y >= area.y && y <= this.bottom) {
      pen.fillStyle = colourOf("--accent");
      const left = area.x - ARROW_PIXELS;
      this.fillTriangle([area.x, y], [left, y - ARROW_PIXELS], [left, y + ARROW_PIXELS]);
    }
  }

  /** Outlines the pointer of the keys. */
  paintPlace(/** @type {Place} */ { step, position }) {
    const [wide, high] = [this.view.wide, this.view.high].map((pixels) => Math.max(5, pixels));
    const box = { x: this.xOf(position), y: this.yOf(step), wide, high };
    this.outline(box, colourOf("--panel"), 4, -2);
    this.outline(box, colourOf("--accent"), 2, -2);
  }

  /** Outlines bands with labels, and draws arrows. A minor band's label must not be near another one. */
  paintMarks(/** @type {Mark[]} */ marks) {
    const bands = marks.flatMap((mark) => {
      return mark.bands.map((band) => ({ ...band, box: this.boxOf(band), colour: mark.colour ?? "--mark" }));
    });
    const isVisible = (/** @type {Box} */ { y, high }) => y + high > this.area.y && y <= this.bottom;
    const visible = bands.filter(({ box }) => isVisible(box)).sort((one, other) => one.step - other.step);
    const taken = visible.map(({ box }) => ({ middle: box.y + box.high / 2, high: box.high, of: box }));
    let free = this.area.y + LABEL_PIXELS / 2;
    for (const { box, label, colour, isMinor } of visible) {
      // With a halo.
      this.outline(box, colourOf("--panel"), 1, -2.5);
      this.outline(box, colourOf(colour), 2, -1);
      if (!isMinor) {
        const wanted = Math.max(box.y + box.high / 2, free);
        const middle = Math.min(wanted, this.bottom - LABEL_PIXELS / 2);
        free = middle + LABEL_PIXELS + 2;
        this.paintLabel(box, label, middle, colour);
        taken.push({ middle, high: LABEL_PIXELS, of: box });
      }
    }
    for (const { box, label, colour } of visible.filter((band) => band.isMinor)) {
      const middle = box.y + box.high / 2;
      const isNear = (/** @type {{middle: number, high: number, of: Box}} */ one) =>
        one.of !== box && Math.abs(one.middle - middle) < (one.high + LABEL_PIXELS) / 2;
      taken.some(isNear) || this.paintLabel(box, label, middle, colour);
    }
    for (const { bands: [one, two], arrow } of marks) {
      arrow && two && this.paintArrow(this.boxOf(one), this.boxOf(two));
    }
  }

  /** @returns {Box} a band's rectangle, over the whole width for one without ends */
  boxOf(/** @type {Band} */ { step, from, to }) {
    const x = from === null ? this.area.x + 1 : this.xOf(from);
    const end = to === null ? this.right - 1 : this.xOf(to + 1);
    const y = Math.floor(this.yOf(step));
    return { x, y, wide: Math.max(LEAST_BAND, end - x), high: Math.max(LEAST_BAND, this.view.high) };
  }

  /** @param {Box} box a band @param {string} label @param {number} middle its height @param {string} colour */
  paintLabel(box, label, middle, colour) {
    const { pen, area, right: end } = this;
    Object.assign(pen, { font: `600 12px ${FONT}`, textAlign: "left", textBaseline: "middle" });
    const text = pen.measureText(label).width;
    const right = Math.min(box.x + box.wide, end);
    const before = Math.max(area.x + 4, Math.min(box.x, end) - text - 14);
    const left = right + text + 16 < end ? right + 6 : before;
    pen.fillStyle = colourOf(colour);
    pen.fillRect(left, middle - LABEL_PIXELS / 2, text + 8, LABEL_PIXELS);
    pen.fillStyle = colourOf("--panel");
    pen.fillText(label, left + 4, middle + 1);
  }

  paintArrow(/** @type {Box} */ one, /** @type {Box} */ two) {
    const { pen } = this;
    const [x, y] = [one.x + one.wide / 2, one.y + one.high + 1];
    const [toX, toY] = [two.x + two.wide / 2, two.y - 1];
    if (Math.hypot(toX - x, toY - y) < 8) return;
    const line = new Path2D();
    line.moveTo(x, y);
    line.lineTo(toX, toY);
    Object.assign(pen, { strokeStyle: colourOf("--panel"), lineWidth: 4 }).stroke(line);
    Object.assign(pen, { strokeStyle: colourOf("--mark"), lineWidth: 2 }).stroke(line);
    pen.fillStyle = colourOf("--mark");
    const turn = Math.atan2(toY - y, toX - x);
    const corner = (/** @type {number} */ angle) => [toX - 9 * Math.cos(angle), toY - 9 * Math.sin(angle)];
    this.fillTriangle([toX, toY], corner(turn - 0.45), corner(turn + 0.45));
  }
}
