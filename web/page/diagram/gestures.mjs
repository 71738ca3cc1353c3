/** Input to a diagram by wheel, keys, mouse and fingers. */
import { byId, dispatchKey } from "../dom.mjs";
import { isVisible, placeAt, placeText, snapToRow } from "./geometry.mjs";
import { ZOOM } from "./viewport.mjs";

const DOUBLE = 8;
// The pixels of a wheel's notch, which zooms by 2.
const NOTCH_PIXELS = 100;
const LINE_PIXELS = 33;
const MOST_NOTCHES = 3;
// Shorter movements are clicks.
const CLICK_PIXELS = 4;

export class Gestures {
  /** `tell` shows a description of the pointed cell. */
  constructor(/** @type {Diagram} */ diagram, /** @type {(words: string, byKeys: boolean) => void} */ tell) {
    this.diagram = diagram;
    this.report = tell;
    // In the window; the mouse is a finger.
    this.fingers = /** @type {Map<number, Point>} */ (new Map());
    this.moved = 0;
    /** The view, the middle between the fingers in the canvas, and their distance. */
    this.start = this.startGesture();
    // The mouse in the canvas; undefined outside, or after a key of the pointer.
    this.hovered = /** @type {Point | undefined} */ (undefined);
    // One finger scrolls the page until the picture is tapped.
    this.canMove = false;
    const { canvas } = diagram;
    canvas.addEventListener("keydown", (event) => this.onKey(event));
    canvas.addEventListener("wheel", (event) => this.onWheel(event), { passive: false });
    canvas.addEventListener("dblclick", (event) => {
      diagram.zoom(event.shiftKey ? 1 / DOUBLE : DOUBLE, { x: event.offsetX, y: event.offsetY });
    });
    canvas.addEventListener("blur", () => {
      diagram.pointed = null;
      diagram.scheduleDraw();
    });
    canvas.addEventListener("received", () => this.onPicture());
    canvas.addEventListener("pointerdown", (event) => this.onDown(event));
    canvas.addEventListener("pointermove", (event) => this.onMove(event));
    canvas.addEventListener("pointerup", (event) => this.onUp(event));
    canvas.addEventListener("pointercancel", (event) => this.removeFinger(event));
    canvas.addEventListener("pointerleave", () => {
      this.hovered = undefined;
      tell("", false);
    });
  }

  /** Describes the pointer of the keys if the picture has its exact row. */
  reportPlace() {
    const { pointed, picture } = this.diagram;
    const isShown = pointed !== null && snapToRow(picture, pointed).step === pointed.step;
    this.report(isShown ? placeText(picture, pointed) : "", true);
  }

  /** Describes what is pointed at in a new picture, if it is there. */
  onPicture() {
    const { diagram, hovered } = this;
    const { scene, pointed } = diagram;
    if (pointed !== null && scene !== null && isVisible(scene, pointed)) {
      if (byId("place-text").textContent !== "") return;
      diagram.pointed = snapToRow(diagram.picture, pointed);
      this.reportPlace();
    } else {
      this.reportPoint(hovered);
    }
  }

  onKey(/** @type {KeyboardEvent} */ event) {
    const { diagram } = this;
    const point = (/** @type {number} */ right, /** @type {number} */ down) => () => {
      this.hovered = undefined;
      diagram.movePointer(right, down, event.shiftKey);
      this.reportPlace();
    };
    const choose = () => diagram.pointed && diagram.choose(diagram.pointed);
    dispatchKey(event, {
      ArrowLeft: point(-1, 0),
      ArrowRight: point(1, 0),
      ArrowUp: point(0, -1),
      ArrowDown: point(0, 1),
      "+": () => diagram.zoom(ZOOM, this.hovered),
      "=": () => diagram.zoom(ZOOM, this.hovered),
      "-": () => diagram.zoom(1 / ZOOM, this.hovered),
      0: () => diagram.fit(),
      Enter: choose,
      " ": choose,
    });
  }

  onWheel(/** @type {WheelEvent} */ event) {
    const { diagram } = this;
    if (document.activeElement === diagram.canvas || event.ctrlKey) {
      event.preventDefault();
      const pixels = event.deltaY * (event.deltaMode === WheelEvent.DOM_DELTA_LINE ? LINE_PIXELS : 1);
      const notches = Math.max(-MOST_NOTCHES, Math.min(MOST_NOTCHES, -pixels / NOTCH_PIXELS));
      diagram.zoom(2 ** notches, { x: event.offsetX, y: event.offsetY });
    }
  }

  onDown(/** @type {PointerEvent} */ event) {
    const { canvas } = this.diagram;
    if (event.button !== 0) return;
    this.canMove = event.pointerType === "mouse" || document.activeElement === canvas;
    this.canMove && canvas.setPointerCapture(event.pointerId);
    this.fingers.set(event.pointerId, { x: event.clientX, y: event.clientY });
    this.moved = this.fingers.size > 1 ? CLICK_PIXELS : 0;
    this.start = this.startGesture();
  }

  removeFinger(/** @type {PointerEvent} */ event) {
    this.fingers.delete(event.pointerId);
    this.start = this.startGesture();
  }

  startGesture() {
    const { view } = this.diagram;
    return view === null || this.fingers.size === 0 ? null : { view, ...this.span() };
  }

  span() {
    const [one, other] = [...this.fingers.values()];
    const two = other ?? one;
    const { canvas } = this.diagram;
    const box = canvas.getBoundingClientRect();
    const [left, top] = [box.left + canvas.clientLeft, box.top + canvas.clientTop];
    const middle = { x: (one.x + two.x) / 2 - left, y: (one.y + two.y) / 2 - top };
    return { middle, apart: Math.hypot(one.x - two.x, one.y - two.y) };
  }

  onMove(/** @type {PointerEvent} */ event) {
    const before = this.fingers.get(event.pointerId);
    if (before === undefined) {
      this.reportPointer(event);
      return;
    }
    const now = { x: event.clientX, y: event.clientY };
    const far = Math.hypot(now.x - before.x, now.y - before.y);
    if (this.moved === 0 && far < CLICK_PIXELS) return;
    this.moved += far;
    if (!this.canMove) return;
    this.fingers.set(event.pointerId, now);
    const { diagram, start } = this;
    if (start !== null) {
      // Moves and zooms the picture around the point between the fingers.
      const { middle, apart } = this.span();
      const factor = start.apart > 0 && apart > 0 ? (apart / start.apart) ** 2 : 1;
      diagram.moveAndZoom(start.view, factor, start.middle, middle);
    }
  }

  /** Describes the cell under the pointer, and returns its place. */
  reportPointer(/** @type {PointerEvent} */ { offsetX: x, offsetY: y, pointerType }) {
    this.hovered = pointerType === "mouse" ? { x, y } : undefined;
    return this.reportPoint({ x, y });
  }

  reportPoint(/** @type {Point | undefined} */ point) {
    const { scene, picture } = this.diagram;
    const place = point && scene && placeAt(scene, point);
    this.report(place ? placeText(picture, place) : "", false);
    return place;
  }

  onUp(/** @type {PointerEvent} */ event) {
    const { diagram, fingers } = this;
    if (fingers.has(event.pointerId) && fingers.size === 1 && this.moved < CLICK_PIXELS) {
      const place = this.reportPointer(event);
      place && diagram.choose(place);
      diagram.canvas.focus({ preventScroll: true });
    }
    this.removeFinger(event);
  }
}
