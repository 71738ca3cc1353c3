/**
 * The space-time diagram: a row is a step, a column a position.
 *
 * @typedef {{machine: string, cells: number, upto: number} & Omit<Fit, "opens">} DiagramRun
 */
import { byId, readPalette } from "../dom.mjs";
import { WorkerClient } from "../worker-client.mjs";
import * as geometry from "./geometry.mjs";
import { Painter, createSheet } from "./paint.mjs";
import * as viewport from "./viewport.mjs";

// A picture may take this long before the next one interrupts it: its trace is of use.
const PATIENCE_MILLISECONDS = 1_500;

export class Diagram {
  /** @param {(place: Place) => void} onChoose called when a step is chosen in the picture */
  constructor(onChoose) {
    this.onChoose = onChoose;
    this.canvas = /** @type {HTMLCanvasElement} */ (byId("diagram"));
    this.client = new WorkerClient(PATIENCE_MILLISECONDS);
    this.aheadClient = new WorkerClient();
    this.run = /** @type {DiagramRun | null} */ (null);
    this.picture = /** @type {Picture | null} */ (null);
    this.sheet = /** @type {HTMLCanvasElement | null} */ (null);
    this.marks = /** @type {Mark[]} */ ([]);
    this.marked = /** @type {Pair | null} */ (null);
    /** @type {View | null} null until the first picture */
    this.view = null;
    this.isOpening = true;
    // Whether the view follows the canvas's size.
    this.isFitted = true;
    /** The head at the tape's step. */
    this.tapePlace = { step: 0, position: 0 };
    /** @type {Place | null} the pointer of the keys */
    this.pointed = null;
    this.frame = 0;
    this.requests = 0;
    new ResizeObserver(() => this.onResize()).observe(this.canvas);
    matchMedia("(prefers-color-scheme: dark)").addEventListener("change", () => this.requestPicture());
  }

  get area() {
    return geometry.pictureArea(this.canvas, this.run?.last ?? 0);
  }

  get scene() {
    const { view, area, picture } = this;
    return view === null ? null : { view, area, picture };
  }

  /** Shows a machine from its start, or its marks. */
  open(/** @type {DiagramRun} */ run, /** @type {Mark[]} */ marks) {
    this.close();
    Object.assign(this, { run, marks, marked: run.pair, tapePlace: { step: 0, position: 0 } });
    this.fit(true);
  }

  /** Leaves a machine and drops its outstanding pictures. */
  close() {
    Object.assign(this, { run: null, picture: null, sheet: null, view: null, marks: [], pointed: null });
    this.requests += 1;
    this.canvas.dataset.state = "requested";
    byId("diagram-text").textContent = "Drawing …";
    this.aheadClient.isBusy && this.aheadClient.cancel();
  }

  /** Empties the canvas, unless a picture has come. */
  clear() {
    if (this.picture === null) {
      // Setting the width clears a canvas.
      this.canvas.width = this.canvas.clientWidth;
    }
  }

  onResize() {
    if (this.run !== null && this.canvas.clientWidth > 0) {
      this.view = this.isFitted ? null : this.view;
      this.requestPicture();
    }
  }

  /** Shows the whole, or the opening view: on the marked pair, or on another one. */
  fit(isOpening = false, pair = this.marked) {
    const run = this.run && { ...this.run, pair };
    Object.assign(this, { run, view: null, isOpening, isFitted: true });
    this.requestPicture();
  }

  /** Adds a mark to those of the open machine. A marked row gets only its label. */
  addMark(/** @type {Mark} */ mark) {
    const marked = new Map(this.marks.flatMap(({ bands }) => bands.map((band) => [band.step, band])));
    mark.bands.forEach(({ step, label }) => Object.assign(marked.get(step) ?? {}, { label }));
    const bands = mark.bands.filter(({ step }) => !marked.has(step));
    this.marks = [...this.marks, { ...mark, bands }];
    this.scheduleDraw();
  }

  setView(/** @type {View} */ view) {
    Object.assign(this, { view, isFitted: false });
    this.requestPicture();
  }

  /** Requests the view's picture; the last one stays until it comes. */
  requestPicture() {
    if (this.run === null) return;
    const { machine, cells, upto, ...fit } = this.run;
    const { width, height } = this.area;
    if (this.picture === null) byId("diagram-text").textContent = "Drawing …";
    this.canvas.dataset.state = "requested";
    this.requests += 1;
    const { requests, view, isOpening: opens } = this;
    const run = { machine, cells, upto, view, width, height, fit: { ...fit, opens }, palette: readPalette() };
    this.client.request({ type: "picture", ...run }, (reply) => {
      this.receivePicture(reply, requests === this.requests);
    });
    this.scheduleDraw();
  }

  /** Draws a picture at once, in time for the next frame. One of an older view is scaled. */
  receivePicture(/** @type {any} */ reply, /** @type {boolean} */ isLast) {
    if (!isLast && (reply.error || this.view === null)) return;
    if (reply.error) {
      Object.assign(this, { picture: null, sheet: null });
      this.clear();
      byId("diagram-text").textContent = `No diagram: ${reply.message}.`;
      return;
    }
    const picture = /** @type {Picture} */ (reply.picture);
    Object.assign(this, { picture, sheet: createSheet(picture), view: this.view ?? picture.view });
    this.canvas.dataset.state = isLast ? "received" : "requested";
    this.draw();
    if (isLast) {
      this.traceAhead(picture.ahead, this.requests);
      this.canvas.dispatchEvent(new Event("received"));
    }
  }

  /**
   * Traces rows of probable next views in another worker, for the cache of this one, until the next request.
   * @param {Picture["ahead"]} ahead @param {number} requests
   */
  traceAhead([request, ...others], requests) {
    if (request === undefined || requests !== this.requests) return;
    const { machine, cells } = request;
    this.aheadClient.request({ type: "trace-ahead", request }, ({ error, cached }) => {
      cached && this.client.post({ type: "store-rows", machine, cells, cached }, [cached.rows.cells.buffer]);
      error || this.traceAhead(others, requests);
    });
  }

  /** Shows a view, moved to visited cells. */
  setNearView(/** @type {View} */ wanted) {
    const { scene, run } = this;
    if (scene !== null && run !== null) {
      const view = geometry.clampView({ ...scene, view: wanted }, run.upto);
      viewport.isSameView(view, scene.view) || this.setView(view);
    }
  }

  /**
   * Zooms a view around a point, and moves the point to another.
   * @param {View} from @param {number} factor @param {Point} point @param {Point} goal
   */
  moveAndZoom(from, factor, point, goal) {
    if (this.picture !== null) {
      const { x, y } = this.area;
      const at = { x: point.x - x, y: point.y - y };
      const view = factor === 1 ? from : viewport.zoomView(from, this.picture.home, factor, at);
      this.setNearView(geometry.moveView(view, point.x - goal.x, point.y - goal.y));
    }
  }

  /** Zooms around a point of the canvas; the default is the pointer, the tape's step or a head. */
  zoom(/** @type {number} */ factor, /** @type {Point | undefined} */ point) {
    const { scene, picture, area } = this;
    if (scene !== null && picture !== null) {
      const { x, y } = point ?? this.zoomCentre(scene);
      this.setView(viewport.zoomView(scene.view, picture.home, factor, { x: x - area.x, y: y - area.y }));
    }
  }

  zoomCentre(/** @type {Scene} */ scene) {
    return geometry.zoomCentre(scene, [this.pointed, this.tapePlace]);
  }

  /** Chooses a step of the picture, which is marked at once. */
  choose(/** @type {Place} */ place) {
    this.showStep(place, false);
    this.onChoose(place);
  }

  /** Marks the tape's step. If its cells are too small, `closes` zooms in on it. */
  showStep(/** @type {Place} */ place, /** @type {boolean} */ closes) {
    this.tapePlace = place;
    const { scene } = this;
    if (scene === null) return;
    this.pointed = closes ? null : this.pointed;
    if (closes || (!geometry.isVisible(scene, place) && scene.view.high >= viewport.FRAMED)) {
      this.setView(viewport.closeView(scene.area, place, scene.view));
    }
    this.scheduleDraw();
  }

  /** Moves the pointer of the keys by cells or by part of the view; the view follows. */
  movePointer(/** @type {number} */ right, /** @type {number} */ down, /** @type {boolean} */ far) {
    const { scene, run, tapePlace } = this;
    if (scene === null || run === null) return;
    const isVisible = geometry.isVisible(scene, tapePlace);
    const middle = isVisible ? null : geometry.placeAt(scene, this.zoomCentre(scene));
    const from = this.pointed ?? middle ?? tapePlace;
    this.pointed = geometry.nextPlace(scene, from, { right, down, far }, run.upto);
    const { right: x, down: y } = geometry.offsetTo(scene, this.pointed);
    if (x !== 0 || y !== 0) this.setNearView(geometry.moveView(scene.view, x, y));
    this.scheduleDraw();
  }

  scheduleDraw() {
    if (this.frame === 0) this.frame = requestAnimationFrame(() => this.draw());
  }

  draw() {
    cancelAnimationFrame(this.frame);
    this.frame = 0;
    const { scene, picture, canvas } = this;
    if (picture === null || scene === null) return;
    const painter = new Painter(canvas, scene);
    painter.paintPicture(picture, this.sheet);
    painter.paintHeads(picture);
    painter.paintMarks(this.marks);
    painter.paintAxes(this.tapePlace.step, this.run?.upto ?? 0);
    this.pointed !== null && painter.paintPlace(this.pointed);
    const isNew = canvas.dataset.state !== "requested";
    Object.assign(canvas.dataset, { ...scene.view, x: scene.area.x, y: scene.area.y, ratio: painter.ratio });
    byId("diagram-text").textContent = geometry.pictureText(picture, scene.area.width);
    canvas.dataset.state = isNew ? "drawn" : "requested";
  }

  async toPng() {
    return new Promise((resolve) => this.canvas.toBlob(resolve, "image/png"));
  }
}
