/** The tape at one step: the cells around the head, the next entry, and stepping. */
import { formatNumber } from "../../common/machine.mjs";
import { onClick, byId, dispatchKey, setInactive, announce } from "../dom.mjs";
import { parseNumber } from "../input/fields.mjs";
import { WorkerClient } from "../worker-client.mjs";
import { createCell, nextEntry, highlightEntry, stepText } from "./tape-row.mjs";

/** @typedef {{machine: string, cells: number, last: number}} About `last`: the last step */

// The cells of the rows in one request.
const STRETCH_CELLS = 2_000_000;
const [FEWEST, MOST] = [16, 512];
const CELL_PIXELS = 26;
const PACE_MILLISECONDS = 250;

export class Tape {
  /** @param {(place: Place, closes: boolean) => void} went called after each step */
  constructor(went) {
    this.onStep = went;
    this.client = new WorkerClient();
    this.about = /** @type {About | null} */ (null);
    this.step = 0;
    this.rows = /** @type {Row[]} */ ([]);
    this.closes = false;
    // Counts steps, so that outdated replies are dropped.
    this.requests = 0;
    this.timer = 0;
    this.reducedMotion = matchMedia("(prefers-reduced-motion: reduce)");
    this.box = byId("tape");
    this.field = /** @type {HTMLInputElement} */ (byId("tape-step"));
    onClick({
      "tape-first": () => this.goTo(0),
      "tape-back": () => this.goTo(this.step - 1),
      "tape-on": () => this.goTo(this.step + 1),
      "tape-play": () => this.togglePlay(),
    });
    byId("tape-form").addEventListener("submit", (event) => {
      event.preventDefault();
      this.goToField();
    });
    this.box.addEventListener("keydown", (event) => this.onKey(event));
    new ResizeObserver(() => this.draw()).observe(this.box);
    this.reducedMotion.addEventListener("change", () => this.pause());
  }

  open(/** @type {About} */ about, step = 0) {
    this.pause();
    Object.assign(this, { about, rows: [] });
    this.clearRefusal();
    this.goTo(step);
  }

  /** Leaves a machine and stops playback. */
  close() {
    this.pause();
    this.requests += 1;
    Object.assign(this, { about: null, rows: [] });
    byId("tape-text").textContent = "…";
  }

  /** Empties the tape, unless a row has come. */
  clear() {
    if (this.row === undefined) byId("tape-cells").replaceChildren();
  }

  get row() {
    return this.rows.find((row) => row.step === this.step);
  }

  goToField() {
    const number = parseNumber(this.field.value);
    this.pause();
    if (number !== null) {
      this.clearRefusal();
      this.goTo(Number(number), true);
      return;
    }
    const words = `A step is a whole number, 0 to ${formatNumber(this.about?.last ?? 0)}.`;
    this.field.setAttribute("aria-invalid", "true");
    byId("tape-refused").textContent = words;
    announce(words);
  }

  clearRefusal() {
    this.field.removeAttribute("aria-invalid");
    byId("tape-refused").textContent = "";
  }

  /** Goes to a step, or to the last one. */
  goTo(/** @type {number} */ step, closes = false) {
    if (this.about === null) return;
    const from = this.step;
    this.requests += 1;
    this.step = Math.max(0, Math.min(step, this.about.last));
    this.closes = closes;
    this.row === undefined ? this.requestRows(from) : this.showStep();
  }

  /** Requests rows around a step, mostly in the direction of travel. */
  requestRows(/** @type {number} */ from) {
    const { machine, cells } = /** @type {About} */ (this.about);
    const wide = this.rows[0]?.cells.length ?? this.step;
    const many = Math.round(Math.max(FEWEST, Math.min(MOST, STRETCH_CELLS / Math.max(1, wide))));
    const back = this.step < from ? many - 4 : Math.min(4, many / 4);
    const begin = Math.max(0, this.step - Math.floor(back));
    const upto = begin + many;
    const { requests } = this;
    byId("tape-text").textContent = `Going to step ${formatNumber(this.step)} …`;
    this.client.request({ type: "trace", machine, cells, from: begin, every: 1, upto }, (answer) => {
      if (requests === this.requests && answer.error) {
        this.pause();
        byId("tape-text").textContent = `The tape can’t be shown: ${answer.message}.`;
      } else if (requests === this.requests) {
        this.setRows(answer.rows, answer.last, upto);
      }
    });
  }

  /** @param {Row[]} rows @param {number} last step of the rows or the run @param {number} upto */
  setRows(rows, last, upto) {
    this.rows = rows;
    // Very wide rows are sampled.
    if (last < upto && (rows.length === 0 || last - rows[0].step === rows.length - 1)) {
      this.about = this.about && { ...this.about, last: Math.min(this.about.last, last) };
      this.step = Math.min(this.step, last);
    }
    if (this.row === undefined && rows.length === 0) {
      this.goTo(this.step, this.closes);
      return;
    }
    if (this.row === undefined) {
      this.pause();
      this.step = rows[rows.length - 1].step;
    }
    this.showStep();
  }

  showStep() {
    this.draw();
    const { row, field } = this;
    if (row !== undefined && document.activeElement !== field) {
      field.value = String(row.step);
      this.clearRefusal();
    }
    row && this.onStep({ step: row.step, position: row.head }, this.closes);
    this.closes = false;
  }

  get hasNext() {
    const { row, about } = this;
    const isKnown = row !== undefined && about !== null;
    return isKnown && this.step < about.last && nextEntry(row, about.machine) !== null;
  }

  togglePlay() {
    if (this.timer !== 0 || this.reducedMotion.matches) {
      this.timer === 0 ? this.goTo(this.step + 1) : this.pause();
      return;
    }
    this.timer = setInterval(() => this.tick(), PACE_MILLISECONDS);
    this.labelPlay();
  }

  /** Plays the next step, once the current row has come. */
  tick() {
    if (this.hasNext) {
      this.goTo(this.step + 1);
    } else if (this.row !== undefined || !this.client.isBusy) {
      this.pause();
      this.draw();
    }
  }

  pause() {
    clearInterval(this.timer);
    this.timer = 0;
    this.labelPlay();
  }

  labelPlay() {
    const words = this.reducedMotion.matches ? "Step" : this.timer === 0 ? "Play" : "Pause";
    byId("tape-play").textContent = words;
  }

  /** Handles keys, except in the field, and Space on a button. */
  onKey(/** @type {KeyboardEvent} */ event) {
    const keeps = event.key === " " ? "input, button" : "input";
    const far = event.shiftKey ? 10 : 1;
    if (!(/** @type {HTMLElement} */ (event.target).matches(keeps))) {
      dispatchKey(event, {
        ArrowLeft: () => this.goTo(this.step - far),
        ArrowRight: () => this.goTo(this.step + far),
        Home: () => this.goTo(0),
        End: () => this.goTo(this.about?.last ?? 0),
        " ": () => this.togglePlay(),
      });
    }
  }

  draw() {
    const { row, about } = this;
    if (row === undefined || about === null) return;
    const around = Math.max(2, Math.floor((this.box.clientWidth / CELL_PIXELS - 1) / 2));
    const places = Array.from({ length: 2 * around + 1 }, (_, k) => row.head - around + k);
    byId("tape-cells").replaceChildren(...places.map((at) => createCell(row, at)));
    const words = stepText(row, about.machine);
    byId("tape-text").textContent = words;
    this.box.setAttribute("aria-label", `Tape. ${words}`);
    // The focus moves from a disabled button to the tape, which has the same keys.
    setInactive("tape-first", "disabled", row.step === 0, "tape");
    setInactive("tape-back", "disabled", row.step === 0, "tape");
    setInactive("tape-on", "disabled", !this.hasNext, "tape");
    setInactive("tape-play", "disabled", !this.hasNext && this.timer === 0, "tape");
    highlightEntry(row);
  }
}
