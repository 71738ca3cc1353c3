/**
 * The table of lines. Only visible rows are in the document, so that millions of lines scroll.
 *
 * @typedef {{element: HTMLElement, of: Part, line: number, bytes: Uint8Array, isChosen: boolean,
 *   isOpen: boolean}} DrawnRow `of`, `line` and `bytes`: its part, its line there, and the part's bytes when it
 *   was drawn
 */
import { formatNumber } from "../../common/machine.mjs";
import { readLine } from "../../reader/line-reader.mjs";
import { LONGEST_SHOWN } from "../../common/text.mjs";
import { create, byId } from "../dom.mjs";
import { FIRST_PASS, LARGER } from "./results.mjs";

// Row heights; rows have two lines on a phone, and where a machine and its verdict don't fit into one.
const ROW_PIXELS = 28;
const TALL_ROW_PIXELS = 48;
const PHONE = "(max-width: 600px)";
// The width of a character in the columns of numbers and machines, in that of verdicts, and of all else.
const COLUMN_PIXELS = 7.44;
const CHARACTER_PIXELS = 7.25;
const OTHER_PIXELS = 86;
// The least widths of the number and the verdict.
const LEAST_NUMBER_PIXELS = 33;
const LEAST_VERDICT_PIXELS = 120;
// Browsers limit an element's height; longer lists scale the scroll bar.
const MOST_PIXELS = 8_000_000;

export class RowTable {
  /** @param {(row: number) => void} open called when a row is opened */
  constructor(open) {
    this.open = open;
    this.results = /** @type {Results | null} */ (null);
    this.rows = new Uint32Array(0);
    /** @type {Map<number, DrawnRow>} by place */
    this.drawn = new Map();
    this.top = 0;
    // The place of the chosen line, or -1 if it is filtered out.
    this.chosen = -1;
    // The place of the chosen line, or the next one if it is filtered out.
    this.gap = 0;
    this.line = /** @type {LinePlace | null} */ (null);
    /** The line whose machine is open. */
    this.openLine = /** @type {LinePlace | null} */ (null);
    // The characters of the longest machine so far, and the width of the longest with its verdict.
    this.widest = 0;
    this.linePixels = 0;
    this.phone = matchMedia(PHONE);
    this.phone.addEventListener("change", () => this.onResize());
    this.isTall = this.phone.matches;
    this.digits = 0;
    this.box = byId("rows");
    this.box.addEventListener("scroll", () => this.onScroll());
    this.box.addEventListener("keydown", (event) => this.onKey(event));
    this.box.addEventListener("wheel", (event) => this.onWheel(event), { passive: false });
    byId("shown").addEventListener("click", (event) => this.onClick(event));
    // The box's inner height and width; reading them costs a layout.
    this.inner = 0;
    this.width = 0;
    new ResizeObserver(() => {
      this.inner = this.box.clientHeight;
      this.width = this.box.clientWidth;
      this.onResize();
    }).observe(this.box);
  }

  get pixels() {
    return this.isTall ? TALL_ROW_PIXELS : ROW_PIXELS;
  }

  get visibleCount() {
    return Math.max(1, Math.floor((this.inner - this.pixels - 1) / this.pixels));
  }

  get height() {
    return Math.min(MOST_PIXELS, this.rows.length * this.pixels);
  }

  get isScaled() {
    return this.rows.length * this.pixels > MOST_PIXELS;
  }

  /** Forgets the chosen line. */
  reset() {
    Object.assign(this, { chosen: -1, gap: 0, line: null, openLine: null, top: 0, widest: 0, linePixels: 0 });
  }

  /**
   * Shows rows; the chosen line stays chosen.
   * @param {Results} results @param {Uint32Array} rows @param {boolean} isInOrder whether rows ascend
   */
  showRows(results, rows, isInOrder) {
    const fewer = Math.min(rows.length, this.rows.length);
    this.results = results;
    this.rows = rows;
    this.locateChosen(results, rows, isInOrder);
    byId("spacer").style.height = `${this.height}px`;
    this.digits = formatNumber(results.lines + results.skipped).length;
    this.box.style.setProperty("--digits", String(this.digits));
    // A full box keeps its height.
    if (fewer * this.pixels <= this.inner) this.inner = this.box.clientHeight;
    this.box.setAttribute("aria-rowcount", String(rows.length + 1));
    this.top = Math.min(this.top, Math.max(0, rows.length - this.visibleCount));
    this.draw();
  }

  /** @param {Results} results @param {Uint32Array} rows @param {boolean} isInOrder */
  locateChosen(results, rows, isInOrder) {
    const row = this.line === null ? -1 : results.rowOf(this.line);
    this.chosen = row < 0 ? -1 : rows.indexOf(row);
    if (this.chosen >= 0) {
      this.gap = this.chosen;
    } else if (row >= 0 && isInOrder) {
      const beyond = rows.findIndex((one) => one > row);
      this.gap = beyond < 0 ? rows.length : beyond;
    }
    this.gap = Math.min(this.gap, rows.length);
  }

  /** The place at an offset from the chosen line. */
  placeAtOffset(/** @type {number} */ by) {
    return this.gap + (this.chosen < 0 && by > 0 ? by - 1 : by);
  }

  /** Gives rows one or two lines; returns whether that changed. */
  fitRows() {
    const numberPixels = Math.max(LEAST_NUMBER_PIXELS, this.digits * COLUMN_PIXELS);
    const isTall = this.phone.matches || numberPixels + this.linePixels + OTHER_PIXELS > this.width;
    const hasChanged = isTall !== this.isTall;
    this.isTall = isTall;
    this.box.classList.toggle("tall", isTall);
    return hasChanged;
  }

  onResize() {
    this.fitRows();
    byId("spacer").style.height = `${this.height}px`;
    this.scrollTo(this.top);
  }

  onScroll() {
    const most = Math.max(1, this.box.scrollHeight - this.box.clientHeight);
    const scaled = (this.box.scrollTop / most) * Math.max(0, this.rows.length - this.visibleCount);
    this.top = this.isScaled ? Math.round(scaled) : Math.floor(this.box.scrollTop / this.pixels);
    this.draw();
  }

  onWheel(/** @type {WheelEvent} */ event) {
    if (this.isScaled) {
      event.preventDefault();
      this.scrollTo(this.top + Math.round(event.deltaY / this.pixels) || this.top + Math.sign(event.deltaY));
    }
  }

  scrollTo(/** @type {number} */ top) {
    this.top = Math.max(0, Math.min(top, this.rows.length - this.visibleCount));
    const share = this.top / Math.max(1, this.rows.length - this.visibleCount);
    const most = this.box.scrollHeight - this.box.clientHeight;
    this.box.scrollTop = this.isScaled ? share * most : this.top * this.pixels;
    this.draw();
  }

  draw() {
    const end = Math.min(this.rows.length, this.top + this.visibleCount + 2);
    const box = byId("shown");
    const at = this.isScaled ? this.box.scrollTop : this.top * this.pixels;
    box.style.transform = `translateY(${Math.max(0, at)}px)`;
    const drawn = /** @type {Map<number, DrawnRow>} */ (new Map());
    for (let place = this.top; place < end; place += 1) {
      drawn.set(place, this.drawnRowAt(place));
    }
    this.drawn = drawn;
    if (this.width > 0 && this.fitRows()) return this.onResize();
    this.box.style.setProperty("--widest", String(this.widest));
    const rows = Array.from(drawn.values(), ({ element }) => element);
    if (rows.length !== box.children.length || rows.some((row, k) => row !== box.children[k])) {
      box.replaceChildren(...rows);
    }
    const isDrawn = this.chosen >= this.top && this.chosen < end;
    isDrawn
      ? this.box.setAttribute("aria-activedescendant", `row-${this.chosen}`)
      : this.box.removeAttribute("aria-activedescendant");
  }

  /** @param {number} place @returns {DrawnRow} the row at a place, drawn anew only after a change */
  drawnRowAt(place) {
    const { part: of, line } = /** @type {Results} */ (this.results).placeOf(this.rows[place]);
    const isChosen = place === this.chosen;
    const isOpen = this.openLine?.part === of && this.openLine.line === line;
    const { bytes } = of;
    const before = this.drawn.get(place);
    const isSame = before?.of === of && before.line === line && before.bytes === bytes;
    if (isSame && before?.isChosen === isChosen && before.isOpen === isOpen) return before;
    return { element: this.createRow(place, isOpen), of, line, bytes, isChosen, isOpen };
  }

  createRow(/** @type {number} */ place, /** @type {boolean} */ isOpen) {
    const results = /** @type {Results} */ (this.results);
    const { machine, verdict, answer, kind, number, given, pass, plan } = results.rowAt(this.rows[place]);
    const cell = (/** @type {string} */ text, name = "", more = "", title = text) => {
      const origin = more === "" ? [] : [create("span", { class: "from" }, more)];
      return create("span", { role: "gridcell", class: name, title }, text, ...origin);
    };
    const isRefused = kind === "refused";
    // A refused machine has no claim to check.
    const hasNone = isRefused && answer !== "unread";
    const reading = given === null || isRefused ? null : readLine(given);
    const isRewritten = reading?.kind === "machine" && reading.rewritten.length > 0;
    const from = isRewritten ? ` ← ${given?.trim()}` : "";
    const steps = formatNumber(Number(plan.steps));
    const mark = pass === FIRST_PASS ? "first pass" : pass >= LARGER ? `again, ${steps} steps` : "";
    const about = { role: "row", class: "row", id: `row-${place}`, "aria-rowindex": place + 2 };
    const chosen = { "aria-selected": place === this.chosen, "aria-current": isOpen, "data-place": place };
    this.widest = Math.max(this.widest, machine.length);
    const verdictPixels = Math.max(LEAST_VERDICT_PIXELS, verdict.text.length * CHARACTER_PIXELS);
    this.linePixels = Math.max(this.linePixels, machine.length * COLUMN_PIXELS + verdictPixels);
    return create(
      "div",
      { ...about, ...chosen },
      cell(formatNumber(number + 1), "number"),
      isRefused ? cell((given ?? "").slice(0, LONGEST_SHOWN)) : cell(machine, "", from, machine + from),
      mark === "" ? cell(verdict.text) : cell(verdict.text, "", ` ${mark}`, `${verdict.text} (${mark})`),
      hasNone ? cell("–", "none") : cell(answer, answer),
    );
  }

  onClick(/** @type {MouseEvent} */ event) {
    const row = /** @type {HTMLElement} */ (event.target).closest("[data-place]");
    if (row instanceof HTMLElement) this.choose(Number(row.dataset.place), true);
  }

  onKey(/** @type {KeyboardEvent} */ event) {
    const [page, far] = [this.visibleCount - 1, Infinity];
    /** @type {Record<string, number>} */
    const moves = { ArrowDown: 1, ArrowUp: -1, PageDown: page, PageUp: -page, Home: -far, End: far };
    if (event.key in moves && this.rows.length > 0) {
      event.preventDefault();
      this.choose(this.placeAtOffset(moves[event.key]), false);
    } else if (event.key === "Enter" && this.chosen >= 0) {
      this.choose(this.chosen, true);
    }
  }

  /** Chooses a row, and opens its machine on request. */
  choose(/** @type {number} */ place, /** @type {boolean} */ opens) {
    if (this.rows.length === 0) return;
    this.chosen = Math.max(0, Math.min(place, this.rows.length - 1));
    this.gap = this.chosen;
    this.line = this.results?.placeOf(this.rows[this.chosen]) ?? null;
    if (this.chosen < this.top || this.chosen >= this.top + this.visibleCount) {
      this.scrollTo(this.chosen < this.top ? this.chosen : this.chosen - this.visibleCount + 1);
    }
    this.draw();
    if (opens) this.open(this.rows[this.chosen]);
  }
}
