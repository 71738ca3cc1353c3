/** The view of a list: its kinds, order, rows and open line. */
import { KINDS, formatNumber } from "../../common/machine.mjs";
import { create, onClick, byId, setInactive, announce } from "../dom.mjs";
import { MOST_COMPARED } from "../machine/lines.mjs";
import { WorkerClient } from "../worker-client.mjs";
import { RowTable } from "./row-table.mjs";

// The performance mark of the first verdict.
const FIRST_VERDICT = "first verdict";

export class ListView {
  /** @param {MachineView} view @param {ListRun} work */
  constructor(view, work) {
    this.view = view;
    view.replaceRow = (by, plan) => this.replaceOpenRow(by, plan);
    this.work = work;
    work.onShow = () => this.show();
    this.rows = new RowTable((row) => this.openRow(row, true));
    this.sorter = new WorkerClient();
    this.kindsShown = new Set(KINDS.keys());
    this.kindButtons = KINDS.map((_, k) => this.createKindButton(k));
    byId("kinds").append(...this.kindButtons);
    this.order = /** @type {HTMLSelectElement} */ (byId("order"));
    this.wasOpened = false;
    this.openLine = /** @type {LinePlace | null} */ (null);
    this.openText = "";
    // Counts displays, so that outdated sorts are dropped.
    this.turn = 0;
    this.order.addEventListener("change", () => this.showRows());
    /** Opens the next or the previous line, or an undecided one, by key. */
    this.neighbours = {
      n: () => this.openNeighbour(1, false),
      p: () => this.openNeighbour(-1, false),
      N: () => this.openNeighbour(1, true),
      P: () => this.openNeighbour(-1, true),
    };
    const { n, p, N, P } = this.neighbours;
    onClick({ "row-next": n, "row-before": p, "open-next": N, "open-before": P });
  }

  /** Prepares for a new list. The machine is hidden unless the first line comes soon. */
  reset() {
    this.rows.reset();
    Object.assign(this, { wasOpened: false, openLine: null });
    this.view.scheduleClose();
  }

  /** Shows the results, and opens the first line once it is answered. */
  show() {
    this.showKinds();
    this.showRows();
    const { results, isRunning } = this.work;
    this.refreshOpen();
    if (!this.wasOpened && results.lines > 0 && (results.hasFirstLine ? !results.isWaiting(0) : !isRunning)) {
      this.rows.choose(0, false);
      this.openRow(this.rows.rows[0] ?? 0, false);
      if (performance.getEntriesByName(FIRST_VERDICT).length === 0) performance.mark(FIRST_VERDICT);
    }
    this.compareOpen();
  }

  /** Replaces the open row after a new decision; returns whether it could. Checked claims stay. */
  replaceOpenRow(/** @type {Part} */ by, /** @type {Plan} */ plan) {
    const { openLine, work: { results } } = this;
    const row = openLine?.part.lines === null ? results.rowOf(openLine) : -1;
    if (row >= 0) {
      results.replace(Uint32Array.of(row), by, results.planNumber(plan));
      this.openText = results.rowAt(row).verdict.text;
      this.work.show();
    }
    return row >= 0;
  }

  /** Updates the open line if the second pass has changed its verdict. */
  refreshOpen() {
    const { openLine, work: { results } } = this;
    const row = openLine === null ? -1 : results.rowOf(openLine);
    if (row >= 0 && !results.isWaiting(row) && this.openText !== results.rowAt(row).verdict.text) {
      this.openRow(row, false);
    }
  }

  /** Updates the kinds' buttons, which stay in place for clicks. */
  showKinds() {
    const { counts } = this.work.results;
    this.kindButtons.forEach((button, k) => {
      button.textContent = `${KINDS[k]} ${formatNumber(counts[k])}`;
      button.setAttribute("aria-pressed", String(this.kindsShown.has(k)));
      setInactive(button.id, "hidden", counts[k] === 0, "rows");
    });
    const isAll = KINDS.every((_, k) => this.kindsShown.has(k) || counts[k] === 0);
    setInactive("save-shown", "hidden", isAll, "save");
  }

  createKindButton(/** @type {number} */ k) {
    const { kindsShown } = this;
    const button = create("button", { type: "button", id: `kind-${KINDS[k]}`, hidden: true });
    button.addEventListener("click", () => {
      kindsShown.has(k) ? kindsShown.delete(k) : kindsShown.add(k);
      this.showKinds();
      this.showRows();
    });
    return button;
  }

  /** Shows the rows of the chosen kinds in the chosen order. */
  showRows() {
    const { results, isRunning } = this.work;
    const order = this.order.value;
    const rows = results.rowsOfKinds(this.kindsShown);
    const isSorted = order !== "list" && !isRunning;
    this.turn += 1;
    // The first line to open is the list's first.
    if (!isSorted || !this.wasOpened) this.rows.showRows(results, rows, true);
    if (isSorted) this.showSorted(rows.slice(), order === "down");
  }

  /** Sorts rows by steps in a worker, and shows them unless others are shown meanwhile. */
  async showSorted(/** @type {Uint32Array} */ rows, /** @type {boolean} */ down) {
    const { turn, work: { results } } = this;
    const isLast = () => turn === this.turn && results === this.work.results;
    const steps = await results.stepsOf(rows, isLast);
    if (isLast()) {
      this.sorter.request({ type: "sort", rows, steps, down }, ({ order }) => {
        order !== undefined && isLast() && this.rows.showRows(results, order, false);
      });
    }
  }

  openRow(/** @type {number} */ row, /** @type {boolean} */ moves) {
    const { results, info } = this.work;
    const { machine, verdict, answer, given, number, plan } = results.rowAt(row);
    const isWaiting = results.isWaiting(row);
    const openText = isWaiting ? "" : verdict.text;
    Object.assign(this, { wasOpened: true, openLine: results.placeOf(row), openText });
    this.rows.openLine = this.openLine;
    this.rows.draw();
    const form = info.mode === "decide" ? info.form : null;
    const line = { text: given, number, form, isFound: info.isFound };
    this.view.open({ machine, verdict, answer, plan, isWaiting }, moves, line);
    this.compareOpen();
  }

  /** Looks for other lines of the open machine, once all are answered. */
  compareOpen() {
    const { openLine, work: { results, isRunning } } = this;
    const row = openLine === null || isRunning ? -1 : results.rowOf(openLine);
    if (row >= 0) this.view.compare(results.machinesBeside(row, MOST_COMPARED));
  }

  /** Opens the next or previous row, or undecided row. */
  openNeighbour(/** @type {number} */ by, /** @type {boolean} */ isUndecided) {
    const { rows } = this.rows;
    const { results } = this.work;
    let place = this.rows.placeAtOffset(by);
    const fits = () => !isUndecided || results.isUndecided(rows[place]);
    while (place >= 0 && place < rows.length && !fits()) {
      place += by;
    }
    if (place >= 0 && place < rows.length) {
      this.rows.choose(place, true);
    } else {
      announce(`There is no other ${isUndecided ? "undecided line" : "line"} that way.`);
    }
  }
}
