/** A run over a list: dispatches it to workers, collects results, and shows the progress. */
import { KINDS, formatCount } from "../../common/machine.mjs";
import { announce, byId, setInactive, showText } from "../dom.mjs";
import { enlargePlan, showRefusal } from "../input/fields.mjs";
import { prestartWorkers } from "../worker-client.mjs";
import { ChunkReader, holdoutChunks } from "./chunks.mjs";
import { WorkerPool } from "./pool.mjs";
import { Results } from "./results.mjs";
import { passText, slowLineText, statusText } from "./status.mjs";

const MOST_WORKERS = 8;
const REFRESH_MILLISECONDS = 250;
const ANNOUNCE_MILLISECONDS = 10_000;
// The least bytes for each worker. A machine to decide again counts as many.
const LEAST_BYTES = 256;
const UNDECIDED = KINDS.indexOf("undecided");
// The steps of the first pass.
const FIRST_STEPS = 1_000n;
const NO_MEMORY = "Out of memory. Results so far are kept. Try fewer cells, or a browser with more memory.";
const NO_FILE = "The file can’t be read: it is a folder, or has changed. Choose it again.";
const FAILURES = /** @type {Record<string, string>} */ ({
  MemoryError: NO_MEMORY,
  RangeError: NO_MEMORY,
  NotReadableError: NO_FILE,
  NotFoundError: NO_FILE,
});

/** A failure, with advice. */
export const failureText = (/** @type {{error: string, message: string}} */ { error, message }) =>
  error === "ListError" ? message : FAILURES[error] ?? `The engine failed: ${message}`;

/** Shows a message above the results. */
export const showError = (/** @type {string} */ message) => showText("error", message);

/** The number of workers for a list of so many bytes. */
const workerCount = (size = Infinity) =>
  Math.max(1, Math.min(MOST_WORKERS, navigator.hardwareConcurrency || 1, Math.ceil(size / LEAST_BYTES)));

export class ListRun {
  constructor() {
    /** Called when results are shown. */
    this.onShow = () => {};
    this.pool = /** @type {WorkerPool | null} */ (null);
    this.results = new Results({});
    /** @type {RunInfo} */
    this.info = { mode: "decide", plan: {}, form: null, isFound: false, isText: true, size: 0, begun: 0, taken: 0 };
    // The latest limits.
    this.plan = {};
    /** The rows that a later pass decides again: their number, those done, and its begin. */
    this.again = /** @type {{rows: number, done: number, begun: number} | null} */ (null);
    this.outcome = "Done";
    this.isShown = false;
    this.refreshTimer = 0;
    this.clock = 0;
    this.announcedAt = 0;
  }

  get isRunning() {
    return this.pool !== null;
  }

  /**
   * @param {Blob} blob @param {ArrayBuffer} first its first read @param {ListRequest} request
   * @param {boolean} isText
   */
  start(blob, first, request, isText) {
    const { mode, plan, clean, isFound } = request;
    const form = clean ? request.form : null;
    const begun = performance.now();
    const results = new Results(plan);
    const info = { mode, plan, form, isFound, isText, size: blob.size, begun, taken: 0 };
    Object.assign(this, { info, plan, results, isShown: false, announcedAt: begun, again: null });
    byId("results").hidden = false;
    const workers = workerCount(blob.size);
    const chunks = new ChunkReader(blob, first, workers);
    const isFirst = mode === "decide" && plan.steps > FIRST_STEPS;
    const firstPass = { ...request, plan: { ...plan, steps: FIRST_STEPS } };
    this.startPool(workers, isFirst ? firstPass : request, {
      nextChunk: () => chunks.next(),
      part: (part, read) => (isFirst ? results.addFirstPass(part, read) : results.add(part, read)),
      end: () => this.decideRows(results.provisionalRows(), plan, 0),
    });
    this.startClock();
  }

  /** Decides the undecided rows again, with larger limits. */
  redecideUndecided() {
    this.plan = enlargePlan(this.plan);
    Object.assign(this.info, { begun: performance.now(), taken: 0 });
    const rows = this.results.rowsOfKinds(new Set([UNDECIDED])).slice();
    this.decideRows(rows, this.plan, this.results.planNumber(this.plan));
    this.startClock();
  }

  /** @param {Uint32Array} rows @param {Plan} plan @param {number} number of the plan */
  decideRows(rows, plan, number) {
    const { results } = this;
    if (rows.length === 0) {
      this.finish("Done");
      return;
    }
    const workers = workerCount(rows.length * LEAST_BYTES);
    const chunks = holdoutChunks(results, rows, workers);
    const again = { rows: rows.length, done: 0, begun: performance.now() };
    this.again = again;
    this.startPool(workers, { mode: "decide", form: "machines", isFound: false, clean: false, plan }, {
      nextChunk: async () => chunks.next().value ?? null,
      part: (part) => {
        again.done += part.kinds.length;
        results.replace(rows.subarray(part.first, part.first + part.kinds.length), part, number);
      },
      end: () => this.finish("Done"),
    });
  }

  startClock() {
    clearInterval(this.clock);
    this.clock = setInterval(() => this.tick(), REFRESH_MILLISECONDS);
    this.scheduleShow();
  }

  /** @param {number} workers @param {ListRequest} request @param {Omit<PoolTask, "fail">} task */
  startPool(workers, request, task) {
    /** @type {HTMLButtonElement} */ (byId("stop")).disabled = false;
    this.pool = new WorkerPool(workers, request, {
      ...task,
      part: (part, read) => {
        task.part(part, read);
        this.scheduleShow();
      },
      fail: (failure) => this.fail(failure),
    });
  }

  finish(/** @type {string} */ outcome) {
    clearInterval(this.clock);
    this.info.taken = performance.now() - this.info.begun;
    this.pool = null;
    this.outcome = outcome;
    setInactive("stop", "disabled", true, "run");
    byId("results").dataset.state = outcome.toLowerCase();
    this.show(outcome);
    announce(byId("status").textContent ?? "");
    prestartWorkers(workerCount(), () => this.isRunning);
  }

  fail(/** @type {Failure} */ failure) {
    this.finish("Ended");
    const { limit, message } = failure;
    limit === undefined ? showError(failureText(failure)) : showRefusal(limit, message);
  }

  stop() {
    this.pool?.stop();
    this.pool && this.finish("Stopped");
  }

  scheduleShow() {
    byId("results").dataset.state = "running";
    if (this.refreshTimer === 0) {
      this.refreshTimer = setTimeout(() => this.show("Running"), this.isShown ? REFRESH_MILLISECONDS : 0);
    }
  }

  tick() {
    if (this.isRunning && this.refreshTimer === 0) this.showProgress("Running");
    if (this.isRunning && performance.now() - this.announcedAt > ANNOUNCE_MILLISECONDS) {
      this.announcedAt = performance.now();
      announce(byId("status").textContent ?? "");
    }
  }

  showProgress(/** @type {string} */ outcome) {
    const { info, results, again } = this;
    const read = info.size === 0 ? 1 : results.read / info.size;
    const share = outcome === "Done" ? 1 : again === null ? read : again.done / again.rows;
    /** @type {HTMLProgressElement} */ (byId("progress")).value = share;
    byId("status").textContent = statusText(outcome, passText(outcome, share, again?.begun), info, results);
    showText("under-way", slowLineText(this.pool?.slowestLine() ?? null));
  }

  /** Shows the results, after a change of them or of the outcome. */
  show(outcome = this.isRunning ? "Running" : this.outcome) {
    clearTimeout(this.refreshTimer);
    this.refreshTimer = 0;
    if (outcome === "Running" && !this.isRunning) return;
    const { info, results: { counts, lines } } = this;
    this.showProgress(outcome);
    const canRedecide = outcome !== "Running" && info.mode !== "check" && counts[UNDECIDED] > 0;
    const undecided = formatCount(counts[UNDECIDED], "undecided machine");
    byId("left").textContent = `Decide ${undecided} again, with larger limits`;
    setInactive("left", "hidden", !canRedecide, "rows");
    this.isShown = lines > 0;
    this.onShow();
  }
}
