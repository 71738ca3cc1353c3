/** The results of a list, in the order of its lines; chunks may finish in another order. */
import { ANSWERS, KINDS, UNREAD_LINE, parseVerdictLine } from "../../common/machine.mjs";
import { concatBytes, lineAt } from "../../common/bytes.mjs";
import { BYTES_KEPT, LONGEST_SHOWN } from "../../common/text.mjs";
import { startsOf, readSteps } from "../../worker/replies.mjs";

// Sorting pauses after this long.
const BUSY_MILLISECONDS = 20;
const SPACE = 32;
const decoder = new TextDecoder();
const [UNDECIDED, BACKWARD] = [KINDS.indexOf("undecided"), KINDS.indexOf("backward")];
/** The numbers of the first pass's limits, and of the first larger ones. */
export const [FIRST_PASS, LARGER] = [1, 2];
const MOST_PLANS = 255;

export class Results {
  /** @param {Plan} plan the limits of the list */
  constructor(plan) {
    // Limits by their numbers.
    this.plans = [plan, plan];
    // Lines that only the first pass has answered, and the undecided ones among them.
    this.provisional = 0;
    this.waiting = 0;
    // Lines decided again with larger limits.
    this.redecided = 0;
    this.jobs = /** @type {Part[][]} */ ([]);
    this.counts = KINDS.map(() => 0);
    this.answers = ANSWERS.map(() => 0);
    this.skipped = 0;
    this.read = 0;
    this.lines = 0;
    this.flat = /** @type {Part[] | null} */ (null);
    this.firstRows = new Float64Array(1);
    // The numbers from 0.
    this.rowNumbers = new Uint32Array(0);
  }

  add(/** @type {Part} */ part, /** @type {number} */ read) {
    (this.jobs[part.job] ??= []).push(part);
    this.flat = null;
    this.lines += part.kinds.length;
    this.skipped += part.skipped;
    this.read += read;
    part.kindCounts.forEach((count, kind) => (this.counts[kind] += count));
    part.answerCounts.forEach((count, answer) => (this.answers[answer] += count));
  }

  /** Adds a part of the first pass. Its undecided and backward verdicts are provisional. */
  addFirstPass(/** @type {Part} */ part, /** @type {number} */ read) {
    const { kinds } = part;
    part.plans = kinds.map((kind) => (kind === UNDECIDED || kind === BACKWARD ? FIRST_PASS : 0));
    this.provisional += part.kindCounts[UNDECIDED] + part.kindCounts[BACKWARD];
    this.waiting += part.kindCounts[UNDECIDED];
    this.add(part, read);
  }

  /** The number of a plan, new or known. */
  planNumber(/** @type {Plan} */ plan) {
    const { plans } = this;
    const isSame = (/** @type {any} */ one) => one.steps === plan.steps && one.cells === plan.cells;
    const at = plans.findIndex((one, k) => k >= LARGER && isSame(one));
    return at >= 0 ? at : Math.min(MOST_PLANS, plans.push(plan) - 1);
  }

  /** @param {Uint32Array} rows in order @param {Part} by its lines in the same order @param {number} plan */
  replace(rows, by, plan) {
    for (let first = 0; first < rows.length; ) {
      const { part, line } = this.placeOf(rows[first]);
      const begin = rows[first] - line;
      const beyond = rows.findIndex((row) => row >= begin + part.kinds.length);
      const end = beyond < 0 ? rows.length : beyond;
      const lines = rows.subarray(first, end).map((row) => row - begin);
      lines.forEach((one) => this.adjustCounts(part, one, -1));
      replaceLines(part, lines, by, first, plan);
      lines.forEach((one) => this.adjustCounts(part, one, 1));
      first = end;
    }
  }

  adjustCounts(/** @type {Part} */ part, /** @type {number} */ line, /** @type {1 | -1} */ by) {
    const { kinds, answers, plans } = part;
    const plan = plans?.[line] ?? 0;
    this.counts[kinds[line]] += by;
    this.answers[answers[line]] += by;
    this.provisional += plan === FIRST_PASS ? by : 0;
    this.waiting += plan === FIRST_PASS && kinds[line] === UNDECIDED ? by : 0;
    this.redecided += plan >= LARGER ? by : 0;
  }

  machineAt(/** @type {number} */ row) {
    const { part, line } = this.placeOf(row);
    const from = part.starts[line];
    return decoder.decode(part.bytes.subarray(from, part.bytes.indexOf(SPACE, from)));
  }

  /** The parts in order; `firstRows` has the row of each one's first line. */
  partsInOrder() {
    if (this.flat === null) {
      this.flat = this.jobs.filter(Boolean).flat();
      this.firstRows = new Float64Array(this.flat.length + 1);
      this.flat.forEach((part, k) => {
        this.firstRows[k + 1] = this.firstRows[k] + part.kinds.length;
      });
    }
    return this.flat;
  }

  placeOf(/** @type {number} */ row) {
    const parts = this.partsInOrder();
    let [low, high] = [0, parts.length];
    while (high - low > 1) {
      const middle = (low + high) >> 1;
      [low, high] = this.firstRows[middle] <= row ? [middle, high] : [low, middle];
    }
    return { part: parts[low], line: row - this.firstRows[low] };
  }

  /** The row of a line, or -1. */
  rowOf(/** @type {LinePlace} */ { part, line }) {
    const at = this.partsInOrder().indexOf(part);
    return at < 0 ? -1 : this.firstRows[at] + line;
  }

  isUndecided(/** @type {number} */ row) {
    const { part, line } = this.placeOf(row);
    return part.kinds[line] === UNDECIDED;
  }

  /** Whether an undecided row waits for the second pass. */
  isWaiting(/** @type {number} */ row) {
    const { part, line } = this.placeOf(row);
    return part.plans?.[line] === FIRST_PASS && this.isUndecided(row);
  }

  /** Whether the first line is answered; earlier chunks may have none. */
  get hasFirstLine() {
    const first = this.jobs.find((parts) => !parts?.some(({ done }) => done) || hasLines(parts));
    return first !== undefined && hasLines(first);
  }

  /** A row's number, verdict line, original line and limits. */
  rowAt(/** @type {number} */ row) {
    const { part, line } = this.placeOf(row);
    const text = part.lines ?? part.bytes;
    const end = Math.min(part.starts[line + 1], part.starts[line] + LONGEST_SHOWN);
    const answer = ANSWERS[part.answers[line]];
    const written = decoder.decode(text.subarray(part.starts[line], end)).replace(/[\r\n]+$/, "");
    const read = answer === "unread" ? UNREAD_LINE : parseVerdictLine(written);
    const number = part.first + (part.numbers === null ? line : part.numbers[line]);
    const { source, places } = part;
    const given = source === null || places === null ? null : lineAt(source, places[line], BYTES_KEPT);
    const pass = part.plans?.[line] ?? 0;
    return { ...read, answer, kind: KINDS[part.kinds[line]], number, given, pass, plan: this.plans[pass] };
  }

  /** The machines of the other rows with their numbers; null if there are more rows than `most`. */
  machinesBeside(/** @type {number} */ row, /** @type {number} */ most) {
    if (this.lines > most) return null;
    const rows = Array.from({ length: this.lines }, (_, k) => k).filter((k) => k !== row).map((k) => this.rowAt(k));
    return rows.filter(({ verdict }) => verdict.kind !== "refused").map(({ number, machine }) => ({ number, machine }));
  }

  /** The program's output for these kinds, without provisional lines. Pauses between incomplete parts. */
  async blobOf(kinds = new Set(KINDS.keys())) {
    const parts = [];
    for (const part of this.partsInOrder()) {
      const isWhole = part.plans === undefined && kinds.size === KINDS.length;
      parts.push(...(isWhole ? [part.bytes] : linesOf(part, kinds)));
      isWhole || (await pause());
    }
    return new Blob(parts, { type: "text/plain" });
  }

  rowsOfKinds(/** @type {Set<number>} */ kinds) {
    if (this.counts.some((count, kind) => count > 0 && !kinds.has(kind))) {
      return this.filterRows(({ kinds: own }, line) => kinds.has(own[line]));
    }
    if (this.rowNumbers.length < this.lines) {
      this.rowNumbers = new Uint32Array(Math.max(this.lines, 2 * this.rowNumbers.length)).map((_, k) => k);
    }
    return this.rowNumbers.subarray(0, this.lines);
  }

  /** The rows that only the first pass has decided. */
  provisionalRows() {
    return this.filterRows(({ plans }, line) => plans?.[line] === FIRST_PASS);
  }

  filterRows(/** @type {(part: Part, line: number) => boolean} */ isIn) {
    const rows = new Uint32Array(this.lines);
    let [count, row] = [0, 0];
    this.partsInOrder().forEach((part) =>
      part.kinds.forEach((_, line) => {
        rows[count] = row;
        row += 1;
        count += isIn(part, line) ? 1 : 0;
      }),
    );
    return rows.subarray(0, count);
  }

  /** The steps of rows, -1 for none. Pauses while they are parsed, and stops once they aren't wanted. */
  async stepsOf(/** @type {Uint32Array} */ rows, /** @type {() => boolean} */ isWanted) {
    const all = new Float64Array(this.lines);
    let begun = performance.now();
    for (const [k, part] of this.partsInOrder().entries()) {
      if (!isWanted()) break;
      part.steps ??= readSteps(part.lines ?? part.bytes, part);
      all.set(part.steps, this.firstRows[k]);
      if (performance.now() - begun > BUSY_MILLISECONDS) {
        await pause();
        begun = performance.now();
      }
    }
    const steps = new Float64Array(rows.length);
    rows.forEach((row, k) => (steps[k] = all[row]));
    return steps;
  }
}

const pause = () => new Promise((done) => setTimeout(done));

const hasLines = (/** @type {Part[] | undefined} */ parts) => parts?.some(({ kinds }) => kinds.length > 0);

/** A part's lines of these kinds, as bytes; adjacent lines are joined. */
function linesOf(/** @type {Part} */ part, /** @type {Set<number>} */ kinds) {
  const { plans } = part;
  const starts = part.lines === null ? part.starts : startsOf(part.bytes).slice();
  const found = [];
  let begin = -1;
  for (let k = 0; k <= part.kinds.length; k += 1) {
    const isIn = k < part.kinds.length && kinds.has(part.kinds[k]) && plans?.[k] !== FIRST_PASS;
    if (!isIn && begin >= 0) found.push(part.bytes.subarray(starts[begin], starts[k]));
    begin = isIn ? (begin < 0 ? k : begin) : -1;
  }
  return found;
}

/**
 * Replaces lines of a part by another one's, from line `first`. The part stays the same object.
 * @param {Part} part @param {ArrayLike<number>} lines in order
 * @param {Part} by @param {number} first @param {number} plan its number
 */
function replaceLines(part, lines, by, first, plan) {
  const { bytes, starts } = part;
  const plans = (part.plans ??= new Uint8Array(part.kinds.length));
  const pieces = [];
  let from = 0;
  for (let k = 0; k < lines.length; k += 1) {
    const [line, other] = [lines[k], first + k];
    pieces.push(bytes.subarray(from, starts[line]));
    pieces.push(by.bytes.subarray(by.starts[other], by.starts[other + 1]));
    from = starts[line + 1];
    part.kinds[line] = by.kinds[other];
    part.answers[line] = by.answers[other];
    plans[line] = plan;
  }
  part.bytes = concatBytes([...pieces, bytes.subarray(from)]);
  part.starts = startsOf(part.bytes).slice();
  part.steps = undefined;
}
