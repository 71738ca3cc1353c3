/** The first difference between a claim and the rows of its machine's run, as a sentence. */
import { entryText, formatCount, formatNumber } from "../../common/machine.mjs";
import { nextEntry, symbolAt } from "../tape/tape-row.mjs";

const highOf = (/** @type {Row} */ { low, cells }) => low + cells.length - 1;

/** @returns {string | null} null if the rows are as the claim says */
export function differenceOf(
  /** @type {Verdict} */ verdict, /** @type {string} */ machine, /** @type {ClaimRows} */ found,
) {
  const { kind, numbers: [first, second] } = verdict;
  const { rows, last } = found;
  if (kind !== "halt" && first >= second) return "The second step doesn’t come after the first.";
  if (rows.length < (kind === "halt" ? 1 : 2)) return `The run ends at step ${formatNumber(last)}.`;
  const [one, other] = rows;
  if (kind === "halt") return haltDifference(one, machine, second);
  if (one.state !== other.state) return `The states differ, ${one.state} and ${other.state}.`;
  return kind === "cycler" ? repeatDifference(one, other) : recordDifference(verdict, found);
}

/** @param {Row} row @param {string} machine @param {number} score */
function haltDifference(row, machine, score) {
  const entry = row.state === "Z" ? null : nextEntry(row, machine);
  const nonzero = row.cells.filter((symbol) => symbol !== 0).length;
  if (entry !== null) return `It doesn’t halt there: its next entry is ${entryText(entry)}.`;
  return nonzero === score ? null : `It has ${formatCount(nonzero, "nonzero cell")}.`;
}

/** @param {Row} one @param {Row} other */
function repeatDifference(one, other) {
  if (one.head !== other.head) {
    return `The head’s positions differ, ${formatNumber(one.head)} and ${formatNumber(other.head)}.`;
  }
  const low = Math.min(one.low, other.low);
  const count = Math.max(highOf(one), highOf(other)) - low + 1;
  const at = Array.from({ length: count }, (_, k) => low + k).find((k) => symbolAt(one, k) !== symbolAt(other, k));
  return at === undefined ? null : `The cells at position ${formatNumber(at)} differ.`;
}

/** @param {Verdict} verdict @param {ClaimRows} found */
function recordDifference({ numbers: [, , shift, length], side }, { rows, before, low, high }) {
  const out = side === "R" ? 1 : -1;
  const early = rows.find(({ head }, k) => {
    const row = before[k];
    return row === null || (out > 0 ? head <= highOf(row) : head >= row.low);
  });
  if (early !== undefined) {
    return `At step ${formatNumber(early.step)} the head isn’t farther ${out > 0 ? "right" : "left"} than ever.`;
  }
  const [one, other] = rows;
  const moved = out * (other.head - one.head);
  if (shift !== undefined && moved !== shift) return `The head is ${formatCount(moved, "cell")} farther out.`;
  const own = low === null || high === null ? length : 1 + (out > 0 ? one.head - low : high - one.head);
  if (length !== undefined && own !== length) return `The stretch has ${formatCount(own, "cell")}.`;
  const differs = (/** @type {unknown} */ _, /** @type {number} */ k) =>
    symbolAt(one, one.head - out * k) !== symbolAt(other, other.head - out * k);
  const at = Array.from({ length: own ?? 0 }).findIndex(differs);
  return at < 0 ? null : `The cells ${formatCount(at, "cell")} behind the head differ.`;
}
