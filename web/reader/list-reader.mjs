/** The form of a list, found by its first lines. The package's `forms.py` is alike. */
import { isVerdictLine, trimLine } from "../common/machine.mjs";
import { readLine } from "./line-reader.mjs";

// The form of a list is decided by at most this many lines that aren't skipped.
const FIRST_LINES = 100;
const decoder = new TextDecoder();

/** The prefix of a list by which its form and encoding are detected. */
export const DETECTION_BYTES = 65_536;

/** Whether most of the first lines are verdict lines. */
export function hasVerdicts(/** @type {Uint8Array} */ bytes) {
  const used = firstLines(bytes).filter((line) => readLine(line, "verdicts").kind !== "nothing");
  const verdicts = used.filter((line) => isVerdictLine(trimLine(line))).length;
  return verdicts > 0 && 2 * verdicts > used.length;
}

/** The complete lines at the beginning of a list. */
export function firstLines(/** @type {Uint8Array} */ bytes) {
  const lines = decoder.decode(bytes.subarray(0, DETECTION_BYTES)).split("\n");
  return bytes.length >= DETECTION_BYTES && lines.length > 1 ? lines.slice(0, -1) : lines;
}

/** Whether a list begins as UTF-8; the last character may be truncated. */
export const isUtf8 = (/** @type {Uint8Array} */ bytes) =>
  !/\ufffd[^]/.test(decoder.decode(bytes.subarray(0, DETECTION_BYTES)));

/** @returns {Form | null} the form of a list by its first lines; null if all of them are skipped. */
export function detectForm(/** @type {Iterable<string>} */ lines) {
  const machines = /** @type {string[]} */ ([]);
  let [used, verdicts] = [0, 0];
  for (const line of lines) {
    const reading = readLine(line, "machines");
    used += reading.kind === "nothing" ? 0 : 1;
    if (reading.kind === "machine") machines.push(reading.machine);
    if (reading.kind === "refusal" && isVerdictLine(trimLine(line))) verdicts += 1;
    if (used === FIRST_LINES) break;
  }
  // Rows of dashes among machines of another length are rules.
  const isRow = (/** @type {string} */ text) => /^-*$/.test(text);
  const lengths = new Set(machines.filter((text) => !isRow(text)).map(({ length }) => length));
  const hasRules = lengths.size > 0 && machines.some((text) => isRow(text) && !lengths.has(text.length));
  if (used === 0) return null;
  return verdicts === used ? "verdicts" : machines.length === used && !hasRules ? "machines" : "text";
}
