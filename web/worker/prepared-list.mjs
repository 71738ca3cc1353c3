/** Prepares a list for the engine: the machine or the claim of each line. */
import { concatBytes, lineEnd } from "../common/bytes.mjs";
import { isMachine, isVerdictLine, trimLine } from "../common/machine.mjs";
import { BYTES_KEPT } from "../common/text.mjs";
import { readLine } from "../reader/line-reader.mjs";

const LINE_END = Uint8Array.of(10);
const SPACE = 32;
const decoder = new TextDecoder();
const encoder = new TextEncoder();

/** @returns {PreparedList} */
export const unchangedList = (/** @type {Uint8Array} */ bytes) => {
  return { bytes, numbers: null, places: null, skipped: 0 };
};

/**
 * The lines that the engine is to read.
 * @param {Uint8Array} bytes @param {{mode: string, clean: boolean, form: Form, isFound: boolean}} request
 * @returns {PreparedList}
 */
export function prepareList(bytes, { mode, clean, form, isFound }) {
  if (!clean) return unchangedList(bytes);
  const readText = (/** @type {string} */ text) => readLine(text, form, isFound);
  const read = mode === "check" ? readClaim : readMachine;
  // ASCII lines are cut out of one text: browsers decode short texts slowly.
  const all = decoder.decode(bytes);
  const isAscii = all.length === bytes.length;
  const numbers = [];
  const places = [];
  const lines = [];
  let number = 0;
  for (let from = 0; from < bytes.length; number += 1) {
    const end = lineEnd(bytes, from);
    const given = bytes.subarray(from, end);
    const isLong = given.length > BYTES_KEPT;
    const line = isLong ? given : read(given, isAscii ? all.slice(from, end) : decoder.decode(given), form, readText);
    if (line !== null) {
      lines.push(line, LINE_END);
      numbers.push(number);
      places.push(from);
    }
    from = end + 1;
  }
  const origin = { numbers: Uint32Array.from(numbers), places: Uint32Array.from(places) };
  return { bytes: concatBytes(lines), ...origin, skipped: number - numbers.length };
}

/**
 * A line's machine, or a line that the engine refuses; null for a skipped line.
 * @param {Uint8Array} line @param {string} text @param {Form} form @param {(text: string) => Reading} readText
 */
function readMachine(line, text, form, readText) {
  const isWhole = isMachine(text);
  if (isWhole && form !== "verdicts" && text.length === line.length && text[0] !== "-") return line;
  const reading = readText(text);
  if (reading.kind === "machine") return encoder.encode(reading.machine);
  // A leading space makes the engine refuse a machine that the form doesn't allow.
  return reading.kind === "nothing" ? null : isWhole ? Uint8Array.of(SPACE, ...line) : line;
}

/** A trimmed verdict line; null for a skipped line. */
function readClaim(/** @type {Uint8Array} */ line, /** @type {string} */ text) {
  const bare = trimLine(text);
  if (isVerdictLine(bare)) return encoder.encode(bare.split("\t")[0]);
  return readLine(text, "verdicts").kind === "nothing" ? null : line;
}
