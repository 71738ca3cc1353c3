/** Notes on a machine's input line: how it was rewritten, or why it is refused. */
import { formatNumber, isMachine } from "../../common/machine.mjs";
import { readLine } from "../../reader/line-reader.mjs";
import { REWRITINGS } from "../../reader/machine-parser.mjs";
import { byId, showText } from "../dom.mjs";

// Characters shown on each side of an error.
const AROUND = 30;
const NO_VERDICT_LINE =
  "Unread: a verdict line is a machine, a space and a verdict, as in “1RB1LB_1LA1RZ halt 6 4”, of at most " +
  "1,023 bytes.";

/** Advice for each kind of refusal. */
export const ADVICE = /** @type {Record<string, string>} */ ({
  none: "a machine is written as 1RB1LB_1LA1RZ",
  rule: "in the form machines a row of 6, 9, .. or 30 dashes is a machine",
  "rule-or-group": "write _ between the groups, or leave the row out",
  entry: "an entry is a digit, L or R and a letter, or --- where it is undefined",
  lost: "write --- for an undefined entry, or Z for a step that halts",
  "empty-group": "write one _ between two groups, none before or behind them",
  groups: "each group has an entry for each symbol, so all have as many",
  symbols: "a machine has 2 to 10 symbols, and a group has an entry for each",
  states: "a machine has 1 to 25 states, and a group for each",
  symbol: "write an entry for each symbol in each group",
  state: "write a group for each state; the halting state is Z",
  "halting-state": "write Z for the halting state throughout",
  division: "write _ between the groups",
  divisions: "write _ between the groups",
  words: "write one machine a line, or _ between the groups of one",
  part: "write one machine a line, with _ between its groups",
  two: "write one machine a line",
  dots: "write --- for an undefined entry, or leave the dots out",
  long: "write one machine a line",
  comment: "leave # out if the machine is meant, or the machine if it is a comment",
  "state-line": "write the groups of a machine in one line, with _ between them",
  hidden: "take out the character",
  beside: "read the list as the form text, or write the machine alone",
  verdict: "a verdict line is written as 1RB1LB_1LA1RZ halt 6 4",
});

/** Shows a line's rewriting, or the place and reason of its refusal. */
export function showInputNotes(/** @type {InputLine} */ line, /** @type {Verdict} */ verdict) {
  const { text, number, form, isFound } = line;
  const isRefused = verdict.kind === "refused";
  const reading = text !== null && form !== null ? readLine(text, form, isFound) : null;
  const isRewritten = reading?.kind === "machine" && !isRefused;
  showText("machine-given", isRewritten ? rewritingText(reading, text ?? "") : "");
  const [column] = verdict.numbers;
  const place = reading?.kind === "refusal" ? reading.place : column ?? null;
  showText("machine-caret", isRefused && text !== null ? caretText(text, place) : "");
  if (isRefused) {
    // Only a refused machine has a column.
    const noun = column === undefined ? "verdict line" : "machine";
    byId("machine-text").textContent = `Line ${formatNumber(number + 1)} is no ${noun}`;
    byId("machine-says").textContent = refusalText(reading, verdict, isMachine((text ?? "").trim()));
  }
}

/**
 * @param {Reading | null} reading @param {Verdict} verdict
 * @param {boolean} isAccepted whether the program accepts the line
 */
function refusalText(reading, { numbers: [column], text }, isAccepted) {
  if (column === undefined) return NO_VERDICT_LINE;
  if (reading?.kind !== "refusal") {
    return `Refused: the error is at column ${formatNumber(column)}; ${ADVICE.none}.`;
  }
  const program = isAccepted ? "" : ` The program reports ${text}.`;
  return `Refused: ${reading.reason}; ${ADVICE[reading.refusal]}.${program}`;
}

/** @param {MachineReading} reading @param {string} text */
function rewritingText({ rewritten, before, behind }, text) {
  const kinds = rewritten.map((kind) => REWRITINGS[/** @type {"spaces"} */ (kind)]);
  const beside = [before, behind].filter((one) => one !== "").map((one) => `“${one}”`);
  const line = kinds.length > 0 ? `The line is “${text.trim()}”: ${kinds.join("; ")}.` : "";
  return beside.length > 0 ? `${line} Beside the machine: ${beside.join(" and ")}.`.trim() : line;
}

/** A line around a place, with a caret below it; its beginning without a place. */
function caretText(/** @type {string} */ text, /** @type {number | null} */ place) {
  const characters = [...text.replace(/^\ufeff/, "")].map((one) => (/[\s\p{C}]/u.test(one) ? " " : one));
  const at = place === null ? AROUND : place - 1;
  const first = Math.max(0, at - AROUND);
  const [head, tail] = [first > 0 ? "…" : "", at + AROUND < characters.length ? "…" : ""];
  const shown = `${head}${characters.slice(first, at + AROUND).join("")}${tail}`;
  return place === null ? shown : `${shown}\n${" ".repeat(head.length + at - first)}^`;
}
