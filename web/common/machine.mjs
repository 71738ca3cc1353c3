/** Machines and verdict lines as the engine writes them, and verdicts in words. */

/** The kinds of verdict lines, in display order. @type {readonly Kind[]} */
export const KINDS = ["halt", "cycler", "translated", "backward", "undecided", "refused"];
/** The checker's answers, in display order. */
export const ANSWERS = ["ok", "open", "bad", "over", "unread"];

/** @type {{machine: string, verdict: Verdict}} the content of a line that isn't a verdict line */
export const UNREAD_LINE = { machine: "", verdict: { kind: "refused", numbers: [], side: "", text: "" } };

/** The letters of the states. */
export const STATES = "ABCDEFGHIJKLMNOPQRSTUVWXY";
export const MOST_SYMBOLS = 10;
const NUMBER = "(?:0|[1-9][0-9]*)";
const PAIR = `${NUMBER} ${NUMBER}`;
const NUMBERS = `(?:halt|cycler|backward) ${PAIR}|translated [LR] ${PAIR}(?: ${PAIR})?`;
const VERDICT = new RegExp(`^(?:${NUMBERS}|undecided (?:steps|cells))$`);
const REFUSED = new RegExp("^refused [1-9][0-9]*(?:\\t.*)?$");
// By the numbers of states and symbols.
const PATTERNS = /** @type {Map<number, RegExp>} */ (new Map());

/** Whether the engine accepts a text as a machine. */
export function isMachine(/** @type {string} */ text) {
  const size = `${text}_`.indexOf("_");
  const [symbols, states] = [size / 3, (text.length + 1) / (size + 1)];
  const isWhole = Number.isInteger(symbols) && Number.isInteger(states);
  if (!isWhole || symbols < 2 || symbols > MOST_SYMBOLS || states > STATES.length) return false;
  const key = states * (MOST_SYMBOLS + 1) + symbols;
  const pattern = PATTERNS.get(key) ?? patternOf(states, symbols);
  PATTERNS.set(key, pattern);
  return pattern.test(text);
}

function patternOf(/** @type {number} */ states, /** @type {number} */ symbols) {
  const group = `(?:[0-${symbols - 1}][LR][A-${STATES[states - 1]}Z]|---){${symbols}}`;
  return new RegExp(`^${group}(?:_${group}){${states - 1}}$`);
}

/** A line without byte order mark and spaces at its ends. */
export const trimLine = (/** @type {string} */ line) => line.replace(/^\ufeff+/, "").trim();

/** Whether a line is the reply to a refused one; fields may follow a tab. */
export const isRefusedLine = (/** @type {string} */ bare) => REFUSED.test(bare);

/** Whether a line is a verdict line; fields may follow a tab. */
export function isVerdictLine(/** @type {string} */ bare) {
  const [first] = bare.split("\t", 1);
  const [machine] = first.split(" ", 1);
  return REFUSED.test(bare) || (VERDICT.test(first.slice(machine.length + 1)) && isMachine(machine));
}

/** @returns {Machine} */
export function parseMachine(/** @type {string} */ text) {
  const groups = text.split("_");
  const rules = groups.flatMap((group, state) =>
    Array.from({ length: group.length / 3 }, (_, symbol) => ({
      state,
      symbol,
      entry: parseEntry(group.slice(3 * symbol, 3 * symbol + 3)),
    })),
  );
  return { states: groups.length, symbols: groups[0].length / 3, rules };
}

/** @returns {Entry | null} */
function parseEntry(/** @type {string} */ text) {
  if (text === "---") return null;
  const next = text[2] === "Z" ? -1 : text.charCodeAt(2) - 65;
  return { write: Number(text[0]), move: text[1] === "R" ? 1 : -1, next };
}

export const stateLetter = (/** @type {number} */ state) => state < 0 ? "Z" : String.fromCharCode(65 + state);

export const entryText = (/** @type {Entry | null} */ entry) =>
  entry === null ? "---" : `${entry.write}${entry.move > 0 ? "R" : "L"}${stateLetter(entry.next)}`;

/** @returns {{machine: string, verdict: Verdict}} */
export function parseVerdictLine(/** @type {string} */ line) {
  const [machine, word, ...rest] = line.split(" ");
  if (machine === "refused") {
    return { machine: "", verdict: { kind: "refused", numbers: [Number(word)], side: "", text: line } };
  }
  const kind = /** @type {Kind} */ (KINDS.includes(/** @type {Kind} */ (word)) ? word : "refused");
  const numbers = rest.filter((field) => /^\d+$/.test(field)).map(Number);
  const side = kind === "translated" || kind === "undecided" ? rest[0] ?? "" : "";
  return { machine, verdict: { kind, numbers, side, text: line.slice(machine.length + 1) } };
}

/** @returns {Recurrence | null} the recurrence of a reply; null for an answer */
export function parseRecurrence(/** @type {string} */ line) {
  const [machine, word, start, period, shift, ...words] = line.split(" ");
  if (word !== "recurs") return null;
  const states = machine.split("_").length;
  const at = words.indexOf("quasihalts");
  const entries = words.includes("entries") ? words.slice(words.indexOf("entries") + 1) : [];
  const quasihalts = at < 0 ? null : Number(words[at + 1]);
  const numbers = { start: Number(start), period: Number(period), shift: Number(shift) };
  return { machine, ...numbers, quasihalts, uses: words.slice(0, states), entries };
}

/** The steps of a recurrence to be marked: its start, the step a period later, and the last use of each state. */
export function markedSteps(/** @type {Recurrence} */ { start, period, uses }) {
  const last = uses.filter((use) => use !== "*" && use !== "-").map(Number);
  return [...new Set([...last, start, start + period])].sort((one, other) => one - other);
}

const NO_STEPS = "Undecided: no halt within the limit of steps, and no enabled decider succeeded.";
const NO_CELLS = "Undecided: the head reaches the limit of cells first, and no enabled decider succeeded.";
const numberFormat = new Intl.NumberFormat("en");

/** A count with its noun, as in `1,000 steps`. */
export const formatCount = (/** @type {number} */ count, /** @type {string} */ noun) =>
  `${numberFormat.format(count)} ${noun}${count === 1 ? "" : "s"}`;

export const formatNumber = (/** @type {number | bigint} */ value) =>
  numberFormat.format(value).replace("-", "−");

export const stateText = (/** @type {string} */ state) => (state === "Z" ? "halted" : `state ${state}`);

/** A verdict in plain English. */
export function verdictText(/** @type {Verdict} */ { kind, numbers, side }) {
  const [first, second, shift, length] = numbers;
  const pair = [first, second].map((step) => formatNumber(step ?? 0));
  switch (kind) {
    case "halt":
      return `It halts after ${formatCount(first, "step")}, with ${formatCount(second, "nonzero cell")}.`;
    case "cycler":
      return `It never halts: the configuration of step ${pair[0]} repeats at step ${pair[1]}.`;
    case "translated": {
      const extent = length === undefined ? "" : ` of ${formatCount(length, "cell")}`;
      const distance = shift === undefined ? "" : `, ${formatCount(shift, "cell")} farther out`;
      const place = `farther ${side === "R" ? "right" : "left"} than before`;
      const pattern = `with the same pattern${extent} behind it${distance}`;
      return `It never halts: at steps ${pair.join(" and ")} the head is ${place}, ${pattern}.`;
    }
    case "backward": {
      const size = `with ${formatCount(second, "node")} in ${formatCount(first, "level")}`;
      const tree = `the tree of configurations before a halt ends, ${size}`;
      return `It never halts: ${tree}, and the start matches none of them.`;
    }
    case "undecided":
      return side === "cells" ? NO_CELLS : NO_STEPS;
    default:
      return `Refused: the line is not a machine; the error is at column ${pair[0]}.`;
  }
}
