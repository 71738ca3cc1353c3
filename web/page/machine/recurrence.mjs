/** The exact recurrence behind a pair: facts, last uses, and marks on the diagram. */
import { formatCount, formatNumber, stateLetter } from "../../common/machine.mjs";
import { byId, create, createFacts, createTable } from "../dom.mjs";
import { WorkerClient } from "../worker-client.mjs";

// The most marked last uses, the latest ones.
const MOST_MARKED = 8;
const client = new WorkerClient();
/** @type {string | null} the verdict line of the last request; replies for another one are dropped */
let current = null;

/** Hides the recurrence, and drops the outstanding one. */
export function clearRecurrence() {
  current = null;
  byId("recurrence").hidden = true;
  byId("exact").hidden = true;
}

/**
 * Finds and shows the recurrence behind a confirmed pair, and passes on its mark and the pair of its start.
 * @param {string} line @param {Plan} plan @param {(mark: Mark, pair: Pair) => void} onFound
 */
export function showRecurrence(line, plan, onFound) {
  current = line;
  byId("recurrence").hidden = false;
  byId("recurrence-facts").replaceChildren(create("dd", {}, "…"));
  byId("uses").replaceChildren();
  client.request({ type: "recurrence", line, plan }, ({ found, rows, message }) => {
    if (current !== line) return;
    if (!found) {
      const words = message === undefined ? "The engine doesn’t confirm the pair." : `Not found: ${message}.`;
      byId("recurrence-facts").replaceChildren(create("dd", {}, words));
      return;
    }
    byId("recurrence-facts").replaceChildren(...createFacts("exact-", factsOf(found)));
    byId("uses").replaceChildren(createUses(found));
    byId("exact").hidden = false;
    onFound(markOf(found, rows), pairOf(found, rows));
  });
}

/** @returns {[string, string, string][]} */
function factsOf(/** @type {Recurrence} */ { start, period, shift, quasihalts }) {
  const side = shift > 0 ? "right" : "left";
  const moves = `${formatCount(Math.abs(shift), "cell")} to the ${side}.`;
  const stops = quasihalts === null ? "No state has a last use." : `After ${formatCount(quasihalts, "step")}.`;
  return [
    ["start", "Start", `Step ${formatNumber(start)}.`],
    ["period", "Period", `${formatCount(period, "step")}.`],
    ["shift", "Shift", shift === 0 ? "None: the configuration comes again." : moves],
    ["quasihalt", "Quasihalt", stops],
  ];
}

/** A table with a row for each state: its last use, and those of its entries. */
function createUses(/** @type {Recurrence} */ { uses, entries }) {
  const symbols = entries.length / uses.length;
  const names = ["Last use", "state", ...Array.from({ length: symbols }, (_, symbol) => `at ${symbol}`)];
  const textOf = (/** @type {string} */ use) =>
    use === "*" ? "for ever" : use === "-" ? "never" : formatNumber(Number(use));
  const rows = uses.map((use, state) => {
    const own = [use, ...entries.slice(state * symbols, (state + 1) * symbols)];
    const cells = own.map((one, k) => create("td", k === 0 ? { class: "exact" } : {}, textOf(one)));
    return /** @type {[string, ...Node[]]} */ ([stateLetter(state), ...cells]);
  });
  return createTable(names.map((name) => create("th", { scope: "col" }, name)), rows);
}

/** @returns {Mark} the head's cells at the start, a period later, and at the latest last uses of states */
function markOf(/** @type {Recurrence} */ { start, period, uses }, /** @type {Row[]} */ rows) {
  const names = new Map([[start, `start, step ${formatNumber(start)}`]]);
  names.set(start + period, `a period later, step ${formatNumber(start + period)}`);
  const last = uses.map((use, state) => ({ step: Number(use), state })).filter(({ step }) => step >= 0);
  last.sort((one, other) => other.step - one.step);
  for (const { step, state } of last.slice(0, MOST_MARKED)) {
    names.set(step, `last ${stateLetter(state)}, step ${formatNumber(step)}`);
  }
  const bands = rows.flatMap(({ step, head }) => {
    const label = names.get(step);
    return label === undefined ? [] : [{ step, from: head, to: head, label, isMinor: step !== start }];
  });
  return { bands, arrow: false, colour: "--exact" };
}

/** @returns {Pair} the start and the step a period later, about the head */
function pairOf(/** @type {Recurrence} */ { start, period }, /** @type {Row[]} */ rows) {
  const heads = rows.filter(({ step }) => step === start || step === start + period).map(({ head }) => head);
  const [low, high] = heads.length > 0 ? [Math.min(...heads), Math.max(...heads)] : [null, null];
  return { first: start, second: start + period, low, high };
}
