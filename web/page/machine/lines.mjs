/** The open machine's line in complete lists, and the machines of the list shown that have the same one. */
import { formatNumber } from "../../common/machine.mjs";
import { byId, create } from "../dom.mjs";
import { WorkerClient } from "../worker-client.mjs";

/** Longer lists aren't compared. */
export const MOST_COMPARED = 200;
const ALIKE = "up to the names of states and symbols, and left and right.";
const lineClient = new WorkerClient();
const compareClient = new WorkerClient();

/**
 * @typedef {{number: number, machine: string}} Numbered a machine with the number of its line, from 0
 * @typedef {{machine: string, line: string, isMirrored: boolean, states: string, symbols: string, end: string,
 *   entry: string | undefined}} Line `states` and `symbols`: the machine's names of the line's, in order;
 *   `entry`: the machine's own where its line halts on `---`
 */

/** @returns {Line} the engine's reply for a machine */
function parseLine(/** @type {string} */ reply) {
  const [machine, , line, side, states, symbols, end, , , entry] = reply.split(" ");
  return { machine, line, isMirrored: side === "mirror", states, symbols, end, entry };
}

/** Requests the line of the open machine, and shows it while `isOpen`. */
export function requestLine(/** @type {string} */ machine, /** @type {() => boolean} */ isOpen) {
  lineClient.request({ type: "line-of", machines: [machine] }, ({ found, message }) => {
    if (isOpen()) {
      const parts = found === undefined ? [`Unknown: ${message}.`] : lineParts(parseLine(found[0]));
      byId("fact-line").replaceChildren(...parts);
    }
  });
}

/** The line of a machine, and the change. */
function lineParts(/** @type {Line} */ { machine, line, isMirrored, states, symbols }) {
  if (line === machine) return ["It is its own line."];
  const isOwn = (/** @type {string} */ names) => names === [...names].sort().join("");
  const changes = [
    isMirrored ? "left and right swapped" : "",
    isOwn(states) ? "" : `states ${states}`,
    isOwn(symbols) ? "" : `symbols ${symbols}`,
  ].filter((change) => change !== "");
  return [create("code", {}, line), changes.length === 0 ? "" : `, with ${changes.join(", ")}`];
}

/**
 * Shows which other machines of the list do the same, while `isOpen`.
 * @param {string} machine @param {Numbered[] | null} others null if there are too many
 * @param {() => boolean} isOpen
 */
export function compareLines(machine, others, isOpen) {
  if (others === null) {
    byId("fact-same").textContent = `Lists of more than ${formatNumber(MOST_COMPARED)} lines aren’t compared.`;
    return;
  }
  const machines = [machine, ...others.map((other) => other.machine)];
  compareClient.request({ type: "line-of", machines }, ({ found, steps, message }) => {
    if (isOpen()) {
      const words = found === undefined ? `Unknown: ${message}.` : sameWords(found.map(parseLine), others, steps);
      byId("fact-same").textContent = words;
    }
  });
}

/** @param {Line[]} lines the open machine's, then those of the others @param {Numbered[]} others @param {number} steps */
function sameWords([own, ...lines], others, steps) {
  const same = others.filter((_, k) => lines[k].line === own.line && entryInLine(lines[k]) === entryInLine(own));
  if (same.length === 0) return "None.";
  const numbers = same.map(({ number }) => formatNumber(number + 1)).join(", ");
  const isOpenEnded = own.end === "runs" && own.line.includes("---");
  const span = isOpenEnded ? ` for at least ${formatNumber(steps)} steps` : "";
  return `${same.length === 1 ? `Line ${numbers} does` : `Lines ${numbers} do`} the same${span}, ${ALIKE}`;
}

/** The machine's own entry in the line's names; an entry into Z by its symbol alone. */
function entryInLine(/** @type {Line} */ { entry, isMirrored, states, symbols }) {
  if (entry === undefined || entry === "---") return entry;
  const [symbol, move, state] = entry;
  const written = symbols.indexOf(symbol);
  return state === "Z" ? `${written}Z` : `${written}${isMirrored === (move === "L") ? "R" : "L"}${states.indexOf(state)}`;
}
