/**
 * Facts about a machine: other forms, consequences of its verdict, and the growth of its cells.
 *
 * @typedef {{machine: string, cells: number, steps: number, verdict: Verdict, isConfirmed: boolean}} About
 * @typedef {{growth: string, steps: number, visited: number[]}} Growth
 */
import { formatCount, formatNumber } from "../../common/machine.mjs";
import { byId, create, createFacts } from "../dom.mjs";
import { WorkerClient } from "../worker-client.mjs";
import { compareLines, requestLine } from "./lines.mjs";

const MOST_GROWTH_STEPS = 1_000_000;
const FEWEST_GROWTH_STEPS = 100;
const LATER = 10n ** 15n;
const SAME_VERDICT = "Any completion of its --- has the same verdict.";
// The consequences of a verdict for completions of undefined entries.
const COMPLETIONS = /** @type {Record<string, string>} */ ({
  halt: SAME_VERDICT,
  cycler: SAME_VERDICT,
  translated: SAME_VERDICT,
  backward: "No completion of its --- halts; the tree may differ.",
  undecided: "Nothing is known: the machine is undecided.",
});
const HALT_ON_UNDEFINED =
  "It halts on a ---. Completions of only the other --- have the same verdict; nothing is known of " +
  "completions of that one.";
const GROWTHS = /** @type {Record<string, string>} */ ({
  stays: "No growth",
  logarithm: "Logarithmic growth",
  root: "Growth like a root",
  line: "Linear growth",
});
const client = new WorkerClient();
const growthClient = new WorkerClient();
// Replies for another machine are dropped.
let current = /** @type {About | null} */ (null);

/** The machine with left and right swapped; its states may be named L and R too. */
export const mirrorImage = (/** @type {string} */ text) =>
  text.replace(/(\d)([LR])/g, (_, symbol, move) => symbol + (move === "L" ? "R" : "L"));

/** @param {About} about @param {string} lastState the state of the run's last row */
function completionsText({ machine, verdict: { kind } }, lastState) {
  if (!machine.includes("---")) return "It has no undefined entry.";
  return kind === "halt" && lastState !== "Z" ? HALT_ON_UNDEFINED : COMPLETIONS[kind];
}

/** A verdict's consequences for other starts than A on the blank tape. */
function startsText(/** @type {Verdict} */ { kind, numbers: [levels] }) {
  return kind === "backward"
    ? "From every state, at any position of any tape, it halts within " +
        `${formatCount(levels, "step")} or never.`
    : "The verdict is about the start in A on the blank tape alone.";
}

/** The early step equivalent to the late one, by the verdict's pair, and the distance between their heads. */
function laterStep(/** @type {Verdict} */ { kind, numbers: [first, second, shift], side }) {
  const apart = BigInt(second - first);
  const times = (LATER - BigInt(first)) / apart;
  const early = first + Number((LATER - BigInt(first)) % apart);
  const moved = kind === "translated" ? BigInt(side === "R" ? shift ?? 0 : -(shift ?? 0)) : 0n;
  return { early, farther: times * moved };
}

/** Shows the facts; those that need a run appear later. */
export function showMachineInfo(/** @type {About} */ about) {
  const { machine, verdict, isConfirmed } = about;
  current = about;
  const mirror = mirrorImage(machine);
  const code = (/** @type {string} */ text) => create("code", {}, text);
  byId("facts").replaceChildren(...createFacts("fact-", [
    ["line", "Line in complete lists", "…"],
    ["same", "Same machine in this list", "…"],
    ["mirror", "Mirror image", code(mirror)],
    ["growth", "Cells visited", "…"],
    ["completions", "Undefined entries", isConfirmed ? "…" : "The verdict isn’t confirmed by the checker."],
    ["starts", "Every start", isConfirmed ? startsText(verdict) : "–"],
    ["later", "Step 10¹⁵", isConfirmed ? "…" : "–"],
  ]));
  requestLine(machine, () => current === about);
  requestGrowth(about);
  isConfirmed && requestLaterRow(about);
}

/** Shows which other machines of the list do the same as the open one. */
export function compareMachines(/** @type {import("./lines.mjs").Numbered[] | null} */ others) {
  const about = current;
  about !== null && compareLines(about.machine, others, () => current === about);
}

function showFact(/** @type {string} */ id, /** @type {string} */ words) {
  byId(`fact-${id}`).textContent = words;
}

/** Requests the row for the late step, or for the halting entry. */
function requestLaterRow(/** @type {About} */ about) {
  const { machine, cells, verdict } = about;
  const { kind, numbers } = verdict;
  const isPair = kind === "cycler" || kind === "translated";
  if (!isPair && kind !== "halt") {
    showFact("completions", completionsText(about, ""));
    showFact("later", "The verdict doesn’t say.");
    return;
  }
  const { early, farther } = isPair ? laterStep(verdict) : { early: numbers[0], farther: 0n };
  client.request({ type: "trace", machine, cells, from: early, every: 1, upto: early }, ({ rows }) => {
    if (!rows?.length || current !== about) return;
    const [{ state, head }] = rows;
    showFact("completions", completionsText(about, state));
    const isWithout = kind === "translated" && numbers[2] === undefined;
    const place = `state ${state}, head at ${formatNumber(BigInt(head) + farther)}.`;
    showFact("later", kind === "halt" ? "It has halted." : isWithout ? "The line has no shift." : place);
  });
}

function requestGrowth(/** @type {About} */ about) {
  const { machine, cells, steps } = about;
  const upto = Math.min(steps, MOST_GROWTH_STEPS);
  if (upto < FEWEST_GROWTH_STEPS) {
    showFact("growth", "Too few steps.");
    return;
  }
  growthClient.request({ type: "growth", machine, cells, upto }, ({ growth, message }) => {
    if (current === about) {
      showFact("growth", growth === undefined ? `Unknown: ${message}.` : growthText(growth));
    }
  });
}

function growthText(/** @type {Growth} */ { growth, steps, visited }) {
  if (growth === "halts") return `The run ends, with ${formatCount(visited[2], "cell")}.`;
  const [early, later, all] = visited.map(formatNumber);
  const counts = `${early}, ${later} and ${all} cells after 1 %, 10 % and 100 % of ${formatCount(steps, "step")}`;
  return `${GROWTHS[growth]}, estimated by ${counts}.`;
}
