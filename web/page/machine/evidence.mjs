/** The evidence for a verdict: marks on the diagram, and rows or the backward tree below it. */
import { formatCount, parseMachine, formatNumber, stateLetter, stateText } from "../../common/machine.mjs";
import { create, byId } from "../dom.mjs";
import { symbolAt } from "../tape/tape-row.mjs";
import { WorkerClient } from "../worker-client.mjs";
import { buildTree, isStart, nodeText } from "./backward-tree.mjs";
import { differenceOf } from "./differences.mjs";

const MOST_NODES = 100_000;
const NODES_SHOWN = 60;
const LEVELS_SHOWN = 40;
const CELLS_SHOWN = 400;
// The first view's steps if the verdict names none.
const FIRST_STEPS = 100;
// The most steps of a picture beyond the verdict's.
const MOST_STEPS = 100_000_000;
const NODE_WORDS =
  "A node is a state and the known cells. The head’s cell is in brackets, a dot is an unknown cell.";
const NO_EXTENT = "The line doesn’t name the cells that agree.";
const NO_DIFFERENCE = "The rows above don’t differ from the line.";
const NO_TREE = "No entry halts, so the tree is empty.";
const client = new WorkerClient();
/** @type {Verdict | null} the current verdict; rows for another one are dropped */
let shownVerdict = null;

export function clearEvidence() {
  shownVerdict = null;
}

/** The last step of a verdict's first view, and the last one of its diagram. */
export function diagramSteps(/** @type {Verdict} */ { kind, numbers }, /** @type {number} */ limit) {
  const [first, second] = numbers;
  if (kind === "halt") return { last: first, upto: first };
  if (kind === "cycler" || kind === "translated") {
    const last = second + Math.max(4, Math.ceil((second - first) / 2));
    return { last, upto: Math.max(Math.min(limit, MOST_STEPS), last) };
  }
  const upto = Math.min(limit, MOST_STEPS);
  return { last: kind === "undecided" ? upto : Math.min(upto, FIRST_STEPS), upto };
}

/**
 * Shows a verdict's evidence, and passes on the diagram's marks, the marked pair, and the last row of a halt.
 * @param {{machine: string, cells: number, verdict: Verdict, answer: string}} about
 * @param {(marks: Mark[], pair: Fit["pair"], end: Fit["end"]) => void} mark
 */
export function showEvidence(about, mark) {
  const box = byId("behind");
  const { machine, cells, verdict } = about;
  const { kind, numbers: [from, second] } = verdict;
  shownVerdict = verdict;
  box.replaceChildren();
  if (kind === "backward" || kind === "undecided") {
    box.append(...(kind === "backward" ? createTree(about) : []));
    mark([], null, null);
    return;
  }
  // The two rows of a pair, or the last row of a halt.
  const steps = kind === "halt" ? [from] : [Math.min(from, second), second];
  client.request({ type: "claim", machine, cells, steps }, (found) => {
    if (shownVerdict !== verdict) return;
    const rows = found.rows ?? [];
    const difference = found.error ? `The rows can’t be traced: ${found.message}.` : differenceOf(verdict, machine, found);
    const { bands, parts } = rowEvidence(about, rows, difference);
    box.replaceChildren(...parts);
    const [row] = kind === "halt" && difference === null ? rows : [];
    const end = row === undefined ? null : { step: row.step, low: row.low, width: row.cells.length };
    mark([{ bands, arrow: kind === "translated" }], kind === "halt" ? null : markedPair(verdict, bands), end);
  });
}

/** @param {Verdict} verdict @param {Band[]} bands */
function markedPair({ numbers: [first, second] }, bands) {
  const places = bands.flatMap(({ from, to }) => (from === null || to === null ? [] : [from, to]));
  const [low, high] = places.length > 0 ? [Math.min(...places), Math.max(...places)] : [null, null];
  return { first, second, low, high };
}

/** A row's band. Of a translated cycler the head's cell and those behind it agree. @returns {Band} */
function bandOf(/** @type {Row} */ { step, head }, /** @type {Verdict} */ { kind, numbers, side }) {
  const label = kind === "halt" ? "halt" : `step ${formatNumber(step)}`;
  const beyond = kind === "translated" ? (numbers[3] ?? 0) - 1 : -1;
  const [from, to] = side === "R" ? [head - beyond, head] : [head, head + beyond];
  return beyond < 0 ? { step, from: null, to: null, label } : { step, from, to, label };
}

/**
 * The bands and elements of a claim's rows.
 * @param {{verdict: Verdict, answer: string}} about @param {Row[]} rows @param {string | null} difference
 */
function rowEvidence({ verdict, answer }, rows, difference) {
  const { kind, numbers: [, second, shift, length] } = verdict;
  const isBare = kind === "translated" && length === undefined;
  const bands = rows.map((row) => bandOf(row, verdict));
  const lines = rows.map((row, k) => createRowLine(row, bands[k], rows, kind));
  const cells = `the same ${formatCount(length ?? 0, "cell")}, ${formatCount(shift ?? 0, "cell")} farther out`;
  const titles = /** @type {Record<string, string>} */ ({
    halt: `the last row: ${formatCount(second, "nonzero cell")}`,
    cycler: "the two equal rows",
    translated: isBare ? "the two records" : `the two records: ${cells}`,
  });
  const title = create("h3", {}, titleOf(titles[kind], answer));
  const shows = kind === "halt" ? "The row above shows it." : "The rows above show it.";
  const agrees = answer === "ok" ? (isBare ? NO_EXTENT : shows) : NO_DIFFERENCE;
  const note = difference === null ? createHint(agrees) : create("p", { class: "error" }, difference);
  return { bands, parts: [title, create("div", { class: "cells" }, ...lines), note] };
}

/** A title; of a claim that the checker doesn't confirm it says so. */
const titleOf = (/** @type {string} */ words, /** @type {string} */ answer) =>
  answer === "ok" ? words[0].toUpperCase() + words.slice(1) : `Claimed: ${words}`;

/** @param {Row} row @param {Band} band its agreeing cells @param {Row[]} rows @param {string} kind */
function createRowLine(row, band, rows, kind) {
  const side = kind === "translated" && band.from !== null ? row.head - rows[0].head : 0;
  const low = Math.min(...rows.map((one) => one.low - (side ? one.head - rows[0].head : 0)));
  const center = kind === "translated" ? rows[0].head : Math.round((low + row.low + row.cells.length) / 2);
  const first = Math.max(low, center - CELLS_SHOWN / 2) + side;
  const last = Math.min(Math.max(...rows.map((one) => one.low + one.cells.length - 1)), first + CELLS_SHOWN);
  const cells = [];
  for (let at = first; at <= last; at += 1) {
    const isIn = kind === "cycler" || (at >= (band.from ?? Infinity) && at <= (band.to ?? -Infinity));
    const isSeen = at >= row.low && at < row.low + row.cells.length;
    const names = [isIn && isSeen ? "same" : "", at === row.head ? "at" : ""].filter(Boolean).join(" ");
    cells.push(create("b", { class: names }, isSeen ? String(symbolAt(row, at)) : " "));
  }
  const words = `step ${formatNumber(row.step)}, ${stateText(row.state)}`;
  return create("div", {}, create("span", { class: "step" }, words), ...cells);
}

function createTree(/** @type {{machine: string, verdict: Verdict, answer: string}} */ about) {
  const { machine, verdict, answer } = about;
  const [levels, nodes] = verdict.numbers;
  const tree = buildTree(parseMachine(machine), Math.min(nodes, MOST_NODES));
  const counts = `${formatCount(nodes, "node")} in ${formatCount(levels, "level")}`;
  const parts = [create("h3", {}, titleOf(`the tree of configurations before a halt: ${counts}`, answer))];
  if (!tree.ended && nodes > MOST_NODES) {
    parts.push(createHint(`Too large to draw: only ${formatNumber(tree.count)} nodes are computed.`));
  } else if (!tree.ended || tree.levels.length !== levels || tree.count !== nodes) {
    const found = `${formatCount(tree.count, "node")} in ${formatCount(tree.levels.length, "level")}`;
    const differs = `The tree computed here has ${found}, unlike the line.`;
    parts.push(create("p", { class: "error" }, differs));
  } else if (tree.levels.some((level) => level.some(isStart))) {
    parts.push(create("p", { class: "error" }, "The start is in the tree."));
  }
  tree.levels.slice(0, LEVELS_SHOWN).forEach((level, k) => parts.push(createLevel(level, k)));
  if (tree.levels.length > LEVELS_SHOWN) {
    parts.push(createHint(`and ${formatCount(tree.levels.length - LEVELS_SHOWN, "level")} more`));
  }
  parts.push(createHint(nodes === 0 ? NO_TREE : NODE_WORDS));
  return parts;
}

const createHint = (/** @type {string} */ words) => create("p", { class: "hint" }, words);

function createLevel(/** @type {TreeNode[]} */ level, /** @type {number} */ k) {
  const texts = level.slice(0, NODES_SHOWN).map((node) => `${stateLetter(node.state)} ${nodeText(node)}`);
  const nodes = texts.map((text) => create("span", {}, text));
  if (level.length > NODES_SHOWN) {
    nodes.push(create("span", {}, `and ${formatNumber(level.length - NODES_SHOWN)} more`));
  }
  const name = create("span", { class: "hint" }, `level ${k}: ${formatNumber(level.length)}`);
  const box = create("div", { class: "nodes" }, ...nodes);
  return create("div", { class: "level", "data-count": level.length }, name, box);
}
