/** The fields of limits and deciders, and links with their values. */
import { LIMITS, RANGES, parseLimit, requireFit } from "../../lib/limits.mjs";
import { formatNumber } from "../../common/machine.mjs";
import { LONGEST_SHOWN } from "../../common/text.mjs";
import { byId, create } from "../dom.mjs";

const SWITCHES = ["cyclers", "translated", "backward"];
const LABELS = /** @type {Record<string, string>} */ ({
  steps: "steps of one simulation",
  cells: "cells of one tape",
  depth: "levels of the backward tree",
  nodes: "nodes of the backward tree",
});
// Digits in groups of three, with one kind of separator.
const GROUPS = /^\d{1,3}([,\s_])\d{3}(?:\1\d{3})*(?![\d,\s_])/;

const field = (/** @type {string} */ name) => /** @type {HTMLInputElement} */ (byId(name));

export function createFields() {
  for (const name of LIMITS) {
    const described = { "aria-describedby": `${name}-range` };
    const input = create("input", { type: "text", id: name, inputMode: "numeric", ...described });
    const label = create("label", { for: name }, `${name}: ${LABELS[name]}`);
    byId("fields").append(create("div", {}, label, input, create("p", { id: `${name}-range` })));
  }
  byId("limits").addEventListener("input", showChanges);
}

/** Lists the changed fields beside the closed panel. */
function showChanges() {
  const changed = LIMITS.filter((name) => parseNumber(field(name).value) !== RANGES[name].default);
  const limits = changed.map((name) => {
    const { value } = field(name);
    return `${name} ${parseNumber(value)?.toLocaleString("en") ?? value}`;
  });
  const off = SWITCHES.filter((name) => !field(name).checked).map((name) => `no ${name}`);
  byId("limits-text").textContent = [...limits, ...off].join(", ");
}

/** Sets all fields, missing ones to their defaults. */
export function setPlan(/** @type {Plan} */ plan) {
  LIMITS.forEach((name) => (field(name).value = String(plan[name] ?? RANGES[name].default)));
  SWITCHES.forEach((name) => (field(name).checked = plan[name] ?? true));
  clearRefusals();
  showChanges();
}

/** @returns {Plan} the fields' contents, as typed */
export function fieldTexts() {
  const switches = SWITCHES.map((name) => [name, field(name).checked]);
  return Object.fromEntries([...LIMITS.map((name) => [name, field(name).value]), ...switches]);
}

/** A plan with ten times the steps and four times the cells, up to the greatest. */
export function enlargePlan(/** @type {Plan} */ plan) {
  const least = (/** @type {bigint} */ one, /** @type {bigint} */ two) => (one < two ? one : two);
  const steps = least(BigInt(plan.steps) * 10n, RANGES.steps.max);
  const cells = least(BigInt(plan.cells) * 4n, RANGES.cells.max);
  return { ...plan, steps, cells };
}

/** Parses a whole number with separators, or as `1e6` or `10^6`; null for other texts. */
export function parseNumber(/** @type {string} */ input) {
  const plain = input.trim().replace(/^\+/, "").replace(/\s*\^\s*/, "^");
  const text = plain.replace(GROUPS, (digits) => digits.replace(/\D/g, ""));
  const power = /^(\d{1,15})(?:\.(\d{1,15}))?e\+?(\d{1,2})$/i.exec(text) ?? /^(1)()0\^(\d{1,2})$/.exec(text);
  if (power === null) return /^\d{1,999}$/.test(text) ? BigInt(text) : null;
  const [, whole, fraction = "", zeros] = power;
  const rest = Number(zeros) - fraction.length;
  return rest < 0 ? null : BigInt(whole + fraction) * 10n ** BigInt(rest);
}

/** @returns {Plan | null} the fields' plan; null for refused limits, whose refusals are shown */
export function readPlan() {
  clearRefusals();
  /** @type {Plan} */
  const plan = Object.fromEntries(SWITCHES.map((name) => [name, field(name).checked]));
  const read = (/** @type {Limit} */ name) => (plan[name] = parseLimit(name, parseNumber(field(name).value)));
  // From the last to the first, which gets the focus.
  const wrong = [...LIMITS].reverse().filter((name) => !isAccepted(name, () => read(name)));
  const fits = () => requireFit(LIMITS.map((name) => plan[name]));
  return wrong.length === 0 && isAccepted("depth", fits) ? plan : null;
}

/** Whether a limit is right; the refusal of a wrong one is shown. */
function isAccepted(/** @type {Limit} */ name, /** @type {() => void} */ parse) {
  try {
    parse();
    return true;
  } catch (error) {
    showRefusal(name, /** @type {Error} */ (error).message);
    return false;
  }
}

const rangeText = (/** @type {Limit} */ name) =>
  `${formatNumber(Number(RANGES[name].min))} to ${formatNumber(Number(RANGES[name].max))}`;

function clearRefusals() {
  for (const name of LIMITS) {
    field(name).removeAttribute("aria-invalid");
    Object.assign(byId(`${name}-range`), { textContent: rangeText(name), className: "hint" });
  }
}

/** Shows a refused limit beside its field: the program's message, and the valid values. */
export function showRefusal(/** @type {string} */ limit, /** @type {string} */ message) {
  const range = `enter ${rangeText(/** @type {Limit} */ (limit))}`;
  const advice = message.includes("fit") ? "2 × depth − 1 is at most the cells" : range;
  /** @type {HTMLDetailsElement} */ (byId("limits")).open = true;
  field(limit).setAttribute("aria-invalid", "true");
  Object.assign(byId(`${limit}-range`), { textContent: `${message}: ${advice}`, className: "error" });
  field(limit).focus();
}

/** The fragment of a link that opens a machine with a plan. */
export function linkOf(/** @type {string} */ machine, /** @type {Plan} */ plan) {
  const words = new URLSearchParams({ machine });
  const limits = LIMITS.filter((name) => plan[name] !== RANGES[name].default);
  limits.forEach((name) => words.set(name, String(plan[name])));
  SWITCHES.filter((name) => !plan[name]).forEach((name) => words.set(name, "off"));
  return words.toString();
}

function decode(/** @type {string} */ text) {
  try {
    return decodeURIComponent(text);
  } catch {
    return text;
  }
}

/** Parses a link's fragment; null without a machine. `#1RA1RA` alone names a machine. */
export function readLink(/** @type {string} */ hash) {
  const text = hash.replace(/^#/, "");
  const isAlone = text !== "" && !text.includes("=");
  const words = new URLSearchParams(isAlone ? { machine: decode(text) } : text);
  const machine = words.get("machine");
  if (machine === null) return null;
  const limits = LIMITS.filter((name) => words.has(name)).map((name) => [name, words.get(name)]);
  const off = SWITCHES.filter((name) => words.get(name) === "off").map((name) => [name, false]);
  return { machine: machine.slice(0, LONGEST_SHOWN), plan: Object.fromEntries([...limits, ...off]) };
}
