/** Builds the machine of a text of entries, or explains why it is none. The package's `machines.py` is alike. */
import { MOST_SYMBOLS, STATES, isMachine } from "../common/machine.mjs";
import { codePointName, findHidden } from "../common/text.mjs";
import { findAll } from "./tokens.mjs";

// Machines with at most this many states have no state H, so H may mean the halting state.
const MOST_BEFORE_H = STATES.indexOf("H");
const ENTRY = /^(?:[0-9][LRlr][A-Za-z]|---|\.\.\.)$/;
const LOST = /^[0-9][LRlr][-_]$/;
// An entry that halts, where entries are words.
const HALT = /^([0-9][LRlr])_$/;
const GROUP = /(?<![^_])[^_]*/g;
/** Descriptions of rewritings, in display order. */
export const REWRITINGS = {
  "small-letters": "small letters read as capital ones",
  "halting-state": "H read as Z, the halting state",
  "halting-entries": "_ read as Z, the halting state",
  "undefined-entries": "... read as ---, an undefined entry",
  spaces: "spaces between groups read as _",
  underscores: "_ put between the groups",
  escapes: "\\_ read as _",
  entries: "spaces between entries left out",
  arrays: "arrays of entries read as groups",
};

/** @param {string} refusal @param {string} reason @param {number} place @returns {Reason} */
export const reasonOf = (refusal, reason, place) => ({ refusal, reason, place });

/** @returns {ParsedMachine | Reason} of a word with `_` between its groups, or with one possible division */
export function parseWord(/** @type {Word} */ word) {
  if (word.text.includes("_") && isMachine(word.text)) return { machine: word.text, rewritten: [] };
  return parseGroups(findAll(word, GROUP).map((part) => [part]));
}

/**
 * The machine of these groups. A single one is divided, if one division makes a machine. `1R_` is read as `1RZ`
 * if entries are words.
 * @param {Word[][]} groups @param {string} [kind] a rewriting @returns {ParsedMachine | Reason}
 */
export function parseGroups(groups, kind) {
  const entries = /** @type {Word[][]} */ ([]);
  const kinds = kind === undefined ? [] : [kind];
  let count = 0;
  for (const [k, group] of groups.entries()) {
    if (group[0].text === "") return reasonOf("empty-group", `group ${k + 1} is empty`, group[0].begin + 1);
    const given = group.flatMap((word) => findAll(word, /[^]{1,3}/gu));
    const halts = kind === "entries" && given.some(({ text }) => HALT.test(text));
    halts && kinds.push("halting-entries");
    const cut = halts ? given.map(({ begin, text }) => ({ begin, text: text.replace(HALT, "$1Z") })) : given;
    const wrong = cut.findIndex(({ text }) => !ENTRY.test(text));
    if (wrong >= 0) return explainEntry(cut[wrong], count + wrong + 1, k + 1 < groups.length);
    count += cut.length;
    entries.push(cut);
  }
  const text = groups.flat().map((word) => word.text).join("");
  text === text.toUpperCase() || kinds.push("small-letters");
  text.includes("...") && kinds.push("undefined-entries");
  return entries.length === 1 && kind !== "arrays" ? divide(entries[0], kinds) : buildMachine(entries, kinds);
}

/** @param {Word} entry @param {number} number @param {boolean} isFollowed by a `_` or a space behind its group */
function explainEntry({ begin, text }, number, isFollowed) {
  const whole = text.length === 2 && isFollowed ? `${text}_` : text;
  if (LOST.test(whole)) {
    const sentence = `entry ${number} is ${whole}: the ${whole[0]} that it writes would be lost`;
    return reasonOf("lost", sentence, begin + 1);
  }
  const hidden = findHidden(text);
  const name = hidden < 0 ? "" : codePointName(text.slice(hidden));
  return hidden < 0
    ? reasonOf("entry", `entry ${number} is no entry: ${text}`, begin + 1)
    : reasonOf("hidden", `entry ${number} has ${name}, a character that doesn't show`, begin + hidden + 1);
}

/** @template T @returns {T[][]} the items in groups of a size */
const chunk = (/** @type {T[]} */ items, /** @type {number} */ size) =>
  Array.from({ length: items.length / size }, (_, k) => items.slice(k * size, (k + 1) * size));

/** @returns {ParsedMachine | Reason} the machine if exactly one division into groups makes one */
function divide(/** @type {Word[]} */ entries, /** @type {string[]} */ rewritten) {
  const count = entries.length;
  const place = entries[0].begin + 1;
  const all = count === 1 ? "1 entry" : `${count} entries`;
  const sizes = Array.from(STATES, (_, k) => count / (k + 1)).filter((size) => {
    return Number.isInteger(size) && size >= 2 && size <= MOST_SYMBOLS;
  });
  const outcomes = sizes.map((size) => {
    return buildMachine(chunk(entries, size), size < count ? [...rewritten, "underscores"] : rewritten);
  });
  const found = outcomes.filter((outcome) => "machine" in outcome);
  if (found.length === 1 || outcomes.length === 1) return found[0] ?? outcomes[0];
  if (outcomes.length === 0) {
    return reasonOf("division", `${all} can't be divided into 1 to 25 groups of 2 to 10`, place);
  }
  return found.length === 0
    ? reasonOf("division", `no way to divide ${all} into groups makes a machine`, place)
    : reasonOf("divisions", `${found.length} ways to divide ${all} into groups make a machine`, place);
}

/** @returns {ParsedMachine | Reason} */
function buildMachine(/** @type {Word[][]} */ groups, /** @type {string[]} */ rewritten) {
  const wrong = checkSizes(groups);
  if (wrong !== null) return wrong;
  const capitals = groups.flat().map(({ text }) => text.toUpperCase().replace("...", "---"));
  const letters = capitals.map((text) => text[2]);
  const haltsByH = letters.includes("H") && !letters.includes("Z") && groups.length <= MOST_BEFORE_H;
  const texts = haltsByH ? capitals.map((text) => text.replace("H", "Z")) : capitals;
  for (const [k, { begin }] of groups.flat().entries()) {
    const reason = checkEntry(texts[k], k + 1, begin, groups.length, groups[0].length);
    if (reason !== null) return reason;
  }
  const machine = chunk(texts, groups[0].length).map((group) => group.join("")).join("_");
  return { machine, rewritten: haltsByH ? [...rewritten, "halting-state"] : rewritten };
}

/** Explains why groups of these lengths make no machine; null if they can. */
function checkSizes(/** @type {Word[][]} */ groups) {
  const lengths = [...new Set(groups.map((group) => group.length))];
  const [size] = lengths;
  const places = groups.map(([{ begin }]) => begin + 1);
  if (lengths.length > 1) {
    const counts = `${lengths.slice(0, -1).join(", ")} and ${lengths[lengths.length - 1]}`;
    const other = groups.findIndex((group) => group.length !== size);
    return reasonOf("groups", `the groups have ${counts} entries`, places[other]);
  }
  if (size < 2 || size > MOST_SYMBOLS) {
    const each = size === 1 ? "1 entry" : `${size} entries`;
    return reasonOf("symbols", `the groups have ${each}, not 2 to 10`, places[0]);
  }
  const isMany = groups.length > STATES.length;
  const sentence = `there are ${groups.length} groups, not 1 to 25`;
  return isMany ? reasonOf("states", sentence, places[STATES.length]) : null;
}

/**
 * Explains why a machine of this size can't have an entry; null if it can.
 * @param {string} entry @param {number} number @param {number} begin @param {number} states
 * @param {number} symbols
 */
function checkEntry(entry, number, begin, states, symbols) {
  if (entry === "---") return null;
  if (Number(entry[0]) >= symbols) {
    const sentence = `entry ${number} writes ${entry[0]}, but there are ${symbols} symbols`;
    return reasonOf("symbol", sentence, begin + 1);
  }
  if (entry[2] === "Z" || STATES.slice(0, states).includes(entry[2])) return null;
  if (entry[2] === "H" && states <= MOST_BEFORE_H) {
    return reasonOf("halting-state", "H: the halting state is Z here", begin + 3);
  }
  const there = states === 1 ? "there is 1 state" : `there are ${states} states`;
  return reasonOf("state", `entry ${number} names state ${entry[2]}, but ${there}`, begin + 3);
}
