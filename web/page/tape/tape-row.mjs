/** A row of the tape: its cells, the next entry, and its description. */
import { entryText, parseMachine, formatNumber, stateLetter, stateText } from "../../common/machine.mjs";
import { create } from "../dom.mjs";

/** The symbol at a position, or at the head. */
export const symbolAt = (/** @type {Row} */ { cells, head, low }, position = head) =>
  cells[position - low] ?? 0;

/** The next entry; null at a halt. */
export function nextEntry(/** @type {Row} */ row, /** @type {string} */ machine) {
  const state = row.state.charCodeAt(0) - 65;
  const rule = parseMachine(machine).rules.find((one) => one.state === state && one.symbol === symbolAt(row));
  return rule?.entry ?? null;
}

export function highlightEntry(/** @type {Row} */ row) {
  const used = `${row.state}${symbolAt(row)}`;
  document.querySelectorAll("#machine-table td[data-entry]").forEach((cell) => {
    const isUsed = /** @type {HTMLElement} */ (cell).dataset.entry === used;
    cell.classList.toggle("used", isUsed);
    isUsed ? cell.setAttribute("aria-current", "true") : cell.removeAttribute("aria-current");
  });
}

export function stepText(/** @type {Row} */ row, /** @type {string} */ machine) {
  const now = `Step ${formatNumber(row.step)}: ${stateText(row.state)}`;
  const place = `at position ${formatNumber(row.head)}`;
  if (row.state === "Z") return `${now}, ${place}.`;
  const entry = nextEntry(row, machine);
  const reads = `${now} reads ${symbolAt(row)} ${place}`;
  if (entry === null) return `${reads}; no entry is defined there, so it halts.`;
  const { write, move, next } = entry;
  const goes = next < 0 ? "halts" : `goes to ${stateLetter(next)}`;
  const moves = `moves ${move > 0 ? "right" : "left"}`;
  return `${reads}; ${entryText(entry)}: it writes ${write}, ${moves} and ${goes}.`;
}

/** A cell in its symbol's colour, with the state above the head's. */
export function createCell(/** @type {Row} */ row, /** @type {number} */ at) {
  const symbol = symbolAt(row, at);
  const isHead = at === row.head;
  const isSeen = isHead || (at >= row.low && at < row.low + row.cells.length);
  const state = create("span", { class: "state" }, isHead ? row.state : "");
  const cell = create("span", { class: isSeen ? "symbol" : "symbol blank" }, String(symbol));
  if (isSeen) {
    cell.style.background = `var(--s${symbol})`;
    cell.style.color = `var(--on${symbol})`;
  }
  const position = create("span", { class: "position" }, at % 5 === 0 ? formatNumber(at) : "");
  return create("span", { class: isHead ? "cell head" : "cell", "data-at": at }, state, cell, position);
}
