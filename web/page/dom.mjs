/** Elements, announcements, the clipboard and colours. Texts are inserted as text, never as HTML. */

/** @typedef {Record<string, () => void>} Actions by key or by element id */

/** @template {HTMLElement} [T=HTMLElement] @param {string} id @returns {T} */
export const byId = (id) => /** @type {T} */ (document.getElementById(id));

/**
 * A new element with properties, attributes and children.
 * @param {string} name @param {Record<string, any>} [properties] @param {(Node | string)[]} children
 */
export function create(name, properties = {}, ...children) {
  const element = document.createElement(name);
  for (const [key, value] of Object.entries(properties)) {
    if (key.includes("-") || key === "role" || key === "for" || key === "class") {
      element.setAttribute(key, String(value));
    } else {
      Object.assign(element, { [key]: value });
    }
  }
  element.append(...children);
  return element;
}

/**
 * Hides or disables an element, or undoes it. Its focus moves to another element.
 * @param {string} id @param {"hidden" | "disabled"} property @param {boolean} value @param {string} other
 */
export function setInactive(id, property, value, other) {
  const hasFocus = value && document.activeElement === byId(id);
  Object.assign(byId(id), { [property]: value });
  if (hasFocus) byId(other).focus({ preventScroll: true });
}

/** Adds click listeners by element id. */
export function onClick(/** @type {Actions} */ listeners) {
  Object.entries(listeners).forEach(([id, listener]) => byId(id).addEventListener("click", listener));
}

/** Runs a key's action if no modifier but Shift is pressed. */
export function dispatchKey(/** @type {KeyboardEvent} */ event, /** @type {Actions} */ actions) {
  if (event.key in actions && !event.ctrlKey && !event.metaKey && !event.altKey) {
    event.preventDefault();
    actions[event.key]();
  }
}

/** Shows a text in an element, which is hidden if empty. */
export function showText(/** @type {string} */ id, /** @type {string} */ text) {
  Object.assign(byId(id), { textContent: text, hidden: text === "" });
}

export function saveFile(/** @type {Blob} */ blob, /** @type {string} */ name) {
  const url = URL.createObjectURL(blob);
  create("a", { href: url, download: name }).click();
  setTimeout(() => URL.revokeObjectURL(url), 60_000);
}

/** Runs an action and shows its outcome on its button for a while. */
async function reportOutcome(/** @type {HTMLElement} */ button, /** @type {() => Promise<void>} */ act) {
  const label = (button.dataset.words ??= button.textContent ?? "");
  try {
    await act();
    button.textContent = "Copied";
  } catch {
    button.textContent = "The browser refused";
  }
  announce(button.textContent);
  setTimeout(() => {
    button.textContent = label;
  }, 1500);
}

export const copyText = (/** @type {string} */ text, /** @type {HTMLElement} */ button) =>
  reportOutcome(button, () => navigator.clipboard.writeText(text));

export const copyPicture = (/** @type {Promise<Blob | null>} */ png, /** @type {HTMLElement} */ button) =>
  reportOutcome(button, async () => {
    const item = new ClipboardItem({ "image/png": png.then((blob) => /** @type {Blob} */ (blob)) });
    await navigator.clipboard.write([item]);
  });

// Slightly more than a second: timers may fire a little early.
const LIVE_MILLISECONDS = 1_050;
let lastAnnounced = -Infinity;
let liveTimer = 0;

/** Announces a text to screen readers, at most once a second; a newer text replaces a pending one. */
export function announce(/** @type {string} */ text) {
  clearTimeout(liveTimer);
  const delay = lastAnnounced + LIVE_MILLISECONDS - performance.now();
  liveTimer = setTimeout(() => {
    lastAnnounced = performance.now();
    byId("live").textContent = text;
  }, Math.max(0, delay));
}

export const colourOf = (/** @type {string} */ name) =>
  getComputedStyle(document.documentElement).getPropertyValue(name).trim();

/** A table in which each row begins with its heading. */
export function createTable(/** @type {Node[]} */ head, /** @type {[string, ...Node[]][]} */ rows) {
  const rowOf = (/** @type {[string, ...Node[]]} */ [name, ...cells]) =>
    create("tr", {}, create("th", { scope: "row" }, name), ...cells);
  return create("table", {}, create("tr", {}, ...head), ...rows.map(rowOf));
}

/** The terms and descriptions of facts; an id begins with the prefix. */
export const createFacts = (/** @type {string} */ prefix, /** @type {[string, string, Node | string][]} */ facts) =>
  facts.flatMap(([id, name, words]) => [create("dt", {}, name), create("dd", { id: prefix + id }, words)]);

/** The channels of the ten symbols' colours, of unvisited cells and of the head. */
export function readPalette() {
  const symbols = Array.from({ length: 10 }, (_, symbol) => `--s${symbol}`);
  return [...symbols, "--unvisited", "--head"].map((name) =>
    [1, 3, 5].map((at) => parseInt(colourOf(name).slice(at, at + 2), 16)),
  );
}
