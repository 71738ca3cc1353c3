/** Splits a line into texts of entries and rows of dashes or dots. The package has them in `lines.py`. */

const QUOTES = "`\"'\u2018\u2019\u201a\u201c\u201d\u201e\u00ab\u00bb";
// Ends of addresses and words.
const ENDS = `\\s,;|()\\[\\]{}<>*${QUOTES}`;
const WORD = `[^${ENDS}:=#~/?!&]+`;
const ADDRESS = "(?:[A-Za-z][A-Za-z0-9+.-]*://|[A-Za-z][A-Za-z0-9-]*(?:\\.[A-Za-z0-9-]+)+/)";
const TOKEN = new RegExp(`(?<address>${ADDRESS}(?:(?!~~)[^${ENDS}])*)|${WORD}`, "g");
const WORDS = new RegExp(WORD, "g");
const ENTRY = "(?:[0-9][LRlr][A-Za-z]|---|\\.\\.\\.)";
const ENTRIES = new RegExp(`^(?:${ENTRY}|_)*${ENTRY}_*$`);
const ROW = /^[-.]+$/;
// A list number right before an entry.
const NUMBER = /^[0-9]+\.(?=[0-9-])/;
// Groups as arrays of quoted entries, as in JSON and Python.
const QUOTED = `["']${ENTRY}["']`;
const GROUP = `\\[\\s*${QUOTED}(?:\\s*,\\s*${QUOTED})*\\s*\\]`;
const [ENTRIES_IN_GROUP, GROUPS_IN_ARRAYS] = [QUOTED, GROUP].map((text) => new RegExp(text, "g"));
const ARRAYS = new RegExp(`\\[\\s*${GROUP}(?:\\s*,\\s*${GROUP})*\\s*\\]`, "g");
// Substrings of machines, whole or damaged, and of nothing else.
const FRAGMENTS =
  /[0-9][LR](?:[A-Z_.-]|$)|[0-9][lr][a-z](?=[0-9_])|(?<=[a-z_])[0-9][lr][a-z]|^[0-9][lr][_-]|---_|_---/;
// A word that looks like an entry.
const ORDINAL = "3rd";
const SPACES = /^[ \u00a0]*$/;
const THREE = /^[^]{3}$/u;

const endOf = (/** @type {Word} */ { begin, text }) => begin + text.length;

export const joinWords = (/** @type {EntryText} */ { words }) => words.map(({ text }) => text).join(" ");

/** Whether a text has the length of one entry. */
export const isEntry = (/** @type {string} */ text) => THREE.test(text);

/** Whether nothing beside a text may be a part of it. */
export const isSetApart = (/** @type {EntryText} */ text) =>
  text.kind === "arrays" || text.words[0].address !== undefined || joinWords(text).includes("_");

/** @returns {Word[]} the matches of a pattern in a word */
export const findAll = (/** @type {Word} */ { begin, text }, /** @type {RegExp} */ pattern) =>
  Array.from(text.matchAll(pattern), ({ index = 0, 0: found }) => ({ begin: begin + index, text: found }));

/** @returns {{texts: EntryText[], rows: Word[]}} */
export function tokenize(/** @type {string} */ given) {
  const texts = given.includes("[") ? findArrays(given) : [];
  const line = texts.length > 0 ? given.replace(ARRAYS, (found) => "|".repeat(found.length)) : given;
  // The words in runs with only spaces between them.
  const runs = /** @type {Word[][]} */ ([]);
  let end = 0;
  for (const { index = 0, 0: text, groups } of line.matchAll(TOKEN)) {
    const address = groups?.address === undefined ? undefined : [index, index + text.length];
    for (const part of address ? findAll({ begin: index, text }, WORDS) : [{ begin: index, text }]) {
      const word = { ...trim(part), address };
      if (!ROW.test(word.text) && !hasEntries(word.text)) continue;
      const isNext = runs.length > 0 && SPACES.test(line.slice(end, word.begin));
      isNext ? runs[runs.length - 1].push(word) : runs.push([word]);
      end = endOf(word);
    }
  }
  texts.push(...runs.flatMap(textsOf));
  texts.sort((one, two) => one.words[0].begin - two.words[0].begin);
  return { texts, rows: runs.flat().filter(({ text }) => ROW.test(text)) };
}

/** @returns {EntryText[]} machines written as arrays of entries */
function findArrays(/** @type {string} */ line) {
  return findAll({ begin: 0, text: line }, ARRAYS).map((word) => {
    const quoted = findAll(word, GROUPS_IN_ARRAYS).map((group) => findAll(group, ENTRIES_IN_GROUP));
    const groups = quoted.map((group) => {
      return group.map(({ begin, text }) => ({ begin: begin + 1, text: text.slice(1, -1) }));
    });
    const text = groups.map((group) => group.map((entry) => entry.text).join("")).join("_");
    const words = [{ begin: word.begin, text }];
    return { words, groups, kind: "arrays", begin: word.begin, end: endOf(word), row: undefined };
  });
}

/** A word without the number of a list item before it and a full stop behind it. */
function trim(/** @type {Word} */ { begin: given, text: whole }) {
  const number = NUMBER.exec(whole)?.[0] ?? "";
  const isNumbered = number !== "" && ENTRIES.test(whole.slice(number.length).replace(/(?<!\.)\.+$/, ""));
  const [begin, text] = isNumbered ? [given + number.length, whole.slice(number.length)] : [given, whole];
  const isStopped = text.endsWith(".") && !text.endsWith("..") && text.length > 1;
  return { begin, text: isStopped ? text.slice(0, -1) : text };
}

const hasEntries = (/** @type {string} */ text) =>
  text !== ORDINAL && (ENTRIES.test(text) || FRAGMENTS.test(text));

/**
 * The texts of a run. Rows are no part of them, unless they are entries among words of one entry each.
 * @returns {EntryText[]}
 */
function textsOf(/** @type {Word[]} */ run) {
  const rows = run.map(({ text }) => ROW.test(text));
  if (!rows.includes(false)) return [];
  const starts = [...run.keys()].filter((k) => k === 0 || run[k].begin - endOf(run[k - 1]) > 1);
  const isEach = run.every(({ text }) => isEntry(text));
  if (starts.length > 1 && starts.length < run.length && isEach) {
    return [textOf(run, starts.map((k, at) => run.slice(k, starts[at + 1])))];
  }
  const [first, last] = [rows.indexOf(false), rows.lastIndexOf(false) + 1];
  const isPart = (/** @type {Word} */ { text }, /** @type {number} */ k) =>
    text === "---" || (isEntry(text) && !rows[first + k]);
  if (run.slice(first, last).every(isPart)) return [besideRow(run, first, last)];
  const places = [...run.keys()].filter((k) => !rows[k] && (k === 0 || rows[k - 1]));
  const ends = places.map((k) => rows.indexOf(true, k));
  return places.map((k, at) => besideRow(run, k, ends[at] < 0 ? last : ends[at]));
}

/** The text of some words of a run, with the row beside it that may be a group of it. */
function besideRow(/** @type {Word[]} */ run, /** @type {number} */ first, /** @type {number} */ last) {
  const words = run.slice(first, last);
  const row = [run[first - 1], run[last]].find((word) => word?.text.length === words[0].text.length);
  return { ...textOf(words, [words]), row };
}

/** @returns {EntryText} */
export function textOf(/** @type {Word[]} */ words, /** @type {Word[][]} */ groups) {
  const [one, two] = [words[0], words[words.length - 1]];
  const isEntries = words.length > 1 && words.every(({ text }) => isEntry(text));
  const [begin, end] = [one.address?.[0] ?? one.begin, two.address?.[1] ?? endOf(two)];
  return { words, groups, kind: isEntries ? "entries" : undefined, begin, end, row: undefined };
}
