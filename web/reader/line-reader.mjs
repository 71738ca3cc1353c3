/**
 * Reads a line of a list: its one machine and the text around it, or why there is none. A line's machine is its
 * one machine text. Words with only spaces between them are one text; two texts are one machine only if they are
 * the same. The package's `lines.py` is alike.
 */
import { isMachine, isRefusedLine, isVerdictLine } from "../common/machine.mjs";
import { LONGEST_LINE, abbreviate, codePointName, findHidden } from "../common/text.mjs";
import { REWRITINGS, parseGroups, parseWord, reasonOf } from "./machine-parser.mjs";
import { isEntry, isSetApart, joinWords, textOf, tokenize } from "./tokens.mjs";

// The name of a state before a group: a capital letter, q and a digit, or a small letter before small letters or a sign.
const STATE =
  /(?:^|[^A-Za-z0-9'\u2019-])(?:[QqSs]_?)?([A-Ya-y]|(?<=[QqSs])[0-9]|(?<=[QqSs]_)[0-9])([^A-Za-z0-9]*)$/;
const SIGN = /[:=|>\u2192]/;
const DASHES = /^-*$/;
// The characters of machines, in any spelling.
const OF_MACHINES = /^[A-Za-z0-9_\-.\\\s]*$/;
const QUOTES = ["``", '""', "''", "\u201c\u201d", "\u2018\u2019", "\u00ab\u00bb"];
const PAIRS = [...QUOTES, "()", "[]", "{}", "<>", "**", "~~"];
const NO_MACHINE = "no machine in this line";
const COMMENT = /^(?:#|\/\/)/;
const FENCE = /^(?:`{3,}|~{3,})[A-Za-z0-9_+#.{}= -]*$/;
// Lines between the rows of a table: `|-`, `|---|---|`, `---|---`, `+---+`, and `{|`, `|}` around it.
const RULE = /^(?:[|+][-|+:=\s]*|:?-[-:\s]*\|[-|:\s]*|\|\}|\{\|[^\n]*)$/;
const CELLS = /[|\t,;]|!!/;
const LONGEST_NAME = 40;
// The names of a column of machines, without signs and spaces.
const MACHINE_NAME = /^(?:machines?|tm|turingmachines?|code)$/;
const NOTHING = /** @type {Reading} */ ({ kind: "nothing" });

/**
 * Reads a line without its newline. A line of another form than that of the first lines, which `isFound`, is read as
 * a text.
 * @param {string} given @param {Form} [asked] @param {boolean} [isFound] @returns {Reading}
 */
export function readLine(given, asked = "text", isFound = false) {
  const line = given.replace(/^\ufeff+/, "").replace(/(?<!\r)\r+$/, "");
  const bare = line.trim();
  if (line.length > LONGEST_LINE && [...line].length > LONGEST_LINE) {
    const sentence = `the line has more than ${LONGEST_LINE.toLocaleString("en")} characters`;
    return refuse("long", sentence, LONGEST_LINE + 1);
  }
  if (asked === "verdicts" && isVerdictLine(bare) && !isRefusedLine(bare)) return readMachineFirst(bare);
  if (isMachine(bare) && (asked === "machines" || (asked === "text" && !DASHES.test(bare)))) {
    return readMachineFirst(bare);
  }
  const form = isFound && !(asked === "verdicts" && isRefusedLine(bare)) ? "text" : asked;
  const { text, places } = unescapeLine(line);
  const read = readTexts(text);
  if (read === null) return NOTHING;
  if (form === "verdicts") {
    const place = line.length - line.trimStart().length + 1;
    const isRefused = isRefusedLine(bare);
    return isRefused ? refuse("none", NO_MACHINE, place) : refuse("verdict", "this is no verdict line", place);
  }
  // Count characters, not UTF-16 code units.
  const placeOf = (/** @type {number} */ place) => [...line.slice(0, places[place - 1])].length + 1;
  if (!Array.isArray(read)) return { kind: "refusal", ...read, place: placeOf(read.place) };
  const reading = readingOf(line, read, machineSpan(text, read).map((place) => places[place]));
  const isAlone = reading.before + reading.behind === "" && OF_MACHINES.test(line);
  if (form !== "machines" || isAlone) return reading;
  return refuse("beside", `the line has more than the machine ${abbreviate(reading.machine)}`, 1);
}

/** @returns {Refusal} */
const refuse = (/** @type {string} */ kind, /** @type {string} */ reason, /** @type {number} */ place) =>
  ({ kind: "refusal", ...reasonOf(kind, reason, place) });

/** @returns {MachineReading} of a line that begins with the machine, and a space if more follows */
function readMachineFirst(/** @type {string} */ bare) {
  const [machine] = bare.split(" ", 1);
  return { kind: "machine", machine, rewritten: [], before: "", behind: bare.slice(machine.length + 1) };
}

/** @param {string} line @param {Read[]} read @param {number[]} span @returns {MachineReading} */
function readingOf(line, read, [begin, end]) {
  const before = line.slice(0, begin).trim().replace(/[,;]$/, "").trimEnd();
  const behind = line.slice(end).trim().replace(/^[,;]/, "").trimStart();
  const found = /** @type {ParsedMachine} */ (read[0][1]);
  const kinds = line.slice(begin, end).includes("\\_") ? [...found.rewritten, "escapes"] : found.rewritten;
  const rewritten = Object.keys(REWRITINGS).filter((kind) => kinds.includes(kind));
  return { kind: "machine", machine: found.machine, rewritten, before, behind };
}

/** The line with `_` for `\\_`, and the original offset of each place, the end included. */
function unescapeLine(/** @type {string} */ line) {
  const places = Array.from({ length: line.length + 1 }, (_, place) => place);
  if (!line.includes("\\_")) return { text: line, places };
  const kept = places.filter((place) => line.slice(place, place + 2) !== "\\_");
  return { text: kept.map((place) => line.charAt(place)).join(""), places: kept };
}

/** @returns {Read[] | Reason | null} the texts that are the line's one machine; null for a skipped line */
function readTexts(/** @type {string} */ line) {
  const { texts, rows } = tokenize(line);
  const bare = line.trim();
  if (COMMENT.test(bare)) {
    const sentence = "a machine in a line that begins as a comment";
    const isPlain = texts.every((text) => isEntry(joinWords(text)));
    return isPlain ? null : reasonOf("comment", sentence, texts[0].begin + 1);
  }
  if (texts.length === 0) return explainNoText(line, bare, rows);
  const found = /** @type {Read[]} */ ([]);
  let end = 0;
  for (const text of texts) {
    const state = isSetApart(text) ? null : findState(line, end, text);
    if (state !== null) return state;
    const read = readText(text);
    if (text.row !== undefined && !isSetApart(text) && "machine" in read[0][1]) {
      const sentence = `${abbreviate(text.row.text)} may be a rule or a group of the machine`;
      return reasonOf("rule-or-group", sentence, text.row.begin + 1);
    }
    found.push(...read);
    end = text.end;
  }
  return selectMachine(found);
}

/** Explains a line without entries; null for a skipped line. */
function explainNoText(/** @type {string} */ line, /** @type {string} */ bare, /** @type {Word[]} */ rows) {
  if (bare === "" || FENCE.test(bare) || RULE.test(bare)) return null;
  const rule = rows.find(({ text }) => text.length >= 6 || text === bare);
  if (rule !== undefined) {
    const what = rule.text.includes("-") ? "dashes" : "dots";
    return reasonOf("rule", `a row of ${what} is a rule here, no machine`, rule.begin + 1);
  }
  const cells = bare.split(CELLS).map((cell) => cell.trim());
  const isNamed = cells.some((cell) => MACHINE_NAME.test(cell.toLowerCase().replace(/[^a-z0-9]/g, "")));
  const isShort = cells.every((cell) => [...cell].length <= LONGEST_NAME);
  if (bare.startsWith("!") || (isNamed && isShort)) return null;
  const place = line.indexOf(bare) + 1;
  if ([...bare].some((character) => findHidden(character) < 0)) return reasonOf("none", NO_MACHINE, place);
  const sentence = `${codePointName(bare)} in this line, a character that doesn't show`;
  return reasonOf("hidden", sentence, place);
}

/** Explains that a text is the line of one state, if the state's name precedes it. */
function findState(/** @type {string} */ line, /** @type {number} */ start, /** @type {EntryText} */ text) {
  const found = STATE.exec(line.slice(start, text.begin));
  if (found === null) return null;
  const [whole, letter, signs] = found;
  const group = joinWords(text);
  const isName = letter === letter.toUpperCase() || group !== group.toUpperCase() || SIGN.test(signs);
  const sentence = `${letter} before ${abbreviate(group)}: a machine of a state a line isn't read`;
  const place = start + found.index + whole.length - signs.length;
  return isName ? reasonOf("state-line", sentence, place) : null;
}

/** @returns {Read[]} the text's reading, or those of its words if each is a machine */
function readText(/** @type {EntryText} */ text) {
  const { words, groups, kind } = text;
  if (kind !== undefined) return [[text, parseGroups(groups, kind)]];
  if (words.length === 1) return [[text, readWord(words[0])]];
  /** @type {Read[]} */
  const alone = words.map((word) => [textOf([word], [[word]]), parseWord(word)]);
  if (joinWords(text).includes("_")) return alone;
  const isEach = alone.every(([, outcome]) => "machine" in outcome);
  const together = parseGroups(words.map((word) => [word]), "spaces");
  if (isEach && "machine" in together) return [[text, ambiguousWords(alone.length, words[1].begin + 1)]];
  return isEach ? alone : [[text, together]];
}

/** The machine of a word. Dots at an end may be no part of it, unless the groups are set apart. */
function readWord(/** @type {Word} */ word) {
  const { begin, text } = word;
  const found = parseWord(word);
  const dots = text.startsWith("...") ? 0 : text.length - 3;
  const isPlain = !("machine" in found) || text.includes("_") || text.slice(dots, dots + 3) !== "...";
  const sentence = "... may be an undefined entry, or no part of the machine";
  return isPlain ? found : reasonOf("dots", sentence, begin + dots + 1);
}

function ambiguousWords(/** @type {number} */ count, /** @type {number} */ place) {
  const sentence = `each of ${count} words is a machine by itself, and they may be one together`;
  return reasonOf("words", sentence, place);
}

/** @returns {Read[] | Reason} the texts that are one machine */
function selectMachine(/** @type {Read[]} */ found) {
  const read = found.find(([, outcome]) => "machine" in outcome);
  if (read === undefined) {
    const lengths = found.map(([text]) => [...joinWords(text)].length);
    return /** @type {Reason} */ (found[lengths.indexOf(lengths.reduce((one, two) => Math.max(one, two)))][1]);
  }
  const { machine } = /** @type {ParsedMachine} */ (read[1]);
  const name = abbreviate(machine);
  const part = found.find(([, outcome]) => !("machine" in outcome));
  if (part !== undefined) {
    const sentence = `${abbreviate(joinWords(part[0]))} beside the machine ${name} may be a part of it`;
    return reasonOf("part", sentence, part[0].words[0].begin + 1);
  }
  const machineOf = (/** @type {Read} */ [, outcome]) => /** @type {ParsedMachine} */ (outcome).machine;
  const other = found.find((one) => machineOf(one) !== machine);
  if (other !== undefined) {
    const sentence = `two different machines: ${name} and ${abbreviate(machineOf(other))}`;
    return reasonOf("two", sentence, other[0].words[0].begin + 1);
  }
  const plain = found.filter(([text]) => !isSetApart(text));
  return plain.length > 1 ? ambiguousWords(plain.length, plain[1][0].begin + 1) : found;
}

/** The span of the machine with enclosing characters, or of the Markdown link around it. */
function machineSpan(/** @type {string} */ line, /** @type {Read[]} */ read) {
  let { begin, end } = read[0][0];
  while (PAIRS.includes(line.slice(Math.max(0, begin - 1), begin) + line.slice(end, end + 1))) {
    [begin, end] = [begin - 1, end + 1];
  }
  const link = read[1]?.[0];
  const isLink = link !== undefined && line[begin] === "[" && line.slice(end, link.begin) === "(";
  return isLink && line[link.end] === ")" ? [begin, link.end + 1] : [begin, end];
}
