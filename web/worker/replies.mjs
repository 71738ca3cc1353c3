/** Parses the engine's replies from their bytes, without making strings. */
import { newlineBits, wordsOf } from "../lib/memory.mjs";
import { ANSWERS, KINDS } from "../common/machine.mjs";

const NEWLINE = 10;
const SPACE = 32;
const ZERO = 48;
const NINE = 57;
const LETTER_R = 114;
const REFUSED = KINDS.indexOf("refused");
// A kind is recognised by its first letter, an answer by its second.
for (const letters of [KINDS.map((word) => word[0]), ANSWERS.map((word) => word[1])]) {
  if (new Set(letters).size < letters.length) throw new Error("kinds and answers need distinct letters");
}
const KIND_BY_LETTER = new Uint8Array(256).fill(REFUSED);
KINDS.forEach((word, kind) => (KIND_BY_LETTER[word.charCodeAt(0)] = kind));
const ANSWER_BY_LETTER = new Uint8Array(256);
ANSWERS.forEach((word, answer) => (ANSWER_BY_LETTER[word.charCodeAt(1)] = answer));
const ANSWER_LENGTHS = Uint8Array.from(ANSWERS, (word) => word.length + 1);
// The number of spaces between a kind's first letter and its steps; 0 for kinds without steps.
const SPACES = Uint8Array.from(KINDS, (kind) => ({ halt: 1, cycler: 2, translated: 3 })[String(kind)] ?? 0);

let scratch = new Uint32Array(0);

/**
 * Adds the line starts behind the newlines between two offsets; returns the new number of lines.
 * @param {number} lines @param {Uint8Array} bytes @param {number} from @param {number} to
 */
function addStarts(lines, bytes, from, to) {
  let count = lines;
  for (let at = from; at < to; at += 1) {
    if (bytes[at] === NEWLINE) {
      count += 1;
      scratch[count] = at + 1;
    }
  }
  return count;
}

/** The offset of each line and the end of the last one, in an array that the next call overwrites. */
export function startsOf(/** @type {Uint8Array} */ bytes) {
  // Scanning four bytes at a time takes half the time of `indexOf`.
  const { length } = bytes;
  scratch = scratch.length > length + 1 ? scratch : new Uint32Array(2 * length + 2);
  const { words, first } = wordsOf(bytes);
  let lines = addStarts(0, bytes, 0, first);
  for (let at = 0; at < words.length; at += 1) {
    // Clear the lowest bit after each newline.
    for (let found = newlineBits(words[at]); found !== 0; found &= found - 1) {
      lines += 1;
      scratch[lines] = first + 4 * at + ((31 - Math.clz32(found & -found)) >> 3) + 1;
    }
  }
  lines = addStarts(lines, bytes, first + 4 * words.length, length);
  if (scratch[lines] < length) {
    lines += 1;
    scratch[lines] = length;
  }
  return scratch.subarray(0, lines + 1);
}

/** The offset of the next space or newline, or the end. */
function wordEnd(/** @type {Uint8Array} */ bytes, /** @type {number} */ from) {
  const length = bytes.length;
  let at = from;
  while (at < length && (bytes[at] > SPACE || (bytes[at] !== SPACE && bytes[at] !== NEWLINE))) {
    at += 1;
  }
  return at;
}

/**
 * The offset behind the next `count` spaces, or the end of the line.
 * @param {Uint8Array} bytes @param {number} from @param {number} count
 */
function skipSpaces(bytes, from, count) {
  let at = from;
  for (let left = count; left > 0 && bytes[at] !== NEWLINE; left -= 1) {
    at = wordEnd(bytes, at);
    at += bytes[at] === SPACE ? 1 : 0;
  }
  return at;
}

/** The decimal number at an offset, or -1. */
export function numberAt(/** @type {Uint8Array} */ bytes, /** @type {number} */ from) {
  let at = from;
  let value = 0;
  for (; at < bytes.length && bytes[at] >= ZERO && bytes[at] <= NINE; at += 1) {
    value = 10 * value + bytes[at] - ZERO;
  }
  return at === from ? -1 : value;
}

/** Starts and kinds of verdict lines. The machines' starts, if known, save scanning. @returns {Lines} */
export function readLines(/** @type {Uint8Array} */ bytes, /** @type {Uint32Array | null} */ machines) {
  const starts = startsOf(bytes).slice();
  const kinds = new Uint8Array(starts.length - 1).fill(REFUSED);
  for (let k = 0; k < kinds.length; k += 1) {
    if (bytes[starts[k]] !== LETTER_R) {
      const skipped = machines === null ? 0 : machines[k + 1] - machines[k] - 1;
      kinds[k] = KIND_BY_LETTER[bytes[wordEnd(bytes, starts[k] + skipped) + 1]] ?? REFUSED;
    }
  }
  return { starts, kinds };
}

/** The steps of each verdict line, -1 for none. */
export function readSteps(/** @type {Uint8Array} */ bytes, /** @type {Lines} */ { starts, kinds }) {
  const steps = new Float64Array(kinds.length).fill(-1);
  for (let k = 0; k < kinds.length; k += 1) {
    if (SPACES[kinds[k]] > 0) {
      steps[k] = numberAt(bytes, skipSpaces(bytes, starts[k], 1 + SPACES[kinds[k]]));
    }
  }
  return steps;
}

/** The answers in a reply to `check`, by number. */
export function readAnswers(/** @type {Uint8Array} */ bytes, /** @type {number} */ count) {
  const answers = new Uint8Array(count);
  let at = 0;
  for (let k = 0; k < count; k += 1) {
    answers[k] = ANSWER_BY_LETTER[bytes[at + 1]];
    at += ANSWER_LENGTHS[answers[k]];
  }
  return answers;
}

/** How often each number below `most` occurs. */
export function countValues(/** @type {Uint8Array} */ numbers, /** @type {number} */ most) {
  const counts = new Array(most).fill(0);
  for (let k = 0; k < numbers.length; k += 1) {
    counts[numbers[k]] += 1;
  }
  return counts;
}
