/** Limits on the lengths of lines, and texts for messages. */

/** Longer lines are refused. The longest machine has 774 characters. */
export const LONGEST_LINE = 16_384;
/** Kept bytes of a line: with four bytes a character, enough to see that it is too long. */
export const BYTES_KEPT = 4 * (LONGEST_LINE + 1);
/** Displayed characters of a line: more than the longest verdict line. */
export const LONGEST_SHOWN = 1_023;
/** Characters of a text quoted in a message. */
export const LONGEST_QUOTED = 60;

const CONTROL = /\p{Cc}/u;
// Assigned characters drawn as nothing or as a space, except the plain space.
const HIDDEN = /(?![ \p{Co}\p{Cn}\p{Cs}])[\p{C}\p{Z}\u034f\u115f\u1160\u2800\u3164\uffa0\ufe00-\ufe0f]/u;

/** The offset of the first invisible character, or -1. */
export const findHidden = (/** @type {string} */ text) => text.search(HIDDEN);

/** The code point of a character, as `U+200B`. */
export function codePointName(/** @type {string} */ character) {
  const code = (character.codePointAt(0) ?? 0).toString(16).toUpperCase();
  return `U+${code.padStart(4, "0")}`;
}

/** A text for a message: truncated, with invisible controls as `\\x1b` and others as `U+200B`. */
export function abbreviate(/** @type {string} */ given) {
  const text = /^[ -~]*$/.test(given) ? given : [...given].map(escapeCharacter).join("");
  if (text.length <= LONGEST_QUOTED) return text;
  // Characters are counted, not UTF-16 code units.
  const characters = [...text];
  return characters.length <= LONGEST_QUOTED ? text : `${characters.slice(0, LONGEST_QUOTED - 2).join("")}..`;
}

function escapeCharacter(/** @type {string} */ character) {
  if (!HIDDEN.test(character)) return character;
  const code = character.charCodeAt(0).toString(16).padStart(2, "0");
  return CONTROL.test(character) && !"\t\n".includes(character) ? `\\x${code}` : codePointName(character);
}
