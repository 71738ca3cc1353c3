/** Bytes of lists. */

const NEWLINE = 10;
const RETURN = 13;
const decoder = new TextDecoder();

/** The bytes of several arrays. */
export function concatBytes(/** @type {Uint8Array[]} */ arrays) {
  const bytes = new Uint8Array(arrays.reduce((sum, { length }) => sum + length, 0));
  let at = 0;
  for (const array of arrays) {
    bytes.set(array, at);
    at += array.length;
  }
  return bytes;
}

/** The offset of the newline at or behind an offset, or of the end. */
export function lineEnd(/** @type {Uint8Array} */ bytes, /** @type {number} */ from) {
  const newline = bytes.indexOf(NEWLINE, from);
  return newline < 0 ? bytes.length : newline;
}

/**
 * The text of a line, `most` bytes at most.
 * @param {Uint8Array} bytes @param {number} from @param {number} most
 */
export function lineAt(bytes, from, most) {
  const end = Math.min(lineEnd(bytes, from), from + most);
  return decoder.decode(bytes.subarray(from, bytes[end - 1] === RETURN ? end - 1 : end));
}
