/** Files: choosing, dropping, detecting the encoding, decompressing. */
import { byId, onClick } from "../dom.mjs";

// Magic numbers, and names of their encodings and formats. UTF-32 comes before UTF-16, whose mark it extends.
const MARKS = /** @type {[number[], string][]} */ ([
  [[0xff, 0xfe, 0, 0], "UTF-32 text"],
  [[0, 0, 0xfe, 0xff], "UTF-32 text"],
  [[0xff, 0xfe], "UTF-16 text"],
  [[0xfe, 0xff], "UTF-16 text"],
  [[0xfd, 0x37, 0x7a, 0x58, 0x5a, 0], "compressed by xz"],
  [[0x42, 0x5a, 0x68], "compressed by bzip2"],
  [[0x28, 0xb5, 0x2f, 0xfd], "compressed by zstd"],
  [[0x50, 0x4b, 3, 4], "a ZIP archive"],
  [[0x37, 0x7a, 0xbc, 0xaf, 0x27, 0x1c], "a 7z archive"],
  [[0x25, 0x50, 0x44, 0x46, 0x2d], "a PDF document"],
  [[0x89, 0x50, 0x4e, 0x47], "a PNG picture"],
]);
const GZIP = [0x1f, 0x8b];
// The prefix in which zero bytes are counted.
const EXAMINED_BYTES = 256;
const LEAST_BYTES = 4;

/**
 * Adds listeners for files and dropped texts.
 * @param {(file: File | null) => void} onFile null removes the file @param {(text: string) => void} onText
 */
export function listenToFiles(onFile, onText) {
  const field = /** @type {HTMLInputElement} */ (byId("file"));
  field.addEventListener("change", () => onFile(field.files?.[0] ?? null));
  onClick({
    "file-choose": () => {
      // Otherwise choosing the same file again fires no event.
      field.value = "";
      field.click();
    },
    "file-remove": () => {
      field.value = "";
      onFile(null);
      byId("list").focus();
    },
  });
  // Texts dragged from the page or into a field are left to the browser.
  let isOwn = false;
  addEventListener("dragstart", () => (isOwn = true));
  addEventListener("dragend", () => (isOwn = false));
  const accepts = (/** @type {DragEvent} */ { target, dataTransfer }) => {
    const isField = target instanceof Element && target.matches("textarea, input");
    return dataTransfer?.types.includes("Files") || !(isOwn || isField);
  };
  addEventListener("dragover", (event) => {
    accepts(event) && event.preventDefault();
    byId("drop").hidden = !accepts(event);
  });
  addEventListener("dragleave", (event) => {
    byId("drop").hidden = event.relatedTarget === null;
  });
  addEventListener("drop", (event) => {
    byId("drop").hidden = true;
    if (accepts(event)) {
      event.preventDefault();
      const file = event.dataTransfer?.files[0];
      const text = event.dataTransfer?.getData("text/plain");
      file ? onFile(file) : text && onText(text);
    }
  });
}

const startsWith = (/** @type {Uint8Array} */ bytes, /** @type {number[]} */ mark) =>
  bytes.length >= mark.length && mark.every((byte, at) => bytes[at] === byte);

/** The encoding or format of a file by its first bytes; null if they may be UTF-8. */
export function encodingOf(/** @type {Uint8Array} */ start) {
  const [, name] = MARKS.find(([bytes]) => startsWith(start, bytes)) ?? [];
  const first = start.subarray(0, EXAMINED_BYTES);
  const others = Array.from(first, (byte, at) => (byte === 0 ? -1 : at)).filter((at) => at >= 0);
  const { length } = others;
  if (name !== undefined || first.length < LEAST_BYTES || 3 * length > 2 * first.length || length === 0) {
    return name ?? null;
  }
  // In wide text nearly all other bytes are the same ones of each character.
  const isWide = (/** @type {number} */ width) => [0, 1, 2, 3].some((residue) =>
    16 * others.filter((at) => at % width !== residue).length <= first.length);
  return isWide(4) ? "UTF-32 text" : isWide(2) ? "UTF-16 text" : "no text";
}

/** The list can't be read; the message gives the reason. */
export class ListError extends Error {
  name = "ListError";
}

/** A list's bytes, decompressed from gzip. */
export async function decompress(/** @type {Blob} */ blob) {
  if (!startsWith(await readFirstBytes(blob), GZIP)) return blob;
  const { DecompressionStream: Stream } = /** @type {any} */ (globalThis);
  if (Stream === undefined) {
    throw new ListError("The list is compressed by gzip, which this browser doesn’t decompress.");
  }
  try {
    return await new Response(blob.stream().pipeThrough(new Stream("gzip"))).blob();
  } catch (error) {
    if (error instanceof DOMException) throw error;
    throw new ListError("The list can’t be read as gzip: it is truncated or damaged.");
  }
}

/** Throws ListError for other encodings. */
export async function requireUtf8(/** @type {Blob} */ blob) {
  const encoding = encodingOf(await readFirstBytes(blob));
  if (encoding !== null) {
    throw new ListError(`The list is ${encoding}, which the page doesn’t read. Convert it to text in UTF-8.`);
  }
}

async function readFirstBytes(/** @type {Blob} */ blob) {
  return new Uint8Array(await blob.slice(0, EXAMINED_BYTES).arrayBuffer());
}
