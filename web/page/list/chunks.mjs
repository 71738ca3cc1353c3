/** Chunks of a list for workers: of its lines, or of rows to decide again. */
import { countLines } from "../../lib/memory.mjs";
import { concatBytes } from "../../common/bytes.mjs";
import { BYTES_KEPT } from "../../common/text.mjs";

const NEWLINE = 10;
const MOST_READ_BYTES = 4_194_304;
const LEAST_BYTES = 64;
const MOST_BYTES = 262_144;
const CHUNKS_PER_WORKER = 12;
const MOST_LINES = 4_096;
const encoder = new TextEncoder();

/** The size of the first read, enough for four workers to start at once; reads double in size. */
export const FIRST_READ_BYTES = 2_097_152;

export class ChunkReader {
  /** @param {Blob} blob @param {ArrayBuffer} first the first read @param {number} workers */
  constructor(blob, first, workers) {
    this.blob = blob;
    const share = Math.ceil(blob.size / (CHUNKS_PER_WORKER * workers));
    this.size = Math.max(LEAST_BYTES, Math.min(MOST_BYTES, share));
    this.offset = first.byteLength;
    this.wanted = 2 * FIRST_READ_BYTES;
    /** @type {Promise<ArrayBuffer> | null} the read ahead */
    this.pendingRead = Promise.resolve(first);
    this.buffered = new Uint8Array(0);
    this.isSkipping = false;
    this.line = 0;
  }

  /** The next chunk of whole lines and the number of its first line; null at the end. */
  async next() {
    for (;;) {
      const newline = this.buffered.indexOf(NEWLINE, Math.min(this.size, this.buffered.length) - 1);
      const isEnd = newline < 0 && this.pendingRead === null && this.offset >= this.blob.size;
      if (newline >= 0 || isEnd) {
        const bytes = this.buffered.subarray(0, isEnd ? this.buffered.length : newline + 1);
        const { line } = this;
        this.buffered = this.buffered.subarray(bytes.length);
        this.line += countLines(bytes);
        return bytes.length > 0 ? { bytes, line } : null;
      }
      this.dropLongTail();
      const bytes = await this.read();
      this.buffered = this.buffered.length === 0 ? bytes : concatBytes([this.buffered, bytes]);
    }
  }

  /** Truncates a long line, and skips its rest. */
  dropLongTail() {
    const begin = this.buffered.lastIndexOf(NEWLINE) + 1;
    if (this.buffered.length - begin > BYTES_KEPT) {
      this.buffered = this.buffered.slice(0, begin + BYTES_KEPT);
      this.isSkipping = true;
    }
  }

  /** Starts a read, and moves `offset` to its end. */
  startRead() {
    const end = Math.min(this.offset + this.wanted, this.blob.size);
    const bytes = this.blob.slice(this.offset, end).arrayBuffer();
    // A stopped run doesn't await the last read.
    bytes.catch(() => undefined);
    this.offset = end;
    this.wanted = Math.min(2 * this.wanted, MOST_READ_BYTES);
    return bytes;
  }

  /** The next bytes, up to their last newline. The rest is read again, so that no bytes are joined. */
  async read() {
    const read = new Uint8Array(await (this.pendingRead ?? this.startRead()));
    const last = this.offset < this.blob.size ? read.lastIndexOf(NEWLINE) + 1 : read.length;
    const bytes = last > 0 ? read.subarray(0, last) : read;
    this.offset -= read.length - bytes.length;
    this.pendingRead = this.offset < this.blob.size ? this.startRead() : null;
    if (!this.isSkipping) return bytes;
    const newline = bytes.indexOf(NEWLINE);
    this.isSkipping = newline < 0;
    return newline < 0 ? bytes.subarray(0, 0) : bytes.subarray(newline);
  }
}

/**
 * The machines of rows to decide again, in chunks with the index of their first row.
 * @param {Results} results @param {Uint32Array} rows @param {number} workers
 */
export function* holdoutChunks(results, rows, workers) {
  const size = Math.min(MOST_LINES, Math.ceil(rows.length / (CHUNKS_PER_WORKER * workers)));
  for (let line = 0; line < rows.length; line += size) {
    const texts = Array.from(rows.subarray(line, line + size), (row) => `${results.machineAt(row)}\n`);
    yield { bytes: encoder.encode(texts.join("")), line };
  }
}
