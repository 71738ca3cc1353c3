/** The engine's memory, and counting lines. */

const NEWLINE = 10;
const NEWLINES = 0x0a0a0a0a;
const LOWER_BITS = 0x7f7f7f7f;
const PAGE = 65_536;
// A module whose one function returns `i8x16.popcnt (i8x16.splat (i32.const 0))`.
const SIMD_PROBE = [
  ...[0, 97, 115, 109, 1, 0, 0, 0, 1, 5, 1, 96, 0, 1, 123, 3, 2, 1, 0],
  ...[10, 10, 1, 8, 0, 65, 0, 253, 15, 253, 98, 11],
];

/** Memory allocation failed. The engine stays usable, with fewer cells or shorter lists. */
export class MemoryError extends Error {
  constructor() {
    super("out of memory");
    this.name = "MemoryError";
  }
}

/** This browser or Node has no WebAssembly with SIMD. */
export class UnsupportedError extends Error {
  constructor() {
    super("no WebAssembly with vectors (SIMD) here");
    this.name = "UnsupportedError";
  }
}

export const isSupported = () =>
  typeof WebAssembly === "object" && WebAssembly.validate(new Uint8Array(SIMD_PROBE));

/** The bytes as aligned 32-bit words; `first` is the offset of the first word. */
export function wordsOf(/** @type {Uint8Array} */ { buffer, byteOffset, length }) {
  const first = Math.min(-byteOffset & 3, length);
  const count = (length - first) >> 2;
  return { words: new Int32Array(buffer, count > 0 ? byteOffset + first : 0, count), first };
}

/** The word with only the high bit set in each byte that is a newline. */
export function newlineBits(/** @type {number} */ word) {
  const differs = word ^ NEWLINES;
  return ~(((differs & LOWER_BITS) + LOWER_BITS) | differs | LOWER_BITS);
}

/**
 * The number of lines; a last one without a newline counts if it isn't empty. Scans four bytes at a time:
 * `indexOf` takes three times as long for lines of machines.
 */
export function countLines(/** @type {Uint8Array} */ bytes) {
  const { words, first } = wordsOf(bytes);
  const rest = [bytes.subarray(0, first), bytes.subarray(first + 4 * words.length)];
  let count = bytes.length > 0 && bytes[bytes.length - 1] !== NEWLINE ? 1 : 0;
  for (let at = 0; at < words.length; at += 1) {
    count += Math.imul(newlineBits(words[at]) >>> 7, 0x01010101) >>> 24;
  }
  return rest.reduce((sum, part) => sum + part.filter((byte) => byte === NEWLINE).length, count);
}

/**
 * A bump allocator by address, emptied before each call.
 *
 * @typedef {{readonly buffer: ArrayBuffer, grow: (pages: number) => number}} Memory a `WebAssembly.Memory`,
 *   in words that need no types of a browser
 */
export class Allocator {
  /** @param {number} most bytes of memory */
  constructor(most) {
    this.memory = /** @type {Memory | undefined} */ (undefined);
    this.base = 0;
    this.free = 0;
    this.last = 0;
    this.most = most;
  }

  reset() {
    this.free = this.base;
    this.last = 0;
  }

  /**
   * The address of `size` bytes, or 0 on failure.
   * @param {number} size @param {number} align a power of two
   */
  allocate(size, align) {
    const at = Math.ceil(this.free / align) * align;
    if (!this.reserve(at + size)) return 0;
    this.last = at;
    this.free = at + size;
    return at;
  }

  /**
   * Grows an allocation: the last one in place, others by a move.
   * @param {number} old @param {number} oldSize @param {number} size @param {number} align
   */
  reallocate(old, oldSize, size, align) {
    if (old === this.last && this.reserve(old + size)) {
      this.free = old + size;
      return old;
    }
    const at = this.allocate(size, align);
    if (at !== 0) this.bytes(0, this.free).copyWithin(at, old, old + Math.min(oldSize, size));
    return at;
  }

  /** Grows memory up to an address; returns whether it reaches there. */
  reserve(/** @type {number} */ end) {
    const memory = /** @type {Memory} */ (this.memory);
    const missing = Math.ceil((end - memory.buffer.byteLength) / PAGE);
    if (missing <= 0) return true;
    try {
      return end <= this.most && memory.grow(missing) >= 0;
    } catch {
      return false;
    }
  }

  /** A view of memory, valid until memory grows. */
  bytes(/** @type {number} */ at, /** @type {number} */ length) {
    return new Uint8Array(/** @type {Memory} */ (this.memory).buffer, at, length);
  }

  /** Writes an allocation's result for the module: a flag for success, and the address. */
  writeResult(/** @type {number} */ to, /** @type {number} */ at) {
    const view = new DataView(/** @type {Memory} */ (this.memory).buffer, to >>> 0, 16);
    view.setBigUint64(0, at === 0 ? 0n : 1n, true);
    view.setBigUint64(8, BigInt(at === 0 ? 1 : at), true);
  }

  /** The module's imports. Addresses arrive as signed 32-bit numbers. */
  imports() {
    return {
      /** @param {number} to @param {bigint} size @param {bigint} align */
      rattle_alloc: (to, size, align) => this.writeResult(to, this.allocate(Number(size), Number(align))),
      /** @param {number} to @param {number} old @param {...bigint} sizes */
      rattle_realloc: (to, old, ...sizes) => {
        const [oldSize, size, align] = sizes.map(Number);
        this.writeResult(to, this.reallocate(old >>> 0, oldSize, size, align));
      },
      rattle_dealloc: () => undefined,
    };
  }
}
