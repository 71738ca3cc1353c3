/**
 * Verdicts on small Turing machines, in a browser or in Node, by the engine `bb.wasm`.
 *
 *     const engine = await load(bytes);
 *     engine.decide(["1RB1LB_1LA1RZ"]);           // ["1RB1LB_1LA1RZ halt 6 4"]
 *     engine.check(["1RB1LB_1LA1RZ halt 6 4"]);   // ["ok"]
 *     engine.recurrence(["0RB---_0LA--- cycler 4 16"]);   // ["0RB---_0LA--- recurs 0 2 0 * *"]
 *     engine.lineOf(["1LB---_1RA1LA"]);   // ["1LB---_1RA1LA line 1RB---_1LA--- mirror AB 01 halt 2 2 ---"]
 *     engine.trace("1RB1LB_1LA1RZ", { steps: 2 }).lines;   // ["0 A 0 0 0", "1 B 1 0 10", "2 A 0 0 11"]
 *
 * The engine is compiled from proved code; this module is not proved. Lines are those of the program `bb`,
 * byte for byte; trace lines also name the position of their first cell. Calls block: call from a worker.
 *
 * @typedef {import("./limits.mjs").Integer} Integer
 * @typedef {import("./limits.mjs").Limit} Limit
 * @typedef {import("./memory.mjs").Memory} Memory
 * @typedef {{steps?: Integer, cells?: Integer, depth?: Integer, nodes?: Integer}} Limits
 * @typedef {Limits & {cyclers?: boolean, translated?: boolean, backward?: boolean}} Plan
 * @typedef {{steps?: Integer, cells?: Integer, entries?: boolean}} RecurrenceOptions
 * @typedef {{steps?: Integer, cells?: Integer}} LineOptions
 * @typedef {{steps: Integer, cells?: Integer, from?: Integer, every?: Integer}} TraceOptions
 * @typedef {{bytes: Uint8Array, clean: boolean}} Reply output, and whether the program's status is 0
 * @typedef {(...words: (bigint | boolean | number)[]) => number} Call addresses are numbers, other integers
 *   are 64-bit
 */
import { LIMITS, LimitsError, RANGES, parseCount, parseOptions } from "./limits.mjs";
import { Allocator, MemoryError, UnsupportedError, countLines, isSupported } from "./memory.mjs";

export { LimitsError, MemoryError, RANGES, UnsupportedError, isSupported };

const STATUS_LIMITS = 2;
const STATUS_MEMORY = 3;
const STATUS_SHORT = 4;
const COUNT_BYTES = 8;
// The most bytes of a verdict behind its machine, of an answer, and of a trace line besides its cells.
const VERDICT_BYTES = 98;
const ANSWER_BYTES = 7;
const STEP_BYTES = 64;
// The most bytes of replies on recurrences, for each byte of the list and for each line.
const RECURRENCE_FOLD = 7;
const RECURRENCE_BYTES = 90;
const FIRST_TRACE_BYTES = 4_194_304;
// The bytes of a line of a machine, for each byte of the list and for each line: with these most calls are made once.
const LINE_FOLD = 2;
const LINE_BYTES = 110;
const PAIR_LIMITS = /** @type {Limit[]} */ (["steps", "cells"]);
const TRACE_LIMITS = /** @type {Limit[]} */ (["steps", "cells", "from", "every"]);

/** The engine; its calls are those of `include/bb.h`. */
export class Engine {
  /** @param {Allocator} allocator @param {Record<string, Call | undefined>} calls */
  constructor(allocator, calls) {
    this.allocator = allocator;
    this.calls = calls;
  }

  /** Bytes of WebAssembly memory, which never shrinks. */
  get memoryBytes() {
    return /** @type {Memory} */ (this.allocator.memory).buffer.byteLength;
  }

  /**
   * The verdict line of each machine, or `refused` and a column. Throws LimitsError, MemoryError, or
   * TypeError for a newline in a line or an unknown name.
   * @param {readonly string[]} machines @param {Plan} [plan]
   */
  decide(machines, plan = {}) {
    return decodeLines(this.decideBytes(encodeLines(machines), plan).bytes);
  }

  /**
   * The answer to each verdict line: `ok`, `bad`, `over`, `open` or `unread`. Throws as `decide` does.
   * @param {readonly string[]} lines @param {Limits} [limits]
   */
  check(lines, limits = {}) {
    return decodeLines(this.checkBytes(encodeLines(lines), limits).bytes);
  }

  /**
   * The exact recurrence behind each pair that the checker confirms: the machine, `recurs`, start, period and
   * shift, and the last use of each state; with `entries` also of each entry. Other lines get `bad`, `over`,
   * `open` or `unread`. Throws as `decide` does.
   * @param {readonly string[]} lines @param {RecurrenceOptions} [options]
   */
  recurrence(lines, options = {}) {
    return decodeLines(this.recurrenceBytes(encodeLines(lines), options).bytes);
  }

  /**
   * The line of each machine in complete lists made with these limits, as `cover --lines` prints it; `unread` for
   * another text. Throws as `decide` does.
   * @param {readonly string[]} machines @param {LineOptions} [options]
   */
  lineOf(machines, options = {}) {
    return decodeLines(this.lineOfBytes(encodeLines(machines), options).bytes);
  }

  /**
   * One line for each step `from`, `from + every`, .. up to `steps`: step, state, head, lowest visited
   * position, and the cells from there. `clean` is false if the limit of cells cut the trace or the text is
   * not a machine. Throws as `decide` does.
   * @param {string} machine @param {TraceOptions} options
   */
  trace(machine, options) {
    const { bytes, clean } = this.traceBytes(encodeLines([machine]).slice(0, -1), options);
    return { lines: decodeLines(bytes), clean };
  }

  /**
   * `decide` from bytes to bytes, as the program reads and writes them. Pass the number of lines to save
   * counting them.
   * @param {Uint8Array} list @param {Plan} [plan] @param {number} [lines]
   */
  decideBytes(list, plan = {}, lines = undefined) {
    const words = parseOptions(plan, LIMITS, { cyclers: true, translated: true, backward: true });
    return copyReply(this.invoke("bb_decide", words, list, replySpace(list, lines, 1, VERDICT_BYTES)));
  }

  /**
   * `check` from bytes to bytes.
   * @param {Uint8Array} list @param {Limits} [limits] @param {number} [lines] as in `decideBytes`
   */
  checkBytes(list, limits = {}, lines = undefined) {
    const words = parseOptions(limits, LIMITS);
    return copyReply(this.invoke("bb_check", words, list, replySpace(list, lines, 0, ANSWER_BYTES)));
  }

  /**
   * `recurrence` from bytes to bytes.
   * @param {Uint8Array} list @param {RecurrenceOptions} [options] @param {number} [lines] as in `decideBytes`
   */
  recurrenceBytes(list, options = {}, lines = undefined) {
    const words = parseOptions(options, PAIR_LIMITS, { entries: false });
    const space = replySpace(list, lines, RECURRENCE_FOLD, RECURRENCE_BYTES);
    return copyReply(this.invoke("bb_recurrence", words, list, space));
  }

  /**
   * `lineOf` from bytes to bytes.
   * @param {Uint8Array} list @param {LineOptions} [options] @param {number} [lines] as in `decideBytes`
   */
  lineOfBytes(list, options = {}, lines = undefined) {
    const words = parseOptions(options, PAIR_LIMITS);
    return copyReply(this.invoke("bb_line_of", words, list, replySpace(list, lines, LINE_FOLD, LINE_BYTES)));
  }

  /**
   * `trace` from bytes to bytes. Pass the bytes of the trace, or more, in `space`: a long trace is made twice
   * otherwise.
   * @param {Uint8Array} line @param {TraceOptions} options @param {number} [space]
   */
  traceBytes(line, options, space = 0) {
    return copyReply(this.traceInPlace(line, options, space));
  }

  /**
   * `traceBytes` without a copy: the next call overwrites the bytes.
   * @param {Uint8Array} line @param {TraceOptions} options @param {number} [space]
   */
  traceInPlace(line, options, space = 0) {
    if (options?.steps === undefined) throw new TypeError("a trace needs a limit of steps");
    const words = parseOptions(options, TRACE_LIMITS);
    const room = parseCount("space", space) || traceSpace(/** @type {bigint[]} */ (words));
    return this.invoke("bb_trace", words, requireBytes(line), room);
  }

  /**
   * Calls the module with room for a reply of `space` bytes, and again if the reply is longer. The next call
   * overwrites the reply.
   * @param {string} name @param {(bigint | boolean)[]} words @param {Uint8Array} input @param {number} space
   * @returns {Reply}
   */
  invoke(name, words, input, space) {
    const { allocator, calls: { [name]: call } } = this;
    if (call === undefined) throw new TypeError(`this module has no ${name}`);
    allocator.reset();
    const list = allocator.allocate(input.length + 1, 1);
    const out = list && allocator.allocate(space + 1, 1);
    const count = out && allocator.allocate(COUNT_BYTES, COUNT_BYTES);
    if (count === 0) throw new MemoryError();
    allocator.bytes(list, input.length).set(input);
    const status = call(...words, list, BigInt(input.length), out, BigInt(space), count);
    const length = Number(new DataView(allocator.bytes(0, 0).buffer, count).getBigUint64(0, true));
    if (status === STATUS_SHORT) return this.invoke(name, words, input, length);
    if (status === STATUS_MEMORY) throw new MemoryError();
    if (status === STATUS_LIMITS) throw new RangeError("the engine refused the limits");
    return { bytes: allocator.bytes(out, length), clean: status === 0 };
  }
}

/**
 * Room for replies: so many bytes for each byte of the list, and for each line.
 * @param {Uint8Array} list @param {number | undefined} lines @param {number} fold @param {number} each
 */
function replySpace(list, lines, fold, each) {
  const { length } = requireBytes(list);
  return fold * length + each * parseCount("lines", lines === undefined ? countLines(list) : lines);
}

function requireBytes(/** @type {Uint8Array} */ bytes) {
  if (bytes instanceof Uint8Array) return bytes;
  throw new TypeError("expected bytes in a Uint8Array");
}

/** @returns {Reply} */
const copyReply = (/** @type {Reply} */ { bytes, clean }) => ({ bytes: bytes.slice(), clean });

/**
 * An engine from the bytes of `bb.wasm`, or from their compiled module, which workers can share. Throws
 * UnsupportedError, or WebAssembly's errors for other bytes.
 * @param {ArrayBuffer | ArrayBufferView | object} bytes
 * @param {{memory?: number}} [limit] the most bytes of memory; a call that needs more throws MemoryError
 */
export async function load(bytes, limit = {}) {
  const { memory: most = Number.MAX_SAFE_INTEGER, ...others } = limit;
  parseOptions(others, []);
  const allocator = new Allocator(parseCount("memory", most));
  if (!isSupported()) throw new UnsupportedError();
  const isModule = bytes instanceof WebAssembly.Module;
  const module = isModule ? bytes : await WebAssembly.compile(/** @type {BufferSource} */ (bytes));
  const instance = await WebAssembly.instantiate(module, { env: allocator.imports() });
  const { memory, __heap_base: base, ...calls } = instance.exports;
  allocator.memory = /** @type {Memory} */ (memory);
  allocator.base = Number(/** @type {WebAssembly.Global} */ (base).value);
  return new Engine(allocator, /** @type {Record<string, Call>} */ (calls));
}

/** Room for a trace; a longer one reports its length. */
function traceSpace(/** @type {bigint[]} */ [steps, cells, from, every]) {
  const lines = steps < from || every === 0n ? 1n : (steps - from) / every + 1n;
  const bytes = lines * (BigInt(STEP_BYTES) + (cells < steps ? cells : steps));
  return bytes < FIRST_TRACE_BYTES ? Number(bytes) : FIRST_TRACE_BYTES;
}

function encodeLines(/** @type {readonly string[]} */ lines) {
  if (!Array.isArray(lines) || lines.some((line) => typeof line !== "string")) {
    throw new TypeError("expected an array of strings");
  }
  if (lines.some((line) => line.includes("\n"))) throw new TypeError("a text has a newline");
  return new TextEncoder().encode(lines.map((line) => line + "\n").join(""));
}

const decodeLines = (/** @type {Uint8Array} */ bytes) =>
  new TextDecoder().decode(bytes).split("\n").slice(0, -1);
