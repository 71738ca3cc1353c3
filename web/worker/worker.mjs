/** The page's worker: decides and checks chunks of a list, traces machines, sorts rows. */
import { load } from "../lib/bb.mjs";
import { lineAt } from "../common/bytes.mjs";
import { ANSWERS, KINDS, markedSteps, parseRecurrence } from "../common/machine.mjs";
import { LONGEST_SHOWN } from "../common/text.mjs";
import { prepareList, unchangedList } from "./prepared-list.mjs";
import { countValues, readAnswers, readLines, startsOf } from "./replies.mjs";
import { makePicture, measureGrowth, storeRows, traceAhead, traceClaim, traceRows } from "./trace.mjs";

const NEWLINE = 10;
const REFUSED = KINDS.indexOf("refused");
const UNREAD = ANSWERS.indexOf("unread");
// A batch takes about this long, so that a stop keeps most results.
const BATCH_MILLISECONDS = 60;
const MOST_BYTES = 1_048_576;
// The growth of the next batch after a short one, and after a very short one.
const GROWTH = 2;
const FAST_GROWTH = 8;
const SHORT_MILLISECONDS = 4;
// Batches also grow while a line of a larger batch takes less than this share of its time before.
const SHARED = 0.75;
// The limits of the list in which the line of the open machine stands.
const LINE_LIMITS = { steps: 10_000, cells: 65_536 };
const WARM_UP_MILLISECONDS = 60;
const WARM_UP_PLAN = { steps: 200, cells: 256, depth: 20, nodes: 1_000 };
// A long run.
const WARM_UP_MACHINE = "1RB1LC_1RC1RB_1RD0LE_1LA1LD_1RZ0LA";
const WARM_UP_TRACE = { steps: 10_000, cells: 256, from: 0, every: 100 };

let engine = /** @type {Engine | undefined} */ (undefined);
// The page sends the module first.
let engineLoaded = /** @type {Promise<Engine | undefined>} */ (Promise.resolve(undefined));
// The least bytes of the next batch; the first has one line.
let size = 1;
// Milliseconds a line took in the batch before.
let pace = Infinity;

/** @param {Uint8Array} input @param {Pick<ListRequest, "mode" | "plan">} request */
function answerBatch(input, { mode, plan }, starts = startsOf(input).slice()) {
  const { steps, cells, depth, nodes } = plan;
  const host = /** @type {Engine} */ (engine);
  const count = starts.length - 1;
  const verdicts = mode === "decide" ? host.decideBytes(input, plan, count).bytes : input;
  const reply = host.checkBytes(verdicts, { steps, cells, depth, nodes }, count).bytes;
  const lines = readLines(verdicts, mode === "decide" ? starts : null);
  const answers = readAnswers(reply, count);
  if (mode === "check") {
    // An unread line has no kind, whatever its words.
    answers.forEach((answer, k) => (lines.kinds[k] = answer === UNREAD ? REFUSED : lines.kinds[k]));
  }
  const kindCounts = countValues(lines.kinds, KINDS.length);
  const answerCounts = countValues(answers, ANSWERS.length);
  const [bytes, claims] = mode === "decide" ? [verdicts, null] : [reply, verdicts.slice()];
  return { bytes, lines: claims, ...lines, answers, kindCounts, answerCounts, memoryBytes: host.memoryBytes };
}

/**
 * Answers a chunk in batches, and posts each. A list of machines goes to the engine unchanged until a batch
 * has a refused line; from there, and in lists of other forms, lines are read one by one.
 */
function answerList(/** @type {any} */ { job, bytes: chunk, line: first, request }) {
  const unchanged = unchangedList(chunk);
  const isBare = request.mode === "decide" && request.form === "machines";
  let list = isBare ? unchanged : prepareList(chunk, request);
  let [from, line, done] = [0, 0, false];
  while (!done) {
    const newline = list.bytes.indexOf(NEWLINE, Math.max(from, Math.min(from + size, list.bytes.length) - 1));
    const end = newline < 0 ? list.bytes.length : newline + 1;
    const batch = list.bytes.subarray(from, end);
    const starts = startsOf(batch).slice();
    const count = starts.length - 1;
    postMessage({ job, at: lineAt(batch, 0, LONGEST_SHOWN), lines: count, bytes: batch.length });
    const begun = performance.now();
    const part = answerBatch(batch, request, starts);
    if (list === unchanged && request.clean && part.kindCounts[REFUSED] > 0) {
      list = prepareList(chunk, request);
      continue;
    }
    const milliseconds = performance.now() - begun;
    size = nextSize(milliseconds, count);
    done = end === list.bytes.length;
    const origin = originOf(list, chunk, { from, line, count }, part.kindCounts);
    const next = done ? chunk.length : list.places?.[line + count] ?? end;
    const nextLine = list.numbers?.[line + count] ?? line + count;
    const place = { first: list.numbers === null ? first + line : first, next, nextLine };
    sendPart({ job, ...part, ...origin, ...place, skipped: done ? list.skipped : 0, done, milliseconds });
    [from, line] = [end, line + count];
  }
}

/**
 * The numbers and original texts of a batch's lines; null if they can be derived.
 * @param {PreparedList} list @param {Uint8Array} chunk
 * @param {{from: number, line: number, count: number}} batch @param {number[]} kindCounts
 */
function originOf({ bytes, numbers, places }, chunk, { from, line, count }, kindCounts) {
  if (count === 0 || (places === null && kindCounts[REFUSED] === 0)) {
    return { numbers: null, source: null, places: null };
  }
  const begins = places ?? startsOf(bytes.subarray(from)).subarray(0, count).map((start) => start + from);
  const own = places === null ? begins : places.subarray(line, line + count);
  const newline = chunk.indexOf(NEWLINE, own[count - 1] ?? 0);
  const source = chunk.slice(own[0], newline < 0 ? chunk.length : newline);
  const shifted = own.map((place) => place - own[0]);
  return { numbers: numbers?.slice(line, line + count) ?? null, source, places: shifted };
}

/** The verdict on one machine and the checker's answer. */
function decideOne(/** @type {{machine: string, plan: Plan}} */ { machine, plan }) {
  const part = answerBatch(new TextEncoder().encode(machine), { mode: "decide", plan });
  return { line: new TextDecoder().decode(part.bytes).trimEnd(), answer: ANSWERS[part.answers[0]], part };
}

/**
 * The reply on the recurrence behind a verdict line, and the rows of its marked steps.
 * @param {Engine} host @param {{line: string, plan: Plan}} request
 */
function findRecurrence(host, { line, plan: { steps, cells } }) {
  const [reply] = host.recurrence([line], { steps, cells, entries: true });
  const found = parseRecurrence(reply);
  const marked = found === null ? [] : markedSteps(found);
  const rows = marked.flatMap((step) => {
    const run = { machine: line.split(" ")[0], cells: Number(cells), from: step, every: 1, upto: step };
    return traceRows(host, run).rows;
  });
  return { found, rows };
}

/** Decides a list and traces a machine repeatedly, so that the browser optimizes the hot code. */
function warmUp(/** @type {Uint8Array} */ list) {
  const begun = performance.now();
  const line = new TextEncoder().encode(WARM_UP_MACHINE);
  while (performance.now() - begun < WARM_UP_MILLISECONDS) {
    answerBatch(list, { mode: "decide", plan: WARM_UP_PLAN });
    engine?.traceBytes(line, WARM_UP_TRACE);
  }
}

/** The least bytes of the next batch. More lines share a call's fixed cost, as with large tapes. */
function nextSize(/** @type {number} */ milliseconds, /** @type {number} */ lines) {
  const before = pace;
  pace = milliseconds / Math.max(1, lines);
  const isCheaper = lines > 0 && pace < SHARED * before;
  const grows = milliseconds < BATCH_MILLISECONDS * (isCheaper ? 2 : 1 / 2);
  const growth = milliseconds < SHORT_MILLISECONDS ? FAST_GROWTH : GROWTH;
  const factor = milliseconds > 2 * BATCH_MILLISECONDS ? 0.25 : grows ? growth : 1;
  return Math.max(1, Math.min(MOST_BYTES, Math.floor(size * factor)));
}

function sendPart(/** @type {Part} */ part) {
  const { bytes, starts, kinds, answers, lines, source } = part;
  const buffers = [bytes, starts, kinds, answers, lines, source].flatMap((array) => array?.buffer ?? []);
  postMessage(part, { transfer: /** @type {ArrayBuffer[]} */ (buffers) });
}

/**
 * Sorts rows by steps; equal rows stay in order, rows without steps come last.
 * @param {Uint32Array} rows @param {Float64Array} steps @param {boolean} down
 */
function sortRows(rows, steps, down) {
  const sign = down ? -1 : 1;
  const key = (/** @type {number} */ k) => (steps[k] < 0 ? Infinity : sign * steps[k]);
  const order = Uint32Array.from(rows, (_, k) => k);
  order.sort((a, b) => (key(a) === key(b) ? a - b : key(a) < key(b) ? -1 : 1));
  return order.map((k) => rows[k]);
}

/**
 * Handlers of the messages besides `load`. They return a reply if any, and the buffers to transfer.
 * @type {Record<string, (message: any, host: Engine) => [any, ArrayBufferLike[]?] | void>}
 */
const HANDLERS = {
  list: (message) => {
    if (message.size !== undefined) [size, pace] = [message.size, Infinity];
    answerList(message);
  },
  "warm-up": ({ list }) => warmUp(list),
  "store-rows": (message) => storeRows(message),
  sort: ({ rows, steps, down }) => [{ order: sortRows(rows, steps, down) }],
  picture: (message, host) => {
    const picture = makePicture(host, message);
    // The rows stay in the cache, so they are copied.
    return [{ picture }, [picture.image.buffer]];
  },
  "trace-ahead": ({ request }, host) => {
    const cached = traceAhead(host, request);
    return [{ cached }, [cached.rows.cells.buffer]];
  },
  growth: (message, host) => [{ growth: measureGrowth(host, message) }],
  recurrence: (message, host) => [findRecurrence(host, message)],
  "line-of": ({ machines }, host) => [{ found: host.lineOf(machines, LINE_LIMITS), steps: LINE_LIMITS.steps }],
  "decide-one": (message) => [decideOne(message)],
  trace: (message, host) => [traceRows(host, message)],
  claim: (message, host) => [traceClaim(host, message)],
};

async function onMessage(/** @type {any} */ message) {
  if (message.type === "load") {
    engineLoaded = load(message.module);
    // If it fails, every request gets the error.
    engineLoaded.catch(() => undefined);
    return;
  }
  engine = await engineLoaded;
  const reply = HANDLERS[message.type](message, /** @type {Engine} */ (engine));
  reply && postMessage(reply[0], { transfer: /** @type {ArrayBuffer[]} */ (reply[1] ?? []) });
}

addEventListener("message", (event) => {
  onMessage(event.data).catch((/** @type {Error} */ error) =>
    postMessage({ error: error.name, message: error.message, limit: /** @type {any} */ (error).limit }),
  );
});
