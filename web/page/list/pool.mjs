/** The workers of a list run. */
import { acquireWorker, errorFields, newWorker, ready, releaseWorker } from "../worker-client.mjs";

// With two chunks a worker needn't wait while the page draws.
const CHUNKS_PER_WORKER = 2;
// Workers with more memory aren't kept for the next list.
const MOST_KEPT_BYTES = 16_777_216;
// A batch that takes longer is split.
const PATIENCE_MILLISECONDS = 250;
const WATCH_MILLISECONDS = 50;
const SPLIT = 8;
// A worker before its first batch, of one line.
const FRESH = { note: null, since: 0, memoryBytes: 0, milliseconds: 0, size: 1 };

export class WorkerPool {
  /** @param {number} size @param {ListRequest} request @param {PoolTask} task */
  constructor(size, request, task) {
    this.task = task;
    this.request = request;
    this.jobs = 0;
    this.isExhausted = false;
    this.isOver = false;
    this.queue = /** @type {Promise<any>} */ (Promise.resolve());
    /** @type {PoolWorker[]} */
    this.workers = Array.from({ length: size }, () => ({ worker: acquireWorker(), chunks: [], ...FRESH }));
    this.workers.forEach((one) => this.listen(one));
    for (let round = 0; round < CHUNKS_PER_WORKER; round += 1) {
      this.workers.forEach((one) => this.queueChunk(one));
    }
    const split = () => this.workers.forEach((one) => this.splitSlowBatch(one));
    this.watch = setInterval(split, WATCH_MILLISECONDS);
  }

  listen(/** @type {PoolWorker} */ one) {
    one.worker.onmessage = (event) => this.receive(one, event.data);
    one.worker.onerror = (event) => this.fail({ error: "Error", message: event.message });
  }

  /** Sends a worker the next chunk. Chunks are read one after another, in order. */
  queueChunk(/** @type {PoolWorker} */ one) {
    const sent = this.queue.then(() => this.sendNextChunk(one));
    this.queue = sent.catch((error) => this.fail(errorFields(error)));
  }

  async sendNextChunk(/** @type {PoolWorker} */ one) {
    await ready;
    const chunk = this.isOver || this.isExhausted ? null : await this.task.nextChunk();
    if (chunk === null) {
      this.isExhausted = true;
      this.finish();
    } else if (!this.isOver) {
      const sent = { ...chunk, job: this.jobs, done: 0, nextLine: chunk.line };
      one.chunks.push(sent);
      this.jobs += 1;
      await this.send(one, sent);
    }
  }

  /** Sends a copy of a chunk, which the page keeps until it is answered. */
  async send(/** @type {PoolWorker} */ one, /** @type {SentChunk} */ { job, bytes: kept, line }) {
    const { worker, size } = one;
    await ready;
    const bytes = kept.slice();
    worker.postMessage({ type: "list", job, bytes, line, request: this.request, size }, [bytes.buffer]);
    one.size = undefined;
  }

  receive(/** @type {PoolWorker} */ one, /** @type {any} */ reply) {
    if (this.isOver) return;
    if (reply.error) {
      this.fail(reply);
    } else if (reply.at !== undefined) {
      Object.assign(one, { note: reply, since: performance.now() });
    } else {
      this.addPart(one, reply);
    }
  }

  addPart(/** @type {PoolWorker} */ one, /** @type {Part} */ part) {
    const { memoryBytes, milliseconds, next, nextLine, done } = part;
    const chunk = one.chunks[0];
    const read = next - chunk.done;
    Object.assign(one, { note: null, memoryBytes, milliseconds });
    Object.assign(chunk, { done: next, nextLine: chunk.line + nextLine });
    this.task.part(part, read);
    if (done) {
      one.chunks.shift();
      this.queueChunk(one);
    }
  }

  /** Restarts a slow batch in smaller ones, so that one slow line doesn't delay the others. */
  splitSlowBatch(/** @type {PoolWorker} */ one) {
    const { note, since, chunks, milliseconds } = one;
    const patience = Math.max(PATIENCE_MILLISECONDS, 3 * milliseconds);
    if (note === null || note.lines < 2 || performance.now() - since < patience) return;
    one.worker.terminate();
    const size = Math.max(1, Math.floor(note.bytes / SPLIT));
    Object.assign(one, { worker: newWorker(), note: null, size });
    this.listen(one);
    for (const chunk of chunks) {
      Object.assign(chunk, { bytes: chunk.bytes.subarray(chunk.done), line: chunk.nextLine, done: 0 });
      this.send(one, chunk).catch((error) => this.fail(errorFields(error)));
    }
  }

  /** The line in progress for longest, and its milliseconds. */
  slowestLine() {
    const busy = this.workers.filter(({ note }) => note !== null);
    busy.sort((one, two) => one.since - two.since);
    const [{ note, since }] = [...busy, FRESH];
    return note === null ? null : { text: note.at, milliseconds: performance.now() - since };
  }

  /** Ends the run if no worker has a chunk, and keeps the workers for the next list. */
  finish() {
    if (this.isOver || this.workers.some((one) => one.chunks.length > 0)) return;
    this.isOver = true;
    clearInterval(this.watch);
    for (const { worker, memoryBytes } of this.workers) {
      memoryBytes > MOST_KEPT_BYTES ? worker.terminate() : releaseWorker(worker);
    }
    this.task.end();
  }

  /** Terminates all workers at once. */
  stop() {
    this.isOver = true;
    clearInterval(this.watch);
    this.workers.forEach(({ worker }) => worker.terminate());
  }

  fail(/** @type {Failure} */ failure) {
    if (!this.isOver) {
      this.stop();
      this.task.fail(failure);
    }
  }
}
