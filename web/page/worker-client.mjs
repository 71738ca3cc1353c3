/** Workers, which share one compiled engine, and requests to a worker. */
import { isSupported } from "../lib/memory.mjs";
import { byId } from "./dom.mjs";

const PRESTART_MILLISECONDS = 50;
// A request may take this long before the next one interrupts it.
const PATIENCE_MILLISECONDS = 400;

const embeddedText = (/** @type {string} */ id) => byId(id).textContent ?? "";

/** @typedef {{name: string, call: string, plan: Plan, lines: string}} Example */
export const examples = /** @type {Example[]} */ (JSON.parse(embeddedText("examples-data")));
const workerUrl = URL.createObjectURL(new Blob([embeddedText("worker")], { type: "text/javascript" }));
/** @type {Promise<WebAssembly.Module | null>} the compiled module; null if unsupported */
export const ready = isSupported()
  ? WebAssembly.compile(Uint8Array.from(atob(embeddedText("module")), (one) => one.charCodeAt(0)))
  : Promise.resolve(null);
const whenReady = (/** @type {(module: WebAssembly.Module | null) => void} */ act) => {
  ready.then(act, () => undefined);
};
const idleWorkers = /** @type {Worker[]} */ ([]);
const warmWorkers = /** @type {WeakSet<Worker>} */ (new WeakSet());

/** A new worker, which gets the module before all messages that wait for `ready`. */
export function newWorker() {
  const worker = new Worker(workerUrl);
  whenReady((module) => worker.postMessage({ type: "load", module }));
  return worker;
}

export const acquireWorker = () => idleWorkers.pop() ?? newWorker();

/** Returns a worker for the next list, and drops its listeners. */
export function releaseWorker(/** @type {Worker} */ worker) {
  Object.assign(worker, { onmessage: null, onerror: null });
  idleWorkers.push(worker);
}

/** Starts up to `most` idle workers, one at a time, until a list comes, and warms up their code. */
export function prestartWorkers(/** @type {number} */ most, /** @type {() => boolean} */ isBusy) {
  setTimeout(() => {
    idleWorkers.forEach(warmUp);
    if (idleWorkers.length < most && !isBusy()) {
      idleWorkers.push(newWorker());
      prestartWorkers(most, isBusy);
    }
  }, PRESTART_MILLISECONDS);
}

function warmUp(/** @type {Worker} */ worker) {
  if (!warmWorkers.has(worker)) {
    warmWorkers.add(worker);
    const lists = examples.filter(({ call }) => call === "decide").map(({ lines }) => lines);
    const list = new TextEncoder().encode(lists.join("\n"));
    whenReady(() => worker.postMessage({ type: "warm-up", list }));
  }
}

/** An error as workers report it. */
export const errorFields = (/** @type {Error} */ { name, message }) => ({ error: name, message });

/** A worker for one request at a time. The next one waits a moment for it, and replaces a waiting one. */
export class WorkerClient {
  constructor(patience = PATIENCE_MILLISECONDS) {
    this.patience = patience;
    this.worker = /** @type {Worker | undefined} */ (undefined);
    this.pending = /** @type {(() => void) | null} */ (null);
    this.isBusy = false;
    this.sentAt = 0;
    this.timer = 0;
  }

  /** Sends a message, and passes on the reply. */
  request(/** @type {Record<string, any>} */ message, /** @type {(reply: any) => void} */ onReply) {
    if (!this.isBusy) {
      this.send(message, onReply);
      return;
    }
    this.pending = () => this.send(message, onReply);
    clearTimeout(this.timer);
    const delay = this.sentAt + this.patience - performance.now();
    this.timer = setTimeout(() => this.interrupt(), Math.max(0, delay));
  }

  /** Sends a message without a reply, if there is a worker. */
  post(/** @type {Record<string, any>} */ message, /** @type {Transferable[]} */ transfer) {
    whenReady(() => this.worker?.postMessage(message, transfer));
  }

  /** Cancels all requests. */
  cancel() {
    this.pending = null;
    this.interrupt();
  }

  /** Cancels the current request, and sends the waiting one. */
  interrupt() {
    this.worker?.terminate();
    this.worker = undefined;
    this.sendPending();
  }

  sendPending() {
    const { pending } = this;
    clearTimeout(this.timer);
    Object.assign(this, { isBusy: false, pending: null });
    pending?.();
  }

  /** @param {Record<string, any>} message @param {(reply: any) => void} onReply */
  send(message, onReply) {
    this.worker ??= newWorker();
    const worker = this.worker;
    this.isBusy = true;
    this.sentAt = performance.now();
    const receive = (/** @type {any} */ reply) => {
      // Release the listeners' closures.
      Object.assign(worker, { onmessage: null, onerror: null });
      const isLast = this.pending === null;
      this.sendPending();
      // Outdated replies are dropped, except rows and pictures.
      if (isLast || reply.picture || reply.cached) onReply(reply);
    };
    worker.onmessage = (event) => receive(event.data);
    worker.onerror = (event) => receive({ error: "Error", message: event.message });
    ready.then(
      () => worker.postMessage(message),
      (error) => receive(errorFields(error)),
    );
  }
}
