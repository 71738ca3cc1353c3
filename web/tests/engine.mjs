/**
 * Runs the engine's calls for `support.node`. A line of standard input is a job as JSON; the reply is a line.
 * Bytes pass through files.
 *
 * @typedef {{call: string, given: string, out: string, plan: any, room?: any, memory?: any, times?: number}} Job
 */
import { readFileSync, writeFileSync } from "node:fs";
import { createInterface } from "node:readline";
import { isSupported, load } from "../lib/bb.mjs";
import { unpackRow } from "../worker/packed-rows.mjs";
import { RowCache } from "../worker/row-cache.mjs";

const bytes = readFileSync(process.argv[2]);
const CALLS = {
  decide: "decideBytes", check: "checkBytes", recurrence: "recurrenceBytes", lineOf: "lineOfBytes",
  trace: "traceBytes",
};

/** @param {import("../lib/bb.mjs").Engine} engine @param {Job} job */
function runCall(engine, { call, given, plan, room }) {
  const list = new Uint8Array(readFileSync(given));
  const extra = { samples: traceAllSamples, rows: getCachedRows }[call];
  return extra ? extra(engine, list, plan) : engine[CALLS[call]](list, plan, room);
}

/** Rows from the worker's cache: each request's lines, the requests without a trace, and the last row. */
function getCachedRows(engine, line, { cells, requests, last }) {
  const machine = Buffer.from(line).toString();
  let traces = 0;
  const counter = { traceInPlace: (...words) => ((traces += 1), engine.traceInPlace(...words)) };
  const cache = new RowCache(counter, machine, cells);
  const lines = requests.map((request) => {
    const { rows } = cache.getRows(request, true);
    const textOf = (k) => `${rows.states[k]} ${rows.heads[k]} ${rows.lows[k]} ${unpackRow(rows, k).join("")}`;
    return Array.from(rows.steps, (step, k) => `${step} ${textOf(k)}`);
  });
  const { step, low, width } = new RowCache(engine, machine, cells).lastRow(last);
  const found = { lines, known: requests.length - traces, last: [step, low, width] };
  return { bytes: Buffer.from(JSON.stringify(found)), clean: true };
}

/** All traces from each step up to one, by each interval up to another, one behind the other. */
function traceAllSamples(engine, line, { from, every, ...limits }) {
  const parts = [];
  for (let first = 0; first <= from; first += 1) {
    for (let interval = 1; interval <= every; interval += 1) {
      parts.push(engine.traceBytes(line, { ...limits, from: first, every: interval }).bytes);
    }
  }
  return { bytes: Buffer.concat(parts), clean: true };
}

/** @param {import("../lib/bb.mjs").Engine} shared @param {Job} job */
async function runJob(shared, job) {
  const begun = process.cpuUsage();
  let engine = shared;
  try {
    if (job.memory !== undefined) engine = await load(bytes, { memory: job.memory });
    let reply = runCall(engine, job);
    for (let k = 1; k < (job.times ?? 1); k += 1) {
      reply = runCall(engine, job);
    }
    const { user, system } = process.cpuUsage(begun);
    writeFileSync(job.out, reply.bytes);
    return { clean: reply.clean, seconds: (user + system) / 1e6, held: engine.memoryBytes };
  } catch (error) {
    const { name, limit, message } = /** @type {any} */ (error);
    return { error: name, limit, message, held: engine.memoryBytes };
  }
}

const engine = isSupported() ? await load(bytes) : null;
console.log(JSON.stringify(engine === null ? { unsupported: true } : {}));
for await (const line of createInterface({ input: process.stdin })) {
  const job = JSON.parse(line);
  console.log(JSON.stringify(await runJob(engine, job)));
}
