/**
 * Reads for `test_page_lists.py`, by the page's reader: `[line, form]`, a list of `lines`, or `bytes` in
 * hexadecimal digits. The reader's sentences come first.
 */
import { createInterface } from "node:readline";
import { encodingOf } from "../page/input/files.mjs";
import { detectForm } from "../reader/list-reader.mjs";
import { ADVICE } from "../page/input/input-notes.mjs";
import { readLine } from "../reader/line-reader.mjs";
import { REWRITINGS } from "../reader/machine-parser.mjs";

function answerTo(asked) {
  if (Array.isArray(asked)) return readLine(...asked);
  return "lines" in asked ? detectForm(asked.lines) : encodingOf(Buffer.from(asked.bytes, "hex"));
}

console.log(JSON.stringify({ advice: ADVICE, rewritings: REWRITINGS }));
for await (const line of createInterface({ input: process.stdin })) {
  console.log(JSON.stringify(answerTo(JSON.parse(line))));
}
