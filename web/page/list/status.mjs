/** The status of a list run, in words. */
import { ANSWERS, KINDS, formatCount, formatNumber } from "../../common/machine.mjs";
import { LONGEST_QUOTED } from "../../common/text.mjs";

const [UNDECIDED, REFUSED] = [KINDS.indexOf("undecided"), KINDS.indexOf("refused")];
const [BAD, OVER] = [ANSWERS.indexOf("bad"), ANSWERS.indexOf("over")];
const SKIPPED = "empty lines, comments, code fences, rules and headers of tables";
const FORMS = { machines: "a list of machines", verdicts: "verdict lines", text: "text" };
// The share of a pass from which on the time left is estimated.
const LEAST_SHARE = 0.02;
// Slower lines are named.
const SLOW_MILLISECONDS = 500;

/**
 * How much of a pass is done, and for a later pass the time left.
 * @param {string} outcome @param {number} share @param {number | undefined} begun the start of a later pass
 */
export function passText(outcome, share, begun) {
  const done = outcome === "Done" ? "" : `, ${Math.floor(100 * share)} % done`;
  if (done === "" || begun === undefined) return done;
  const left = Math.ceil(((performance.now() - begun) / 1000) * (1 / share - 1));
  const isKnown = outcome === "Running" && share > LEAST_SHARE;
  return `. Second pass${done}${isKnown ? `, about ${formatCount(left, "second")} left` : ""}`;
}

/**
 * Progress, counts and the checker's answers. Each line is counted once.
 * @param {string} outcome Running, Done, Stopped or Ended
 * @param {string} progress of a pass @param {RunInfo} info @param {Results} results
 */
export function statusText(outcome, progress, info, results) {
  const seconds = (info.taken || performance.now() - info.begun) / 1000;
  const { counts, answers, lines, skipped, waiting, provisional, redecided } = results;
  const unconfirmed = answers[BAD] + answers[OVER];
  const decided = lines - counts[UNDECIDED] - counts[REFUSED] - unconfirmed;
  const numbers = [
    `${formatNumber(decided)} decided`,
    `${formatNumber(counts[UNDECIDED] - waiting)} undecided`,
    `${formatNumber(counts[REFUSED])} refused`,
    skipped > 0 && `${formatNumber(skipped)} skipped (${SKIPPED})`,
    unconfirmed > 0 && `${formatNumber(unconfirmed)} not confirmed`,
    waiting > 0 && `${formatNumber(waiting)} waiting for the second pass`,
    redecided > 0 && `${formatNumber(redecided)} decided again with larger limits`,
  ];
  const isCut = provisional > 0 && (outcome === "Stopped" || outcome === "Ended");
  const checked = ANSWERS.map((answer, k) => {
    return answers[k] > 0 && answer !== "open" && `${formatNumber(answers[k])} ${answer}`;
  });
  const claims = `These are ${formatCount(lines, "verdict line")}, checked`;
  const subject = info.mode === "check" ? claims : "The checker";
  const sentences = [
    `${outcome}, ${seconds.toFixed(1)} s${progress}`,
    numbers.filter(Boolean).join(", "),
    isCut && `Save and Copy omit ${formatCount(provisional, "line")} of the first pass`,
    `${subject}: ${checked.filter(Boolean).join(", ") || "nothing to confirm"}`,
    info.form !== null && info.mode === "decide" && `Read as ${FORMS[info.form]}`,
    !info.isText && "Some bytes are not UTF-8; convert the list",
  ];
  return `${sentences.filter(Boolean).join(". ")}.`;
}

/** Names a slow line; empty for others. */
export function slowLineText(/** @type {{text: string, milliseconds: number} | null} */ line) {
  if (line === null || line.milliseconds < SLOW_MILLISECONDS) return "";
  const text = line.text.length > LONGEST_QUOTED ? `${line.text.slice(0, LONGEST_QUOTED)}…` : line.text;
  return `Deciding ${text} for ${(line.milliseconds / 1000).toFixed(1)} s.`;
}
