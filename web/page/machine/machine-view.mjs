/** The view of one machine: verdict, diagram, tape, table, evidence and facts. */
import {
  entryText, formatNumber, parseMachine, parseVerdictLine, stateLetter, verdictText,
} from "../../common/machine.mjs";
import { Diagram } from "../diagram/diagram.mjs";
import { Gestures } from "../diagram/gestures.mjs";
import { ZOOM } from "../diagram/viewport.mjs";
import {
  announce, byId, copyPicture, copyText, create, createTable, onClick, saveFile, setInactive, showText,
} from "../dom.mjs";
import { enlargePlan, linkOf } from "../input/fields.mjs";
import { showInputNotes } from "../input/input-notes.mjs";
import { Tape } from "../tape/tape.mjs";
import { WorkerClient } from "../worker-client.mjs";
import { clearEvidence, showEvidence, diagramSteps } from "./evidence.mjs";
import { compareMachines, showMachineInfo } from "./machine-info.mjs";
import { clearRecurrence, showRecurrence } from "./recurrence.mjs";

const NARROW = "(max-width: 900px)";
// The previous machine's pictures are cleared after this long, and the view is closed for a slow list.
const BLANK_MILLISECONDS = 100;
const CLOSE_MILLISECONDS = 250;
const ELSEWHERE = "https://bbchallenge.org/";
const AGAIN = "Decide again with larger limits";
const DOUBTS = /** @type {Record<string, string>} */ ({
  bad: "The checker refutes it.",
  over: "The checker needs larger limits.",
  unread: "The checker can’t read the line.",
});

/**
 * @typedef {{machine: string, verdict: Verdict, answer: string, plan: Plan,
 *   isWaiting?: boolean}} About `answer`: the checker's; `isWaiting`: for the second pass
 */

export class MachineView {
  constructor() {
    this.diagram = new Diagram((place) => this.tape.goTo(place.step));
    this.tape = new Tape((place, closes) => this.diagram.showStep(place, closes));
    // Busy while a machine is decided again.
    this.client = new WorkerClient();
    /**
     * Replaces the open machine's row after a new decision; returns whether it could.
     * @type {(by: Part, plan: Plan) => boolean}
     */
    this.replaceRow = () => false;
    this.about = /** @type {About | null} */ (null);
    /** The exact start of the open machine, and the step a period later. */
    this.exact = /** @type {Pair | null} */ (null);
    this.blankTimer = 0;
    this.closeTimer = 0;
    new Gestures(this.diagram, (words, byKeys) => {
      byId("place-text").textContent = words;
      byKeys && announce(words);
    });
    const { diagram } = this;
    onClick({
      "zoom-in": () => diagram.zoom(ZOOM),
      "zoom-out": () => diagram.zoom(1 / ZOOM),
      fit: () => diagram.fit(),
      marked: () => diagram.fit(true),
      exact: () => this.showExact(),
      png: async () => saveFile(/** @type {Blob} */ (await diagram.toPng()), `${this.about?.machine}.png`),
      "copy-png": () => copyPicture(diagram.toPng(), byId("copy-png")),
      "copy-text": () => copyText(this.about?.machine ?? "", byId("copy-text")),
      link: () => this.copyLink(),
      again: () => (this.client.isBusy ? this.stopRedeciding() : this.redecide()),
      back: () => byId("rows").focus(),
    });
  }

  /** Shows a machine with its verdict. If it `moves`, a narrow page scrolls to it. */
  open(/** @type {About} */ about, /** @type {boolean} */ moves, /** @type {InputLine} */ given) {
    const { machine, verdict } = about;
    const isMachine = verdict.kind !== "refused";
    this.about = about;
    clearTimeout(this.closeTimer);
    this.leave();
    byId("machine").hidden = false;
    byId("machine-text").textContent = machine;
    byId("machine-says").textContent = sentenceOf(about);
    showInputNotes(given, verdict);
    document.querySelectorAll(".picture, .columns, #tape, #about, #machine-links").forEach((box) => {
      /** @type {HTMLElement} */ (box).hidden = !isMachine;
    });
    showText("again-text", "");
    byId("again").hidden = verdict.kind !== "undecided" || about.isWaiting === true;
    isMachine && this.show(about);
    moves && announce(byId("machine-says").textContent ?? "");
    if (moves && matchMedia(NARROW).matches) {
      byId("machine").scrollIntoView({ block: "start" });
      byId("machine").contains(document.activeElement) || byId("back").focus({ preventScroll: true });
    }
    const focused = document.activeElement;
    const isHidden = focused instanceof HTMLElement && focused.offsetParent === null;
    if (isHidden && byId("machine").contains(focused)) byId("row-next").focus({ preventScroll: true });
  }

  /** Hides the view; its focus moves to the rows. */
  close() {
    const hasFocus = byId("machine").contains(document.activeElement);
    this.about = null;
    clearTimeout(this.closeTimer);
    this.leave();
    byId("machine").hidden = true;
    hasFocus && byId("rows").focus({ preventScroll: true });
  }

  /** Hides the view soon, unless a machine is opened. */
  scheduleClose() {
    clearTimeout(this.closeTimer);
    this.closeTimer = setTimeout(() => this.close(), CLOSE_MILLISECONDS);
  }

  /** Stops playback and drops outstanding replies. */
  leave() {
    this.stopRedeciding();
    clearEvidence();
    clearRecurrence();
    this.diagram.close();
    this.tape.close();
    byId("place-text").textContent = "";
    clearTimeout(this.blankTimer);
    this.blankTimer = setTimeout(() => {
      this.diagram.clear();
      this.tape.clear();
    }, BLANK_MILLISECONDS);
  }

  /** Shows a machine's pictures, table and facts. */
  show(/** @type {About} */ { machine: text, verdict, answer, plan }) {
    const machine = parseMachine(text);
    const cells = Number(plan.cells);
    const steps = Number(plan.steps);
    byId("machine-table").replaceChildren(createEntries(machine));
    byId("legend").replaceChildren(...createLegend(machine));
    byId("diagram").setAttribute("aria-label", `Space-time diagram of ${text}. ${verdictText(verdict)}`);
    /** @type {HTMLAnchorElement} */ (byId("elsewhere")).href = ELSEWHERE + text;
    const isPair = verdict.kind === "cycler" || verdict.kind === "translated";
    byId("marked").hidden = !isPair;
    const { last, upto } = diagramSteps(verdict, steps);
    const about = { machine: text, cells };
    showEvidence({ ...about, verdict, answer }, (marks, pair, end) => {
      this.diagram.open({ ...about, last, upto, pair, end }, marks);
      this.tape.open({ ...about, last: upto }, pair?.first ?? 0);
      isPair && answer === "ok" && showRecurrence(`${text} ${verdict.text}`, plan, (mark, exact) => {
        this.exact = exact;
        this.diagram.addMark(mark);
      });
    });
    const isConfirmed = answer === "ok" || verdict.kind === "undecided";
    showMachineInfo({ ...about, steps, verdict, isConfirmed });
  }

  /** Shows which other machines of the list do the same as the open one; null stands for too many. */
  compare(/** @type {import("./lines.mjs").Numbered[] | null} */ others) {
    if (this.about !== null && this.about.verdict.kind !== "refused") compareMachines(others);
  }

  /** Shows the exact start in the diagram and on the tape. */
  showExact() {
    if (this.exact !== null) {
      this.diagram.fit(true, this.exact);
      this.tape.goTo(this.exact.first);
    }
  }

  /** Decides the machine again with larger limits, and replaces its row. */
  redecide() {
    const { machine, plan: before } = /** @type {About} */ (this.about);
    const plan = enlargePlan(before);
    const limits = `${formatNumber(plan.steps)} steps and ${formatNumber(plan.cells)} cells`;
    byId("again").textContent = "Stop";
    showText("again-text", `Deciding with ${limits} …`);
    this.client.request({ type: "decide-one", machine, plan }, ({ error, message, line, answer, part }) => {
      byId("again").textContent = AGAIN;
      if (error) {
        showText("again-text", `Not decided with ${limits}: ${message}.`);
        return;
      }
      const { verdict } = parseVerdictLine(line);
      const about = { machine, verdict, answer, plan };
      this.about = about;
      const where = this.replaceRow(part, plan) ? "Its row is updated." : "The list is unchanged.";
      byId("machine-says").textContent = sentenceOf(about);
      announce(sentenceOf(about));
      this.show(about);
      showText("again-text", `With ${limits}: ${verdict.text}. ${where}`);
      setInactive("again", "hidden", verdict.kind !== "undecided", "copy-text");
    });
  }

  stopRedeciding() {
    if (this.client.isBusy) {
      this.client.cancel();
      byId("again").textContent = AGAIN;
      showText("again-text", "Stopped. The list is unchanged.");
    }
  }

  /** Sets the address to the machine's link, and copies it. */
  copyLink() {
    if (this.about !== null) {
      history.replaceState(null, "", `#${linkOf(this.about.machine, this.about.plan)}`);
      copyText(location.href, byId("link"));
    }
  }
}

/** The verdict in words, with a warning before an unconfirmed one. */
function sentenceOf(/** @type {About} */ { verdict, answer, isWaiting }) {
  const words = verdictText(verdict);
  if (isWaiting) return `Waiting for the second pass, with the list’s limits. First pass: ${words}`;
  const isSure = answer === "ok" || verdict.kind === "undecided" || verdict.kind === "refused";
  return isSure ? words : `${DOUBTS[answer] ?? DOUBTS.unread} The line claims: ${words}`;
}

/** A table with a row for each state and a column for each symbol. */
function createEntries(/** @type {Machine} */ { states, symbols, rules }) {
  const names = Array.from({ length: symbols }, (_, k) => create("th", { scope: "col" }, String(k)));
  const rows = Array.from({ length: states }, (_, state) => {
    const cells = rules.slice(state * symbols, (state + 1) * symbols).map(({ symbol, entry }) =>
      create("td", { "data-entry": `${stateLetter(state)}${symbol}` }, entryText(entry)),
    );
    return /** @type {[string, ...Node[]]} */ ([stateLetter(state), ...cells]);
  });
  return createTable([create("td", { "aria-label": "state and symbol" }), ...names], rows);
}

function createLegend(/** @type {Machine} */ { symbols }) {
  const names = Array.from({ length: symbols }, (_, symbol) => [`s${symbol}`, String(symbol)]);
  return [...names, ["head", "head"], ["unvisited", "not visited yet"]].map(([colour, name]) => {
    const swatch = create("i", { "aria-hidden": true });
    swatch.style.background = `var(--${colour})`;
    return create("span", {}, swatch, name);
  });
}
