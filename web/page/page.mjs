/** The page's entry point: reads the input, runs lists, and shows results. */
import { isSupported } from "../lib/memory.mjs";
import { byId, copyText, create, dispatchKey, onClick, saveFile } from "./dom.mjs";
import { createFields, readLink, readPlan, setPlan } from "./input/fields.mjs";
import { listenToFiles } from "./input/files.mjs";
import { ListInput, readStored } from "./input/list-input.mjs";
import { ListRun, failureText, showError } from "./list/list-run.mjs";
import { ListView } from "./list/list-view.mjs";
import { MachineView } from "./machine/machine-view.mjs";
import { errorFields, examples } from "./worker-client.mjs";

const MOST_COPIED = 50_000_000;
const FIRST_LIST = "1RB1LB_1LA1RZ\n1RA1RA\n1rB1LB\n";

const input = new ListInput();
const run = new ListRun();
const listView = new ListView(new MachineView(), run);
let runs = 0;

/** Runs the list, unless a newer run starts while it is read. A list of another origin drops the link. */
async function startRun(isOfLink = false) {
  const plan = readPlan();
  if (plan === null) {
    input.labelButton();
    return;
  }
  showError("");
  run.stop();
  byId("results").dataset.state = "requested";
  runs += 1;
  const own = runs;
  const list = await input.read().catch((/** @type {Error} */ error) => error);
  if (own !== runs) return;
  if (list instanceof Error) {
    showError(failureText(errorFields(list)));
    byId("results").dataset.state = "ended";
    return;
  }
  if (!isOfLink && location.hash !== "") {
    history.replaceState(null, "", location.pathname + location.search);
  }
  input.store();
  listView.reset();
  const { blob, first, isText, mode, form, isFound } = list;
  run.start(blob, first, { mode, form, isFound, clean: input.clean.checked, plan }, isText);
}

/** Runs a file in place of the text; null removes it. */
function useFile(/** @type {File | null} */ file) {
  file && input.resetExample();
  input.setFile(file);
  file && startRun();
}

// The lists of the examples, and the one selected by a click.
const exampleLists = new Set([FIRST_LIST, ...examples.map(({ lines }) => lines)]);
let selectedExample = "";

/** Selects an example at the first click, so that typing replaces it. */
function selectExample() {
  const { list } = input;
  const isNew = exampleLists.has(list.value) && selectedExample !== list.value;
  if (isNew && list.selectionStart === list.selectionEnd) {
    list.select();
    selectedExample = list.value;
  }
}

function clearList() {
  input.resetExample();
  input.clearExample();
  input.setText("");
  input.list.focus();
}

function fillExampleMenu() {
  const menu = /** @type {HTMLSelectElement} */ (byId("examples"));
  menu.append(...examples.map(({ name }, k) => create("option", { value: String(k) }, name)));
  menu.addEventListener("change", () => {
    const example = examples[Number(menu.value || -1)];
    if (example) {
      selectedExample = "";
      input.isExample = true;
      input.applySettings(example.plan, false, example.call);
      input.setText(example.lines);
      startRun();
    }
  });
}

/** Opens the link of the address; without one, or after a reload, the stored list; else the first list. */
function openLink(isAgain = false) {
  const link = readLink(location.hash);
  const stored = readStored();
  const before = link === null || (isAgain && stored?.hash === location.hash) ? stored : null;
  input.resetSettings();
  if (before === null) {
    setPlan(link?.plan ?? {});
  } else {
    input.applySettings(before.plan, before.clean, before.mode, before.form);
    input.isExample = before.isExample;
  }
  const list = link === null ? FIRST_LIST : `${link.machine}\n`;
  input.setText(before?.text ?? list);
  before?.gone ? input.reportMissing(before.gone) : startRun(link !== null && input.list.value === list);
}

/** Whether the page was reloaded, or left and reopened. */
function isReload() {
  const [entry] = performance.getEntriesByType("navigation");
  return /** @type {PerformanceNavigationTiming | undefined} */ (entry)?.type !== "navigate";
}

/** Copies the output. */
async function copyAll() {
  const blob = await run.results.blobOf();
  if (blob.size > MOST_COPIED) {
    showError("Too long to copy. Save it instead.");
  } else {
    await copyText(await blob.text(), byId("copy"));
  }
}

/** Saves the output, or its lines of some kinds. */
async function save(/** @type {Set<number> | undefined} */ kinds) {
  saveFile(await run.results.blobOf(kinds), run.info.mode === "check" ? "answers.txt" : "verdicts.txt");
}

function addListeners() {
  byId("form").addEventListener("submit", (event) => {
    event.preventDefault();
    startRun();
  });
  onClick({
    clear: clearList,
    list: selectExample,
    stop: () => run.stop(),
    left: () => run.redecideUndecided(),
    save: () => save(undefined),
    "save-shown": () => save(listView.kindsShown),
    copy: copyAll,
  });
  addEventListener("keydown", (event) => {
    const isField = event.target instanceof Element && event.target.matches("input, textarea, select");
    isField || dispatchKey(event, listView.neighbours);
  });
  addEventListener("hashchange", () => openLink());
  addEventListener("pagehide", () => input.store());
}

createFields();
fillExampleMenu();
listenToFiles(useFile, (text) => {
  input.resetExample();
  input.setText(text);
});
addListeners();
if (isSupported()) {
  openLink(isReload());
} else {
  showError(
    "This browser’s WebAssembly has no vectors (SIMD), which the engine needs, so nothing can be decided " +
      "here. Chromium 156 is known to have them.",
  );
  /** @type {HTMLButtonElement} */ (byId("run")).disabled = true;
}
