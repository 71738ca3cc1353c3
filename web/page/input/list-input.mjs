/** The input list, as text or file, and its settings. */
import { DETECTION_BYTES, detectForm, firstLines, hasVerdicts, isUtf8 } from "../../reader/list-reader.mjs";
import { formatCount, formatNumber } from "../../common/machine.mjs";
import { byId, setInactive, showText } from "../dom.mjs";
import { FIRST_READ_BYTES } from "../list/chunks.mjs";
import { fieldTexts, setPlan } from "./fields.mjs";
import { decompress, requireUtf8 } from "./files.mjs";

/**
 * @typedef {"decide" | "check"} Mode
 * @typedef {{text: string, gone: string, plan: Plan, mode: string, clean: boolean,
 *   form: string, isExample: boolean, hash: string}} StoredInput `gone`: the name of a list too long to be
 *   stored; `isExample`: the settings are an example's; `hash`: the fragment of the address
 */

const KEY = "budlarem";
const MOST_CHARACTERS = 1_000_000;

export class ListInput {
  constructor() {
    this.list = /** @type {HTMLTextAreaElement} */ (byId("list"));
    this.mode = /** @type {HTMLSelectElement} */ (byId("mode"));
    this.clean = /** @type {HTMLInputElement} */ (byId("clean"));
    this.form = /** @type {HTMLSelectElement} */ (byId("list-form"));
    this.file = /** @type {File | null} */ (null);
    /** @type {Promise<Blob> | null} the file's decompressed bytes, once requested */
    this.bytes = null;
    // The name of a list that a reload doesn't restore.
    this.gone = "";
    // Whether the settings are an example's; the next list then gets the defaults.
    this.isExample = false;
    this.list.addEventListener("input", () => {
      this.resetExample();
      this.labelButton();
      this.gone = "";
      byId("list-gone").hidden = true;
    });
    this.mode.addEventListener("change", () => this.labelButton());
    byId("defaults").addEventListener("click", () => this.resetSettings());
  }

  /** @returns {Mode} */
  modeOf(/** @type {Uint8Array} */ start) {
    const chosen = this.mode.value;
    return chosen === "check" || (chosen === "auto" && hasVerdicts(start)) ? "check" : "decide";
  }

  /** Labels the button by the mode of the text, or of a file once its beginning is read. */
  labelButton() {
    if (this.file === null) {
      this.setButtonLabel(this.modeOf(new TextEncoder().encode(this.list.value.slice(0, DETECTION_BYTES))));
    } else {
      // An unreadable file is reported when it is run.
      this.read(DETECTION_BYTES).catch(() => undefined);
    }
  }

  setButtonLabel(/** @type {Mode} */ mode) {
    byId("run").textContent = mode === "check" ? "Check" : "Decide";
  }

  /**
   * The list, its first bytes, mode and form, whether its lines gave the form, and whether it begins as UTF-8.
   * Labels the button.
   */
  async read(length = FIRST_READ_BYTES) {
    const { file } = this;
    const blob = await (file === null ? new Blob([this.list.value]) : this.decompressOnce(file));
    await requireUtf8(blob);
    const first = await blob.slice(0, length).arrayBuffer();
    const start = new Uint8Array(first, 0, Math.min(first.byteLength, DETECTION_BYTES));
    const mode = this.modeOf(start);
    file === this.file && this.setButtonLabel(mode);
    const chosen = /** @type {Form | "auto"} */ (this.form.value);
    const isFound = chosen === "auto";
    const form = isFound ? detectForm(firstLines(start)) ?? "text" : chosen;
    return { blob, first, mode, form, isFound, isText: isUtf8(start) };
  }

  /** The decompressed file; a failed one is read again on the next request. */
  decompressOnce(/** @type {File} */ file) {
    this.bytes ??= decompress(file).catch((error) => {
      this.bytes = null;
      throw error;
    });
    return this.bytes;
  }

  setText(/** @type {string} */ text) {
    this.list.value = text;
    this.setFile(null);
  }

  /** Replaces the text by a file; null restores the text. */
  setFile(/** @type {File | null} */ file) {
    Object.assign(this, { file, bytes: null, gone: file === null ? "" : `The file ${file.name}` });
    byId("file-shown").hidden = file === null;
    byId("list-gone").hidden = true;
    setInactive("list", "hidden", file !== null, "file-remove");
    if (file === null) {
      this.labelButton();
    } else {
      byId("file-name").textContent = `${file.name}, ${formatCount(file.size, "byte")}`;
    }
  }

  reportMissing(/** @type {string} */ gone) {
    showText("list-gone", `${gone} isn’t kept over a reload. Choose it again.`);
    this.gone = gone;
  }

  resetSettings() {
    this.clearExample();
    this.applySettings({}, true, "auto");
  }

  /** @param {Plan} plan @param {boolean} clean @param {string} mode @param {string} [form] */
  applySettings(plan, clean, mode, form = "auto") {
    setPlan(plan);
    this.clean.checked = clean;
    this.mode.value = mode;
    this.form.value = form;
    this.labelButton();
  }

  /** Restores the defaults after an example. */
  resetExample() {
    this.isExample && this.resetSettings();
  }

  /** Keeps the settings, and lets each example be chosen again. */
  clearExample() {
    this.isExample = false;
    /** @type {HTMLSelectElement} */ (byId("examples")).value = "";
  }

  /** Stores list and settings for a reload. */
  store() {
    const { list: { value }, mode, clean, form, isExample } = this;
    const isShort = this.gone === "" && value.length <= MOST_CHARACTERS;
    const gone = isShort ? "" : this.gone || `The list of ${formatNumber(value.length)} characters`;
    const settings = { mode: mode.value, form: form.value, clean: clean.checked, isExample };
    const list = { text: isShort ? value : "", gone, hash: location.hash };
    try {
      sessionStorage.removeItem(KEY);
      sessionStorage.setItem(KEY, JSON.stringify({ ...list, plan: fieldTexts(), ...settings }));
    } catch {
      // Storage is missing or full.
    }
  }
}

/** @returns {StoredInput | null} */
export function readStored() {
  try {
    return JSON.parse(sessionStorage.getItem(KEY) ?? "null");
  } catch {
    return null;
  }
}
