/** Types that several modules of the page, its reader and its worker share. */

/** The engine of `lib/bb.mjs`, and the name of a limit. */
type Engine = import("./lib/bb.mjs").Engine;
type Limit = import("./lib/bb.mjs").Limit;
/** Limits and switches by name. */
type Plan = Record<string, any>;
/** Objects of the page. */
type Diagram = import("./page/diagram/diagram.mjs").Diagram;
type ListRun = import("./page/list/list-run.mjs").ListRun;
type MachineView = import("./page/machine/machine-view.mjs").MachineView;
type Results = import("./page/list/results.mjs").Results;

// Lines of a list, as read.

/** One bare machine a line; verdict lines; any text with one machine a line. */
type Form = "machines" | "verdicts" | "text";
/** A word, with its offset in the line and the span of the address around it. */
type Word = { begin: number; text: string; address?: number[] };
/** Words with only spaces between them, or arrays. */
interface EntryText {
  words: Word[];
  /** The groups, and how the entries were written if each is a word. */
  groups: Word[][];
  kind: "entries" | "arrays" | undefined;
  /** They enclose the whole address. */
  begin: number;
  end: number;
  /** The row of dashes beside the text that may be a group of it. */
  row: Word | undefined;
}
/** A machine in the engine's format, and its rewritings. */
type ParsedMachine = { machine: string; rewritten: string[] };
/** The kind of a refusal, a sentence, and the column, from 1. */
type Reason = { refusal: string; reason: string; place: number };
type MachineReading = ParsedMachine & { kind: "machine"; before: string; behind: string };
type Refusal = Reason & { kind: "refusal" };
type Reading = MachineReading | Refusal | { kind: "nothing" };
/** A text of a line, and its reading. */
type Read = [EntryText, ParsedMachine | Reason];
interface PreparedList {
  /** The engine's input. */
  bytes: Uint8Array;
  /** The number of each line in the original list, from 0, and its offset; null if all lines are unchanged. */
  numbers: Uint32Array | null;
  places: Uint32Array | null;
  /** The number of skipped lines. */
  skipped: number;
}

// Machines and verdicts.

type Kind = "halt" | "cycler" | "translated" | "backward" | "undecided" | "refused";
/** An entry; `next` is -1 for Z. */
type Entry = { write: number; move: 1 | -1; next: number };
/** A place of the table; `entry` is null if undefined. */
type Rule = { state: number; symbol: number; entry: Entry | null };
type Machine = { states: number; symbols: number; rules: Rule[] };
type Verdict = { kind: Kind; numbers: number[]; side: string; text: string };
interface Recurrence {
  machine: string;
  start: number;
  period: number;
  shift: number;
  quasihalts: number | null;
  /** Last uses, of states and of entries: a step, `*` for ever, `-` never. */
  uses: string[];
  entries: string[];
}
/** A node of the tree before a halt; symbols by distance from the head. */
type TreeNode = { state: number; known: Map<number, number> };

// A list run.

interface ListRequest {
  mode: "decide" | "check";
  clean: boolean;
  form: Form;
  /** Whether the list's first lines gave the form. */
  isFound: boolean;
  plan: Plan;
}
/** The offset of each line and the end of the last one, and the number of each line's kind. */
type Lines = { starts: Uint32Array; kinds: Uint8Array };
/** The reply to a batch of lines. */
interface Part extends Lines {
  job: number;
  /** The output. */
  bytes: Uint8Array;
  /** The verdict lines, if checked; `starts` are their offsets. */
  lines: Uint8Array | null;
  /** The steps in each line, once parsed. */
  steps?: Float64Array;
  answers: Uint8Array;
  kindCounts: number[];
  answerCounts: number[];
  /** The number of the first line, and of all lines if some were skipped. */
  first: number;
  numbers: Uint32Array | null;
  /** The original lines and their offsets, if some differ from the engine's input. */
  source: Uint8Array | null;
  places: Uint32Array | null;
  skipped: number;
  /** The next byte and line of the chunk. */
  next: number;
  nextLine: number;
  done: boolean;
  milliseconds: number;
  memoryBytes: number;
  /** The number of each line's limits, if they aren't all the list's. */
  plans?: Uint8Array;
}
/** A line of the results: its part, and its line there. */
type LinePlace = { part: Part; line: number };
/** The beginning of a batch: its first line, and its numbers of lines and bytes. */
type BatchNote = { job: number; at: string; lines: number; bytes: number };
/** Whole lines of a list, and the number of the first. */
type Chunk = { bytes: Uint8Array; line: number };
/** A chunk with its next byte to answer, and the number of that line. */
type SentChunk = Chunk & { job: number; done: number; nextLine: number };
interface PoolWorker {
  worker: Worker;
  chunks: SentChunk[];
  /** The current batch, and when it began. */
  note: BatchNote | null;
  since: number;
  memoryBytes: number;
  /** Of the last batch. */
  milliseconds: number;
  /** The bytes of the next batch, if set. */
  size: number | undefined;
}
type Failure = { error: string; message: string; limit?: string };
interface PoolTask {
  nextChunk: () => Promise<Chunk | null>;
  part: (part: Part, read: number) => void;
  end: () => void;
  fail: (failure: Failure) => void;
}
interface RunInfo {
  mode: "decide" | "check";
  plan: Plan;
  /** The form of its lines, null if they aren't rewritten. */
  form: Form | null;
  /** Whether its first lines gave the form. */
  isFound: boolean;
  /** Whether it begins as UTF-8. */
  isText: boolean;
  /** Its bytes. */
  size: number;
  /** Its start and duration in milliseconds, 0 while it runs. */
  begun: number;
  taken: number;
}
interface InputLine {
  /** The original line, null if it is the machine. */
  text: string | null;
  number: number;
  /** The form of its list, null if lines aren't rewritten. */
  form: Form | null;
  /** Whether the list's first lines gave the form. */
  isFound: boolean;
}

// Rows of a machine's run.

type Row = { step: number; state: string; head: number; low: number; cells: Uint8Array };
/** Rows of a trace with packed cells; a cell has 1 bit if the machine has two symbols, else 4. */
interface PackedRows {
  steps: Float64Array;
  heads: Int32Array;
  /** The lowest visited position of each row, and the number of visited cells. */
  lows: Int32Array;
  widths: Int32Array;
  /** The offset of each row's first cell in `cells`. */
  offsets: Int32Array;
  states: string;
  cells: Uint8Array;
  bits: number;
}
type Run = { machine: string; cells: number };
/** The steps `from`, `from + every`, .. to `upto`. */
type RowRequest = { from: number; every: number; upto: number };
type ClaimRows = ReturnType<typeof import("./worker/trace.mjs").traceClaim>;
/** A request for a cache; `space`: most bytes. */
type AheadRequest = RowRequest & Run & { space: number };
/** `cut`: the limit of cells ended the trace; `upto` is infinite if the run ended. */
type CachedRows = { request: RowRequest; rows: PackedRows; cut: boolean };
/** The last row up to a step, and whether the run halts there. */
type LastRow = { upto: number; step: number; halts: boolean; low: number; width: number };

// The diagram.

/**
 * The first row's step and the first column's position. A row is every `every`-th step and `high` pixels high,
 * a column is `across` cells and `wide` pixels wide; in each pair at least one number is 1.
 */
type View = { top: number; left: number; every: number; high: number; across: number; wide: number };
/** Two marked steps, and the positions between which they are marked, null for all. */
type Pair = { first: number; second: number; low: number | null; high: number | null };
interface Fit {
  /** The last step. */
  last: number;
  pair: Pair | null;
  /** Whether the view is to open on the pair. */
  opens: boolean;
  /** The visited positions of the last row, if the run is known to halt. */
  end: { step: number; low: number; width: number } | null;
}
/** A point in pixels. */
type Point = { x: number; y: number };
type Place = { step: number; position: number };
/** An area of the canvas, without its axes. */
type Area = Point & { width: number; height: number };
type Picture = ReturnType<typeof import("./worker/trace.mjs").makePicture>;
/** The current view, and the last picture, which may show another view. */
type Scene = { view: View; area: Area; picture: Picture | null };
/** Cells of a row. */
type Band = { step: number; from: number | null; to: number | null; label: string; isMinor?: boolean };
/** `colour`: by default that of marks. */
type Mark = { bands: Band[]; arrow: boolean; colour?: string };
