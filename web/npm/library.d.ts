/** The bytes of a file, or its text, which is written as UTF-8. */
export type Content = Uint8Array | string;

/** From a file's name (as `paper.aux`, `plain.bst`, `refs.bib`) and its bytes to what it holds; nothing where there is no such file. */
export type Finder = (name: string, bytes: Uint8Array) => Content | null | undefined;

/** The files of a job by their names, or a function that finds them. The function answers at once, not by a promise, and can't call `run` or `check` itself. */
export type Files = Finder | Map<string, Content | null | undefined> | Record<string, Content | null | undefined>;

/** Each option is a whole number unless it says otherwise; after its meaning stands what it is if it isn't given, or is undefined: `TEX_LIVE`'s values. */
export interface Options {
  /** The greatest number of steps of the style, 0 to 2^64 - 1, above 2^53 as a bigint; 1,000,000,000. */
  budget?: number | bigint;
  /** How many references list an entry that isn't cited, 0 to 2^32 - 1; 2. */
  minCrossrefs?: number;
  /** The greatest length of a line of the list, if whitespace allows a break: 20 to 1,000; 79. */
  line?: number;
  /** How many bytes of a string a variable of an entry keeps: 1 to 1,000,000; 500. */
  entryMax?: number;
  /** How many bytes of a string a global variable keeps: 1 to 1,000,000; 200,000. */
  globalMax?: number;
  /** Whether a character is a byte or a letter of UTF-8; 'bytes', as BibTeX has it. */
  text?: 'bytes' | 'utf8';
  /** The greatest length of the list and of the log, in bytes, 0 to 2^32 - 1; 64,000,000. */
  mostList?: number;
  mostLog?: number;
}

/** Where a line of the log was met: in the `.aux` files or the search for the others, in the style's text, in the databases, in the style's execution, or at the end. */
export type Met = 'files' | 'style' | 'databases' | 'execution' | 'end';

/** A line of the log, as the library notes it: no text of a style is taken for an error. */
export interface Event {
  /** How many bytes of the log are before the line, and how many the line has without its line feed. */
  at: number;
  length: number;
  /** The number of the current entry, from 0, while the style is executed for one. */
  entry: number | null;
  kind: 'plain' | 'warning' | 'error';
  met: Met;
}

/** An event with what its line says. Whether it is a warning or an error, and where it was met, is the event's word; the rest is read from the line, whose shape the library gives it. */
export interface Message {
  kind: 'file' | 'warning' | 'error' | 'shown' | 'ended';
  met: Met;
  /** What it says, without its place and without what was executed. */
  text: string;
  /** The place in a file that it names, the line counted from 1. */
  file?: string;
  line?: number;
  /** What was executed, and the cite key of the entry for which it was. */
  function?: string;
  entry?: string;
}

export interface Report {
  /** 0 without error messages, 2 with some, 3 at a limit or without a top file, 4 if the budget stopped the run. */
  status: number;
  end: string;
  steps: number;
  deepest: number;
  warnings: number;
  errors: number;
}

export interface Result {
  list: Uint8Array;
  log: Uint8Array;
  /** The lines of the log, in order, and a message for each. */
  events: Event[];
  messages: Message[];
  report: Report;
  /** The files that were asked for, in order. */
  files: { name: string; isThere: boolean }[];
}

/** A part of a database: its first byte, the byte after its last, and the line of its first byte, from 1. */
export interface Span {
  start: number;
  end: number;
  line: number;
}

/** A text is the value as a run stores it, after strings and `#`; null if it has more than 1,000,000 bytes. */
export interface NamedText extends Span {
  name: string;
  text: string | null;
}

/** An entry with its fields, in order; type, key and names as the database spells them. One whose key is there before is among the others. */
export interface Entry extends Span {
  type: string;
  key: string | null;
  fields: NamedText[];
}

/** What is wrong in a database, with the place where it was met; the texts are those of a run. */
export interface DatabaseMessage {
  kind: 'warning' | 'error';
  text: string;
  file?: string;
  line?: number;
  start: number;
  end: number;
}

export interface Database {
  entries: Entry[];
  strings: NamedText[];
  preambles: (Span & { text: string | null })[];
  comments: Span[];
  messages: DatabaseMessage[];
}

/** A record of a database, as the library has it (`btx.3`). */
export interface DatabaseRecord extends Span {
  kind: 'comment' | 'preamble' | 'string' | 'entry' | 'field' | 'end' | 'wrong';
  isWhole: boolean;
  name: Uint8Array;
  text: Uint8Array;
}

export interface Reading {
  /** The name of the database's file, for messages; `refs.bib`. */
  file?: Content;
  /** The strings that are known before the database, as a style's macros: from a name to a text. */
  strings?: Record<string, Content>;
}

export interface Place {
  /** The line of the style, from 1; null where it isn't known. */
  line: number | null;
  /** The number of the token in its braces, from 0, where a function in braces counts once. */
  token: number;
  function: string;
  isInBraces: boolean;
}

export interface StyleWarning {
  fault: 'stack' | 'kind' | 'equal' | 'variable' | 'entry' | 'left';
  isFirst: boolean;
  next: string | null;
  wants: string | null;
  operand: string | null;
  field: string | null;
  at: Place | null;
  from: Place[];
  types: string[];
  given: string[];
  blank: string[];
  command?: string;
}

export interface Verdict {
  verdict: 'clean' | 'warnings' | 'incomplete';
  /** The types of entries for which a clean verdict holds, beside those that the style doesn't know. */
  types: string[];
  literals: number;
  bodies: number;
  warnings: StyleWarning[];
}

/** A number out of its range, a value of another kind, or an option that isn't there: `option` and `value` name it. */
export class OptionRefused extends RangeError {
  option: string;
  value: unknown;
}

export class MemoryRefused extends Error {}

export class OutputTooLong extends Error {
  output: 'list' | 'log' | 'notes';
  most: number;
}

/** One instance of the module. Calls throw a TypeError for a job, style or file that is no Content, and a RangeError for a job's name that is empty or has a line end. */
export class Library {
  /** Over the exports of an instance of the module, of which it becomes the only user. */
  constructor(calls: WebAssembly.Exports);
  static of(module: BufferSource | WebAssembly.Module): Promise<Library>;
  static from(module: WebAssembly.Module): Library;
  /** Bounds the memory of a call, in bytes, from 0 to 2^53 - 1. */
  limitMemory(bytes: number): void;
  run(job: Content, find: Files, options?: Options): Result;
  /** The files that a job asks for, in order: each one's name, its name's bytes, and what `find` gives for it; null where that is nothing. */
  filesOf(job: Content, find: Files): { name: string; bytes: Uint8Array; content: Content | null }[];
  /** A database as data, whatever a document cites. Throws a RangeError for one of more than 2,147,483,647 bytes. */
  read(text: Content, given?: Reading): Database;
  records(text: Content, given?: Reading): DatabaseRecord[];
  check(style: Content, name?: string, steps?: number | bigint): Verdict;
}

/** The options of the proved program itself, which keep less of a string than `TEX_LIVE`. `run` takes `TEX_LIVE` unless it is given these. */
export const DEFAULTS: Readonly<Required<Omit<Options, 'mostList' | 'mostLog'>>>;
export const TEX_LIVE: Readonly<Required<Omit<Options, 'mostList' | 'mostLog'>>>;
export function bytesOf(text: Content, what?: string): Uint8Array;
/** The options with those that aren't given. */
export function optionsOf(given?: Options): Required<Options> & { letters: 'no' };
export function textOf(bytes: Uint8Array): string;
export function messagesOf(log: Uint8Array, events: Event[]): Message[];
/** What the prover said of the library of which a compiled module was made. */
export function proofOf(module: WebAssembly.Module): string;
