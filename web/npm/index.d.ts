export { LETTERS, type LettersOptions } from './letters.js';
export * from './library.js';
import type { LettersOptions } from './letters.js';
import type { Content, Database, Files, Library, Reading, Result, Verdict } from './library.js';

/** The library of this process, which `run`, `read` and `check` use. */
export function library(): Library;
/** What the prover said of the library of which the module was made, a line for each machine; it begins with `logic=proved` or `unproved`. */
export function proof(): string;
/** `notes` is what is to be said of the list's letters, where a language is asked for, or `auto` for text. */
export function run(job: Content, find: Files, options?: LettersOptions): Result & { notes?: string[] };
export function read(text: Content, given?: Reading): Database;
export function check(style: Content, name?: string, steps?: number | bigint): Verdict;
