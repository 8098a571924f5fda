import type { Content, Files, Library, Options, Result } from './library.js';

export interface LettersOptions extends Omit<Options, 'text'> {
  /** The language as which letters outside ASCII are sorted, by which their case is changed and names are abbreviated: 'plain', 'de', 'sv' and others, which `LETTERS` names; 'no', as BibTeX has it. */
  letters?: string;
  /** Whether a character is a byte or a letter of UTF-8; 'bytes', as BibTeX has it, but 'auto' where a language is given. 'auto' reads by letters where bytes would leave half a letter in the list. */
  text?: 'bytes' | 'utf8' | 'auto';
}

/** The names of the languages. */
export const LETTERS: readonly string[];
/** Runs a job of a library with these options. `notes` is what is to be said of the list's letters: why it was made without those of the language, how text was read, and where half a letter is left. */
export function runWithLetters(library: Library, job: Content, find: Files, options?: LettersOptions): Result & { notes: string[] };
/** The first line of a list, from 1, that has half a letter of UTF-8; 0 where none has. Each byte outside of letters is one here, also one that a database in another encoding has. */
export function lineOfHalfLetter(list: Uint8Array, isStopped: boolean): number;
