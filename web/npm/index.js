// BibTeX, proved: `run` makes a list of references, `read` gives a database as data, `check` says of a style whether it is clean. The module lies beside this file.
import { readFileSync } from 'node:fs';
import { runWithLetters } from './letters.js';
import { Library, proofOf } from './library.js';

export { LETTERS } from './letters.js';
export { DEFAULTS, Library, MemoryRefused, OptionRefused, OutputTooLong, TEX_LIVE, bytesOf, messagesOf, proofOf, textOf } from './library.js';

let [module, made] = [];

// The module, which is compiled when it is first asked for.
function compiled() {
  module ??= new WebAssembly.Module(readFileSync(new URL('./btx.wasm', import.meta.url)));
  return module;
}

/** The library of this process, which is made when it is first asked for. */
export function library() {
  made ??= Library.from(compiled());
  return made;
}

/** What the prover said of the library of which the module was made; it begins with `logic=proved` or `unproved`. */
export const proof = () => proofOf(compiled());

/** Runs a job. Letters of a language, and `auto` for text, are of this call: a run of the library itself has neither. */
export function run(job, find, options = {}) {
  const isPlain = (options?.letters ?? 'no') === 'no' && options?.text !== 'auto';
  return isPlain ? library().run(job, find, options) : runWithLetters(library(), job, find, options);
}

export const read = (text, given) => library().read(text, given);
export const check = (style, name, steps) => library().check(style, name, steps);
