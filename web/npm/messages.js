// The messages of a run as lines of JSON, each with its severity and its kind.

// Messages that have a kind of their own: a name in the text is the entry or the file that they are about.
const KINDS = [
  ['missing entry', /^I didn't find a database entry for "(?<entry>.*)"$/s],
  ['repeated entry', /^Repeated entry$/],
  ['missing database', /^I couldn't open database file (?<file>.*)$/s],
  ['repeated database', /^This database file appears more than once: (?<file>.*)$/s],
  ['missing style', /^I couldn't open style file (?<file>.*)$/s],
  ['missing auxiliary file', /^I couldn't open auxiliary file (?<file>.*)$/s],
  ['cross reference', /^A bad cross reference--entry "(?<entry>.*?)" refers to entry /s],
];
// The kinds of the others, by where they were met.
const BY_PLACE = { files: 'document', databases: 'database', style: 'style', execution: 'execution', end: 'run' };
// What is as bad as an error where nothing may be missing.
const STRICT = new Set(['missing entry', 'repeated entry', 'missing database', 'repeated database', 'missing style', 'missing auxiliary file']);

/** What a message is about, in a word or two, and what it names. A style's execution has no message of these kinds: what looks like one is its own text. */
export function kindOf({ met, text }) {
  for (const [kind, pattern] of met === 'execution' ? [] : KINDS) {
    const found = pattern.exec(text);
    if (found) return { kind, ...found.groups };
  }
  return { kind: BY_PLACE[met] };
}

/** A warning or an error as data: its severity, kind and text, and what is known of its file, line, function and entry. */
export function asData({ kind: severity, met, text, ...place }) {
  return { severity, ...kindOf({ met, text }), text, ...place };
}

/** The messages of a run that are warnings or errors, as data. */
export function dataOf(messages) {
  return messages.filter(({ kind }) => kind === 'warning' || kind === 'error').map(asData);
}

/** Whether something is missing, or there twice. */
export const isStrictlyWrong = (data) => data.some(({ kind }) => STRICT.has(kind));

/** A line of JSON. Control characters, and marks that turn a line round, are written by their numbers. */
export function lineOf(data) {
  const shown = JSON.stringify(data).replace(/[\u007f-\u009f\u061c\u200b-\u200f\u2028-\u202e\u2060-\u2069\ufeff]/g, (letter) => `\\u${letter.charCodeAt(0).toString(16).padStart(4, '0')}`);
  return `${shown}\n`;
}
