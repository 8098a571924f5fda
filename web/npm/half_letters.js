// Half letters in a list of references: bytes outside of letters of UTF-8 that a style made when it cut a text. A byte of a value that isn't UTF-8 itself stands in the list as it is, and is
// no half letter. It answers as the front end does (front/src/half_letters.rs).
import { bare, citedIn, folded, isEntry, isWhole, itemsOf } from './letter_values.js';

const LINE_FEED = 0x0a;
const latin = new TextDecoder('latin1');

// Bytes of which none isn't UTF-8.
const NONE = new Set();

function union(sets) {
  const all = new Set();
  for (const set of sets) for (const byte of set) all.add(byte);
  return all;
}

// The bytes from 128 on of a text that isn't UTF-8; none of one that is.
const othersIn = (bytes) => (isWhole(bytes) ? NONE : new Set(bytes.filter((byte) => byte >= 0x80)));

// The bytes of an item's values that aren't UTF-8. What can't be read as values counts as one.
function othersOf(bytes, { start, end, isRead, fields, value }) {
  const whole = othersIn(bytes.subarray(start, end));
  const values = value ? [value] : fields.map((field) => field.value);
  return whole === NONE || !isRead || values.length === 0 ? whole : union(values.map(([from, to]) => othersIn(bytes.subarray(from, to))));
}

/** The bytes that lists of a job with these files have from what isn't UTF-8. */
export class OtherBytes {
  // The first entry of each key: its bytes, and its parents.
  #entries = new Map();
  // The bytes of keys, strings, preambles and of the style, which any part of a list may have, and those of all entries that the list may have.
  #shared = new Set();
  #all = new Set();

  constructor(files) {
    const textsOf = (ending) => files.filter(({ name, bytes }) => bytes && name.endsWith(ending)).map(({ bytes }) => bytes);
    const cited = textsOf('.aux').flatMap((bytes) => [...citedIn(bytes)]);
    const keys = new Set(cited.map(folded));
    this.#shared = union(cited.map(othersIn));
    const ofEntries = textsOf('.bib').flatMap((bytes) => this.#read(bytes));
    this.#all = union(keys.has('*') ? ofEntries : [...keys].map((key) => this.#of(key) ?? NONE));
    // (a style in another encoding is of a job in that one, where a value has it too)
    if (this.#shared.size + this.#all.size > 0) this.#shared = union([this.#shared, ...textsOf('.bst').map(othersIn)]);
  }

  // Reads a database; the bytes of each of its entries. Of a comment the type alone is an item.
  #read(bytes) {
    const ofEntries = [];
    for (const item of itemsOf(bytes)) {
      const own = othersOf(bytes, item);
      if (!isEntry(item.type)) {
        for (const byte of own) this.#shared.add(byte);
        continue;
      }
      const parents = item.fields.filter(({ name }) => name === 'crossref').map(({ value }) => folded(bare(bytes, value)));
      if (item.key !== undefined && !this.#entries.has(item.key)) this.#entries.set(item.key, { own, parents });
      ofEntries.push(own);
    }
    return ofEntries;
  }

  // Those of the entry of a key and of its parents; undefined where there is none.
  #of(key) {
    const entry = this.#entries.get(key);
    if (entry) entry.all ??= union([entry.own, ...entry.parents.map((parent) => this.#entries.get(parent)?.own ?? NONE)]);
    return entry?.all;
  }

  /** Whether a list has these bytes from what isn't UTF-8, in the part of the entry of this key or in one of which no key is known. */
  has(key, bytes) {
    const ofEntry = this.#of(key) ?? this.#all;
    return bytes.every((byte) => this.#shared.has(byte) || ofEntry.has(byte));
  }
}

// The parts of a list, each of which begins with `\bibitem`: where that has ended.
class Parts {
  #next = 0;
  #key;

  constructor(list) {
    this.list = list;
    this.starts = [...latin.decode(list).matchAll(/\\bibitem(?![A-Za-z])/g)].map(({ index, 0: item }) => index + item.length);
  }

  // The key of the part that has this place; undefined where it isn't plain. Places are asked for in their order.
  keyAt(place) {
    const before = this.#next;
    while (this.starts[this.#next] <= place) this.#next++;
    if (this.#next > before) this.#key = keyOf(this.list.subarray(this.starts[this.#next - 1], this.starts[this.#next]));
    return this.#key;
  }
}

// The key of a part of a list, without its `\bibitem`; undefined where it isn't plain.
function keyOf(part) {
  const text = latin.decode(part);
  const from = /^[ \t\n\f\r]*/.exec(text)[0].length;
  const start = text[from] === '[' ? text.indexOf(']{', from) + 1 : from;
  const end = text.indexOf('}', start);
  return text[start] === '{' && end > start + 1 ? folded(part.subarray(start + 1, end)) : undefined;
}

// How many bytes the letter of UTF-8 has that begins at a place, 0 where none can; and how many of them are there, at least one.
function letterAt(bytes, at) {
  const first = bytes[at];
  const count = first < 0x80 ? 1 : first >= 0xc2 && first < 0xe0 ? 2 : first >= 0xe0 && first < 0xf0 ? 3 : first >= 0xf0 && first < 0xf5 ? 4 : 0;
  let length = 1;
  for (; length < count; length++) {
    const least = length > 1 ? 0x80 : { 0xe0: 0xa0, 0xf0: 0x90 }[first] ?? 0x80;
    const most = length > 1 ? 0xbf : { 0xed: 0x9f, 0xf4: 0x8f }[first] ?? 0xbf;
    if (!(bytes[at + length] >= least && bytes[at + length] <= most)) break;
  }
  return { count, length };
}

/** The first line of a list, from 1, that has half a letter of UTF-8; 0 where none has. The list of a run that was stopped may end inside a letter. */
export function lineOfHalfLetter(list, isStopped, other = new OtherBytes([])) {
  const parts = new Parts(list);
  let [line, at] = [1, 0];
  while (at < list.length) {
    const { count, length } = letterAt(list, at);
    const isOfEnd = isStopped && at + length === list.length && length < count;
    if (length !== count && !isOfEnd && !other.has(parts.keyAt(at), list.subarray(at, at + length))) return line;
    line += list[at] === LINE_FEED ? 1 : 0;
    at += length;
  }
  return 0;
}
