// Which values of a job's databases may be coded: those of the entries that the list may have, and of strings. Entries that are neither cited nor the parent of one that is are passed over by
// their keys alone. It reads databases as the front end does (front/src/letter_values.rs and database.rs), so that both code the same values.
import { FIXED, OF_VALUES, REASONS } from './languages.js';

const [TAB, LINE_FEED, RETURN, SPACE, QUOTE, HASH, PERCENT, APOSTROPHE, ROUND_OPEN, ROUND_CLOSE, COMMA, EQUALS, AT, BACKSLASH, OPEN, CLOSE] = [...'\t\n\r "#%\'(),=@\\{}'].map((sign) => sign.charCodeAt(0));

/** Why a list can't be made with the letters of a language. */
export class LeftOut extends Error {
  constructor(why) {
    super(REASONS[why]);
    this.why = why;
  }
}

const latin = new TextDecoder('latin1');
const strict = new TextDecoder('utf-8', { fatal: true, ignoreBOM: true });

/** A key or a name of which the case of `A-Z` doesn't matter, as a text; each byte is a letter of it. */
export const folded = (bytes) => latin.decode(bytes).replace(/[A-Z]+/g, (letters) => letters.toLowerCase());

/** Whether bytes are ASCII. */
export const isAscii = (bytes) => bytes.every((byte) => byte < 0x80);

/** Whether a byte is a control character of a code. */
export const isDigit = (byte) => (byte >= 1 && byte <= 8) || (byte >= 0x0e && byte <= 0x1f);

/** Whether bytes are UTF-8. */
export function isWhole(bytes) {
  try {
    strict.decode(bytes);
    return true;
  } catch {
    return false;
  }
}

const isWhite = (byte) => byte === SPACE || byte === TAB || byte === RETURN || byte === LINE_FEED;
const isDecimal = (byte) => byte >= 0x30 && byte <= 0x39;
const NO_NAMES = new Set([QUOTE, HASH, PERCENT, APOSTROPHE, ROUND_OPEN, ROUND_CLOSE, COMMA, EQUALS, OPEN, CLOSE]);
const isOfName = (byte) => byte > SPACE && !NO_NAMES.has(byte);

// Where a text in a value ends, up to the brace or the quote after it.
function endOfText(bytes, from, to, isQuoted) {
  let depth = 0;
  for (let at = from; at < to; at++) {
    if (depth === 0 && (bytes[at] === CLOSE || (isQuoted && bytes[at] === QUOTE))) return at;
    depth += (bytes[at] === OPEN ? 1 : 0) - (bytes[at] === CLOSE ? 1 : 0);
  }
  return to;
}

/** The texts in a value, which stand in braces or quotes; round them stand numbers, names of strings and `#`. */
export function* partsOf(bytes, [from, to]) {
  for (let at = from; at < to; at++) {
    if (bytes[at] !== OPEN && bytes[at] !== QUOTE) continue;
    const end = endOfText(bytes, at + 1, to, bytes[at] === QUOTE);
    yield [at + 1, end];
    at = end;
  }
}

// The names of strings in a value.
function namesIn(bytes, [from, to]) {
  const names = [];
  const take = (start, end) => {
    for (let at = start; at < end; at++) {
      let length = 0;
      while (at + length < end && bytes[at + length] > SPACE && ![QUOTE, HASH, OPEN, CLOSE].includes(bytes[at + length])) length++;
      if (length > 0 && !isDecimal(bytes[at])) names.push(folded(bytes.subarray(at, at + length)));
      at += length;
    }
  };
  let at = from;
  for (const [start, end] of partsOf(bytes, [from, to])) {
    take(at, start);
    at = Math.min(end + 1, to);
  }
  take(at, to);
  return names;
}

/** A value without its delimiters and the whitespace round it. */
export function bare(bytes, [from, to]) {
  const isBare = (byte) => ![OPEN, CLOSE, QUOTE].includes(byte) && !isWhite(byte);
  let [start, end] = [from, to];
  while (start < end && !isBare(bytes[start])) start++;
  while (end > start && !isBare(bytes[end - 1])) end--;
  return bytes.subarray(start, end);
}

/** Whether items of a type are entries. */
export const isEntry = (type) => type !== 'comment' && type !== 'preamble' && type !== 'string';

// Reads what stands in a database. What can't go on is undefined, or false.
class Reader {
  constructor(bytes, at, end = bytes.length) {
    Object.assign(this, { bytes, at, end });
  }

  // Takes the longest run of bytes that pass a test.
  #take(test) {
    const from = this.at;
    while (this.at < this.end && test(this.bytes[this.at])) this.at++;
    return this.bytes.subarray(from, this.at);
  }

  // The byte after whitespace, which isn't taken.
  #next() {
    this.#take(isWhite);
    return this.at < this.end ? this.bytes[this.at] : undefined;
  }

  // Takes one of these bytes.
  #expect(...wanted) {
    const byte = this.#next();
    if (!wanted.includes(byte)) return undefined;
    this.at++;
    return byte;
  }

  #name() {
    const first = this.#next();
    if (first === undefined || isDecimal(first)) return undefined;
    const name = this.#take(isOfName);
    return name.length > 0 ? folded(name) : undefined;
  }

  // The byte that closes an item, after its opening one.
  #closing() {
    const opening = this.#expect(OPEN, ROUND_OPEN);
    return opening && (opening === OPEN ? CLOSE : ROUND_CLOSE);
  }

  // The type and the key of an item, or the name of a string.
  head() {
    const type = this.#name();
    const closing = type && this.#closing();
    if (!closing || this.#next() === undefined) return undefined;
    const isText = !isEntry(type);
    return { type, key: this.#take((byte) => byte !== COMMA && !isWhite(byte) && (closing === ROUND_CLOSE || byte !== CLOSE) && !(isText && byte === EQUALS)) };
  }

  // An item after its `@`, as far as it can be read, and whether that is all of it.
  item() {
    const item = { type: '', fields: [] };
    const isRead = this.#readInto(item);
    return { ...item, isRead, end: this.at };
  }

  #readInto(item) {
    const type = this.#name();
    if (type === undefined) return false;
    item.type = type;
    if (type === 'comment') return true;
    const closing = this.#closing();
    if (!closing) return false;
    return isEntry(type) ? this.#readEntry(item, closing) : this.#readText(item, closing);
  }

  // A string or a preamble.
  #readText(item, closing) {
    if (item.type === 'string') {
      item.name = this.#name();
      if (item.name === undefined || !this.#expect(EQUALS)) return false;
    }
    item.value = this.#value();
    return item.value !== undefined && this.#expect(closing) === closing;
  }

  #readEntry(item, closing) {
    if (this.#next() === undefined) return false;
    item.key = folded(this.#take((byte) => byte !== COMMA && !isWhite(byte) && (closing === ROUND_CLOSE || byte !== CLOSE)));
    for (;;) {
      const after = this.#expect(COMMA, closing);
      if (after !== COMMA) return after === closing;
      if (this.#next() === closing) {
        this.at++;
        return true;
      }
      const name = this.#name();
      const value = name !== undefined && this.#expect(EQUALS) && this.#value();
      if (!value) return false;
      item.fields.push({ name, value });
    }
  }

  // Takes a value; where it stands.
  #value() {
    if (this.#next() === undefined) return undefined;
    const start = this.at;
    for (;;) {
      if (!this.#part()) return undefined;
      const end = this.at;
      if (this.#next() !== HASH) {
        this.at = end;
        return [start, end];
      }
      this.at++;
    }
  }

  // Takes a part of a value: a text, digits, or the name of a string.
  #part() {
    const byte = this.#next();
    if (byte === undefined) return false;
    if (byte !== OPEN && byte !== QUOTE) return this.#take(isDecimal(byte) ? isDecimal : isOfName).length > 0;
    this.at = endOfText(this.bytes, this.at + 1, this.end, byte === QUOTE);
    if (this.at === this.end || (byte === QUOTE && this.bytes[this.at] === CLOSE)) return false;
    this.at++;
    return true;
  }
}

/** The items of a database, one after the other, each with where it begins. */
export function* itemsOf(bytes) {
  for (let start = bytes.indexOf(AT); start >= 0;) {
    const item = new Reader(bytes, start + 1).item();
    yield { ...item, start };
    start = bytes.indexOf(AT, item.end);
  }
}

// The head that begins at this `@`: its type and its key, which is undefined where it may go on after what was read; undefined where no item can begin.
function headAt(bytes, start) {
  const reader = new Reader(bytes, start + 1, Math.min(bytes.length, start + OF_VALUES.LONGEST_HEAD));
  const head = reader.head();
  const isCut = reader.at === reader.end && reader.end < bytes.length;
  if (!head) return isCut ? { start, type: '' } : undefined;
  if (head.type === 'comment') return undefined;
  return { start, type: head.type, key: isCut ? undefined : folded(head.key) };
}

// The heads of all items of a text but comments, and of what looks like one in the text of an item.
function headsOf(bytes) {
  const heads = [];
  for (let start = bytes.indexOf(AT); start >= 0; start = bytes.indexOf(AT, start + 1)) {
    const head = headAt(bytes, start);
    if (head) heads.push(head);
  }
  return heads;
}

// A line without the whitespace at its end.
function withoutWhiteAtEnd(line) {
  let end = line.length;
  while (end > 0 && (line[end - 1] === SPACE || line[end - 1] === TAB || line[end - 1] === RETURN)) end--;
  return line.subarray(0, end);
}

/** The keys that a text of an .aux file cites. */
export function* citedIn(bytes) {
  for (let [from, to] = [0, 0]; from < bytes.length; from = to + 1) {
    to = bytes.indexOf(LINE_FEED, from);
    if (to < 0) to = bytes.length;
    if (bytes[from] !== BACKSLASH) continue;
    const line = withoutWhiteAtEnd(bytes.subarray(from, to));
    const [, list] = /^\\citation\{([^}]*)/.exec(latin.decode(line)) ?? [];
    let at = '\\citation{'.length;
    for (const { length } of list?.split(',') ?? []) {
      yield line.subarray(at, at + length);
      at += length + 1;
    }
  }
}

// The keys of the entries that the list may have.
class Wanted {
  keys = new Set();
  areAll = false;

  constructor(files) {
    for (const { name, bytes } of files) {
      if (bytes && name.endsWith('.aux')) for (const key of citedIn(bytes)) this.add(folded(key));
    }
  }

  add(key) {
    this.areAll ||= key === '*';
    this.keys.add(key);
  }

  has(key) {
    return this.areAll || key === undefined || this.keys.has(key);
  }
}

// A database while its values are chosen.
class Database {
  #values = [];
  #heads;

  constructor(bytes) {
    // The strings that it defines, each a name and where its value stands, and the names of strings in fields that stay as they are.
    Object.assign(this, { bytes, strings: [], fixed: [] });
    this.#heads = headsOf(bytes);
  }

  // Reads the items that are wanted and weren't read yet, and adds their parents to what is wanted, and their types.
  read(wanted, types) {
    let end = 0;
    const unread = [];
    for (const head of this.#heads) {
      // (a head before that end stands in the text of an item)
      if (head.start < end) continue;
      if (head.type === 'string' || head.type === 'preamble' || wanted.has(head.key)) end = this.#readItem(head.start, wanted, types);
      else unread.push(head);
    }
    this.#heads = unread;
  }

  // Reads an item; where it ends.
  #readItem(start, wanted, types) {
    const item = new Reader(this.bytes, start + 1).item();
    const whole = this.bytes.subarray(start, item.end);
    if (!isWhole(whole)) throw new LeftOut('NotUtf8');
    if (whole.some(isDigit)) throw new LeftOut('ControlCharacters');
    if (isEntry(item.type)) types.add(item.type);
    for (const { name, value } of item.fields) {
      if (FIXED.includes(name)) for (const one of namesIn(this.bytes, value)) this.fixed.push(one);
      else this.#values.push(value);
      if (name !== 'crossref') continue;
      wanted.add(folded(bare(this.bytes, value)));
      // (what a parent is that strings say isn't known here)
      wanted.areAll ||= namesIn(this.bytes, value).length > 0;
    }
    if (item.type === 'string' && item.value) this.strings.push([item.name, item.value]);
    return item.end;
  }

  // All its values that may be coded and have something to code, in their order.
  chosen(fixed, language) {
    const values = [...this.#values, ...this.strings.filter(([name]) => !fixed.has(name)).map(([, value]) => value)];
    return values.filter(([from, to]) => language.hasRulesForAscii || !isAscii(this.bytes.subarray(from, to))).sort(([one], [other]) => one - other);
  }
}

// The strings whose values stay as they are: those that a field has which stays as it is, and those in the values of these.
function fixedStrings(databases) {
  const open = databases.flatMap(({ fixed }) => fixed);
  const fixed = new Set();
  const defined = new Map();
  for (const { bytes, strings } of open.length > 0 ? databases : []) {
    for (const [name, value] of strings) {
      if (!defined.has(name)) defined.set(name, []);
      for (const one of namesIn(bytes, value)) defined.get(name).push(one);
    }
  }
  while (open.length > 0) {
    const name = open.pop();
    if (fixed.has(name)) continue;
    fixed.add(name);
    for (const one of defined.get(name) ?? []) open.push(one);
  }
  return fixed;
}

/** Where the values of each file of a job stand that may be coded, and the types of the entries that the list may have; a LeftOut where one of them can't be. */
export function valuesOf(files, language) {
  const [wanted, types] = [new Wanted(files), new Set()];
  const databases = files.map(({ name, bytes }) => new Database(bytes && name.endsWith('.bib') ? bytes : new Uint8Array(0)));
  for (let round = 0; ; round++) {
    const [count, areAll] = [wanted.keys.size, wanted.areAll];
    for (const database of databases) database.read(wanted, types);
    if (count === wanted.keys.size && areAll === wanted.areAll) break;
    wanted.areAll ||= round === OF_VALUES.MOST_ROUNDS;
  }
  const fixed = fixedStrings(databases);
  return { values: databases.map((database) => database.chosen(fixed, language)), types };
}
