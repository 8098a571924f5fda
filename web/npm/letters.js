// Letters of a language in lists of references, as `bibtex-search -letters=LANG` has them: the job runs over databases in which each such letter of a value is a
// special character, and what it writes is turned back. For BibTeX `{\xy{key}}` is one letter: `purify$` keeps the key alone, which is what the letter sorts as,
// `change.case$` changes the key's case, and names and prefixes keep it whole. `x` and `y` are control characters that say which letter it is.
import { OtherBytes, lineOfHalfLetter } from './half_letters.js';
import { LANGUAGES, LONGER, ROOT } from './languages.js';
import { LeftOut, isAscii, isDigit, isWhole, partsOf, valuesOf } from './letter_values.js';
import { MemoryRefused, OptionRefused, OutputTooLong, TEX_LIVE, bytesOf, messagesOf, optionsOf } from './library.js';
import { mayPrintKeys } from './style_keys.js';

// A byte that sorts after each letter of ASCII, which a `*` stands for in the table, and one at the end of each key of a run that shows whether keys are printed. `purify$` keeps both.
const AFTER = 0xff;
const MARK = 0xfe;
// The control characters of a code: those that are no whitespace.
const DIGITS = [...Array(0x20).keys()].filter(isDigit);
const MOST_LETTERS = DIGITS.length ** 2;
const MOST_LONGER = 1_000_000;
// A letter of the tables of which Node knows no capital before Unicode 16.
const CAPITALS = new Map([['ƛ', '\ua7dc']]);
const SMALL = new Map([...CAPITALS].map(([small, capital]) => [capital, small]));
const [BACKSLASH, OPEN, CLOSE] = [...'\\{}'].map((sign) => sign.charCodeAt(0));

export { lineOfHalfLetter };

/** The names of the languages; `no` is none. */
export const LETTERS = Object.freeze(LANGUAGES.map(([name]) => name));

const encoder = new TextEncoder();
const strict = new TextDecoder('utf-8', { fatal: true, ignoreBOM: true });

const isAlpha = (byte) => (byte >= 0x41 && byte <= 0x5a) || (byte >= 0x61 && byte <= 0x7a);
const isCapitalByte = (byte) => byte >= 0x41 && byte <= 0x5a;
const isAsciiText = (text) => /^[\x00-\x7f]*$/.test(text);
const lengthOf = (letters) => [...letters].length;
const lower = (letter) => SMALL.get(letter) ?? letter.toLowerCase();

// Bytes that are put together.
class Writer {
  #bytes;
  length = 0;

  constructor(room) {
    this.#bytes = new Uint8Array(Math.max(room, 64));
  }

  #reach(count) {
    if (this.length + count <= this.#bytes.length) return;
    const wider = new Uint8Array(Math.max(2 * this.#bytes.length, this.length + count));
    wider.set(this.#bytes.subarray(0, this.length));
    this.#bytes = wider;
  }

  put(bytes) {
    this.#reach(bytes.length);
    this.#bytes.set(bytes, this.length);
    this.length += bytes.length;
  }

  get bytes() {
    return this.#bytes.subarray(0, this.length);
  }
}

// What a rule says that a letter sorts as.
const keyOf = (written) => Uint8Array.from(written, (sign) => (sign === '*' ? AFTER : sign.charCodeAt(0)));

// Whether the letters of a rule are one letter each: some of ASCII are one together with those that follow.
const areSingle = ([letters]) => !/[\x00-\x7f]/.test(letters);

class Language {
  constructor(name) {
    const [, own] = LANGUAGES.find((row) => row[0] === name);
    this.isDotless = name === 'tr';
    this.keys = new Map([...ROOT, ...own].filter(areSingle).flatMap(([letters, written]) => [...letters].map((letter) => [letter, keyOf(written)])));
    // (the longest first)
    this.several = own.filter((rule) => !areSingle(rule)).map(([letters, written]) => [letters, keyOf(written)]).sort(([one], [other]) => lengthOf(other) - lengthOf(one));
    this.hasRulesForAscii = this.isDotless || this.several.length > 0;
  }

  // What the first letter of a text sorts as by being one with those that follow.
  keyOfSeveral(text, at) {
    const first = text[at].toLowerCase();
    const begins = (letters) => letters[0] === first && [...text.slice(at, at + 2 * letters.length)].flatMap((letter) => [...letter.toLowerCase()]).join('').startsWith(letters);
    return this.several.find(([letters]) => begins(letters))?.[1];
  }

  // What a letter sorts as at a place of a text; undefined where that is itself. A foreign text has no letter outside ASCII, so that its `I` may be one of another language.
  key(letter, text, at, isForeign) {
    if (this.isDotless && letter === 'I') return this.keys.get('ı');
    if (this.isDotless && letter === 'i' && !isForeign) return keyOf('i');
    if (letter === 'İ') return keyOf('i');
    if (/[A-Za-z]/.test(letter)) return this.keyOfSeveral(text, at);
    return letter < '\x80' ? undefined : this.keys.get([...lower(letter)][0]);
  }

  // A letter that gets a code: itself, it in the other case, and whether it is a capital.
  letter(itself, isForeign) {
    // (also a letter of a capital and a small one, such as `ǅ`)
    const isCapital = lower(itself) !== itself || /\p{Uppercase}/u.test(itself);
    let other = isCapital ? lower(itself) : CAPITALS.get(itself) ?? itself.toUpperCase();
    if (itself === 'I' && this.isDotless && !isForeign) other = 'ı';
    if (itself === 'i' && this.isDotless) other = 'İ';
    if (itself === 'İ') other = 'i';
    return { itself: encoder.encode(itself), other: encoder.encode(other), isCapital };
  }
}

// The letters of a job that have codes. `isInBraces` is whether letters in braces are coded too: a style may cut a text in braces after any byte, and a code with it.
class Codes {
  constructor(language, isInBraces, isMarked) {
    Object.assign(this, { language, isInBraces, mark: isMarked ? [MARK] : [], letters: [], numbers: new Map() });
  }

  // Writes a text of a value with its letters coded.
  code(text, out) {
    const isForeign = isAsciiText(text);
    const hasRules = this.language.hasRulesForAscii;
    let [depth, copied, at] = [0, 0, 0];
    for (const letter of isForeign && !hasRules ? '' : text) {
      depth += (letter === '{' ? 1 : 0) - (letter === '}' ? 1 : 0);
      const code = (hasRules || letter >= '\x80') && (depth <= 0 || this.isInBraces) ? this.#codeOf(letter, text, at, isForeign) : undefined;
      if (code) {
        out.put(encoder.encode(text.slice(copied, at)));
        out.put(code);
        copied = at + letter.length;
      }
      at += letter.length;
    }
    out.put(encoder.encode(text.slice(copied)));
  }

  #codeOf(letter, text, at, isForeign) {
    const key = this.language.key(letter, text, at, isForeign);
    const number = key && this.#number(letter, isForeign);
    if (number === undefined) return undefined;
    const cased = this.letters[number].isCapital ? key.map((byte) => (byte >= 0x61 && byte <= 0x7a ? byte - 0x20 : byte)) : key;
    return [OPEN, BACKSLASH, DIGITS[Math.floor(number / DIGITS.length)], DIGITS[number % DIGITS.length], OPEN, ...cased, ...this.mark, CLOSE, CLOSE];
  }

  // The number of a letter; undefined where there are too many. The `I` of a foreign text is another one.
  #number(letter, isForeign) {
    const known = isForeign && letter === 'I' ? 'foreign I' : letter;
    if (!this.numbers.has(known)) {
      if (this.letters.length === MOST_LETTERS) return undefined;
      this.numbers.set(known, this.letters.length);
      this.letters.push(this.language.letter(letter, isForeign));
    }
    return this.numbers.get(known);
  }

  // What a run wrote, with each code turned back into its letter, in the case that the run gave it; whether nothing is left of a code that was cut, or of a key outside a code.
  turnBack(text) {
    const out = new Writer(text.length);
    let [isClean, copied] = [true, 0];
    for (let at = 0; at < text.length;) {
      const code = text[at] === OPEN ? this.#codeAt(text, at) : undefined;
      if (code) {
        out.put(text.subarray(copied, at));
        out.put(this.#letterOf(code));
        at += code.length;
        copied = at;
      } else {
        isClean &&= !isDigit(text[at]) && text[at] < MARK;
        at += 1;
      }
    }
    out.put(text.subarray(copied));
    return { text: out.bytes, isWhole: isClean };
  }

  #codeAt(text, at) {
    if (text[at + 1] !== BACKSLASH || text[at + 4] !== OPEN) return undefined;
    const [high, low] = [DIGITS.indexOf(text[at + 2]), DIGITS.indexOf(text[at + 3])];
    const number = high * DIGITS.length + low;
    let end = at + 5;
    while (isAlpha(text[end]) || text[end] >= MARK) end++;
    const isCode = high >= 0 && low >= 0 && number < this.letters.length && text[end] === CLOSE && text[end + 1] === CLOSE;
    return isCode ? { number, key: text.subarray(at + 5, end), length: end + 2 - at } : undefined;
  }

  // The letter that a code stands for: in the other case where its key has another case than it was given.
  #letterOf({ number, key }) {
    const letter = this.letters[number];
    const first = key.find(isAlpha);
    return first !== undefined && isCapitalByte(first) !== letter.isCapital ? letter.other : letter.itself;
  }
}

// A database whose values are coded.
function codedText(bytes, values, codes) {
  if (values.length === 0) return bytes;
  const out = new Writer(bytes.length + (bytes.length >> 2));
  let copied = 0;
  for (const value of values) {
    for (const [start, end] of partsOf(bytes, value)) {
      // (an entry that stands in the text of another one is read with it, too)
      if (start < copied) continue;
      out.put(bytes.subarray(copied, start));
      codes.code(strict.decode(bytes.subarray(start, end)), out);
      copied = end;
    }
  }
  out.put(bytes.subarray(copied));
  return out.bytes;
}

// How many braces are open at the end of a text, and at least anywhere in it.
function depthsOf(text) {
  let [depth, least] = [0, 0];
  for (const byte of text) {
    depth += (byte === OPEN ? 1 : 0) - (byte === CLOSE ? 1 : 0);
    least = Math.min(least, depth);
  }
  return `${depth} ${least}`;
}

// Whether bytes have a word of ASCII, in any case.
const hasWord = (bytes, word) => new TextDecoder('latin1').decode(bytes).toLowerCase().includes(word);

// A job with its files, each found once.
class Job {
  constructor(library, name, found, options) {
    const files = found.map(({ name: file, bytes, content }) => ({ name: file, key: String(bytes), bytes: content === null ? null : bytesOf(content, `the file ${file}`) }));
    Object.assign(this, { library, name, files, options });
    this.databases = this.#ending('.bib');
    this.styles = this.#ending('.bst');
  }

  #ending(ending) {
    return this.files.filter(({ name, bytes }) => bytes && name.endsWith(ending)).map(({ bytes }) => bytes);
  }

  get isStyleWhole() {
    return this.styles.every(isWhole);
  }

  // The first line of a list that has half a letter; 0 where none has.
  halfOf({ list, report }) {
    if (isWhole(list)) return 0;
    this.other ??= new OtherBytes(this.files);
    return lineOfHalfLetter(list, report.end === 'stopped', this.other);
  }

  // The run over these files in place of the job's, with options of its own.
  run(own, files = this.files) {
    const known = new Map(files.map((file) => [file.key, file.bytes]));
    return this.library.run(this.name, (_name, bytes) => known.get(String(bytes)), { ...this.options, ...own });
  }

  // By its files as they are: what it gives, and how text was read. `auto` reads by bytes, as the original does, and once more by letters where that would leave half a letter in the list.
  runAsItIs(text) {
    const read = (how) => ({ made: this.run({ text: how }), read: how });
    const first = read(text === 'utf8' ? 'utf8' : 'bytes');
    if (text !== 'auto' || !this.halfOf(first.made)) return first;
    const byLetters = read('utf8');
    return this.isStyleWhole || !this.halfOf(byLetters.made) ? byLetters : first;
  }

  // With the letters of a language; undefined where no entry that counts has such letters, or a LeftOut.
  runWithLetters(name, text) {
    const language = new Language(name);
    const { values, types } = valuesOf(this.files, language);
    if (values.every((those) => those.length === 0)) return undefined;
    const style = this.styles[0] ?? new Uint8Array(0);
    if (style.some(isDigit)) throw new LeftOut('ControlCharacters');
    const [entryMax, globalMax] = ['entryMax', 'globalMax'].map((option) => Math.min((this.options[option] ?? TEX_LIVE[option]) * LONGER, MOST_LONGER));
    const coded = (isInBraces, isMarked) => {
      const codes = new Codes(language, isInBraces, isMarked);
      return { codes, files: this.files.map((file, number) => ({ ...file, bytes: file.bytes && codedText(file.bytes, values[number], codes) })) };
    };
    const run = (files) => this.run({ text: text === 'bytes' ? 'bytes' : 'utf8', entryMax, globalMax }, files);
    if (mayPrintKeys(style, types) && this.#printsKeys(coded(true, true), run)) throw new LeftOut('PrintsKeys');
    try {
      return this.#runOver(coded(true, false), run);
    } catch (error) {
      if (error.why !== 'CutsLetters') throw error;
      return this.#runOver(coded(false, false), run);
    }
  }

  // Whether the style prints what letters sort as.
  #printsKeys({ codes, files }, run) {
    try {
      return codes.turnBack(run(files).list).text.some((byte) => byte >= MARK);
    } catch (error) {
      if (isOfRoom(error)) return true;
      throw error;
    }
  }

  // The run over coded letters, turned back.
  #runOver({ codes, files }, run) {
    let made;
    try {
      made = run(files);
    } catch (error) {
      if (isOfRoom(error)) throw new LeftOut('Unfinished');
      throw error;
    }
    if (made.report.end !== 'finished') throw new LeftOut('Unfinished');
    const [list, log] = [codes.turnBack(made.list), codes.turnBack(made.log)];
    if (!list.isWhole || !log.isWhole || !this.#hasAllBraces(list.text, run)) throw new LeftOut('CutsLetters');
    const events = moved(codes, made);
    return { ...made, list: list.text, log: log.text, events, messages: messagesOf(log.text, events) };
  }

  // Whether no brace of a list is left over from a code that was cut. A style may leave out braces of its own.
  #hasAllBraces(list, run) {
    const cut = '{\\}';
    if (hasWord(list, cut) && !this.files.some(({ bytes }) => bytes && hasWord(bytes, cut))) return false;
    const depths = depthsOf(list);
    return depths === '0 0' || depths === depthsOf(run(this.files).list);
  }
}

const isOfRoom = (error) => error instanceof MemoryRefused || error instanceof OutputTooLong;

// Where the lines of a log are once it is turned back. No code has an end of a line in it.
function moved(codes, { log, events }) {
  let [at, turned] = [0, 0];
  const place = (end) => {
    turned += codes.turnBack(log.subarray(at, end)).text.length;
    at = end;
    return turned;
  };
  return events.map((event) => {
    const [start, end] = [place(event.at), place(event.at + event.length)];
    return { ...event, at: start, length: end - start };
  });
}

// What is to be said of the letters of a list, a line each, as `bibtex-search` has it in its log. `isAsked` is whether text was to be read so.
function notesOf(job, made, read, isAsked) {
  const notes = [];
  const line = job.halfOf(made);
  // (a list that has half a letter is no better for that)
  if (!isAsked && !line) notes.push('The list is made with -text=utf8: read by bytes, it would have half a letter, which LaTeX refuses.');
  if (line) {
    const remedy = read === 'utf8' ? 'the style cuts text by bytes' : 'try -text=utf8';
    notes.push(`Line ${line} of the list has half a letter, which LaTeX refuses: ${job.isStyleWhole ? remedy : "the style isn't UTF-8"}.`);
  }
  return notes;
}

function refuseAllBut(name, value, values) {
  if (!values.includes(value)) throw new OptionRefused(name, value, `one of ${values.join(', ')}`);
}

/** Runs a job as `library.run` does, with two more options: `letters`, a language or `no`, and `auto` for `text`. The result has `notes`, too: what is to be said of the list's letters. */
export function runWithLetters(library, job, find, given = {}) {
  const { letters = 'no', text = letters === 'no' ? 'bytes' : 'auto', ...options } = given;
  refuseAllBut('letters', letters, ['no', ...LETTERS]);
  refuseAllBut('text', text, ['bytes', 'utf8', 'auto']);
  optionsOf(options);
  const task = new Job(library, job, library.filesOf(job, find), options);
  const notes = [];
  if (letters !== 'no' && task.databases.some((bytes) => !isAscii(bytes))) {
    try {
      const made = task.runWithLetters(letters, text);
      if (made) return { ...made, notes: notesOf(task, made, text === 'bytes' ? 'bytes' : 'utf8', true) };
    } catch (error) {
      if (!(error instanceof LeftOut)) throw error;
      notes.push(`The list is made without -letters: ${error.message}.`);
    }
  }
  const { made, read } = task.runAsItIs(text);
  return { ...made, notes: [...notes, ...notesOf(task, made, read, text !== 'auto' || read === 'bytes')] };
}
