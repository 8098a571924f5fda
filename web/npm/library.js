// The calls of the library over its WebAssembly module: what a job needs, its run, a database as data, whether a style is clean.
//
// Nothing of a call stays in the module's memory. So each job begins with all of it free, and one call runs at a time.

// A value as an error shows it: a text in quotes, so that '79' isn't taken for 79; of an object its class alone.
function shown(value) {
  if (typeof value === 'string') return `'${value}'`;
  if (typeof value === 'function') return 'a function';
  if (typeof value === 'object' && value !== null) return `an object (${value.constructor?.name ?? 'of no class'})`;
  return String(value);
}

export class OptionRefused extends RangeError {
  constructor(option, value, wanted) {
    super(`${option} can't be ${shown(value)}: ${wanted}`);
    this.name = 'OptionRefused';
    this.option = option;
    this.value = value;
  }
}

export class MemoryRefused extends Error {
  constructor() {
    super('the memory of the module is too small for this job');
    this.name = 'MemoryRefused';
  }
}

export class OutputTooLong extends Error {
  constructor(output, most) {
    super(`the ${output} has more than ${most} bytes`);
    this.name = 'OutputTooLong';
    this.output = output;
    this.most = most;
  }
}

// The options of the program where none is given; those of TeX Live keep more of a string in variables.
export const DEFAULTS = Object.freeze({ budget: 1_000_000_000, minCrossrefs: 2, line: 79, entryMax: 250, globalMax: 20_000, text: 'bytes' });
export const TEX_LIVE = Object.freeze({ ...DEFAULTS, entryMax: 500, globalMax: 200_000 });

// The greatest room for the list and for the log: a style may write without end.
const MOST_OUTPUT = 64_000_000;
const FIRST_ROOM = 1_000_000;
const FIRST_NAMES = 4096;
const FIRST_EVENTS = 16_384;
// Of a database the texts are rarely longer than it is, and a record has a dozen bytes at least in the usual ones.
const BYTES_A_RECORD = 12;
const FILE_SIZE = 40;
const OPTIONS_SIZE = 32;
const REPORT_SIZE = 56;
const EVENT_SIZE = 32;
const STRING_SIZE = 32;
const RECORD_SIZE = 64;
const VERDICT_SIZE = 40;
const CHECK_STEPS = 2_000_000;

const ANSWERS = Object.freeze({ done: 0, refused: 1, memory: 2, asks: 3, full: 4, ends: 5 });
const ENDS = [
  'finished', 'stopped', 'no top file', 'limit literals', 'limit calls', 'limit loops', 'limit string', 'limit file', 'limit files',
  'no memory', 'unknown file', 'list full', 'log full',
];
// What each call takes: addresses, and numbers of 64 bits.
const WORDS = { btx_needs: 'ananana', btx_run_events: 'ananaananaana', btx_read: 'ananananana', btx_check: 'anannanana', rattle_dealloc: 'a' };
const LIST_FULL = ENDS.indexOf('list full');
const NO_ENTRY = 2n ** 64n - 1n;
const EVENT_KINDS = ['plain', 'warning', 'error'];
const EVENT_PLACES = ['files', 'style', 'databases', 'execution', 'end'];
const RECORD_KINDS = ['comment', 'preamble', 'string', 'entry', 'field', 'end', 'wrong'];
const VERDICTS = ['clean', 'warnings', 'incomplete'];
const RANGES = {
  minCrossrefs: [0, 2 ** 32 - 1], line: [20, 1000], entryMax: [1, 1_000_000], globalMax: [1, 1_000_000],
  mostList: [0, 2 ** 32 - 1], mostLog: [0, 2 ** 32 - 1],
};
const MOST_STEPS = 2n ** 64n - 1n;

const encoder = new TextEncoder();
const decoder = new TextDecoder();

/** The bytes of a text or of bytes. Throws a TypeError for anything else; `what` names it there. */
export function bytesOf(text, what = 'this') {
  if (typeof text === 'string') return encoder.encode(text);
  // (by its tag: a test runner may have another Uint8Array than this file)
  if (ArrayBuffer.isView(text) && text[Symbol.toStringTag] === 'Uint8Array') return text;
  const hint = typeof text?.then === 'function' ? '; await it before the call' : '';
  throw new TypeError(`${what} has to be a string or a Uint8Array, not ${shown(text)}${hint}`);
}

/** A text of bytes, read as UTF-8; a byte that is no part of a letter is shown as U+FFFD. */
export const textOf = (bytes) => decoder.decode(bytes);

/** What the prover said of the library of which a compiled module was made, a line for each machine; of a module without a proof it begins with `unproved`. */
export function proofOf(module) {
  const [found] = WebAssembly.Module.customSections(module, 'btx.verdict');
  return found ? textOf(new Uint8Array(found)) : 'unproved';
}

function refuseOutside(name, value, [least, most]) {
  if (!Number.isInteger(value) || value < least || value > most) throw new OptionRefused(name, value, `a whole number from ${least} to ${most}`);
}

function refuseOutsideSteps(name, value) {
  const isWhole = typeof value === 'bigint' || Number.isSafeInteger(value);
  if (!isWhole || value < 0 || value > MOST_STEPS) throw new OptionRefused(name, value, `a whole number from 0 to ${MOST_STEPS}, above 2^53 a bigint`);
}

/** The options of a call: those that it names, and the others as `TEX_LIVE` has them; undefined is not given. Throws an OptionRefused for a value out of its range. */
export function optionsOf(given = {}) {
  if (typeof given !== 'object' || given === null) throw new TypeError(`the options have to be an object, not ${shown(given)}`);
  const all = { ...TEX_LIVE, letters: 'no', mostList: MOST_OUTPUT, mostLog: MOST_OUTPUT };
  const options = { ...all };
  for (const [name, value] of Object.entries(given)) {
    if (!Object.hasOwn(all, name)) throw new OptionRefused(name, value, `there is no such option; there are ${Object.keys(all).join(', ')}`);
    if (value !== undefined) options[name] = value;
  }
  for (const [name, range] of Object.entries(RANGES)) refuseOutside(name, options[name], range);
  refuseOutsideSteps('budget', options.budget);
  if (options.text !== 'bytes' && options.text !== 'utf8') throw new OptionRefused('text', options.text, "'bytes' or 'utf8'");
  if (options.letters !== 'no') throw new OptionRefused('letters', options.letters, "'no' in a call of the library itself: `run` of the package has the others");
  return options;
}

// The finder that a caller means: a function, a Map, or an object that has the files by their names.
function finderOf(find) {
  if (typeof find === 'function') return find;
  if (find instanceof Map) return (name) => find.get(name);
  if (typeof find === 'object' && find !== null) return (name) => (Object.hasOwn(find, name) ? find[name] : undefined);
  throw new TypeError(`the files have to be a function, an object or a Map, not ${shown(find)}`);
}

// The bytes of a job's name. The library parts names by line ends, so that a name with one would be asked for without end.
function nameOf(job) {
  const name = bytesOf(job, 'the job');
  if (name.length === 0) throw new RangeError("the job's name is empty");
  if (name.includes(10)) throw new RangeError("the job's name can't have a line end");
  return name;
}

// The place that a line's text ends with: the text before it, the line and the file.
const PLACED = /^(.*)--line (\d+) of file (.*)$/s;
// What was executed, at the end of a text: of an error, and of the only warning that a run itself logs there. Any other warning is a text of the style.
const EXECUTED = /^(.*) while executing (\S+?)(?: for entry (.*))?$/s;
const CUT = /^string of \d+ bytes cut to \d+ while executing /;
const FILE = /^(?:The (?:top-level auxiliary|style) file|A level-\d+ auxiliary file|Database file #\d+): (.*)$/s;

// What a warning or an error says: its text, and the place or what was executed, by where it was met.
function partsOf(text, { kind, met }) {
  if (met !== 'execution') {
    const place = PLACED.exec(text);
    return place ? { text: place[1], line: Number(place[2]), file: place[3] } : { text };
  }
  const executed = kind === 'error' || CUT.test(text) ? EXECUTED.exec(text) : null;
  return executed ? { text: executed[1], function: executed[2], ...(executed[3] === undefined ? {} : { entry: executed[3] }) } : { text };
}

// An event of a run as a message, with the line of the log that it is.
function messageOf(line, event) {
  const { kind, met } = event;
  if (kind !== 'plain') return { kind, met, ...partsOf(line.slice(line.indexOf('--') + 2), event) };
  const file = met === 'execution' ? null : FILE.exec(line);
  if (file) return { kind: 'file', met, text: line, file: file[1] };
  return { kind: met === 'end' ? 'ended' : 'shown', met, text: line };
}

/** The messages of a run: for each event of its log one. What is a warning or an error, and where it was met, is the event's word, whatever the line looks like. */
export function messagesOf(log, events) {
  return events.map((event) => messageOf(textOf(log.subarray(event.at, event.at + event.length)), event));
}

// The records of a database as items: entries with their fields, strings, preambles, comments and messages.
function itemsOf(records) {
  const made = { entries: [], strings: [], preambles: [], comments: [], messages: [] };
  const kept = { entry: made.entries, string: made.strings, preamble: made.preambles, comment: made.comments };
  let open = null;
  for (const { kind, isWhole, start, end, line, name, text } of records) {
    const place = { start, end, line };
    const shown = isWhole ? textOf(text) : null;
    if (kind === 'field') open.fields.push({ name: textOf(name), text: shown, ...place });
    else if (kind === 'end') open.end = end;
    else if (kind === 'wrong') made.messages.push({ ...wrongOf(shown), start, end });
    else {
      open = { ...place, ...ITEMS[kind](textOf(name), shown) };
      kept[kind].push(open);
    }
  }
  return made;
}

const ITEMS = {
  entry: (type, key) => ({ type, key, fields: [] }),
  string: (name, text) => ({ name, text }),
  preamble: (_name, text) => ({ text }),
  comment: () => ({}),
};

// The message of a record of what is wrong, whose text is the line that a run logs.
function wrongOf(line) {
  const kind = line.startsWith('Error--') ? 'error' : 'warning';
  return { kind, ...partsOf(line.slice(line.indexOf('--') + 2), { kind, met: 'databases' }) };
}

// The lines of notes as the library writes them, a record for each that begins with `head`.
function recordsOf(notes, head) {
  const records = [];
  for (const line of textOf(notes).split('\n').slice(0, -1)) {
    const [word, ...rest] = line.split(' ');
    if (word === head) records.push([]);
    if (records.length > 0) records[records.length - 1].push([word, rest.join(' ')]);
  }
  return records;
}

// A place in a style: its line, the token's number in its braces, whether these stand inside of the function that is named, and the function's name.
function placeOf(text) {
  const [how, line, , token, ...name] = text.split(' ');
  return { line: Number(line) || null, token: Number(token), function: name.join(' '), isInBraces: how === 'of' };
}

function warningOf(record) {
  const warning = { fault: '', isFirst: false, next: null, wants: null, operand: null, field: null, at: null, from: [], types: [], given: [], blank: [] };
  for (const [word, text] of record) {
    if (word === 'warning') [warning.fault, warning.isFirst] = [text.split(' ')[0], text.endsWith('first')];
    else if (word === 'at') warning.at = placeOf(text);
    else if (word === 'from') warning.from.push(placeOf(text));
    else if (word === 'item') warning.command = text;
    else if (word === 'type') warning.types.push(text);
    else if (word === 'given' || word === 'blank') warning[word].push(text);
    else if (word === 'missing') warning.field = text;
    else if (word in warning) warning[word] = text;
  }
  return warning;
}

const sizeOf = (files) => files.reduce((sum, { bytes }) => sum + bytes.length, 0);

export class Library {
  #calls;
  #isBusy = false;

  /** Over the exports of an instance of the module. */
  constructor(calls) {
    this.#calls = calls;
  }

  /** Over the bytes of the module, or a compiled one, once it is ready. */
  static async of(module) {
    const made = await WebAssembly.instantiate(module, {});
    return new Library((made.instance ?? made).exports);
  }

  /** Over a compiled module, at once. */
  static from(module) {
    return new Library(new WebAssembly.Instance(module, {}).exports);
  }

  /** Bounds the memory of the module's heap, in bytes. */
  limitMemory(bytes) {
    refuseOutside('limitMemory', bytes, [0, Number.MAX_SAFE_INTEGER]);
    this.#calls.btx_limit(BigInt(bytes));
  }

  // One call at a time: a finder that made another one would take the memory of its own job.
  #alone(work) {
    if (this.#isBusy) throw new Error("a finder can't call the library that calls it: make another one for that");
    this.#isBusy = true;
    try {
      this.#calls.btx_reset();
      return work();
    } finally {
      this.#isBusy = false;
    }
  }

  // A call of the library; memory that it was refused is an error.
  #call(name, ...words) {
    const answer = this.#calls[name](...words.map((word, place) => (WORDS[name][place] === 'a' ? word : BigInt(word))));
    if (answer === ANSWERS.memory) throw new MemoryRefused();
    return answer;
  }

  #room(size) {
    const at = this.#calls.btx_alloc(BigInt(size)) >>> 0;
    if (at === 0) throw new MemoryRefused();
    return at;
  }

  #put(bytes) {
    const at = this.#room(bytes.length);
    new Uint8Array(this.#calls.memory.buffer).set(bytes, at);
    return { at, length: bytes.length };
  }

  #view() {
    return new DataView(this.#calls.memory.buffer);
  }

  #bytes(at, length) {
    return new Uint8Array(this.#calls.memory.buffer).slice(at, at + length);
  }

  #number(at) {
    return Number(this.#view().getBigUint64(at, true));
  }

  // The files as the library has them: each a name, its bytes, and whether it is there.
  #table(files) {
    const table = this.#room(files.length * FILE_SIZE);
    const view = this.#view();
    files.forEach(({ name, bytes, isThere }, number) => {
      const at = table + number * FILE_SIZE;
      [name.at, name.length, bytes.at, bytes.length].forEach((value, word) => view.setBigUint64(at + 8 * word, BigInt(value), true));
      view.setUint8(at + 32, isThere ? 1 : 0);
    });
    return table;
  }

  #file(name, content) {
    const isThere = content !== undefined && content !== null;
    return { name: this.#put(name), bytes: this.#put(isThere ? bytesOf(content, `the file ${textOf(name)}`) : new Uint8Array(0)), isThere };
  }

  // The names of the files that the job needs beside these.
  #needs(job, files) {
    const table = this.#table(files);
    const length = this.#room(8);
    for (let most = FIRST_NAMES; ;) {
      const names = this.#room(most);
      this.#call('btx_needs', job.at, job.length, table, files.length, names, most, length);
      const found = this.#number(length);
      if (found <= most) return this.#bytes(names, found);
      most = found;
    }
  }

  // The files of a job, which `find` gives: of each name its bytes or text, or nothing where there is no such file.
  #gather(job, find) {
    const files = [];
    const asked = [];
    for (;;) {
      const names = this.#needs(job, files);
      if (names.length === 0) return { files, asked };
      let from = 0;
      for (let to = names.indexOf(10); to >= 0; to = names.indexOf(10, from)) {
        const name = names.slice(from, to);
        const content = find(textOf(name), name);
        asked.push({ name: textOf(name), isThere: content !== undefined && content !== null });
        files.push(this.#file(name, content));
        from = to + 1;
      }
    }
  }

  /** The files that a job asks for, in order: each one's name, its name's bytes, and what `find` gives for it; null where that is nothing. */
  filesOf(job, find) {
    const [name, look, found] = [nameOf(job), finderOf(find), []];
    const noted = (text, bytes) => {
      const content = look(text, bytes) ?? null;
      found.push({ name: text, bytes, content });
      return content;
    };
    this.#alone(() => this.#gather(this.#put(name), noted));
    return found;
  }

  #options(options) {
    const at = this.#room(OPTIONS_SIZE);
    const view = this.#view();
    view.setBigUint64(at, BigInt(options.budget), true);
    [options.minCrossrefs, options.line, options.entryMax, options.globalMax].forEach((value, word) => view.setUint32(at + 8 + 4 * word, value, true));
    view.setUint8(at + 24, options.text === 'utf8' ? 1 : 0);
    return at;
  }

  #report(at) {
    const view = this.#view();
    const [steps, deepest, warnings, errors] = [8, 16, 24, 32].map((place) => this.#number(at + place));
    return { status: view.getUint32(at, true), end: ENDS[view.getUint32(at + 4, true)], steps, deepest, warnings, errors };
  }

  /** Runs a job: `find` is a function from a file's name to its bytes or text, or an object or Map that has them by name. */
  run(job, find, given = {}) {
    const { mostList, mostLog, ...options } = optionsOf(given);
    const [name, look] = [nameOf(job), finderOf(find)];
    return this.#alone(() => {
      const put = this.#put(name);
      const { files, asked } = this.#gather(put, look);
      return { ...this.#runOver(put, files, options, mostList, mostLog), files: asked };
    });
  }

  // Runs the job with rooms for what it writes, and with more where that was too little. Memory that isn't written isn't taken.
  #runOver(job, files, options, mostList, mostLog) {
    const words = [job.at, job.length, this.#table(files), files.length, this.#options(options)];
    const [report, count] = [this.#room(REPORT_SIZE), this.#room(8)];
    const rooms = { list: Math.min(FIRST_ROOM + sizeOf(files), mostList), log: Math.min(FIRST_ROOM, mostLog), events: FIRST_EVENTS };
    for (;;) {
      const at = { list: this.#room(rooms.list), log: this.#room(rooms.log), events: this.#room(rooms.events * EVENT_SIZE) };
      const answer = this.#call('btx_run_events', ...words, at.list, rooms.list, at.log, rooms.log, report, at.events, rooms.events, count);
      const events = this.#number(count);
      if (answer === ANSWERS.done && events <= rooms.events) return this.#result(at, report, events);
      if (answer === ANSWERS.done) rooms.events = events;
      else this.#widen(rooms, report, { list: mostList, log: mostLog });
      Object.values(at).forEach((room) => this.#call('rattle_dealloc', room));
    }
  }

  // Widens the room that was full.
  #widen(rooms, report, most) {
    const full = this.#view().getUint32(report + 4, true) === LIST_FULL ? 'list' : 'log';
    if (rooms[full] >= most[full]) throw new OutputTooLong(full, most[full]);
    rooms[full] = Math.min(rooms[full] * 8, most[full]);
  }

  #result(at, report, count) {
    const [list, log] = [this.#bytes(at.list, this.#number(report + 40)), this.#bytes(at.log, this.#number(report + 48))];
    const events = this.#events(at.events, count);
    return { list, log, events, messages: messagesOf(log, events), report: this.#report(report) };
  }

  #events(at, count) {
    const view = this.#view();
    return Array.from({ length: count }, (_, number) => {
      const place = at + number * EVENT_SIZE;
      const entry = view.getBigUint64(place + 16, true);
      const [kind, met] = [EVENT_KINDS[view.getUint32(place + 24, true)], EVENT_PLACES[view.getUint32(place + 28, true)]];
      return { at: this.#number(place), length: this.#number(place + 8), entry: entry === NO_ENTRY ? null : Number(entry), kind, met };
    });
  }

  /** A database as data, whatever a document cites: its entries, strings, preambles, comments and messages. */
  read(text, given = {}) {
    return itemsOf(this.records(text, given));
  }

  /** The records of a database, as the library has them. */
  records(text, { file = 'refs.bib', strings = {} } = {}) {
    const [name, bytes] = [bytesOf(file, "the database's name"), bytesOf(text, 'the database')];
    const known = Object.entries(strings).map((pair) => pair.map((it) => bytesOf(it, `the string ${pair[0]}`)));
    return this.#alone(() => this.#recordsOver(this.#put(name), this.#put(bytes), this.#strings(known), known.length));
  }

  #strings(known) {
    const table = this.#room(known.length * STRING_SIZE);
    known.forEach((pair, number) => {
      const words = pair.map((bytes) => this.#put(bytes)).flatMap(({ at, length }) => [at, length]);
      words.forEach((value, word) => this.#view().setBigUint64(table + number * STRING_SIZE + 8 * word, BigInt(value), true));
    });
    return table;
  }

  #recordsOver(file, text, strings, count) {
    const sizes = this.#room(16);
    for (let [most, room] = [Math.ceil(text.length / BYTES_A_RECORD) + 1, text.length]; ;) {
      const [records, texts] = [this.#room(most * RECORD_SIZE), this.#room(room)];
      const answer = this.#call('btx_read', file.at, file.length, text.at, text.length, strings, count, records, most, texts, room, sizes);
      if (answer === ANSWERS.refused) throw new RangeError('the database has more than 2,147,483,647 bytes');
      const needed = [this.#number(sizes), this.#number(sizes + 8)];
      if (answer === ANSWERS.done) return this.#records(records, needed[0], this.#bytes(texts, needed[1]));
      [most, room] = needed;
      [records, texts].forEach((at) => this.#call('rattle_dealloc', at));
    }
  }

  #records(at, count, texts) {
    const view = this.#view();
    return Array.from({ length: count }, (_, number) => {
      const place = at + number * RECORD_SIZE;
      const [start, end, line, nameAt, nameLength, textAt, textLength] = [8, 16, 24, 32, 40, 48, 56].map((field) => Number(view.getBigUint64(place + field, true)));
      return {
        kind: RECORD_KINDS[view.getUint32(place, true)], isWhole: view.getUint8(place + 4) === 1, start, end, line,
        name: texts.subarray(nameAt, nameAt + nameLength), text: texts.subarray(textAt, textAt + textLength),
      };
    });
  }

  /** Says of a style whether it is clean, and where it may go wrong. */
  check(style, name = 'style.bst', steps = CHECK_STEPS) {
    refuseOutsideSteps('steps', steps);
    const [file, text] = [bytesOf(name, "the style's name"), bytesOf(style, 'the style')];
    return this.#alone(() => this.#checkOver(this.#put(file), this.#put(text), steps));
  }

  #checkOver(file, text, steps) {
    const verdict = this.#room(VERDICT_SIZE);
    for (let room = FIRST_ROOM; ; room *= 8) {
      if (room > MOST_OUTPUT) throw new OutputTooLong('notes', MOST_OUTPUT);
      const [types, notes] = [this.#room(room), this.#room(room)];
      const answer = this.#call('btx_check', file.at, file.length, text.at, text.length, steps, types, room, notes, room, verdict);
      if (answer === ANSWERS.refused) throw new RangeError('the style has more than 2,147,483,647 bytes');
      if (answer === ANSWERS.full) continue;
      const lines = textOf(this.#bytes(types, this.#number(verdict + 24))).split('\n').slice(0, -1);
      const records = recordsOf(this.#bytes(notes, this.#number(verdict + 32)), 'warning');
      return {
        verdict: VERDICTS[this.#view().getUint32(verdict, true)], types: lines, literals: this.#number(verdict + 8), bodies: this.#number(verdict + 16),
        warnings: records.map(warningOf),
      };
    }
  }
}
