// Runs jobs and checks styles apart from the page, so that an endless style never holds it up. It is put together with library.js.
let library;

// Says whether a style is clean, after the result of its job: for a long style that takes more time than the job.
function check(number, style) {
  try {
    postMessage({ number, verdict: library.check(style) });
  } catch (error) {
    library = undefined;
    postMessage({ number, unchecked: error.message });
  }
}

// The line of a byte of a database, where another byte before it has a line.
function lineOf(bytes, { start, line }, place) {
  let count = line;
  for (let at = start; at < place; at++) if (bytes[at] === 10) count++;
  return count;
}

// A field of which a later line looks like a field: its brace or quote may be open.
const SWALLOWS = /\n[ \t]*(?:[A-Za-z][\w-]*[ \t]*=|@)/;

// The entries of a database that were read in part: each with its line, the line of the error that ended it, the line in which what was read before that ends,
// whether another item begins there, the line of the last field if its brace or quote may be open, and whether nothing but the key was read.
function partsRead(file, bytes, records) {
  const found = [];
  let [entry, last] = [];
  for (const record of records) {
    if (record.kind === 'entry') entry = record;
    if (record.kind === 'wrong' && entry && textOf(record.text).startsWith('Error--')) {
      const isOpen = last.kind === 'field' && SWALLOWS.test(textOf(bytes.subarray(last.start, last.end)));
      found.push({
        file, key: textOf(entry.text), line: entry.line, until: Number(/--line (\d+) of file /.exec(textOf(record.text))[1]), after: lineOf(bytes, last, last.end),
        isItem: /^[\s,]*@/.test(textOf(bytes.subarray(last.end, record.start + 1))), open: isOpen ? last.line : null, isKey: last.kind === 'entry',
      });
    }
    if (record.kind !== 'entry' && record.kind !== 'field') entry = undefined;
    last = record;
  }
  return found;
}

// From a byte of a text to the character that it is of. Places come in order.
function characters(text, bytes) {
  if (bytes.length === text.length) return (place) => place;
  let [byte, character] = [0, 0];
  return (place) => {
    if (place < byte) [byte, character] = [0, 0];
    for (; byte < place; character++) {
      const code = text.codePointAt(character);
      byte += code < 0x80 ? 1 : code < 0x800 ? 2 : code < 0x10000 ? 3 : 4;
      if (code > 0xffff) character++;
    }
    return character;
  };
}

// More messages than these have their lines alone.
const MOST_PLACED = 1000;

// Where the messages of a database were met: each with its line of the log, its first character, and the one after its last.
function wrongIn(file, text, bytes, records) {
  const characterAt = characters(text, bytes);
  return records.filter(({ kind }) => kind === 'wrong').slice(0, MOST_PLACED).map(({ start, end, text: line }) => ({ file, said: textOf(line), from: characterAt(start), to: characterAt(end) }));
}

// What was read in part, and where messages were met, in all databases in which a run found something wrong.
function readAgain(messages, known) {
  const files = new Set(messages.filter(({ met, kind, file }) => met === 'databases' && kind !== 'plain' && known.has(file)).map(({ file }) => file));
  const all = [...files].map((file) => {
    const [text, bytes] = [known.get(file), bytesOf(known.get(file), 'the database')];
    const records = library.records(bytes, { file });
    return { parts: partsRead(file, bytes, records), wrong: wrongIn(file, text, bytes, records) };
  });
  return { parts: all.flatMap(({ parts }) => parts), wrong: all.flatMap(({ wrong }) => wrong) };
}

onmessage = async ({ data }) => {
  const { number, module, job, files, options, style } = data;
  try {
    library ??= await Library.of(module);
    const known = new Map(files);
    const began = performance.now();
    const result = library.run(job, (name) => known.get(name), options);
    const took = performance.now() - began;
    postMessage({ number, result, took, ...readAgain(result.messages, known) });
  } catch (error) {
    library = undefined;
    postMessage({ number, failed: error.message });
    return;
  }
  if (style !== undefined) check(number, style);
};
