// The package over the examples of the repository: lists, logs and statuses are those that lie beside them.
import assert from 'node:assert/strict';
import { spawnSync } from 'node:child_process';
import { cpSync, existsSync, readFileSync, readdirSync, writeFileSync } from 'node:fs';
import path from 'node:path';
import test from 'node:test';
import { fileURLToPath } from 'node:url';
import { DEFAULTS, Library, MemoryRefused, OptionRefused, OutputTooLong, check, library, proof, read, run, textOf } from '../index.js';
import { finderIn } from '../search.js';
import { COMMAND, inRoom } from '../testing.js';

const HERE = path.dirname(fileURLToPath(import.meta.url));
const EXAMPLES = path.resolve(HERE, '../../../examples');
const JOBS = [['first', 'job'], ['article', 'article'], ['article', 'edges'], ['cross_reference', 'job'], ['database_error', 'job']];
const SMALL = {
  'a.aux': '\\citation{k}\n\\bibdata{d}\n\\bibstyle{s}\n',
  's.bst': 'ENTRY {title}{}{}\nFUNCTION {misc} {title write$ newline$}\nREAD\nITERATE {call.type$}\n',
  'd.bib': '@misc{k, title = {Äpfel}}\n',
};

for (const [folder, job] of JOBS) {
  const at = path.join(EXAMPLES, folder);
  if (!existsSync(path.join(at, `${job}.bbl`))) continue;
  test(`${folder}/${job} has the list and the log that lie beside it`, () => {
    const made = run(job, finderIn(at, {}), DEFAULTS);
    assert.deepEqual(Buffer.from(made.list), readFileSync(path.join(at, `${job}.bbl`)));
    assert.deepEqual(Buffer.from(made.log), readFileSync(path.join(at, `${job}.blg`)));
  });
}

test('a job of texts', () => {
  const made = run('a', SMALL);
  assert.equal(textOf(made.list), 'Äpfel\n');
  assert.deepEqual(made.report, { status: 0, end: 'finished', steps: 5, deepest: 1, warnings: 0, errors: 0 });
  assert.deepEqual(made.files, ['a.aux', 's.bst', 'd.bib'].map((name) => ({ name, isThere: true })));
});

test('a missing file is none, and a job may have none at all', () => {
  const made = run('a', { ...SMALL, 'd.bib': null });
  assert.deepEqual(made.messages.filter(({ kind }) => kind === 'error').map(({ text }) => text), ["I couldn't open database file d.bib"]);
  assert.equal(run('a', {}).report.end, 'no top file');
  assert.equal(run('constructor', {}).report.end, 'no top file');
});

test('messages have their places, functions and entries', () => {
  const made = run('a', { ...SMALL, 's.bst': 'ENTRY {title}{}{}\nFUNCTION {misc} {title #1 + pop$}\nREAD\nITERATE {call.type$}\n', 'd.bib': '@misc{k,\n title x}' });
  assert.deepEqual(made.messages.filter(({ kind }) => kind === 'error'), [
    { kind: 'error', met: 'databases', text: 'I was expecting an =', line: 2, file: 'd.bib' },
    { kind: 'error', met: 'execution', text: 'missing field is not an integer', function: '+', entry: 'k' },
  ]);
});

test('a line of the log is what its event says, whatever it looks like', () => {
  const body = '#10 int.to.chr$ "Error--x--line 1 of file d.bib" * top$ "y--line 2 of file d.bib" warning$ "string of 5 bytes" warning$';
  const { events, messages, log } = run('a', { ...SMALL, 's.bst': `ENTRY {title}{}{}\nFUNCTION {misc} {${body}}\nREAD\nITERATE {call.type$}\n` });
  assert.deepEqual(messages.slice(3), [
    { kind: 'shown', met: 'execution', text: '"\nError--x--line 1 of file d.bib"' }, { kind: 'warning', met: 'execution', text: 'y--line 2 of file d.bib' },
    { kind: 'warning', met: 'execution', text: 'string of 5 bytes' }, { kind: 'ended', met: 'end', text: messages.at(-1).text },
  ]);
  assert.deepEqual(events.map(({ kind, met, entry }) => `${kind} ${met} ${entry}`), ['plain files null', 'plain files null', 'plain files null', 'plain execution 0',
    'warning execution 0', 'warning execution 0', 'plain end null']);
  const parts = events.map(({ at, length }) => `${textOf(log.subarray(at, at + length))}\n`);
  assert.equal(parts.join(''), textOf(log));
});

test('a string that is cut names its function and its entry', () => {
  const style = 'ENTRY {title}{}{v}\nFUNCTION {misc} {title \'v :=}\nREAD\nITERATE {call.type$}\n';
  const { messages } = run('a', { ...SMALL, 's.bst': style }, { entryMax: 2 });
  assert.deepEqual(messages.filter(({ kind }) => kind === 'warning'), [{ kind: 'warning', met: 'execution', text: 'string of 6 bytes cut to 2', function: ':=', entry: 'k' }]);
});

// A style that does this so often, counted by `i`.
const often = (count, body) => `ENTRY {}{}{}\nINTEGERS {i}\nFUNCTION {f} {#0 'i := {i #${count} <} {${body} i #1 + 'i :=} while$}\nREAD\nEXECUTE {f}\n`;
const LONG = 'x'.repeat(70);

for (const [what, body] of [['list', `"${LONG}" write$ newline$`], ['log', `"${LONG}" warning$`]]) {
  test(`a ${what} that is longer than its first room is whole, and one past its most is an error that names it`, () => {
    const files = { ...SMALL, 's.bst': often(40_000, body) };
    const made = run('a', files);
    assert.equal(made.report.end, 'finished');
    assert.ok(made[what].length > 2_000_000);
    assert.equal(textOf(made[what]).split(LONG).length, 40_001);
    assert.throws(() => run('a', files, { mostList: 1_500_000, mostLog: 1_500_000 }), (error) => error instanceof OutputTooLong && error.output === what && error.most === 1_500_000);
  });
}

test('a job with more lines than the first room has them all', () => {
  const count = 20_000;
  const { events, messages, report } = run('a', { ...SMALL, 's.bst': often(count, '"x" warning$') });
  assert.equal(messages.filter(({ kind, text }) => kind === 'warning' && text === 'x').length, count);
  assert.equal(events.filter(({ kind }) => kind === 'warning').length, report.warnings);
});

test('a database is data', () => {
  const text = '@comment text\n@preamble{"p"}\n@string{s = "S"}\n@Book{Key,\n  Title = {A  title} # s,\n  month = m\n}\n@misc{key}\n@misc{z, title}\n';
  const { entries, strings, preambles, comments, messages } = read(text, { file: 'd.bib', strings: { m: 'May' } });
  assert.deepEqual(entries.map(({ type, key, line, fields }) => [type, key, line, fields.map((it) => [it.name, it.text, it.line])]), [
    ['Book', 'Key', 4, [['Title', 'A titleS', 5], ['month', 'May', 6]]], ['misc', 'key', 8, []], ['misc', 'z', 9, []],
  ]);
  assert.equal(text.slice(entries[0].start, entries[0].end), text.slice(text.indexOf('@Book'), text.indexOf('\n@misc')));
  const [title] = entries[0].fields;
  assert.equal(text.slice(title.start, title.end), 'Title = {A  title} # s');
  assert.deepEqual([strings, preambles].map(([it]) => [it.name, it.text, it.line]), [['s', 'S', 3], [undefined, 'p', 2]]);
  assert.equal(comments[0].start, 0);
  const at = text.lastIndexOf('}');
  assert.deepEqual(messages, [{ kind: 'error', text: 'I was expecting an =', line: 9, file: 'd.bib', start: at, end: at }]);
});

test('a database of long values, of many records, and of none', () => {
  const long = read(`@string{s = "${'x'.repeat(60_000)}"}\n${'@misc{a, t = s, u = s # s}\n'.repeat(10)}@misc{b, t = {${'y'.repeat(1_000_001)}}}`);
  assert.deepEqual(long.entries.map(({ fields }) => fields.map((it) => it.text?.length)), [...Array(10).fill([60_000, 120_000]), [undefined]]);
  assert.equal(read('@a{,b=1}'.repeat(5000)).entries.length, 5000);
  assert.deepEqual(read(''), { entries: [], strings: [], preambles: [], comments: [], messages: [] });
  assert.throws(() => read(5), { name: 'TypeError', message: /^the database has to be/ });
  assert.throws(() => read('', { strings: { a: 5 } }), { name: 'TypeError', message: /^the string a has to be/ });
});

test('options out of their ranges are refused', () => {
  for (const options of [{ line: 19 }, { line: 1001 }, { entryMax: 0 }, { globalMax: 1_000_001 }, { budget: -1 }, { budget: 1.5 }, { text: 'utf16' }, { lines: 3 }]) {
    assert.throws(() => run('a', SMALL, options), OptionRefused);
  }
});

test('an undefined option is not given, and a refusal says what is wanted', () => {
  assert.equal(run('a', SMALL, { budget: undefined, line: undefined, text: undefined }).report.end, 'finished');
  const refusals = [[{ line: '79' }, "line can't be '79': a whole number from 20 to 1000"], [{ mostList: -1 }, /^mostList can't be -1: .* 4294967295$/],
    [{ mostLog: NaN }, /^mostLog can't be NaN/], [{ mostList: 1.5 }, /^mostList/], [{ toString: 1 }, /^toString can't be 1: there is no such option/], [{ budget: 2n ** 64n }, /^budget/]];
  for (const [options, message] of refusals) assert.throws(() => run('a', SMALL, options), { name: 'OptionRefused', message });
  for (const options of [null, 5, 'utf8']) assert.throws(() => run('a', SMALL, options), TypeError);
  for (const steps of [-1, 1.5, '5']) assert.throws(() => check(SMALL['s.bst'], 's.bst', steps), OptionRefused);
  for (const bytes of [-1, NaN, 2 ** 70]) assert.throws(() => library().limitMemory(bytes), OptionRefused);
});

test('what is neither text nor bytes is refused by its name', () => {
  const message = (text) => ({ name: 'TypeError', message: text });
  assert.throws(() => run('a', async (name) => SMALL[name]), message(/^the file a\.aux has to be a string or a Uint8Array, not an object \(Promise\); await it/));
  for (const content of [5, false, {}, [1], new ArrayBuffer(1), new Uint16Array(1)]) assert.throws(() => run('a', () => content), message(/^the file a\.aux has to be/));
  for (const job of [undefined, null, 5, ['a']]) assert.throws(() => run(job, SMALL), message(/^the job has to be/));
  for (const find of [undefined, null, 5]) assert.throws(() => run('a', find), message(/^the files have to be/));
  assert.throws(() => check(undefined), message(/^the style has to be/));
  assert.equal(textOf(run('a', new Map(Object.entries(SMALL))).list), 'Äpfel\n');
});

test("a job's name with a line end is refused at once, and so is an empty one", () => {
  for (const job of ['a\nb', '', Uint8Array.of(97, 10)]) assert.throws(() => run(job, SMALL), { name: 'RangeError', message: /^the job's name/ });
});

test('a finder that throws or calls the library spoils no job', () => {
  const own = new Error('mine');
  assert.throws(() => run('a', () => { throw own; }), (error) => error === own);
  for (const call of [() => run('a', SMALL), () => check(SMALL['s.bst'])]) {
    assert.throws(() => run('a', (name) => { call(); return SMALL[name]; }), /a finder can't call the library/);
    assert.equal(textOf(run('a', SMALL).list), 'Äpfel\n');
  }
});

test('a budget may have more than 32 bits', () => assert.equal(run('a', SMALL, { budget: 2 ** 32 }).report.end, 'finished'));

test('a style without end stops at its budget, and one that writes without end at its room', () => {
  const endless = (body) => ({ ...SMALL, 's.bst': `ENTRY {}{}{}\nFUNCTION {f} {{#1} {${body}} while$}\nREAD\nEXECUTE {f}\n` });
  assert.deepEqual(run('a', endless('skip$'), { budget: 1000 }).report.end, 'stopped');
  assert.throws(() => run('a', endless('"x" write$ newline$'), { mostList: 100_000 }), OutputTooLong);
});

test('want of memory is answered, and the next job goes on', async () => {
  const library = await Library.of(readFileSync(path.resolve(HERE, '../btx.wasm')));
  let refused = 0;
  for (let place = 0; place < 100; place++) {
    library.limitMemory(place * 40_000);
    try {
      assert.equal(textOf(library.run('a', SMALL).list), 'Äpfel\n');
    } catch (error) {
      assert.ok(error instanceof MemoryRefused, String(error));
      refused += 1;
    }
  }
  assert.ok(refused > 10 && refused < 100, `${refused} refused`);
  library.limitMemory(2 ** 40);
  assert.equal(textOf(library.run('a', SMALL).list), 'Äpfel\n');
});

test('a thousand jobs take no more memory than one', async () => {
  const { instance } = await WebAssembly.instantiate(readFileSync(path.resolve(HERE, '../btx.wasm')), {});
  const library = new Library(instance.exports);
  library.run('a', SMALL);
  const before = instance.exports.memory.buffer.byteLength;
  for (let turn = 0; turn < 1000; turn++) library.run('a', SMALL);
  assert.equal(instance.exports.memory.buffer.byteLength, before);
});

test('a style is checked', () => {
  const clean = check(readFileSync(path.join(EXAMPLES, 'article/article.bst')));
  assert.equal(clean.verdict, 'clean');
  assert.ok(clean.types.includes('article'));
  const faulty = check('ENTRY {title}{}{} FUNCTION {misc} {title #1 + pop$} READ ITERATE {call.type$}');
  assert.equal(faulty.verdict, 'warnings');
  assert.deepEqual(faulty.warnings[0].at, { line: 1, token: 2, function: 'misc', isInBraces: false });
});

test('the command writes list and log, and ends with the status of the run', () => inRoom({}, (room) => {
  for (const [name, text] of Object.entries(SMALL)) writeFileSync(path.join(room, name), text);
  const ran = spawnSync(process.execPath, [COMMAND, 'a'], { cwd: room, encoding: 'utf8' });
  assert.equal(ran.status, 0, ran.stderr);
  assert.equal(readFileSync(path.join(room, 'a.bbl'), 'utf8'), 'Äpfel\n');
  assert.equal(readFileSync(path.join(room, 'a.blg'), 'utf8'), ran.stdout);
  assert.equal(spawnSync(process.execPath, [COMMAND, '--line', '19', 'a'], { cwd: room }).status, 1);
  assert.equal(spawnSync(process.execPath, [COMMAND, 'missing'], { cwd: room }).status, 3);
  assert.equal(spawnSync(process.execPath, [COMMAND, '--budget', '1', 'a'], { cwd: room }).status, 4);
  assert.equal(spawnSync(process.execPath, [COMMAND], { cwd: room }).status, 1);
  assert.match(spawnSync(process.execPath, [COMMAND, '--help'], { cwd: room, encoding: 'utf8' }).stdout, /^btx \[OPTION\]/);
}));

test('the command says which words are wrong, and which file is missing', () => inRoom({}, (room) => {
  for (const [name, text] of Object.entries(SMALL)) writeFileSync(path.join(room, name), text);
  const said = (...words) => spawnSync(process.execPath, [COMMAND, ...words], { cwd: room, encoding: 'utf8' });
  const refused = [[['--line', 'x', 'a'], "--line needs a whole number, not 'x'"], [['--min-crossrefs', '9999999999', 'a'], "--min-crossrefs can't be 9999999999"],
    [['--text', 'UTF8', 'a'], "--text can't be 'UTF8': one of bytes, utf8, auto"], [['a\nb'], "a job's name can't"], [[''], "a job's name can't"]];
  for (const [words, error] of refused) {
    const { status, stderr } = said(...words);
    assert.deepEqual([status, stderr.includes(error)], [1, true], stderr);
  }
  assert.equal(said('--budget', '18446744073709551615', 'a').status, 0);
  assert.match(said('paper.tex').stderr, /there is no paper\.tex\.aux: run LaTeX first/);
}));

test('the package says what was proved of its module', () => assert.match(proof(), /^(?:logic=proved .*functions=[1-9]|unproved)/));

test('the types name what the modules export', async () => {
  for (const name of ['index', 'letters', 'library', 'messages']) {
    const types = ['library', 'letters', name].map((file) => readFileSync(path.resolve(HERE, `../${file}.d.ts`), 'utf8')).join('\n');
    for (const word of Object.keys(await import(`../${name}.js`))) assert.match(types, new RegExp(`export (const|function|class) ${word}\\b`));
  }
});

test('control characters of a name are not printed', () => inRoom({}, (room) => {
  writeFileSync(path.join(room, 'a.aux'), '\\citation{\u001b[2J}\n\\bibdata{d}\n\\bibstyle{s}\n');
  for (const name of ['s.bst', 'd.bib']) writeFileSync(path.join(room, name), SMALL[name]);
  const ran = spawnSync(process.execPath, [COMMAND, 'a'], { cwd: room, encoding: 'utf8' });
  assert.ok(!ran.stdout.includes('\u001b'));
  assert.ok(readFileSync(path.join(room, 'a.blg'), 'utf8').includes('\u001b'));
}));

test('files are found along BIBINPUTS and BSTINPUTS, below a folder too', () => inRoom({}, (room) => {
  const deep = path.join(room, 'styles', 'deep');
  cpSync(EXAMPLES, path.join(room, 'styles'), { recursive: true });
  cpSync(path.join(EXAMPLES, 'first'), deep, { recursive: true });
  writeFileSync(path.join(deep, 'only.bst'), 'x');
  const find = finderIn(room, { BSTINPUTS: `styles//`, BIBINPUTS: deep });
  assert.equal(String(find('only.bst')), 'x');
  assert.deepEqual(find('d.bib'), readFileSync(path.join(EXAMPLES, 'first/d.bib')));
  assert.equal(find('only.aux'), undefined);
  assert.ok(readdirSync(deep).length > 0);
}));
