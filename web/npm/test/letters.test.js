// Letters of a language: in lists, in messages, where they are left out, and the command's words. web/letters_check.py compares them with the front end's.
import assert from 'node:assert/strict';
import { readFileSync } from 'node:fs';
import path from 'node:path';
import test from 'node:test';
import { LETTERS, OptionRefused, library, run, textOf } from '../index.js';
import { lineOfHalfLetter, runWithLetters } from '../letters.js';
import { mayPrintKeys } from '../style_keys.js';
import { btx, inRoom } from '../testing.js';

const AUX = '\\citation{k}\n\\bibdata{d}\n\\bibstyle{s}\n';
const job = (body, author = 'Émile Zola') => ({
  'a.aux': AUX, 'd.bib': `@misc{k, author = {${author}}}\n`, 's.bst': `ENTRY {author}{}{}\nFUNCTION {misc} {${body} write$ newline$}\nREAD\nITERATE {call.type$}\n`,
});
const listOf = (files, options) => textOf(run('a', files, options).list);

const SORTED = `ENTRY {author}{}{}\nFUNCTION {misc} {author write$ newline$}\nFUNCTION {f} {author purify$ 'sort.key$ :=}\nREAD\nITERATE {f}\nSORT\nITERATE {call.type$}\n`;
const NAMES = ['Öberg', 'Åkesson', 'Zorn', 'Ärlig', 'Olsen'];
for (const [letters, wanted] of [['no', 'Olsen Zorn Ärlig Åkesson Öberg'], ['sv', 'Olsen Zorn Åkesson Ärlig Öberg'], ['de', 'Åkesson Ärlig Öberg Olsen Zorn']]) {
  test(`names are sorted as ${letters} has them`, () => {
    const files = { 'a.aux': AUX.replace('{k}', '{*}'), 's.bst': SORTED, 'd.bib': NAMES.map((name, number) => `@misc{k${number}, author = {${name}}}\n`).join('') };
    assert.equal(listOf(files, { letters }).trim().split('\n').join(' '), wanted);
  });
}

test('letters have a case, and are abbreviated', () => {
  assert.equal(listOf(job('author "u" change.case$', 'straße {é}é'), { letters: 'de' }), 'STRASSE {é}É\n');
  assert.equal(listOf(job('author "l" change.case$', 'IŞIK İnan'), { letters: 'tr' }), 'ışık inan\n');
  assert.equal(listOf(job('author #1 "{f.} {ll}" format.name$'), { letters: 'fr' }), 'É. Zola\n');
  assert.equal(listOf(job('author "u" change.case$', 'ƛ'), { letters: 'en' }), '\ua7dc\n');
  assert.equal(listOf(job('author "l" change.case$', '\ua7dc'), { letters: 'en' }), 'ƛ\n');
  assert.equal(listOf(job('author "t" change.case$', 'A ǅ ǈ ǋ ǲ'), { letters: 'hr' }), 'A ǆ ǉ ǌ ǳ\n');
});

test('messages have the letters, and their places in the log', () => {
  const { log, events, messages } = run('a', job('author warning$ author top$ author'), { letters: 'fr' });
  assert.deepEqual(messages.filter(({ kind }) => kind === 'warning').map(({ text }) => text), ['Émile Zola']);
  assert.equal(events.map(({ at, length }) => `${textOf(log.subarray(at, at + length))}\n`).join(''), textOf(log));
});

const LEFT_OUT = [
  ['author purify$', undefined, 'the style prints text that it made for sorting'], ['author #1 #3 substring$', undefined, 'the style cuts text by bytes'],
  ['author', Uint8Array.of(...Buffer.from('@misc{k, author = {'), 0xe9, ...Buffer.from('}}')), "an entry or a string isn't UTF-8"], ['author', '@misc{k, author = {é\u0001}}', 'the style, an entry or a string has control characters'],
  ['author write$ {#1} {} while$ author', undefined, "the run didn't finish"],
];
for (const [body, database, reason] of LEFT_OUT) {
  test(`letters are left out where ${reason}`, () => {
    const files = { ...job(body), ...(database === undefined ? {} : { 'd.bib': database }) };
    const made = run('a', files, { letters: 'fr', budget: 5000 });
    assert.equal(made.notes[0], `The list is made without -letters: ${reason}.`);
    assert.deepEqual(made.list, run('a', files, { budget: 5000, text: 'auto' }).list);
  });
}

const BAD = Buffer.concat([Buffer.from('@misc{other, author = {'), Buffer.of(0xe9, 1), Buffer.from('}}\n@comment{'), Buffer.of(0xe9), Buffer.from('}\n')]);

test('entries that the list does not have are of no matter', () => {
  const files = job('author #1 "{f.} {ll}" format.name$');
  const made = run('a', { ...files, 'd.bib': Buffer.concat([BAD, Buffer.from(files['d.bib'])]) }, { letters: 'fr' });
  assert.deepEqual([textOf(made.list), made.notes], ['É. Zola\n', []]);
});

test('a parent is found by its key in a string, and its letters count', () => {
  const style = 'ENTRY {title}{}{}\nFUNCTION {misc} {title "u" change.case$ write$ newline$}\nREAD\nITERATE {call.type$}\n';
  for (const crossref of ['s', '{é}', '"" # S']) {
    const files = { 'a.aux': AUX, 's.bst': style, 'd.bib': `@string{s = {é}}\n@misc{k, crossref = ${crossref}}\n@misc{é, title = {Ö{ä}ü}}\n` };
    assert.equal(listOf(files, { letters: 'de' }), 'Ö{ä}Ü\n', crossref);
  }
});

test('fields that are taken apart stay, with the strings that they name', () => {
  const style = 'ENTRY {number}{}{}\nFUNCTION {misc} {number purify$ pop$ number #1 #2 substring$ write$ newline$}\nREAD\nITERATE {call.type$}\n';
  for (const number of ['{é–ö}', 's', 'T # s']) {
    const files = { 'a.aux': AUX, 's.bst': style, 'd.bib': `@string{t = {é}}@string{s = t # {ö}}\n@misc{k, number = ${number}, title = {ö}}\n` };
    const made = run('a', files, { letters: 'de', text: 'bytes' });
    assert.deepEqual([textOf(made.list), made.notes], ['é\n', []], number);
  }
});

test('an entry may stand in the text of one that is read after it', () => {
  const files = { ...job('author "l" change.case$'), 'a.aux': AUX.replace('{k}', '{inner,k}'), 'd.bib': '@misc{outer, author = {é @misc{inner, author = {ö}} @misc{k, author = {ü}}}}\n@misc{k, author = {aÉ}, crossref = {outer}}\n' };
  assert.equal(listOf(files, { letters: 'de' }), 'aé\n');
});

// Whether a style with this body may print keys of the field `t`.
const mayPrint = (body) => mayPrintKeys(Buffer.from(`ENTRY {t year}{}{label} STRINGS {s} INTEGERS {n}\nFUNCTION {key} {purify$ "l" change.case$}\nFUNCTION {misc} { ${body} }\nREAD\nITERATE {call.type$}\n`), ['misc']);

test('a style shows by its text whether it may print keys', () => {
  const never = [
    "t key 'sort.key$ := t write$", "#1 {t} 'skip$ if$ write$", "year purify$ #-1 #2 substring$ 's := t s * write$", 't empty$ {""} {t key} if$ pop$ t write$', 't #4 #999 substring$ write$', "t key label = 'skip$ {t write$} if$",
    "t 's := {n #0 >} {n #1 > {\", \" * s *} 's if$ n #1 - 'n :=} while$ write$ s key 'sort.key$ :=", '#-0002 pop$',
  ];
  const sometimes = [
    't purify$ write$', "t key 's := s write$", "s write$ t key 's :=", "t key 'label := label #1 #3 substring$ write$", 't key "x" swap$ write$ pop$', "{n #0 >} {s write$ t purify$ 's :=} while$",
    "{n #0 >} {t n #1 substring$ s * 's :=} while$ s write$", 't purify$', "sort.key$ write$ t purify$ 'sort.key$ :=",
  ];
  const unknown = ["t 'n write$ if$", 'unknown', 't "', "t 'misc :=", "#1 't 'n if$ if$", '#2147483648 pop$', '#- pop$', '# pop$', '"a"b pop$', `${'#1 { '.repeat(300)}t write$${" } 'skip$ if$".repeat(300)}`];
  for (const body of never) assert.equal(mayPrint(body), false, body);
  for (const body of [...sometimes, ...unknown]) assert.equal(mayPrint(body), true, body);
});

test('nothing is said of a list whose letters are whole', () => {
  assert.deepEqual(run('a', job('author'), { letters: 'fr' }).notes, []);
  assert.deepEqual(run('a', job('author', 'Zola'), { letters: 'cs' }).notes, []);
});

test('a list has no half letter in silence', () => {
  const files = job('author #1 text.prefix$');
  assert.deepEqual([listOf(files, { text: 'auto' }), run('a', files, { text: 'auto' }).notes], ['É\n', ['The list is made with -text=utf8: read by bytes, it would have half a letter, which LaTeX refuses.']]);
  assert.deepEqual(runWithLetters(library(), 'a', files, { text: 'bytes' }).notes, ['Line 1 of the list has half a letter, which LaTeX refuses: try -text=utf8.']);
  assert.equal(run('a', files).notes, undefined);
});

test('a byte of a value in another encoding is no half letter, and hides none of another entry', () => {
  const style = job('"\\bibitem{" cite$ * "}" * write$ newline$ author #1 text.prefix$')['s.bst'];
  const files = { 'a.aux': AUX.replace('{k}', '{k,other}'), 's.bst': style, 'd.bib': Buffer.from('@misc{k, author = {\xC3\x89mile}}\n@misc{other, author = {\xE9, \xC3}}\n', 'latin1') };
  const { list, notes } = run('a', files, { text: 'auto' });
  assert.deepEqual([Buffer.from(list).toString('latin1'), notes.length], ['\\bibitem{k}\n\xC3\x89\n\\bibitem{other}\n\xE9\n', 1]);
  assert.deepEqual(run('a', { ...files, 'a.aux': AUX.replace('{k}', '{other}') }, { text: 'auto' }).notes, []);
  assert.deepEqual(runWithLetters(library(), 'a', files, { text: 'bytes' }).notes, ['Line 2 of the list has half a letter, which LaTeX refuses: try -text=utf8.']);
});

test('half letters have their lines', () => {
  for (const [bytes, isStopped, line] of [['C389', false, 0], ['C3', false, 1], ['610AC3', true, 0], ['610AC30A', true, 2], ['EDA080', false, 1], ['F48FBFBF', false, 0], ['F4908080', false, 1], ['E08080', false, 1], ['0A0A89', false, 3], ['C080', false, 1]]) {
    assert.equal(lineOfHalfLetter(Buffer.from(bytes, 'hex'), isStopped), line, bytes);
  }
});

test('a language that is not there is refused, and so is one in a call of the library itself', () => {
  assert.ok(LETTERS.includes('sv') && LETTERS.length === 19);
  for (const letters of ['xx', '', 'DE', 1]) assert.throws(() => run('a', job('author'), { letters }), (error) => error instanceof OptionRefused && error.option === 'letters');
  assert.throws(() => library().run('a', job('author'), { letters: 'sv' }), OptionRefused);
  assert.throws(() => run('a', job('author'), { letters: 'sv', nosuch: 1 }), /there is no such option/);
});

test('files are found once', () => {
  const asked = [];
  const files = job('author');
  run('a', (name) => { asked.push(name); return files[name]; }, { letters: 'fr' });
  assert.deepEqual(asked, ['a.aux', 's.bst', 'd.bib']);
});

test('the command has them', () => inRoom(job('author #1 "{f.} {ll}" format.name$'), (room) => {
  const read = () => readFileSync(path.join(room, 'a.bbl'), 'utf8');
  assert.equal(btx(room, '-letters=fr', 'a').status, 0);
  assert.equal(read(), 'É. Zola\n');
  assert.equal(btx(room, '-letters=no', 'a').status, 0);
  assert.equal(read(), ' Zola\n');
  const refused = btx(room, '-letters=xx', 'a');
  assert.deepEqual([refused.status, refused.stderr.includes("--letters can't be 'xx': one of no, plain, de")], [1, true]);
}));

test('the command says what became of the letters, in the log and as data', () => inRoom(job('author purify$'), (room) => {
  const said = 'The list is made without -letters: the style prints text that it made for sorting.';
  assert.ok(btx(room, '-letters=fr', 'a').stdout.startsWith(`${said}\n`));
  assert.ok(readFileSync(path.join(room, 'a.blg'), 'utf8').startsWith(`${said}\n`));
  assert.deepEqual(JSON.parse(btx(room, '-letters=fr', '-json', 'a').stdout.split('\n')[0]), { severity: 'note', kind: 'letters', text: said });
}));
