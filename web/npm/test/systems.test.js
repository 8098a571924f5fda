// What other systems have: paths and drives of Windows, by Node's rules for them over files in memory, and line ends of two bytes.
import assert from 'node:assert/strict';
import path from 'node:path';
import test from 'node:test';
import { run, textOf } from '../index.js';
import { finderIn, foldersOf } from '../search.js';

const STYLE = 'ENTRY {title}{}{}\nFUNCTION {misc} {title write$ newline$}\nREAD\nITERATE {call.type$}\n';
const AUX = '\\citation{k}\n\\bibdata{d}\n\\bibstyle{s}\n';
const BIB = '@misc{k, title = {T}}\n';

// A system with these files, whose names are whole paths of it.
function systemOf(files, rules, places = {}) {
  const folders = new Set();
  for (const name of Object.keys(files)) for (let at = rules.dirname(name); !folders.has(at); at = rules.dirname(at)) folders.add(at);
  return {
    path: { ...rules, resolve: (...parts) => rules.resolve(rules === path.win32 ? 'C:\\work' : '/work', ...parts) },
    content: (file) => files[file],
    foldersIn: (folder) => [...folders].filter((it) => it !== folder && rules.dirname(it) === folder).map((it) => rules.basename(it)),
    placeOfTeX: (name) => places[name] ?? '',
  };
}

const listOf = (job, system, environment = {}) => textOf(run(job, finderIn('.', environment, system)).list);
const windows = (files, places) => systemOf(files, path.win32, places);
const TOP = { 'C:\\work\\a.aux': AUX };

test('search paths of Windows and of others', () => {
  assert.deepEqual(foldersOf('a:b//:', path.posix), [{ folder: 'a', isDeep: false }, { folder: 'b', isDeep: true }, null]);
  assert.deepEqual(foldersOf('C:\\tex;D:\\bib\\\\', path.win32), [{ folder: 'C:\\tex', isDeep: false }, { folder: 'D:\\bib', isDeep: true }]);
  assert.deepEqual(foldersOf('C:/tex//;;', path.win32), [{ folder: 'C:/tex', isDeep: true }, null, null]);
  assert.deepEqual(foldersOf('//', path.posix), [{ folder: '/', isDeep: true }]);
});

test('a job in a folder of Windows', () => {
  assert.equal(listOf('a', windows({ ...TOP, 'C:\\work\\s.bst': STYLE, 'C:\\work\\d.bib': BIB })), 'T\n');
});

for (const job of ['sub\\a', 'sub/a', 'C:\\work\\sub\\a', '.\\sub\\a']) {
  test(`a job in a folder below, named ${job}`, () => {
    assert.equal(listOf(job, windows({ 'C:\\work\\sub\\a.aux': AUX, 'C:\\work\\s.bst': STYLE, 'C:\\work\\d.bib': BIB })), 'T\n');
  });
}

for (const name of ['D:/texts/d', 'D:\\texts\\d', '..\\texts\\d', '../texts/d']) {
  test(`a database named ${name}`, () => {
    const there = name.startsWith('D') ? 'D:\\texts\\d.bib' : 'C:\\texts\\d.bib';
    assert.equal(listOf('a', windows({ 'C:\\work\\a.aux': AUX.replace('{d}', `{${name}}`), 'C:\\work\\s.bst': STYLE, [there]: BIB })), 'T\n');
  });
}

test('folders of another drive, and those below one', () => {
  const files = { ...TOP, 'D:\\styles\\deep\\er\\s.bst': STYLE, 'E:\\bib\\d.bib': BIB };
  assert.equal(listOf('a', windows(files), { BSTINPUTS: 'D:\\styles\\\\', BIBINPUTS: 'D:\\none;E:\\bib' }), 'T\n');
  assert.equal(listOf('a', windows(files), { BSTINPUTS: 'D:/styles//', BIBINPUTS: 'E:/bib' }), 'T\n');
  assert.equal(listOf('a', windows(files), { BSTINPUTS: 'D:\\styles', BIBINPUTS: 'E:\\bib' }), '');
});

test('a database that is named with its drive is looked for there alone', () => {
  const asked = windows({ ...TOP, 'C:\\work\\a.aux': AUX.replace('{d}', '{D:/d}'), 'C:\\work\\s.bst': STYLE, 'E:\\bib\\D:\\d.bib': BIB });
  assert.equal(listOf('a', asked, { BIBINPUTS: 'E:\\bib' }), '');
});

test("TeX's own place is asked where the path has an empty part", () => {
  const files = { ...TOP, 'C:\\texlive\\s.bst': STYLE, 'C:\\work\\d.bib': BIB };
  assert.equal(listOf('a', windows(files, { 's.bst': 'C:\\texlive\\s.bst' })), 'T\n');
  assert.equal(listOf('a', windows(files, { 's.bst': 'C:\\texlive\\s.bst' }), { BSTINPUTS: 'D:\\none' }), '');
  assert.equal(listOf('a', windows(files, { 's.bst': 'C:\\texlive\\s.bst' }), { BSTINPUTS: 'D:\\none;' }), 'T\n');
});

test('line ends of two bytes come to the same list', () => {
  const two = (text) => text.replace(/\n/g, '\r\n');
  const database = '@misc{k,\n  title = {A title\n   on two lines},\n  note = "x" # { y}\n}\n@misc{l, title = "M"}\n';
  const files = { 'a.aux': AUX.replace('{k}', '{k,l}'), 's.bst': STYLE, 'd.bib': database };
  const made = run('a', files);
  assert.equal(textOf(made.list), 'A title on two lines\nM\n');
  for (const names of [['a.aux'], ['s.bst'], ['d.bib'], Object.keys(files)]) {
    const changed = { ...files, ...Object.fromEntries(names.map((name) => [name, two(files[name])])) };
    const { list, log } = run('a', changed);
    assert.deepEqual([textOf(list), textOf(log)], [textOf(made.list), textOf(made.log)], names.join());
  }
});

test('a message has its line where lines end by two bytes', () => {
  const { messages } = run('a', { 'a.aux': AUX, 's.bst': STYLE, 'd.bib': '@misc{k,\r\n  title = {A}\r\n  note = {x}}\r\n' });
  assert.deepEqual(messages.filter(({ kind }) => kind === 'error').map(({ line, file }) => [file, line]), [['d.bib', 3]]);
});

test('a system of other paths finds the same', () => {
  const files = { '/work/a.aux': AUX, '/styles/deep/s.bst': STYLE, '/work/bib/d.bib': BIB };
  assert.equal(listOf('a', systemOf(files, path.posix), { BSTINPUTS: '/styles//', BIBINPUTS: 'bib' }), 'T\n');
});
