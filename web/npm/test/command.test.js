// What the command says as data, when it is strict, and how it takes its words.
import assert from 'node:assert/strict';
import { existsSync, readFileSync } from 'node:fs';
import path from 'node:path';
import test from 'node:test';
import { run } from '../index.js';
import { dataOf, isStrictlyWrong, lineOf } from '../messages.js';
import { btx, inRoom } from '../testing.js';

const STYLE = 'ENTRY {title}{}{}\nFUNCTION {misc} {title write$ newline$}\nREAD\nITERATE {call.type$}\n';
const GOOD = { 'a.aux': '\\citation{k}\n\\bibdata{d}\n\\bibstyle{s}\n', 's.bst': STYLE, 'd.bib': '@misc{k, title = {T}}\n' };
const lines = ({ stdout }) => stdout.split('\n').slice(0, -1).map((line) => JSON.parse(line));
const aux = (text) => ({ ...GOOD, 'a.aux': text });
const bib = (text) => ({ ...GOOD, 'd.bib': text });
const says = (body) => ({ ...GOOD, 's.bst': STYLE.replace('newline$', `newline$ ${body}`) });

test('each message is a line of JSON, and the last line is the report', () => inRoom({ ...GOOD, 'd.bib': '@misc{k,\n title x}\n', 's.bst': STYLE.replace('title write$', 'title #1 +') }, (room) => {
  const ran = btx(room, '--json', 'a');
  assert.deepEqual(lines(ran), [
    { severity: 'error', kind: 'database', text: 'I was expecting an =', line: 2, file: 'd.bib' },
    { severity: 'error', kind: 'execution', text: 'missing field is not an integer', function: '+', entry: 'k' },
    { severity: 'error', kind: 'execution', text: "The literal stack isn't empty", function: 'ITERATE', entry: 'k' },
    { kind: 'report', status: 2, end: 'finished', steps: 6, deepest: 1, warnings: 0, errors: 3 },
  ]);
  assert.equal(ran.status, 2);
  assert.ok(existsSync(path.join(room, 'a.bbl')));
}));

const CASES = [
  ['a citation without an entry', aux('\\citation{k,gone}\n\\bibdata{d}\n\\bibstyle{s}\n'), { severity: 'warning', kind: 'missing entry', entry: 'gone' }, [0, 2]],
  ['a repeated entry', bib('@misc{k, title = {T}}\n@misc{K}\n'), { severity: 'error', kind: 'repeated entry', file: 'd.bib', line: 2 }, [2, 2]],
  ['a missing database', aux('\\citation{k}\n\\bibdata{d,gone}\n\\bibstyle{s}\n'), { severity: 'error', kind: 'missing database', file: 'gone.bib' }, [2, 2]],
  ['a missing style', aux('\\citation{k}\n\\bibdata{d}\n\\bibstyle{gone}\n'), { severity: 'error', kind: 'missing style', file: 'gone.bst' }, [2, 2]],
  ['a warning of the style', { ...GOOD, 's.bst': STYLE.replace('newline$', 'newline$ "look" warning$') }, { severity: 'warning', kind: 'execution', text: 'look' }, [0, 0]],
  ['a warning of the style that looks like another', says(`"I didn't find a database entry for " quote$ * "k" * quote$ * warning$`), { severity: 'warning', kind: 'execution' }, [0, 0]],
  ['a line of the style that looks like an error', says('#10 int.to.chr$ "Error--Repeated entry--line 1 of file d.bib" * top$'), undefined, [0, 0]],
  ['an undefined string', bib('@misc{k, title = zz}\n'), { severity: 'warning', kind: 'database', file: 'd.bib', line: 1 }, [0, 0]],
  ['a bad cross reference', bib('@misc{k, title = {T}, crossref = {gone}}\n'), { severity: 'error', kind: 'cross reference', entry: 'k' }, [2, 2]],
  ['a name with a byte 0', aux('\\citation{k}\n\\bibdata{d,a\u0000b}\n\\bibstyle{s}\n'), { severity: 'error', kind: 'missing database' }, [2, 2]],
  ['nothing', GOOD, undefined, [0, 0]],
];
for (const [what, files, wanted, [usual, strict]] of CASES) {
  test(`${what}: status ${usual}, and ${strict} with --strict`, () => inRoom(files, (room) => {
    assert.equal(btx(room, '--terse', 'a').status, usual);
    const ran = btx(room, '--strict', '--json', 'a');
    assert.equal(ran.status, strict);
    const found = lines(ran);
    assert.equal(found.at(-1).status, strict);
    if (wanted) assert.deepEqual({ ...found[0], ...wanted }, found[0]);
    else assert.equal(found.length, 1);
  }));
}

test('a stopped run keeps its status with --strict', () => inRoom(aux('\\citation{k,gone}\n\\bibdata{d}\n\\bibstyle{s}\n'), (room) => {
  assert.equal(btx(room, '--strict', '--terse', '--budget', '1', 'a').status, 4);
}));

test('an option has one hyphen or two, and a word after -- is the job', () => inRoom({ ...GOOD, '-a.aux': GOOD['a.aux'] }, (room) => {
  assert.equal(btx(room, '-terse', '-line=40', 'a').status, 0);
  assert.equal(btx(room, '-terse', '--', '-a').status, 0);
  assert.ok(existsSync(path.join(room, '-a.bbl')));
  assert.equal(btx(room, '-nosuch', 'a').status, 1);
}));

test('a line of JSON is one line, whatever its text has', () => {
  const line = lineOf({ text: 'a\nb\u2028c\u202ed\u009be\u001b"' });
  assert.match(line, /^[\x20-\x7e]+\n$/);
  assert.equal(JSON.parse(line).text, 'a\nb\u2028c\u202ed\u009be\u001b"');
});

test('messages are data without the command, too', () => {
  const { messages } = run('a', { ...GOOD, 'd.bib': '@misc{j, crossref = {k}}' });
  assert.deepEqual(dataOf(messages), [{ severity: 'warning', kind: 'missing entry', entry: 'k', text: 'I didn\'t find a database entry for "k"' }]);
  assert.ok(isStrictlyWrong(dataOf(messages)));
  assert.ok(!isStrictlyWrong(dataOf(run('a', GOOD).messages)));
});

test('the log is written with --json, too', () => inRoom(GOOD, (room) => {
  btx(room, '--json', 'a');
  assert.match(readFileSync(path.join(room, 'a.blg'), 'utf8'), /^Ended: finished/m);
}));
