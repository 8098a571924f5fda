// Looks at the page as a reader does, in a headless chromium: each pane, messages and their places, styles, hostile texts, stop, files, keyboard, links, dark, phone.
//
//     node web/page/check.mjs [PICTURES]
//
// It needs web/out/btx.html (web/page/build.py) and Debian's chromium; where that isn't there, a line says so. Into the folder PICTURES it puts some pictures of the page.
// The last line is 'N passed, M failed'.
import { mkdirSync, readFileSync, writeFileSync } from 'node:fs';
import path from 'node:path';
import { fileURLToPath, pathToFileURL } from 'node:url';
import { deflateRawSync } from 'node:zlib';
import { proofOf } from '../npm/library.js';
import { Browser, program } from './browser.mjs';

const HERE = path.dirname(fileURLToPath(import.meta.url));
const PAGE = path.resolve(HERE, '../out/btx.html');
const EXAMPLES = path.resolve(HERE, '../../examples');
const pictures = process.argv[2];
let passed = 0;
let failed = 0;

function check(name, is) {
  if (is) passed += 1;
  else {
    failed += 1;
    console.log(`FAILED: ${name}`);
  }
}

const SHOW = 'ENTRY {title}{}{}\nFUNCTION {misc} {newline$ "\\bibitem{" cite$ * "}" * write$ newline$ title write$ newline$}\nREAD\nITERATE {call.type$}\n';
const AUX = '\\citation{*}\n\\bibdata{d}\n\\bibstyle{s}\n';

// The text of an element, and whether a run and the check of its style have ended since the last change.
const text = (id) => `document.getElementById(${JSON.stringify(id)}).textContent`;
const ENDED = `${text('status')}.match(/^(Ended|Stopped|No result|Not run)/) !== null && !${text('panel-verdict')}.startsWith('Checking')`;

// Puts a job into the page: its document, database and style, and runs it.
async function put(page, { document = AUX, database = '', style = SHOW, name = 'a.aux', data = 'd.bib', file = 's.bst' }) {
  const set = (id, value) => `document.getElementById('${id}').value = ${JSON.stringify(value)};`;
  await page.ask(`${set('document', document)}${set('document-name', name)}${set('database', database)}${set('database-name', data)}${set('style', style)}${set('style-name', file)}
    document.getElementById('run').click()`);
  return page.until(ENDED);
}

const messages = (page) => page.ask("[...document.querySelectorAll('#messages li')].map((it) => [it.className, (it.querySelector('.words') ?? it).textContent, [...it.querySelectorAll('.place')].map((at) => at.textContent).join(' '), it.querySelector('small')?.textContent ?? ''])");
const list = (page) => page.ask(text('panel-list'));
const has = (rows, ...words) => rows.some((row) => words.every((word) => row.join(' | ').includes(word)));

async function firstSight(page) {
  check('the first job has run', await page.until(ENDED));
  const expected = readFileSync(path.join(EXAMPLES, 'article/article.bbl'), 'utf8');
  check('its list is that of the example', (await list(page)) === expected);
  check('its list reads as a list', (await page.ask("document.querySelectorAll('#panel-read ol li').length")) === expected.split('\\bibitem').length - 1);
  check('nothing of LaTeX is left in it', !/\\(em|newblock|bibitem)/.test(await page.ask(text('panel-read'))));
  check('its style is clean', (await page.ask(text('panel-verdict'))).startsWith('Clean:'));
  check('it has no message', (await messages(page))[0][1] === 'None.');
  check('the styles of the examples are there', (await page.ask("[...document.getElementById('style-which').options].map((it) => it.text).join()")).includes('small.bst'));
  check('each style says what it is for', await page.ask("[...document.getElementById('style-which').options].every((it) => /^\\w+\\.bst \\(.+\\)$/.test(it.text))"));
  check('the page says that it runs after each edit', (await page.ask("document.querySelector('.outputs').textContent")).includes('after each edit'));
  check('each field has a label', await page.ask("[...document.querySelectorAll('textarea, input, select')].every((it) => it.hidden || it.labels.length > 0 || it.ariaLabel)"));
  const verdict = proofOf(new WebAssembly.Module(readFileSync(path.resolve(HERE, '../out/btx.wasm'))));
  const said = await page.ask("document.querySelector('header').textContent + document.querySelector('footer').textContent");
  check('the page says whether its library is proved', verdict.startsWith('logic=proved ') !== said.includes('NOTHING OF THIS PAGE IS PROVED') && verdict.startsWith('logic=proved ') !== said.includes('nothing is proved'));
  check('the page asks for nothing from outside', await page.ask("performance.getEntriesByType('resource').every((it) => it.name.startsWith('blob:') || it.name.startsWith('data:'))"));
}

async function documents(page) {
  const document = '\\documentclass{article} % \\cite{no}\n\\cite{a}\\citep[see][p.~3]{b, c}\\nocite{d}\\textcite*{e}\n\\bibliography{d}\n\\bibliographystyle{s}\n';
  const database = ['a', 'b', 'c', 'd', 'e', 'no'].map((key) => `@misc{${key}, title={T${key}}}`).join('\n');
  await put(page, { document, name: 'paper.tex', database });
  const made = await list(page);
  check('citations are taken from a document', ['a', 'b', 'c', 'd', 'e'].every((key) => made.includes(`\\bibitem{${key}}`)));
  check('and none of a comment', !made.includes('{no}'));
  await put(page, { document: '\\cite{a} 50\\% of \\cite{b}', name: 'paper.tex', database });
  check('a percent sign with a backslash begins no comment', (await list(page)).includes('\\bibitem{b}'));
  await put(page, { document: '\\parencites[1]{a}[see][2]{b,\n  d}\\cite{c} {e}\\supercite{gone}', name: 'paper.tex', database });
  const several = await list(page);
  check('commands with several groups have a citation in each', ['a', 'b', 'c', 'd'].every((key) => several.includes(`{${key}}`)) && !several.includes('{e}'));
  check('and each has its line', has(await messages(page), '"gone"', 'paper.tex:2'));
  await put(page, { document: '\\cite{a}', name: 'paper.tex', database });
  check('a document without \\bibliography gets what is there', (await list(page)).includes('\\bibitem{a}'));
  await put(page, { document: AUX.replace('{s}', '{nosuch}'), database });
  check('a style that is not there', has(await messages(page), 'error', "I couldn't open style file nosuch.bst", 'a.aux:3', 'put the style', 'for example article'));
  check('what advice has between backticks is code', (await page.ask("document.querySelector('#messages small code')?.textContent")) === '\\bibliographystyle' && !has(await messages(page), '`'));
  await put(page, { document: '\\cite{a}\n\\bibliography{d}\n\n\\bibliographystyle{nosuch}\n', name: 'paper.tex', database });
  check('and has its line in the document', has(await messages(page), 'error', 'nosuch.bst', 'paper.tex:4'));
  await put(page, { document: AUX.replace('{d}', '{nosuch}'), database });
  check('a database that is not there', has(await messages(page), 'error', "I couldn't open database file nosuch.bib", 'a.aux:2'));
  await put(page, { document: AUX.replace('*', 'a,gone'), database });
  check('a key that is not there', has(await messages(page), 'warning', 'I didn\'t find a database entry for "gone"'));
}

// The four mistakes of a stranger's first paper, each of which the page alone has to show.
async function stranger(page) {
  const document = '\\documentclass{article}\n\\cite{knuth84}\n\\citep[p.~3]{lamport94,\n  patashnik88}\n\\cite{chapter}\n\\bibliographystyle{s}\n\\bibliography{d}\n';
  const database = '@book{knuth84,\n  title = {The {\\TeX}book,\n  year = 1984\n}\n\n@misc{lamport94,\n  title = addison\n}\n\n@misc{chapter,\n  crossref = {whole},\n  title = {C}\n}\n';
  const style = SHOW.replace('FUNCTION {misc} {', 'FUNCTION {misc} {"empty year in " cite$ * warning$ ');
  await put(page, { document, name: 'paper.tex', database, style });
  const rows = await messages(page);
  check('an open brace names the entry above, and its line', has(rows, 'error', 'd.bib:2, knuth84 d.bib:6', 'is each { and " closed in line 2?'));
  check('and both lines are marked', (await page.ask("[...document.querySelectorAll('[data-role=database] .gutter .error')].map((it) => it.textContent).join()")).startsWith('2,6'));
  check('an unknown string has its line', has(rows, 'warning', '"addison" is undefined', 'd.bib:7'));
  check('a key without an entry has the line of its citation', has(rows, 'warning', '"patashnik88"', 'paper.tex:4'));
  check('a parent that is not there has the line of its child, and of its name', has(rows, 'error', 'bad cross reference', 'd.bib:10, chapter') && has(rows, 'warning', 'entry for "whole"', 'd.bib:11'));
  check('a warning of the style has the line of its entry', has(rows, 'warning', 'empty year in chapter', 'd.bib:10, chapter'));
  check('the line of a citation is marked', (await page.ask("[...document.querySelectorAll('[data-role=document] .gutter .warning')].map((it) => it.textContent).join()")) === '4');
  check('each message says its kind in words', await page.ask("[...document.querySelectorAll('#messages li')].every((it) => it.textContent.startsWith(it.className === 'error' ? 'Error: ' : 'Warning: '))"));
  check('and what to do', has(rows, 'empty year in chapter', 'write the field year'));
  await put(page, { document: document.replace('knuth84', 'knuth1984'), name: 'paper.tex', database: database.replace('book,\n', 'book},\n'), style: style.replace('title write$', 'titel write$') });
  const near = await messages(page);
  check('a key that is nearly right is shown the right one', has(near, 'warning', '"knuth1984"', 'paper.tex:2 d.bib:1, knuth84', 'do you mean knuth84?'));
  check('and one that is near to none is not', has(near, 'warning', '"patashnik88"') && !has(near, '"patashnik88"', 'do you mean'));
  await put(page, { style: style.replace('FUNCTION {misc}', 'FUNCTION {my.word} {"x"}\nFUNCTION {misc}').replace('title write$', 'mi.word write$'), database: '@misc{a}' });
  check('so is a function', has(await messages(page), 'error', 'mi.word is an unknown function', 's.bst:3', 'do you mean my.word?'));
  await put(page, { document: document.replace('{s}', '{s}\n\\bibliographystyle{t}'), name: 'paper.tex', database });
  check('a second style is an error, with its line in the document', has(await messages(page), 'error', 'another \\bibstyle', 'paper.tex:7'));
  await put(page, { document: '\\citestyle{x}\\cite{a\nb}', name: 'paper.tex', database });
  check('a key with a line end is one with a space', has(await messages(page), 'error', 'White space', 'paper.tex:1'));
  await put(page, { document: '\\input{chapter}', name: 'paper.tex' });
  check('a document without citations is told of its files', has(await messages(page), 'error', 'no \\citation', 'includes are not read'));
  await put(page, { document: '\\cite{gone}', name: 'paper.tex', database: '@misc{a, title={T}}@misc{entry, title={T}}' });
  check('a word of a message is no key', has(await messages(page), 'warning', '"gone"', 'paper.tex:1') && !has(await messages(page), 'd.bib'));
  check('an empty list is said to be one', (await page.ask(text('panel-read'))) === 'The list is empty.');
  await put(page, { document: '\\cite{gone}', name: 'paper.tex', style: SHOW.replace('READ', 'FUNCTION {around} {"\\providecommand{\\url}[1]{#1}\\begin{thebibliography}{0}" write$ newline$ newline$ "\\end{thebibliography}" write$ newline$}\nREAD\nEXECUTE {around}') });
  check('so is one with what goes round its items', (await page.ask(text('panel-read'))) === 'The list is empty.' && (await list(page)).includes('thebibliography'));
  await put(page, { database: '@misc{a, title={T}}', document: AUX.replace('{s}', '{small}') });
  check('a style that the document does not name is said to be unused', (await page.ask(text('style-note'))) === 'Not used: the document names small.bst.');
  check('and the database is not', (await page.ask(text('database-note'))) === '');
}

// What the page says of a document by itself.
async function remarks(page) {
  const database = '@misc{a, title={T}}\n@misc{b, title={U}}\n';
  const rest = '\n\\bibliography{d}\n\\bibliographystyle{s}\n';
  await put(page, { document: `\\cite{a}\n\\citep[p.~1]{b, c${rest}`, name: 'paper.tex', database });
  check('a citation that is not closed has a note, with its line', has(await messages(page), 'own', "\\citep isn't closed", 'paper.tex:2'));
  check('and a mark', (await page.ask("[...document.querySelectorAll('[data-role=document] .gutter .own')].map((it) => it.textContent).join()")) === '2');
  await put(page, { document: `\\cite{a}${rest}\\cite{b`, name: 'paper.tex', database });
  check('so has the last one of the document', has(await messages(page), 'own', "\\cite isn't closed", 'paper.tex:4'));
  await put(page, { document: `\\def\\cites{\\emph{x}}\\cite{a}% \\cite{b\n\\citestyle{x}${rest}`, name: 'paper.tex', database });
  check('a document in which nothing is amiss has none', (await messages(page))[0][1] === 'None.');
  await put(page, { document: '\\cite{a}\n', name: 'paper.tex', database });
  const rows = await messages(page);
  check('without \\bibliography a note says what is taken', has(rows, 'own', 'no \\bibliography.', 'the databases that are here (d)', 'BibTeX would log an error'));
  check('and without \\bibliographystyle', has(rows, 'own', 'no \\bibliographystyle.', 'the style that is shown here (s)'));
}

// Causes of messages that are to be mended first.
async function causes(page) {
  const style = SHOW.replace('FUNCTION {misc} {', 'FUNCTION {article} {}\nFUNCTION {misc} {cite$ " has no year" * warning$ ');
  await put(page, { style, database: '@misc{a,\n  title = {A}\n  year = 1}\n@misc{b, title = {B}}\n' });
  const comma = await messages(page);
  check('a missing comma names the line above', has(comma, 'error', 'd.bib:3 d.bib:2', 'is there a comma at the end of line 2?'));
  check('and says it once', comma[0][3] === 'is there a comma at the end of line 2? Is each { above line 3 closed?');
  check('a field of an entry that was read in part is not to be written', has(comma, 'a has no year', 'the entry a was read only up to line 3: mend') && !has(comma, 'a has no year', 'write the field'));
  check('one of a whole entry is', has(comma, 'b has no year', 'write the field year'));
  await put(page, { style, database: '@misc{a b,\n  title = {A}}\n' });
  check('a key with whitespace is asked about', has(await messages(page), 'error', 'is there a comma after the key a, and no whitespace in it?'));
  for (const [what, sign] of [['', ''], [' after a comma', ',']]) {
    await put(page, { style, database: `@misc{a,\n  title = {A}${sign}\n\n@misc{b, title = {B}}\n` });
    check(`an entry that is not closed is named first${what}`, has(await messages(page), 'error', 'd.bib:1, a d.bib:4', "the entry a of line 1 isn't closed: put a } after line 2"));
  }
  await put(page, { style, database: '@misc{a,\n  note = {N},\n  title = {A,\n  year = 1\n}\n' });
  const end = await messages(page);
  check('a brace that is open to the end of the file has its line', has(end, 'error', 'Illegal end', 'd.bib:3, a d.bib:') && (await page.ask("document.querySelector('[data-role=database] .gutter .error')?.textContent")) === '3');
  await put(page, { style, database: '@artcle{a, title = {A}}\n@zzz{b, title = {B}}\n' });
  const types = await messages(page);
  check('a type that is nearly right is shown the right one', has(types, 'warning', 'd.bib:1', '"artcle" is no type of this style; do you mean article?') && !has(types, 'default.type'));
  check('and one that is near to none is named', has(types, 'warning', 'd.bib:2', '"zzz" is no type of this style; give'));
  await put(page, { document: AUX.replace('*', 'b'), data: 'mine.bib', database: '@misc{b, title = {B}}\n' });
  check('a key of a database that the document does not name', has(await messages(page), '"b"', 'mine.bib, in the pane "Database", has it, but the document names d.bib') && !has(await messages(page), 'no database has it'));
  await put(page, { document: AUX.replace('*', 'b'), database: '@misc{a,\n  title = {{A,\n}\n@misc{b, title = {B}}\n' });
  check('a key in a value that is not closed', has(await messages(page), '"b"', "line 4 of d.bib has it, and wasn't read"));
}

async function places(page) {
  await put(page, { database: '@misc{a,\n  title = {A}\n  note = {x}}\n' });
  const rows = await messages(page);
  check('a mistake of a database has its place', has(rows, 'error', 'I was expecting a , or a }', 'd.bib:3'));
  check('and what to do', rows[0][3].length > 20);
  check('its line is marked', (await page.ask("[...document.querySelectorAll('[data-role=database] .gutter .error')].map((it) => it.textContent).join()")) === '3');
  await page.ask("document.querySelector('#messages .place').click()");
  check('a click on the place goes there', (await page.ask("(({ value, selectionStart }) => value.slice(0, selectionStart))(document.getElementById('database'))")) === '@misc{a,\n  title = {A}\n  ');
  check('and the text has the keyboard', await page.ask("document.activeElement.id === 'database'"));
  await put(page, { style: SHOW.replace('title write$', 'title nosuch'), database: '@misc{a}' });
  check('a mistake of a style has its place', has(await messages(page), 'error', 'nosuch is an unknown function', 's.bst:2'));
  await put(page, { document: `${AUX}\\citation{x y}\n`, database: '@misc{a}' });
  check('a mistake of an .aux file has its place', has(await messages(page), 'error', 'White space in argument', 'a.aux:4'));
  await put(page, { style: SHOW.replace('title write$', 'title #1 + pop$'), database: '@misc{a}' });
  check('an error of the execution names function and entry', has(await messages(page), 'error', 'is not an integer'));
}

// The marks in a pane's text: each one's kind and words.
const marksIn = (page, role) => page.ask(`[...document.querySelectorAll('[data-role=${role}] .marks mark')].map((it) => it.className + ' ' + it.textContent).join(', ')`);
const selected = (page, role) => page.ask(`(({ value, selectionStart, selectionEnd }) => value.slice(selectionStart, selectionEnd))(document.getElementById('${role}'))`);
// Where a mark of a pane, the first one or another, is from where its line and column are, in pixels; the line from 1 and the column from 0, of letters that are as wide as an x.
const offsetOf = (page, role, line, column, number = 0) => page.ask(`(() => {
  const text = document.getElementById('${role}');
  const style = getComputedStyle(text);
  const pen = document.createElement('canvas').getContext('2d');
  pen.font = style.font;
  const [box, own] = [text.getBoundingClientRect(), document.querySelectorAll('[data-role=${role}] .marks mark')[${number}].getBoundingClientRect()];
  const left = box.left + parseFloat(style.paddingLeft) + ${column} * pen.measureText('x').width - text.scrollLeft;
  const top = box.top + parseFloat(style.paddingTop) + ${line - 1} * parseFloat(style.lineHeight) - text.scrollTop;
  return [own.left - left, own.top + own.height / 2 - (top + parseFloat(style.lineHeight) / 2)];
})()`);
const isNear = (offsets) => offsets.every((it) => Math.abs(it) < 2);

// A message is marked in the text where it was met.
async function marks(page) {
  await put(page, { database: '@misc{a,\n  title = {A}\n  note = {x}}\n' });
  check('a mistake of a database is marked where it was met', (await marksIn(page, 'database')) === 'error note');
  check('and the mark is behind its words', isNear(await offsetOf(page, 'database', 3, 2)));
  await page.ask("document.querySelector('#messages .place').click()");
  check('which a click selects', (await selected(page, 'database')) === 'note');
  await put(page, { database: '% ä𝒜é\n@misc{a, title = {Ä𝒜} # addison # {ß} # smith}\n' });
  check('so are strings, after letters of several bytes', (await marksIn(page, 'database')) === 'warning addison, warning smith');
  await put(page, { database: '% ä𝒜é\n@misc{a,\n  title = {Ä𝒜}\n  note = {x}}\n' });
  check('and what was met after such letters', (await marksIn(page, 'database')) === 'error note');
  await put(page, { document: '\\cite{a}% \\cite{x}\n\\citep[p.~3]{gone,\n  far}\n\\bibliography{d}\n\\bibliographystyle{s}\n', name: 'paper.tex', database: '@misc{a, title = {T}}' });
  check('and citations', (await marksIn(page, 'document')) === 'warning gone, warning far' && isNear(await offsetOf(page, 'document', 2, 13)));
  await put(page, { document: `${AUX}\\citation{x y}\n`, database: '@misc{a}' });
  check('and what is in the braces of a line of an .aux file', (await marksIn(page, 'document')) === 'error x y');
  await put(page, { style: SHOW.replace('title write$', 'title nosuch write$'), database: '@misc{a}' });
  check('and a name of a style', (await marksIn(page, 'style')).split(', ').includes('error nosuch'));
  await put(page, { style: SHOW.replace('FUNCTION {misc} {', "FUNCTION {misc} {title empty$ {skip$} {title write$} if$ title #1 = {title write$} 'skip$ if$ "), database: '@misc{a, title={T}}' });
  check('and tokens at which the style may go wrong', (await marksIn(page, 'style')).startsWith('warning =, warning write$'));
  const line = await page.ask("document.getElementById('style').value.split('\\n')[1]");
  check('the one that is meant, where its line has several', isNear(await offsetOf(page, 'style', 2, line.indexOf(' = ') + 1)) && isNear(await offsetOf(page, 'style', 2, line.lastIndexOf('write$'), 1)));
  await page.ask("document.querySelector('#panel-verdict .place').click()");
  check('which a click selects, too', (await selected(page, 'style')) === '=');
  await put(page, { style: `${SHOW}EXECUTE {= \n`, database: '@misc{a, title={T}}' });
  await page.ask("document.querySelector('#messages .place').click()");
  check('where only a line is known, that is selected', /^EXECUTE|^$/.test(await selected(page, 'style')) && (await page.ask("document.querySelector('[data-role=style] .gutter .error') !== null")));
  const long = `@misc{a, title = {T}}\n${'% x\n'.repeat(500)}@misc{a, title = {T}}\n`;
  await put(page, { database: long });
  await page.ask("document.querySelector('#messages .place').click()");
  check('a place far below is gone to', await page.until("document.getElementById('database').scrollTop > 1000 && document.querySelector('[data-role=database] .marks mark') !== null"));
  check('and its mark is there', await page.ask("new Promise((done) => requestAnimationFrame(() => done(document.querySelector('[data-role=database] .gutter .error')?.textContent)))") === '502' && isNear(await offsetOf(page, 'database', 502, 6)));
  check('of the lines those are drawn that are seen', (await page.ask("document.querySelector('[data-role=database] .gutter').textContent.split('\\n').length")) < 200);
  await page.ask("(() => { const text = document.getElementById('database'); text.value = 'x' + text.value; text.dispatchEvent(new Event('input')); })()");
  check('an edit takes the marks away until the next run', (await marksIn(page, 'database')) === '' && (await page.ask("document.querySelector('[data-role=database] .gutter .error')?.textContent")) === '502');
  await page.until(ENDED);
}

// Whether text is read by letters.
async function letters(page) {
  await put(page, { style: SHOW.replace('title write$', 'title text.length$ int.to.str$ write$'), database: '@misc{a, title = {é}}' });
  const length = async () => (await list(page)).trim().split('\n').pop();
  check('text is read by bytes', (await length()) === '2');
  const toggle = async () => {
    await page.ask("document.getElementById('status').textContent = ''; document.getElementById('utf8').click()");
    await page.until(ENDED);
  };
  await toggle();
  check('and by letters where that is asked for', (await length()) === '1');
  await toggle();
  check('and by bytes again', (await length()) === '2');
}

// Messages of a database that isn't shown, and strings that look like entries.
async function databases(page) {
  await put(page, { document: '\\citation{*}\n\\bibdata{d,e}\n\\bibstyle{s}\n', database: '@misc{a, title = {A}}' });
  await page.ask("addFile('e.bib', '% another\\n@misc{b,\\n  title = {B}\\n  note = {x}}\\n'); document.getElementById('run').click()");
  await page.until(ENDED);
  await page.ask("(() => { const which = document.getElementById('database-which'); which.value = 0; which.dispatchEvent(new Event('change')); })()");
  await page.until(ENDED);
  await page.ask("document.getElementById('database').value += '% an edit'; document.getElementById('run').click()");
  await page.until(ENDED);
  check('a message of a database that is not shown has its place', has(await messages(page), 'error', 'e.bib:4'));
  await page.ask("document.getElementById('database').value += ', and one'; [...document.querySelectorAll('#messages .place')].find((it) => it.textContent === 'e.bib:4').click()");
  check('a click on it shows that database, and the place', (await page.ask("document.getElementById('database-name').value")) === 'e.bib' && (await selected(page, 'database')) === 'note');
  check('with its own marks', (await marksIn(page, 'database')) === 'error note' && (await page.ask("document.getElementById('database-which').value")) === '1');
  await page.ask("(() => { const which = document.getElementById('database-which'); which.value = 0; which.dispatchEvent(new Event('change')); })()");
  check('and the other one keeps its text', (await page.ask("document.getElementById('database').value")) === '@misc{a, title = {A}}% an edit, and one' && (await marksIn(page, 'database')) === '');
  await page.until(ENDED);
  await page.ask("(() => { const which = document.getElementById('database-which'); which.value = 1; which.dispatchEvent(new Event('change')); document.querySelector('[data-role=database] .remove').click(); })()");
  await page.until(ENDED);
  const strings = ['@String{gone = {x}}', '@STRING(gone = {x})', '@Preamble{gone}', '@Comment{gone, x}'];
  for (const item of strings) {
    await put(page, { document: AUX.replace('*', 'gone'), database: `${item}\n@misc{a, title = {A}}\n` });
    check(`${item.slice(0, 8)} is no entry`, has(await messages(page), 'warning', 'entry for "gone"', 'a.aux:1') && !has(await messages(page), 'entry for "gone"', 'd.bib'));
  }
}

// Whether a run that is stopped is no longer there.
async function stops(browser) {
  const page = await browser.open(pathToFileURL(PAGE).href);
  await page.until(ENDED);
  const workers = await browser.workersOf(page);
  const endless = 'ENTRY {}{}{}\nFUNCTION {f} {{#1} {skip$} while$}\nREAD\nEXECUTE {f}\n';
  await page.ask(`document.getElementById('budget').value = '9999999999999'; document.getElementById('document').value = ${JSON.stringify(AUX)}; document.getElementById('document-name').value = 'a.aux';
    document.getElementById('database-name').value = 'd.bib'; document.getElementById('style').value = ${JSON.stringify(endless)}; document.getElementById('style-name').value = 's.bst'`);
  const soon = async (is) => {
    for (const end = Date.now() + 10_000; !is() && Date.now() < end;) await new Promise((done) => { setTimeout(done, 20); });
    return is();
  };
  for (const [what, stop] of [['Stop', "document.getElementById('stop').click()"], ['a new run', "document.getElementById('style').value = 'READ'; document.getElementById('run').click()"]]) {
    await page.ask("document.getElementById('run').click()");
    check(`an endless style has its worker, before ${what}`, await soon(() => workers.size === 1));
    const [before] = workers;
    await page.ask(stop);
    check(`${what} ends the worker of an endless style`, await soon(() => !workers.has(before)));
  }
  await page.close();
}

async function verdicts(page) {
  await put(page, { style: SHOW, database: '@misc{a, title={T}}' });
  check('a style that may go wrong is not called clean', (await page.ask(text('panel-verdict'))).startsWith('Not called clean'));
  check('its warning has a place', (await page.ask("document.querySelector('#panel-verdict .place').textContent")) === 'line 2');
  await page.ask("document.querySelector('#panel-verdict .place').click()");
  check('which can be gone to', await page.ask("document.activeElement.id === 'style'"));
  await put(page, { style: SHOW.replace('title write$', 'title empty$ {} {title write$} if$') });
  check('and the mended one is clean', (await page.ask(text('panel-verdict'))).startsWith('Clean:'));
  await page.ask("document.getElementById('database').value = '@misc{b}'; document.getElementById('run').click()");
  check('another database leaves the verdict as it is', await page.until(ENDED) && (await page.ask(text('panel-verdict'))).startsWith('Clean:'));
}

async function budgets(page) {
  const style = 'ENTRY {}{}{}\nFUNCTION {f} {{#1} {"line" write$ newline$} while$}\nREAD\nEXECUTE {f}\n';
  await page.ask("document.getElementById('budget').value = '1000'");
  await put(page, { style });
  check('a run is stopped at its budget', (await page.ask(text('status'))).includes('stopped at its budget'));
  check('and shows the beginning of its list', (await list(page)).startsWith('line\nline\n'));
  check('and says what to do', has(await messages(page), 'Ended: stopped', 'raise'));
  await page.ask("document.getElementById('budget').value = '9999999999999'");
  const loop = style.replace('"line" write$ newline$', 'skip$');
  await page.ask(`document.getElementById('style').value = ${JSON.stringify(loop)}; document.getElementById('run').click()`);
  check('an endless style runs', await page.until("!document.getElementById('stop').disabled"));
  const began = Date.now();
  check('the page answers while it runs', (await page.ask('1 + 1')) === 2 && Date.now() - began < 1000);
  await page.ask("document.getElementById('stop').click()");
  check('Stop stops it', (await page.ask(text('status'))) === 'Stopped.' && await page.ask("document.getElementById('stop').disabled"));
  await page.ask(`document.getElementById('run').click()`);
  await page.until("!document.getElementById('stop').disabled");
  await page.press('Escape');
  check('so does Escape', (await page.ask(text('status'))) === 'Stopped.');
  await page.ask("document.getElementById('budget').value = '100000000'");
  await put(page, { style });
  check('a style that writes without end meets the room', (await page.ask(text('status'))).includes('has more than'));
  check('and says what to do', has(await messages(page), 'error', 'has more than', 'Steps at most'));
  check('and nothing of an earlier run is left', (await list(page)) === '' && (await page.ask(text('panel-log') + '+' + text('panel-read'))) === '');
  for (const [value, isNumber] of [['1e6', false], ['-5', false], ['x', false], ['', true], ['1,000,000', true]]) {
    await page.ask(`document.getElementById('budget').value = ${JSON.stringify(value)}`);
    await put(page, {});
    const status = await page.ask(text('status'));
    check(`steps of '${value}'`, status.startsWith(isNumber ? 'Ended: finished' : 'Not run') && (await page.ask("document.getElementById('budget').ariaInvalid")) === String(!isNumber));
  }
  await page.ask("document.getElementById('budget').value = '10000000'");
}

async function hostile(page) {
  const script = '<script>window.hit=1</script><img src=x onerror="window.hit=1">';
  const titles = [script, '\u0000\u001b[2J\u202e', '{'.repeat(50) + 'x' + '}'.repeat(50), '\\'.repeat(500), '$x^2$ \\frac{a}{b} \\unknown{c}'];
  for (const [number, title] of titles.entries()) {
    const made = await put(page, { database: `@misc{k${number}, title = {${title}}}` });
    check(`a hostile title, ${number}`, made && !(await page.ask("Boolean(window.hit) || document.querySelector('#panel-read img, #panel-read script, #notes img, #notes script') !== null")));
  }
  await put(page, { document: `\\citation{${script.replace(/\s/g, '')}}\n\\bibdata{d}\n\\bibstyle{s}\n` });
  check('a hostile key is text', has(await messages(page), 'warning', '<script>') && !(await page.ask("document.querySelector('#messages script, #messages img') !== null")));
  await put(page, { data: '<b>x</b>.bib', document: AUX.replace('{d}', '{<b>x</b>}'), database: '@misc{a' });
  check('a hostile name is text', has(await messages(page), '<b>x</b>.bib:1'));
  await put(page, { style: SHOW.replace('title write$', '"<script>" top$ "Error--forged" top$') , database: '@misc{a}' });
  check('what a style shows is text', (await page.ask("document.getElementById('panel-log').innerHTML")).includes('&lt;script&gt;'));
  await put(page, { database: `@misc{a, title = {${'\\emph{'.repeat(3000)}x${'}'.repeat(3000)}}}` });
  check('deep commands are shown', (await page.ask(text('panel-read'))).includes('x'));
  await put(page, { document: '\\cite{abc\u202egpj,esc\u001bx}', name: 'a\u2066.tex' });
  check('marks of direction and control characters are shown by numbers', has(await messages(page), '"abc<U+202E>gpj"', 'a<U+2066>.tex:1') && has(await messages(page), 'esc<U+001B>x'));
  const began = Date.now();
  await put(page, { document: `\\citation{${'a'.repeat(200_000)}}\n${AUX}`, database: `@misc{${'a'.repeat(199_999)}b}` });
  await put(page, { document: `${'\\cite['.repeat(100_000)}`, name: 'paper.tex' });
  check('long words and open brackets take no time', Date.now() - began < 20_000);
  check('no script of a text ran', !(await page.ask('Boolean(window.hit)')));
  check('the policy forbids other scripts', (await page.ask("new Promise((done) => { const made = document.createElement('script'); made.textContent = 'window.hit=2'; document.body.append(made); setTimeout(() => done(window.hit !== 2), 50); })")));
  check('and requests', await page.ask("fetch('https://example.invalid/').then(() => false, () => true)"));
}

// How many times slower the page is than it would be alone on the machine: a long loop beside the quickest of many short ones, which nothing else comes into.
const SLOWNESS = `(() => {
  const loop = (count) => {
    const began = performance.now();
    for (let sum = 0, turn = 0; turn < count; turn++) sum = (sum * 31 + turn) % 1000003;
    return performance.now() - began;
  };
  loop(1e6);
  const short = Math.min(...Array.from({ length: 60 }, () => loop(2e5)));
  return Math.max(1, loop(2e7) / (100 * short));
})()`;
// Milliseconds from a paste to its result, of a megabyte, on a machine that does nothing else.
const MOST_PASTE = 1000;

async function sizes(page) {
  const entries = Array.from({ length: 9800 }, (_, number) => `@misc{k${number},\n  title = {A title of some length, number ${number}, for a database of one megabyte and more}}\n`);
  await page.ask(`window.big = ${JSON.stringify(entries.join(''))}`);
  const paste = () => page.ask(`(async () => {
    const pasted = new DataTransfer();
    pasted.setData('text/plain', window.big);
    const [text, slow] = [document.getElementById('database'), ${SLOWNESS}];
    text.select();
    document.getElementById('status').textContent = '';
    const began = performance.now();
    text.dispatchEvent(new ClipboardEvent('paste', { clipboardData: pasted, bubbles: true, cancelable: true }));
    while (!/^Ended/.test(document.getElementById('status').textContent)) await new Promise((done) => setTimeout(done, 5));
    await new Promise((done) => requestAnimationFrame(() => setTimeout(done)));
    return [performance.now() - began, Math.max(slow, ${SLOWNESS})];
  })()`);
  let best = [Infinity, 1];
  for (let turn = 0; turn < 5 && best[0] > MOST_PASTE * best[1]; turn++) {
    await put(page, { database: '@misc{k}' });
    const made = await paste();
    if (made[0] / made[1] < best[0] / best[1]) best = made;
    await page.until(ENDED);
  }
  const [took, slow] = best;
  check(`a database of ${Math.round(entries.join('').length / 1e4) / 100} MB is pasted and run within ${MOST_PASTE} ms (${Math.round(took)} ms, on a machine that is ${slow.toFixed(1)} times as slow as alone)`, took <= MOST_PASTE * slow);
  check('all its entries are there', (await page.ask(text('status'))).includes('Errors: 0') && (await list(page)).includes('\\bibitem{k0}'));
  check('the field has all of it', await page.until("document.getElementById('database').value === window.big && !document.getElementById('database').readOnly"));
  check('the list has its other items after the first ones', await page.until("document.querySelectorAll('#panel-read li').length > 2000"));
  await page.ask("document.getElementById('database').focus()");
  await page.press('z', 2);
  check('the keys that undo take it out again', await page.until("document.getElementById('database').value === '@misc{k}'"));
  await page.until(ENDED);
  await page.ask(`(() => {
    const pasted = new DataTransfer();
    pasted.setData('text/plain', ('y'.repeat(70) + '\\r\\n').repeat(1000));
    document.getElementById('database').setSelectionRange(1, 5);
    document.getElementById('database').dispatchEvent(new ClipboardEvent('paste', { clipboardData: pasted, bubbles: true, cancelable: true }));
  })()`);
  check('a long text takes the place of what is selected', await page.until("document.getElementById('database').value === '@' + ('y'.repeat(70) + '\\n').repeat(1000) + '{k}'"));
  await page.until(ENDED);
}

async function drops(page) {
  const drop = (files) => `(() => {
    const moved = new DataTransfer();
    for (const [name, text] of ${JSON.stringify(files)}) moved.items.add(new File([text], name));
    const say = (kind) => document.body.dispatchEvent(new DragEvent(kind, { dataTransfer: moved, bubbles: true, cancelable: true }));
    say('dragover');
    const marked = document.body.classList.contains('dropping');
    say('drop');
    return marked;
  })()`;
  const files = [['my.aux', '\\citation{x}\n\\bibdata{my}\n\\bibstyle{my}\n'], ['my.bib', '@misc{x, title={Dropped}}'], ['my.bst', SHOW]];
  check('the page shows that it takes files', await page.ask(drop(files)));
  check('dropped files make a job', await page.until(`${text('panel-list')}.includes('Dropped')`));
  check('the document has the name of its file', (await page.ask("document.getElementById('document-name').value")) === 'my.aux');
  const count = await page.ask("document.getElementById('database-which').options.length");
  await page.ask("document.querySelector('[data-role=database] .remove').click()");
  check('a database is removed', (await page.ask("document.getElementById('database-which').options.length")) === Math.max(1, count - 1));
  await page.ask(drop(files.slice(1, 2)));
  await page.until(ENDED);
  await page.ask("(() => { const which = document.getElementById('style-which'); which.value = 0; which.dispatchEvent(new Event('change')); })()");
  check('another style is chosen', (await page.ask("document.getElementById('style-name').value")).endsWith('.bst') && await page.until(ENDED));
}

async function opened(page) {
  const open = (role, name, body) => page.ask(`(() => {
    const moved = new DataTransfer();
    moved.items.add(new File([${body}], ${JSON.stringify(name)}));
    const input = document.getElementById('files');
    input.click = () => {};
    document.querySelector('[data-role=${role}] .open').click();
    input.files = moved.files;
    input.dispatchEvent(new Event('change'));
  })()`);
  const document = await page.ask("document.getElementById('document').value");
  await open('database', 'refs.txt', "'@misc{t, title = {T}}'");
  check('a file of another ending goes where it was asked for', await page.until("document.getElementById('database-name').value === 'refs.txt'") && (await page.ask("document.getElementById('document').value")) === document);
  await open('database', 'x.constructor', "'y'");
  check('whatever its ending', await page.until("document.getElementById('database-name').value === 'x.constructor'"));
  await open('database', 'huge.bib', 'new Uint8Array(20000001)');
  check('a file that is too long is not taken', await page.until(`${text('hint')}.startsWith('Not taken: huge.bib has more than')`));
  for (let turn = 0; turn < 2; turn++) await page.ask("document.querySelector('[data-role=database] .remove').click()");
  await page.until(ENDED);
}

async function keyboard(page) {
  await put(page, { database: '@misc{a, title={T}}' });
  await page.ask("document.getElementById('tab-read').focus()");
  await page.press('ArrowRight');
  check('an arrow goes to the next tab', await page.ask("document.activeElement.id === 'tab-list' && !document.getElementById('panel-list').hidden && document.getElementById('panel-read').hidden"));
  await page.press('End');
  check('End to the last', await page.ask("document.activeElement.id === 'tab-verdict'"));
  await page.press('ArrowRight');
  check('and round to the first', await page.ask("document.activeElement.id === 'tab-read' && document.activeElement.ariaSelected === 'true'"));
  await page.ask("document.getElementById('document').focus(); document.getElementById('status').textContent = ''");
  await page.press('Enter', 2);
  check('Ctrl and Enter run the job', await page.until(ENDED));
  await page.ask("document.getElementById('document-name').focus()");
  const met = new Set();
  for (let turn = 0; turn < 30; turn++) {
    await page.press('Tab');
    met.add(await page.ask('document.activeElement.id || document.activeElement.className'));
  }
  check('all can be reached by Tab', ['open', 'document', 'database', 'database-which', 'style', 'style-which', 'run', 'budget', 'utf8', 'link', 'tab-read', 'panel-read'].every((id) => met.has(id)));
}

async function links(browser, page) {
  await put(page, { database: '@misc{a, title={In a link ä}}' });
  await page.ask("document.getElementById('link').click()");
  check('a link is made', await page.until("location.hash.startsWith('#job=')"));
  check('and the end of the run is still shown', (await page.ask(text('status'))).startsWith('Ended') && (await page.ask(text('link-note')).catch(() => '')).startsWith('The address'));
  const address = await page.ask('location.href');
  check('which is short', address.length < 3000);
  const other = await browser.open(address);
  check('and shows the job to others', await other.until(`${text('panel-list')}.includes('In a link ä')`));
  await other.close();
  const packed = (list) => `#job=${deflateRawSync(Buffer.from(JSON.stringify(list)), { level: 9 }).toString('base64url')}`;
  const many = Array.from({ length: 100_000 }, () => ['', '']);
  for (const [what, list] of Object.entries({ nothing: [], 'an empty file': [[]], 'a document alone': [['a.tex', '\\cite{x}']], 'many files': many, 'a long file': [['a.tex', ''], ['a.bib', 'x'.repeat(4_000_000)]] })) {
    const spoilt = await browser.open(pathToFileURL(PAGE).href + packed(list));
    check(`a link with ${what} shows the first job`, await spoilt.until(ENDED) && (await spoilt.ask("document.getElementById('database-name').value")) === 'article.bib');
    check(`and says so, with ${what}`, (await spoilt.ask(text('hint'))).includes("can't be read"));
    await spoilt.close();
  }
  const later = await browser.open(pathToFileURL(PAGE).href);
  await later.until(ENDED);
  await later.ask(`location.hash = ${JSON.stringify(packed([['a.aux', AUX.replace('{d}', '{d.bib}'), 'document'], ['d', '@misc{x, title={Later}}', 'database'], ['s.bst', SHOW]]))}`);
  check('a link is taken by a page that is open', await later.until("document.getElementById('document-name').value === 'a.aux' && document.getElementById('database-name').value === 'd'"));
  await later.close();
  for (const hash of ['#job=!!', '#job=AAAA', '#job=', '#x', `#job=${'A'.repeat(30000)}`]) {
    const spoilt = await browser.open(pathToFileURL(PAGE).href + hash);
    check(`a spoilt link shows the first job: ${hash.slice(0, 10)}`, await spoilt.until(ENDED));
    await spoilt.close();
  }
  await page.ask("addFile('big.bib', Array.from({ length: 40000 }, () => String.fromCharCode(33 + Math.random() * 90)).join('')); history.replaceState(null, '', '#'); document.getElementById('run').click()");
  await page.until(ENDED);
  await page.ask("document.getElementById('link').click()");
  check('a file that the job does not use is not in its link', await page.until("location.hash.startsWith('#job=')", 5000) && (await page.ask('location.href')).length < 3000);
  await page.ask("document.querySelector('.remove').click(); document.getElementById('run').click()");
  await page.until(ENDED);
  await page.ask("document.getElementById('database').value = Array.from({ length: 40000 }, () => String.fromCharCode(33 + Math.random() * 90)).join(''); document.getElementById('link').click()");
  check('a job that is too long for a link is refused', await page.until(`(document.getElementById('link-note')?.textContent ?? '').includes('too long')`));
  await page.ask("find('link-note').textContent = ''; document.getElementById('database').value = 'x'.repeat(4_000_000); document.getElementById('link').click()");
  check('and one that no page would take from it', await page.until(`(document.getElementById('link-note')?.textContent ?? '').includes('too long')`));
}

async function looks(page) {
  await put(page, { database: '@misc{a, title={T}}\n@misc{b,\n  title {x}}' });
  for (const scheme of ['light', 'dark']) {
    await page.scheme(scheme);
    for (const width of [390, 768, 1280, 1600]) {
      await page.width(width);
      check(`nothing is wider than the page, ${width} px, ${scheme}`, await page.ask('document.documentElement.scrollWidth <= innerWidth'));
      if (pictures) writeFileSync(path.join(pictures, `${scheme}-${width}.png`), await page.picture());
    }
    const shades = await page.ask("(({ color, backgroundColor }) => [color, backgroundColor].map((it) => it.match(/\\d+/g).slice(0, 3).reduce((sum, each) => sum + Number(each), 0)))(getComputedStyle(document.body))");
    check(`text stands out, ${scheme}`, Math.abs(shades[0] - shades[1]) > 400 && (scheme === 'dark') === (shades[1] < 200));
  }
  const mark = await page.ask("(({ color, backgroundColor }) => [color, backgroundColor].map((it) => it.match(/\\d+/g).slice(0, 3).reduce((sum, each) => sum + Number(each), 0)))(getComputedStyle(document.querySelector('.gutter .error')))");
  check('the number of a marked line stands out in the dark', Math.abs(mark[0] - mark[1]) > 300);
  check('letters are 12 pixels at least', await page.ask("[...document.querySelectorAll('body *')].every((it) => !it.offsetParent || parseFloat(getComputedStyle(it).fontSize) >= 12)"));
}

async function main() {
  if (!program()) {
    console.log('left out: the page in a browser (there is no chromium)');
    console.log('1 passed, 0 failed');
    return;
  }
  if (pictures) mkdirSync(pictures, { recursive: true });
  const browser = new Browser();
  try {
    const page = await browser.open(pathToFileURL(PAGE).href);
    await page.width(1280);
    await firstSight(page);
    for (const part of [documents, remarks, causes, places, marks, letters, databases, stranger, verdicts, budgets, hostile, drops, opened, keyboard, looks, sizes]) await part(page);
    await stops(browser);
    await links(browser, page);
  } finally {
    await browser.close();
  }
  console.log(`${passed} passed, ${failed} failed`);
  process.exitCode = failed > 0 ? 1 : 0;
}

await main();
