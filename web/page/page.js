// The page: three texts go in, the list, the log and the messages come out. The work is done by a worker (worker.js); whatever comes from a text is shown as text.
/* global WORKER, MODULE, STYLES, FIRST_JOB, ADVICE, auxOf, entriesIn, parentsIn, placer, readable, tokenFinder */

const ROLES = ['document', 'database', 'style'];
const ENDINGS = { tex: 'document', aux: 'document', ltx: 'document', bib: 'database', bst: 'style' };
const PATIENCE = 350;
const MOST_MESSAGES = 500;
const MOST_SHOWN = 400_000;
const MOST_LINK = 24_000;
const MOST_LINK_TEXT = 4_000_000;
const MOST_LINK_FILES = 40;
const MOST_FILE = 20_000_000;
const MOST_PLACES = 2;
const MOST_CAUSES = 50;
const STEPS = 10_000_000n;
const HINT = 'Drop .tex, .aux, .bib and .bst files anywhere on the page.';

// What to do about messages that the page words otherwise than the command: it has no options of a command line and no folders.
const PAGE_ADVICE = [
  [/^I couldn't open style file (.*)$/s, 'put the style on this page: open or drop $1, or name one of the styles here in `\\bibliographystyle`, for example article'],
  [/^I couldn't open database file (.*)$/s, 'put the database on this page: open or drop $1, or let the name in `\\bibliography` and the name of the database agree'],
  [/^I found no \\citation commands$/, 'write a `\\cite` or `\\nocite`. Files that the document includes are not read: for them, drop the `.aux` file that LaTeX wrote'],
  [/^I was expecting a , or a [)}]$/, 'put a comma after the key and between fields, often at the end of the line above; write a key without whitespace; or close a `{` that the entry above leaves open'],
  [/^(?:\S+ has no|empty) (\S+)(?: in \S+)?$/, 'write the field $1 into the entry; the list is made without it otherwise'],
  [/^string of .* bytes cut to /, 'the value is longer than a variable keeps: shorten it, or cut it in the style'],
  [/^Ended: stopped/, 'the style took as many steps as it may: raise "Steps at most". If it is stopped again with ten times as many, it loops'],
  [/^the (?:list|log) has more than /, 'the style writes without end, or more than this page takes: lower "Steps at most" to see the beginning of it'],
];
// Messages of a database whose cause may be a brace that the entry above leaves open.
const OPEN_BRACE = /^(?:I was expecting|Unbalanced braces|Illegal end of database file)/;

// Messages of a word that isn't there, for which one with nearly the same letters may be meant; and how a style defines a function.
const WANTS_COMMA = /^I was expecting a , or a [)}]$/;
const UNKNOWN_TYPE = /^entry type for "(.*)" isn't style-file defined$/s;
const MISSING_FILE = /^I couldn't open (style|database) file /;
const MISSING_KEY = /^I didn't find a database entry for "(.*)"$/s;
const UNKNOWN_STRING = /^string name "(.*)" is undefined$/s;
const REPEATED = /^Repeated entry$/;
const UNKNOWN_FUNCTION = /^(\S+) is an unknown function$/;
const FUNCTION_NAME = /\bFUNCTION\s*\{\s*([^\s{}]+)\s*\}/gi;

// A text as a line shows it: characters that aren't seen or turn the line round are shown by their numbers.
const visible = (text) => text.replace(/[\u0000-\u0008\u000b-\u001f\u007f-\u009f\u061c\u200b-\u200f\u202a-\u202e\u2060-\u2069\ufeff]/g,
  (letter) => `<U+${letter.codePointAt(0).toString(16).toUpperCase().padStart(4, '0')}>`);

const find = (id) => document.getElementById(id);
const panes = Object.fromEntries(ROLES.map((role) => {
  const pane = document.querySelector(`[data-role=${role}]`);
  return [role, { pane, text: find(role), name: find(`${role}-name`), which: find(`${role}-which`), gutter: pane.querySelector('.gutter'), marks: pane.querySelector('.marks') }];
}));
// The files of each pane, of which one is shown.
const files = { document: [], database: [], style: [] };
const shown = { document: 0, database: 0, style: 0 };

// ---- files

const current = (role) => files[role][shown[role]];

// A file as the list of files names it, with what it is for.
const optionOf = ({ name, about }) => (about ? `${name} (${about})` : name);

// A long text that was pasted, while its field has the beginning of it alone: the browser takes most of a second to lay out a megabyte, and the result comes before that.
let filling = null;

const valueOf = (role) => (filling?.role === role ? filling.value : panes[role].text.value);

function stopFilling() {
  if (filling) panes[filling.role].text.readOnly = false;
  filling = null;
}

// Puts all of a long text into its field.
function fill() {
  if (!filling) return;
  const { role, value, caret } = filling;
  const { text } = panes[role];
  stopFilling();
  text.value = value;
  text.setSelectionRange(caret, caret);
  drawGutter(role);
}

function showFile(role, number) {
  if (filling?.role === role) stopFilling();
  shown[role] = number;
  const { text, name, which } = panes[role];
  const file = current(role);
  text.value = file.text;
  name.value = file.name;
  if (which) {
    which.replaceChildren(...files[role].map((each, place) => new Option(optionOf(each), place, false, place === number)));
  }
  drawGutter(role);
}

function keepFile(role) {
  const { name, which } = panes[role];
  const [file, text] = [current(role), valueOf(role)];
  if (file.text !== text || file.name !== name.value) Object.assign(file, { text, name: name.value, about: '' });
  if (which) which.options[shown[role]].text = optionOf(file);
}

// The pane of a file, by the ending of its name, or else the one that asked for it.
function roleOf(name, asking = 'document') {
  const ending = name.split('.').pop().toLowerCase();
  return Object.hasOwn(ENDINGS, ending) ? ENDINGS[ending] : asking;
}

function addFile(name, text, role = roleOf(name)) {
  const same = files[role].findIndex((file) => file.name === name);
  if (role === 'document') files.document = [{ name, text }];
  else if (same >= 0) Object.assign(files[role][same], { text, about: '' });
  else files[role].push({ name, text });
  showFile(role, role === 'document' ? 0 : same >= 0 ? same : files[role].length - 1);
}

// The text of a file, by its bytes: as UTF-8, or where it isn't that as Latin-1.
function textOfBytes(bytes) {
  try {
    return new TextDecoder('utf-8', { fatal: true }).decode(bytes);
  } catch {
    return new TextDecoder('latin1').decode(bytes);
  }
}

async function takeFiles(list, asking) {
  const refused = [];
  let count = 0;
  for (const file of list) {
    try {
      if (file.size > MOST_FILE) throw new RangeError();
      const text = textOfBytes(await file.arrayBuffer());
      addFile(file.name, text, roleOf(file.name, asking));
      count++;
    } catch (error) {
      refused.push(`${visible(file.name)} ${error instanceof RangeError ? `has more than ${MOST_FILE} bytes` : "can't be read"}`);
    }
  }
  find('hint').textContent = refused.length > 0 ? `Not taken: ${refused.join(', ')}.` : HINT;
  if (count > 0) changed();
}

// ---- the gutter, with the lines and what was said of them, and the marks in the texts

// The places of the messages of the last run, and those of the warnings on the style: each with its role, the number of its file, its line and its kind; where it is known,
// its column and length, and the words that stand there.
let places = [];
let warned = [];
// What each gutter and each layer of marks shows: how many lines there are, the kinds of those that are marked, and the marks of each line.
const drawn = new Map();
// The height of a line, as page.css has it, and how many lines are drawn above and below those that are seen.
const LINE = 18;
const MORE_LINES = 60;
const MOST_MARKED = 2000;

function drawGutter(role) {
  const { gutter } = panes[role];
  const lines = valueOf(role).split('\n');
  const state = { count: lines.length, kinds: new Map(), marks: new Map() };
  for (const place of [...places, ...warned]) {
    if (place.role !== role || place.number !== shown[role]) continue;
    if (state.kinds.get(place.line) !== 'error') state.kinds.set(place.line, place.kind);
    if (!isThere(place, lines[place.line - 1])) continue;
    if (!state.marks.has(place.line)) state.marks.set(place.line, []);
    state.marks.get(place.line).push({ ...place, before: lines[place.line - 1].slice(0, place.column) });
  }
  drawn.set(role, state);
  gutter.style.minWidth = `${String(lines.length).length + 2}ch`;
  paint(role);
}

// Whether a place has its words in the line still.
function isThere({ column, words }, line) {
  return words !== undefined && line !== undefined && column <= MOST_MARKED && line.startsWith(words, column);
}

// What is seen of each text, in pixels. To ask the text for it would have the browser lay it out at once, which takes most of a second for a long one.
const seen = Object.fromEntries(ROLES.map((role) => [role, { top: 0, left: 0, height: 300 }]));

function see(role) {
  const { text } = panes[role];
  seen[role] = { top: text.scrollTop, left: text.scrollLeft, height: text.clientHeight };
  paint(role);
}

// Draws what is seen of a gutter and of the marks, and a little more: all 40,000 lines of a long text would take a third of a second.
function paint(role) {
  const { gutter, marks } = panes[role];
  const { top, left, height } = seen[role];
  const { count, kinds, marks: marksOf } = drawn.get(role);
  const first = Math.max(1, Math.floor(top / LINE) - MORE_LINES);
  const last = Math.min(count, Math.ceil((top + height) / LINE) + MORE_LINES);
  const [numbers, layer] = [[], []];
  for (let line = first; line <= last; line++) {
    numbers.push(kinds.has(line) ? marked('span', kinds.get(line), line) : `${line}`, '\n');
    for (const mark of marksOf.get(line) ?? []) layer.push(markOf(mark));
  }
  gutter.firstChild.replaceChildren(...numbers);
  gutter.firstChild.style.transform = `translateY(${(first - 1) * LINE - top}px)`;
  marks.firstChild.replaceChildren(...layer);
  marks.firstChild.style.transform = `translate(${-left}px, ${-top}px)`;
}

function marked(name, kind, words) {
  const mark = document.createElement(name);
  mark.className = kind;
  mark.textContent = words;
  return mark;
}

// A mark behind some words of a text: the line up to them stands before it, unseen, so that it is where they are.
function markOf({ line, kind, before, words }) {
  const row = document.createElement('p');
  row.style.top = `${(line - 1) * LINE}px`;
  row.append(before, marked('mark', kind, words || ' '));
  return row;
}

// A change of a text moves what is marked in it; its lines stay marked until the next run.
function forgetMarks(role) {
  const isElsewhere = (place) => place.role !== role || place.number !== shown[role];
  const unmarked = (place) => (isElsewhere(place) ? place : { ...place, words: undefined });
  [places, warned] = [places, warned].map((all) => all.map(unmarked));
  drawGutter(role);
}

// The place of some characters of a text, with the words that stand there, up to the end of the line. Where nothing stands there, that is the word that begins there, or the character.
function placeIn(text, placeAt, from, to) {
  const at = Math.min(from, text.length);
  const [words] = to > at ? [text.slice(at, Math.min(to, at + MOST_MARKED))] : /^[^\s{}(),="#%]+|^/.exec(text.slice(at, at + MOST_MARKED));
  return { ...placeAt(at), words: (words || text.slice(at, at + 1)).split('\n')[0] };
}

function goTo(place) {
  const { role, number, line } = place;
  fill();
  if (shown[role] !== number) {
    keepFile(role);
    showFile(role, number);
  }
  const { text } = panes[role];
  const lines = text.value.split('\n');
  const from = lines.slice(0, line - 1).reduce((sum, each) => sum + each.length + 1, 0);
  const there = lines[line - 1] ?? '';
  const [start, length] = place.words && isThere(place, there) ? [place.column, place.words.length] : [0, there.length];
  text.focus();
  text.setSelectionRange(from + start, from + start + length);
  text.scrollTop = Math.max(0, (line - 4) * LINE);
  text.scrollLeft = 0;
}

// ---- a run

let worker;
// The first job's worker is made while the module is compiled.
let ready = new Worker(WORKER);
let asked = 0;
let waiting;

function stop(words) {
  worker?.terminate();
  worker = undefined;
  asked++;
  find('stop').disabled = true;
  if (words) showNothing(words);
}

// Takes back what an earlier run gave, so that nobody takes it for this one's.
function showNothing(words) {
  fill();
  find('status').textContent = words;
  for (const id of ['panel-list', 'panel-log']) find(id).firstChild.textContent = '';
  for (const id of ['panel-read', 'panel-verdict', 'messages']) find(id).replaceChildren();
  [places, warned] = [[], []];
  ROLES.forEach(drawGutter);
}

// The places of the document from which the lines of its .aux file were made, that file's name, its keys, what the page has to say of the document, and the places of its commands.
let made = { name: '', places: [], rows: [], remarks: [], commands: {} };

// The places of the lines of an .aux file: of a command what is in its braces.
function placesOfLines(text) {
  return text.split('\n').map((row, number) => {
    const argument = /^\\[A-Za-z@]+\{([^{}]*)\}/.exec(row);
    return { line: number + 1, column: argument ? argument[0].length - 1 - argument[1].length : 0, words: argument?.[1] };
  });
}

// The files of the job as the library is handed them, and the job's name.
function jobOf() {
  const { name, text } = current('document');
  const job = name.replace(/\.[^.]*$/, '') || 'paper';
  const bare = (file) => file.name.replace(/\.[^.]*$/, '');
  const aux = /\.aux$/i.test(name) ? { text, places: placesOfLines(text), remarks: [] } : auxOf(text, files.database.map(bare), bare(current('style')));
  const rows = aux.text.split('\n').map((row) => /^\\citation\{(.*)\}$/.exec(row)?.[1]);
  const placed = aux.places.map((place) => ({ role: 'document', number: 0, ...place }));
  const placeOf = (command) => placed[aux.text.split('\n').findIndex((row) => row.startsWith(command))];
  made = { name: `${job}.aux`, places: placed, rows, remarks: aux.remarks, commands: { database: placeOf('\\bibdata{'), style: placeOf('\\bibstyle{') } };
  const all = [[`${job}.aux`, aux.text], ...files.database.map((file) => [file.name, file.text]), ...files.style.map((file) => [file.name, file.text])];
  return { job, all };
}

// The number of steps that the page's field names; null where it isn't a number. Nothing is the number of the beginning.
function budgetOf() {
  const digits = find('budget').value.replace(/[\s,_]/g, '');
  const isNumber = /^\d*$/.test(digits);
  find('budget').setAttribute('aria-invalid', !isNumber);
  if (!isNumber) return null;
  return digits === '' ? STEPS : BigInt(digits);
}

function run() {
  clearTimeout(waiting);
  ROLES.forEach(keepFile);
  stop();
  const budget = budgetOf();
  if (budget === null) {
    showNothing('Not run: "Steps at most" has to be a whole number, in digits.');
    return;
  }
  const { job, all } = jobOf();
  worker = ready ?? new Worker(WORKER);
  ready = undefined;
  worker.onmessage = ({ data }) => data.number === asked && (data.verdict || data.unchecked ? showChecked(data) : showResult(data));
  worker.onerror = ({ message }) => showFailure(`It broke off: ${message}`);
  find('stop').disabled = false;
  find('status').textContent = 'Running ..';
  find('link-note').textContent = '';
  const options = { budget, text: find('utf8').checked ? 'utf8' : 'bytes' };
  running = current('style').text;
  worker.postMessage({ number: asked, module: MODULE, job, files: all, options, style: checked.style === running ? undefined : running });
}

function changed() {
  clearTimeout(waiting);
  waiting = setTimeout(run, PATIENCE);
}

// ---- what comes out

// What to do about a message, by the page's own table and that of the front end. `*` of a pattern is a name, and `~` any text.
function adviceOf(text) {
  for (const [pattern, advice] of [...PAGE_ADVICE, ...ADVICE]) {
    const found = pattern.exec(text);
    if (found) return advice.replace(/\$(\d)/g, (whole, number) => found[number] ?? whole);
  }
  return '';
}

// From the number of a line of a text to the line.
function lineFinder(text) {
  const lines = text.split('\n');
  return (line) => lines[line - 1] ?? '';
}

// What is made of a text when it is first asked for.
function once(make) {
  const made = new Map();
  return (text) => {
    if (!made.has(text)) made.set(text, make(text));
    return made.get(text);
  };
}

// Where keys stand: entries by their keys, in order, and where they are cited or named as parents. Case doesn't count. `wrong` has where messages of databases were met.
function indexOfKeys({ files: asked, parts, wrong }) {
  const entries = files.database.map(({ text }) => entriesIn(text));
  const index = { entries, defined: new Map(), named: new Map(), asked, parts, wrong: new Map(), placerOf: once(placer), finderOf: once(tokenFinder), lineOf: once(lineFinder) };
  files.database.forEach(({ text }, number) => {
    for (const [key, at] of parentsIn(text)) index.named.set(key, { role: 'database', number, ...at });
    for (const { key, line, type, at } of entries[number]) {
      const name = key.toLowerCase();
      if (!index.defined.has(name)) index.defined.set(name, { role: 'database', number, ...(at.line === line ? at : {}), line, key, type });
    }
  });
  made.rows.forEach((key, row) => key && index.named.set(key.toLowerCase(), made.places[row]));
  for (const { file, said, ...place } of wrong) {
    const name = `${file}\n${said}`;
    if (!index.wrong.has(name)) index.wrong.set(name, []);
    index.wrong.get(name).push(place);
  }
  return index;
}

// The place of a message that names a file and a line. A line of the .aux file that the page made is one of the document.
function statedPlace({ file, line }) {
  if (file === made.name && made.places[line - 1]?.line > 0) return made.places[line - 1];
  for (const role of ROLES) {
    const number = files[role].findIndex((each) => each.name === file);
    if (number >= 0) return { role, number, line };
  }
  return null;
}

// The one place of a line in which a name stands as a value of a database.
function valueNamed(name, line, whole, index) {
  const row = index.lineOf(whole)(line);
  const found = [...row.matchAll(/[=#]\s*([^\s,#{}()"=]+)/g)].filter(([, word]) => word.toLowerCase() === name.toLowerCase());
  return found.length === 1 ? { line, column: found[0].index + found[0][0].length - found[0][1].length, words: found[0][1] } : {};
}

// Where in its line a message was met, as far as that is known: of a database by its reader's word, or by the string or key that it names; of a style by the name that it has in the line.
function exactPlace({ kind, met, text, file, line }, { role, number }, index) {
  const whole = files[role][number].text;
  if (met === 'databases') {
    const said = `${kind === 'error' ? 'Error' : 'Warning'}--${text}--line ${line} of file ${file}`;
    const found = index.wrong.get(`${file}\n${said}`)?.shift();
    const place = found && placeIn(whole, index.placerOf(whole), found.from, found.to);
    if (place) return place.line === line ? place : {};
    const [, name] = UNKNOWN_STRING.exec(text) ?? [];
    if (name) return valueNamed(name, line, whole, index);
    const keys = REPEATED.test(text) && role === 'database' ? index.entries[number].filter((entry) => entry.at.line === line) : [];
    return keys.length === 1 ? keys[0].at : {};
  }
  const [, name] = role === 'style' ? UNKNOWN_FUNCTION.exec(text) ?? [] : [];
  return (name && index.finderOf(whole)(line, name)) || {};
}

// The last entry that begins above a place of a database, which may have a brace open: its first line with more `{` than `}`, or else its beginning.
function entryAbove({ number, line }, { entries }) {
  const above = entries[number].filter((entry) => entry.line < line).pop();
  if (!above) return undefined;
  const count = (text, sign) => text.split(sign).length;
  const inside = files.database[number].text.split('\n').slice(above.line, line - 1);
  const open = inside.findIndex((text) => count(text, '{') > count(text, '}'));
  const place = { role: 'database', number, line: open < 0 ? above.line : above.line + 1 + open, key: above.key };
  return { place, isFirst: open >= 0, words: open < 0 ? '' : `is each { closed in line ${place.line}?` };
}

// How many letters have to be changed, put in or left out between two words.
function distance(one, other) {
  let row = Array.from({ length: other.length + 1 }, (_, place) => place);
  for (let from = 1; from <= one.length; from++) {
    const next = [from];
    for (let to = 1; to <= other.length; to++) {
      next.push(Math.min(row[to] + 1, next[to - 1] + 1, row[to - 1] + (one[from - 1] === other[to - 1] ? 0 : 1)));
    }
    row = next;
  }
  return row[other.length];
}

// Longer words are no slips of a letter, and comparing them would hold the page up.
const LONGEST_WORD = 100;

// The word that is spelt most nearly like this one; nothing where none is.
function nearest(word, words) {
  let [best, least] = [undefined, word.length < 5 ? 2 : 3];
  if (word.length > LONGEST_WORD) return best;
  for (const other of words) {
    const far = Math.abs(other.length - word.length) < least ? distance(word, other) : least;
    if (far > 0 && far < least) [best, least] = [other, far];
  }
  return best;
}

// The cause of an error where a comma, a field or the end of an entry was expected: the brace of a field, the entry's own brace, or the comma above.
function causeOfComma({ key, line, after, isItem, open, isKey }, { role, number }) {
  if (open !== null) return { place: { role, number, line: open, key }, isFirst: true, words: `is each { and " closed in line ${open}?` };
  if (isItem) return { place: { role, number, line, key }, isFirst: true, isAll: true, words: `the entry ${key} of line ${line} isn't closed: put a } after line ${after}` };
  const words = isKey ? `is there a comma after the key ${key}, and no whitespace in it?` : `is there a comma at the end of line ${after}?`;
  return { place: { role, number, line: after }, isAll: true, words: `${words} Is each { above line ${after + 1} closed?` };
}

// The cause of a style's warning on an entry that was read in part.
function causeByPart(message, { parts }) {
  const words = keysOf(message);
  const part = parts.find(({ key }) => words.includes(key.toLowerCase()));
  const number = part ? files.database.findIndex(({ name }) => name === part.file) : -1;
  if (number < 0) return undefined;
  return { place: { role: 'database', number, line: part.until }, isAll: true, words: `the entry ${part.key} was read only up to line ${part.until}: mend the error there first` };
}

// The cause of a key that isn't found: it stands where nothing was read, or another one is meant.
function causeOfMissing(key, { defined, asked }) {
  const there = defined.get(key);
  if (!there) {
    const place = defined.get(nearest(key, defined.keys()));
    return place && { place, words: `do you mean ${place.key}?` };
  }
  const { name } = files.database[there.number];
  const named = asked.map((file) => file.name).filter((each) => roleOf(each, '') === 'database');
  if (named.includes(name)) return { isAll: true, words: `line ${there.line} of ${name} has it, and wasn't read as an entry: mend the errors above it first` };
  return { isAll: true, words: `${name}, in the pane "Database", has it, but the document names ${named.join(', ')}: write one name in both places` };
}

// The names of the functions of the style that runs.
function functionsOfStyle(asked) {
  const style = files.style.find(({ name }) => asked.some((file) => file.name === name)) ?? current('style');
  return [...style.text.matchAll(FUNCTION_NAME)].map(([, each]) => each.toLowerCase());
}

// The cause of a type that the style doesn't have.
function causeOfType(key, { defined, asked }) {
  const type = defined.get(key)?.type;
  if (!type) return undefined;
  const near = nearest(type.toLowerCase(), functionsOfStyle(asked).filter((name) => /^[a-z]+$/.test(name)));
  return { isAll: true, words: `"${type}" is no type of this style; ${near ? `do you mean ${near}?` : 'give the entry a type that the style has'}` };
}

// What may be the cause of a message: words, and a place, if there is one. `isFirst` is whether the place is to be looked at before that of the message,
// and `isAll` whether the words are to stand in place of the table's.
function causeOf(message, index) {
  const { text, met } = message;
  if (met === 'databases' && message.line && OPEN_BRACE.test(text)) {
    const place = statedPlace(message);
    if (place?.role !== 'database') return undefined;
    const part = index.parts.find(({ file, until }) => file === message.file && until === message.line);
    return part && (part.isItem || WANTS_COMMA.test(text)) ? causeOfComma(part, place) : entryAbove(place, index);
  }
  if (met === 'execution') return causeByPart(message, index);
  const [, key] = MISSING_KEY.exec(text) ?? [];
  if (key) return causeOfMissing(key.toLowerCase(), index);
  const [, typed] = UNKNOWN_TYPE.exec(text) ?? [];
  if (typed) return causeOfType(typed.toLowerCase(), index);
  const [, name] = met === 'style' ? UNKNOWN_FUNCTION.exec(text) ?? [] : [];
  const found = name && nearest(name.toLowerCase(), functionsOfStyle(index.asked));
  return found && { words: `do you mean ${found}?` };
}

// The place of the command that names a file which isn't there.
function commandPlaces({ text, met }) {
  const [, role] = met === 'execution' ? [] : MISSING_FILE.exec(text) ?? [];
  return made.commands[role]?.line > 0 ? [made.commands[role]] : [];
}

// The words of a message that may be keys: the entry of an execution, what stands in quotes, or else the first word and the last, as styles have it.
function keysOf({ text, entry }) {
  const quoted = [...text.matchAll(/"([^"]*)"/g)].map(([, word]) => word);
  const words = text.split(/\s+/);
  return [entry ?? '', ...(quoted.length > 0 ? quoted : [words[0], words.at(-1)])].map((word) => word.toLowerCase());
}

// The places of a message: what it states, or where the keys that it names stand.
function placesOf(message, index) {
  if (message.line) {
    const place = statedPlace(message);
    return place ? [{ ...place, ...exactPlace(message, place, index) }] : [];
  }
  const commands = commandPlaces(message);
  if (commands.length > 0) return commands;
  const words = keysOf(message);
  const found = new Set(words.map((word) => index.defined.get(word)).filter(Boolean));
  if (found.size === 0) words.map((word) => index.named.get(word)).filter(Boolean).forEach((place) => found.add(place));
  return [...found].slice(0, MOST_PLACES);
}

function placeButton(place) {
  const { role, number, line, key, column, words } = place;
  const button = document.createElement('button');
  button.type = 'button';
  button.className = 'place';
  const name = visible(files[role][number].name);
  button.textContent = `${name}:${line}${key ? `, ${visible(key)}` : ''}`;
  button.title = `Go to line ${line}${words === undefined ? '' : `, character ${column + 1}`}, of ${name}`;
  button.onclick = () => goTo(place);
  return button;
}

const KINDS = { error: 'Error: ', warning: 'Warning: ', own: 'Note: ' };

function wordsOf(name, text) {
  const words = document.createElement(name);
  words.textContent = visible(text);
  return words;
}

// Advice, in which what stands between backticks is code.
function adviceItem(text) {
  const item = document.createElement('small');
  item.append(...text.split('`').map((part, place) => wordsOf(place % 2 === 1 ? 'code' : 'span', part)));
  return item;
}

function messageItem(message, found, cause) {
  const item = document.createElement('li');
  item.className = message.kind;
  if (KINDS[message.kind]) item.append(wordsOf('b', KINDS[message.kind]));
  const executed = message.function ? ` (in ${message.function}${message.entry ? `, for ${message.entry}` : ''})` : '';
  const words = wordsOf('bdi', message.text + executed);
  words.className = 'words';
  item.append(words, ...found.map(placeButton));
  if (message.line && found.length === 0) {
    const place = wordsOf('bdi', `${message.file}:${message.line}`);
    place.className = 'place';
    item.append(place);
  }
  const advice = [cause?.words, cause?.isAll ? '' : adviceOf(message.text)].filter(Boolean).join(' If it isn\'t that: ');
  if (advice) item.append(adviceItem(advice));
  return item;
}

// A message with its places, of which the first ones are marked, and its cause.
function placedMessage(message, index, hasCause) {
  const cause = hasCause ? causeOf(message, index) : undefined;
  const [found, more] = [placesOf(message, index), cause?.place ? [cause.place] : []];
  const all = cause?.isFirst ? [...more, ...found] : [...found, ...more];
  return { message, cause, found: all, marked: all.slice(0, cause?.isFirst ? 2 : 1) };
}

function showMessages({ messages, ...result }) {
  const told = messages.filter(({ kind }) => kind === 'error' || kind === 'warning' || kind === 'ended');
  const index = indexOfKeys(result);
  const first = told.slice(0, MOST_MESSAGES).filter(({ kind, text }) => kind !== 'ended' || adviceOf(text));
  const own = made.remarks.map(({ text, ...place }) => ({ message: { kind: 'own', text }, found: place.line > 0 ? [{ role: 'document', number: 0, ...place }] : [] }));
  const placed = [...own, ...first.map((message, number) => placedMessage(message, index, number < MOST_CAUSES))];
  const items = placed.map(({ message, found, cause }) => messageItem(message, found, cause));
  if (told.length > MOST_MESSAGES) {
    const rest = document.createElement('li');
    rest.textContent = `and ${told.length - MOST_MESSAGES} more, in the log`;
    items.push(rest);
  }
  if (items.length === 0) {
    const none = document.createElement('li');
    none.textContent = 'None.';
    items.push(none);
  }
  find('messages').replaceChildren(...items);
  places = placed.flatMap(({ message: { kind }, found, marked = found }) => marked.map((place) => ({ ...place, kind })));
  ROLES.forEach(drawGutter);
}

const cut = (text) => (text.length > MOST_SHOWN ? `${text.slice(0, MOST_SHOWN)}\n.. (${text.length - MOST_SHOWN} characters more)` : text);

function showVerdict(verdict) {
  const panel = find('panel-verdict');
  const line = document.createElement('p');
  const words = {
    clean: 'Clean: no run of this style logs a fault of the stack, of kinds or of entries by itself, for entries of the types below or of types that it does not know.',
    warnings: 'Not called clean: it may go wrong at these places.',
    incomplete: 'The check did not come to its end.',
  };
  line.textContent = words[verdict.verdict];
  panel.replaceChildren(line);
  if (verdict.verdict === 'clean') {
    const types = document.createElement('p');
    types.textContent = visible(verdict.types.join(', '));
    panel.append(types);
  }
  const list = document.createElement('ol');
  const placed = verdict.warnings.slice(0, MOST_MESSAGES).map(warningPlacer());
  list.append(...placed.map(warningItem));
  panel.append(list);
  warned = placed.map(({ place }) => place).filter(Boolean);
  drawGutter('style');
}

// From a warning on the style that was checked to it and its place: the token, or else the line.
function warningPlacer() {
  const { text } = current('style');
  const number = text === checked.style ? shown.style : files.style.findIndex((file) => file.text === checked.style);
  const find = tokenFinder(checked.style);
  return (warning) => {
    const { at, next } = warning;
    const place = at?.line && number >= 0 ? { role: 'style', number, line: at.line, kind: 'warning', ...(next && find(at.line, next, at.token)) } : undefined;
    return { warning, place };
  };
}

const FAULTS = {
  stack: 'the literal stack may be empty', kind: 'an operand may be of a wrong kind', equal: '= may get what it can\'t compare', variable: 'this may be no variable',
  entry: 'there may be no entry', left: 'literals may be left on the stack',
};

function warningItem({ warning, place }) {
  const item = document.createElement('li');
  const wants = warning.wants ? `, where ${warning.next ?? 'it'} wants: ${warning.wants}` : '';
  const types = warning.types.filter(Boolean);
  const words = [`${FAULTS[warning.fault] ?? warning.fault}${wants}${warning.field ? ` (the field ${warning.field} may be missing)` : ''}`];
  words.push(warning.at ? `, in ${warning.at.function}` : `, after ${warning.command ?? ''}`);
  if (types.length > 0) words.push(`; met for ${types.slice(0, 5).join(', ')}${types.length > 5 ? ' ..' : ''}`);
  item.append(wordsOf('bdi', words.join('')));
  if (place) {
    const at = document.createElement('button');
    at.type = 'button';
    at.className = 'place';
    at.textContent = `line ${warning.at.line}`;
    at.onclick = () => goTo(place);
    item.append(at);
  }
  return item;
}

// A run that gave no result: why, and what to do.
function showFailure(text) {
  stop(`No result: ${visible(text)}.`);
  find('messages').replaceChildren(messageItem({ kind: 'error', text }, []));
}

// Says under a database or style that it is not of this job: the document names others.
function showUnused(asked) {
  for (const role of ['database', 'style']) {
    const named = asked.map(({ name }) => name).filter((name) => roleOf(name, '') === role);
    const isUnused = named.length > 0 && !named.includes(current(role).name);
    find(`${role}-note`).textContent = isUnused ? `Not used: the document names ${visible(named.join(', '))}.` : '';
  }
}

// Milliseconds after which the browser has shown what was put into the page.
const FRAMES = 100;

// The style of the job that runs; and the one that was checked last, with what was said of it: most changes are of other files.
let running = '';
let checked = { style: null, verdict: null };
// The names of the files that the last run asked for.
let lastAsked = [];

function endWorker() {
  find('stop').disabled = true;
  worker?.terminate();
  worker = undefined;
}

// What the worker says of the style, after the result of its job.
function showChecked({ verdict, unchecked }) {
  endWorker();
  if (unchecked) {
    find('panel-verdict').textContent = `No check: ${visible(unchecked)}.`;
    return;
  }
  checked = { style: running, verdict };
  showVerdict(verdict);
}

function showResult({ result, took, failed, parts, wrong }) {
  find('stop').disabled = true;
  if (failed) {
    endWorker();
    showFailure(failed);
    return;
  }
  const decoder = new TextDecoder();
  const list = decoder.decode(result.list);
  const { report } = result;
  find('panel-list').firstChild.textContent = cut(list);
  find('panel-log').firstChild.textContent = cut(decoder.decode(result.log));
  find('panel-read').replaceChildren(readable(cut(list)));
  if (checked.style !== running) warned = [];
  showMessages({ ...result, parts, wrong });
  lastAsked = result.files.map(({ name }) => name);
  showUnused(result.files);
  if (checked.style === running) showChecked(checked);
  else find('panel-verdict').textContent = 'Checking ..';
  const stopped = report.end === 'stopped' ? ' It was stopped at its budget: this is the beginning of its list.' : '';
  if (filling) setTimeout(fill, FRAMES);
  find('status').textContent = `Ended: ${report.end}. Errors: ${report.errors}, warnings: ${report.warnings}, steps: ${report.steps}, ${took.toFixed(0)} ms.${stopped}`;
}

// ---- a link with the job in it

async function throughStream(bytes, stream) {
  return new Uint8Array(await new Response(new Blob([bytes]).stream().pipeThrough(stream)).arrayBuffer());
}

// The files of a pane that the last run asked for; where it asked for none of them, the one that is shown.
function filesAsked(role) {
  const found = files[role].filter(({ name }) => lastAsked.includes(name));
  return found.length > 0 ? found : [current(role)];
}

async function linkOf() {
  ROLES.forEach(keepFile);
  const [databases, styles] = ['database', 'style'].map((role) => filesAsked(role).map((file) => [role, file]));
  const used = [['document', files.document[0]], ...databases, ...styles];
  const bytes = new TextEncoder().encode(JSON.stringify(used.map(([role, { name, text }]) => [name, text, role])));
  if (bytes.length > MOST_LINK_TEXT || used.length > MOST_LINK_FILES) return null;
  const packed = await throughStream(bytes, new CompressionStream('deflate-raw'));
  const words = btoa(String.fromCharCode(...packed.slice(0, MOST_LINK))).replace(/\+/g, '-').replace(/\//g, '_').replace(/=+$/, '');
  return packed.length > MOST_LINK ? null : `#job=${words}`;
}

// The text that a link has packed. It may unpack to a thousand times its length, so that only so much is taken.
async function unpackedText(bytes) {
  const reader = new Blob([bytes]).stream().pipeThrough(new DecompressionStream('deflate-raw')).getReader();
  const parts = [];
  let length = 0;
  for (let { done, value } = await reader.read(); !done; { done, value } = await reader.read()) {
    length += value.length;
    if (length > MOST_LINK_TEXT) {
      await reader.cancel();
      throw new RangeError('the job of the link is too long');
    }
    parts.push(value);
  }
  return new Blob(parts).text();
}

// The files of a link, with their roles: one document and a database at least. Throws for anything else.
function filesOfLink(text) {
  const list = JSON.parse(text);
  const isFile = (file) => Array.isArray(file) && [2, 3].includes(file.length) && file.every((word) => typeof word === 'string');
  if (!Array.isArray(list) || list.length > MOST_LINK_FILES || !list.every(isFile)) throw new TypeError('the link has no job');
  const found = list.map(([name, body, role]) => ({ name, body, role: ROLES.includes(role) ? role : roleOf(name) }));
  const count = (role) => found.filter((file) => file.role === role).length;
  if (count('document') !== 1 || count('database') < 1) throw new TypeError('the link has no job');
  return found;
}

// Takes the job of the page's address, if it has one; answers whether it was taken, or null where there is none.
async function takeLink() {
  if (!location.hash.startsWith('#job=')) return null;
  const found = /^#job=([\w-]{1,40000})$/.exec(location.hash);
  try {
    const bytes = Uint8Array.from(atob(found[1].replace(/-/g, '+').replace(/_/g, '/')), (letter) => letter.charCodeAt(0));
    const taken = filesOfLink(await unpackedText(bytes));
    files.database = [];
    for (const { name, body, role } of taken) addFile(name, body, role);
    find('hint').textContent = HINT;
    return true;
  } catch {
    find('hint').textContent = 'The job of this link can\'t be read, so that it is not shown.';
    return false;
  }
}

// ---- the page itself

function chooseTab(chosen) {
  for (const tab of document.querySelectorAll('[role=tab]')) {
    const is = tab === chosen;
    tab.setAttribute('aria-selected', is);
    tab.tabIndex = is ? 0 : -1;
    find(tab.getAttribute('aria-controls')).hidden = !is;
  }
}

function listenToTabs() {
  const tabs = [...document.querySelectorAll('[role=tab]')];
  tabs.forEach((tab, number) => {
    tab.onclick = () => chooseTab(tab);
    tab.onkeydown = ({ key }) => {
      const to = { ArrowRight: number + 1, ArrowLeft: number - 1, Home: 0, End: tabs.length - 1 }[key];
      if (to === undefined) return;
      const next = tabs[(to + tabs.length) % tabs.length];
      next.focus();
      chooseTab(next);
    };
  });
}

// The pane whose button asked for files.
let asking = 'document';

// A text from this length on is put into a field by the page: the browser takes some seconds for it.
const LONG_PASTE = 50_000;
// How much of it stands in the field until the result is there, and how many milliseconds at most.
const FIRST_CHARACTERS = 20_000;
const LONGEST_FILLING = 2000;

// Takes a long text that is pasted: it is run at once, and the keys that undo take it out again.
function listenToPaste(role) {
  const { text } = panes[role];
  let last = null;
  const put = (value, caret) => {
    fill();
    filling = { role, value, caret };
    const isLong = value.length > FIRST_CHARACTERS;
    if (isLong) text.value = value.slice(0, value.lastIndexOf('\n', FIRST_CHARACTERS) + 1);
    else fill();
    text.readOnly = isLong;
    forgetMarks(role);
    run();
    setTimeout(fill, LONGEST_FILLING);
  };
  text.addEventListener('paste', (event) => {
    const pasted = event.clipboardData.getData('text/plain').replace(/\r\n?/g, '\n');
    if (pasted.length < LONG_PASTE) return;
    event.preventDefault();
    fill();
    const { value: before, selectionStart: from, selectionEnd: to } = text;
    last = { before, from, after: before.slice(0, from) + pasted + before.slice(to) };
    put(last.after, from + pasted.length);
  });
  text.addEventListener('keydown', (event) => {
    if (event.key !== 'z' || !(event.ctrlKey || event.metaKey) || event.shiftKey || valueOf(role) !== last?.after) return;
    event.preventDefault();
    put(last.before, last.from);
    last = null;
  });
}

function listenToPane(role) {
  const { pane, text, name, which } = panes[role];
  text.oninput = () => {
    forgetMarks(role);
    changed();
  };
  name.oninput = changed;
  text.onscroll = () => see(role);
  new ResizeObserver(() => see(role)).observe(text);
  listenToPaste(role);
  if (which) {
    which.onchange = () => {
      const chosen = Number(which.value);
      keepFile(role);
      showFile(role, chosen);
      changed();
    };
  }
  pane.querySelector('.open').onclick = () => {
    asking = role;
    find('files').click();
  };
  const remove = pane.querySelector('.remove');
  if (remove) {
    remove.onclick = () => {
      files[role].splice(shown[role], 1);
      if (files[role].length === 0) files[role].push({ name: 'refs.bib', text: '' });
      showFile(role, 0);
      changed();
    };
  }
}

function listenToDrops() {
  const holds = (event) => [...event.dataTransfer.types].includes('Files');
  document.ondragover = (event) => {
    if (!holds(event)) return;
    event.preventDefault();
    document.body.classList.add('dropping');
  };
  document.ondragleave = (event) => event.relatedTarget ?? document.body.classList.remove('dropping');
  document.ondrop = (event) => {
    document.body.classList.remove('dropping');
    if (!holds(event)) return;
    event.preventDefault();
    takeFiles(event.dataTransfer.files);
  };
  find('files').onchange = ({ target }) => {
    takeFiles([...target.files], asking);
    target.value = '';
  };
}

function listen() {
  listenToTabs();
  ROLES.forEach(listenToPane);
  listenToDrops();
  find('run').onclick = run;
  find('stop').onclick = () => stop('Stopped.');
  find('budget').oninput = changed;
  find('utf8').onchange = changed;
  find('link').onclick = async () => {
    const link = await linkOf();
    if (link) history.replaceState(null, '', link);
    find('link-note').textContent = link ? 'The address of this page has the job in it now.' : 'The job is too long for a link.';
  };
  document.onkeydown = (event) => {
    if (event.key === 'Enter' && (event.ctrlKey || event.metaKey)) run();
    if (event.key === 'Escape' && !find('stop').disabled) stop('Stopped.');
  };
}

async function begin() {
  files.style = STYLES.map((style) => ({ ...style }));
  files.document = [{ ...FIRST_JOB.document }];
  files.database = FIRST_JOB.databases.map((file) => ({ ...file }));
  ROLES.forEach((role) => showFile(role, 0));
  listen();
  onhashchange = async () => { if (await takeLink()) run(); };
  await takeLink();
  run();
}

begin();
