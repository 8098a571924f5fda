// What a document asks of BibTeX, and how a list of references reads. Both know the common commands of LaTeX; the rest stands as it is.

// A document without its comments.
const uncommented = (text) => text.replace(/(^|[^\\])((?:\\\\)*)%[^\n]*/g, '$1$2');

const names = (list) => list.split(',').map((name) => name.trim()).filter(Boolean);

const CITING = String.raw`\\(?:no|paren|text|auto|foot|full|smart|super)?[cC]ite(?!style|text|reset)[A-Za-z]{0,40}\*?\s{0,200}(?:\[[^\][]{0,2000}\]\s{0,200}){0,2}\{([^{}]*)`;
const CITATION = new RegExp(`${CITING}\\}`, 'g');
// (without m: the end of the text)
const OPEN_CITATION = new RegExp(`${CITING}(?:\\{|$)`, 'g');
const NEXT_GROUP = /\s*(?:\[[^\][]{0,2000}\]\s*){0,2}\{([^{}]*)\}/y;
const DATABASES = /\\bibliography\s*\{([^{}]*)\}/g;
const STYLE = /\\bibliographystyle\s*\{([^{}]*)\}/g;

// The lists of keys of the citations in a text, with their places.
function* listsIn(body) {
  for (const { 0: whole, 1: list, index } of body.matchAll(CITATION)) {
    yield { list, from: index + whole.length - 1 - list.length };
    // (`\cites` and its kin, of biblatex, have a list in each group)
    if (!/^\\[a-z]*cites/i.test(whole)) continue;
    NEXT_GROUP.lastIndex = index + whole.length;
    for (let found = NEXT_GROUP.exec(body); found; found = NEXT_GROUP.exec(body)) yield { list: found[1], from: NEXT_GROUP.lastIndex - 1 - found[1].length };
  }
}

// The keys of the citations in a text, each once, with the place of its first citation.
function keysIn(body) {
  const keys = new Map();
  for (const { list, from } of listsIn(body)) {
    let at = from;
    for (const part of list.split(',')) {
      // (a line end within a key is a space in LaTeX's file)
      const key = part.trim().replace(/\s+/g, ' ');
      if (key && !keys.has(key)) keys.set(key, at + part.search(/\S/));
      at += part.length + 1;
    }
  }
  return keys;
}

// What the page has to say of a document itself: a citation that isn't closed, with its place, and what stands in for a command that isn't there.
function* remarksOn(body, data, styles, databases, style) {
  for (const { 0: whole, 1: list, index } of body.matchAll(OPEN_CITATION)) {
    // (a definition of such a command has another one first)
    if (/^\s*\\/.test(list)) continue;
    const [command] = /^\\[A-Za-z]+/.exec(whole);
    yield { at: index, words: command, text: `${command} isn't closed, so that its keys are left out: put a } after its last key.` };
  }
  const instead = (command, taken) => ({ at: -1, words: '', text: `The document has no \\${command}. The page takes ${taken}; BibTeX would log an error.` });
  if (data.length === 0) yield instead('bibliography', `the databases that are here (${databases.join(', ')})`);
  if (styles.length === 0) yield instead('bibliographystyle', `the style that is shown here (${style})`);
}

// `remarks` of what is made are what is amiss in the document itself, each with a text and a place.
/** The `.aux` file that LaTeX would write for this document, as far as BibTeX reads it, and for each of its lines where it is in the document, with the words there (line 0 where it isn't). */
function auxOf(text, databases, style) {
  const body = uncommented(text);
  const rows = [...keysIn(body)].map(([key, at]) => [`\\citation{${key}}`, at, key.length]);
  const data = [...body.matchAll(DATABASES)].map(({ 0: whole, 1: list, index }) => [`\\bibdata{${names(list).join(',')}}`, index, whole.length]);
  const styles = [...body.matchAll(STYLE)].map(({ 0: whole, 1: name, index }) => [`\\bibstyle{${name.trim()}}`, index, whole.length]);
  rows.push(...(data.length > 0 ? data : [[`\\bibdata{${databases.join(',')}}`, -1]]));
  rows.push(...(styles.length > 0 ? styles : [[`\\bibstyle{${style}}`, -1]]));
  const placeAt = placer(body);
  const places = rows.map(([, at, length]) => ({ ...placeAt(at), words: body.slice(at, at + length).split('\n')[0] }));
  const remarks = [...remarksOn(body, data, styles, databases, style)].map(({ at, words, text: said }) => ({ text: said, ...placeAt(at), words }));
  return { text: rows.map(([row]) => `${row}\n`).join(''), places, remarks };
}

// From a place in a text to its line, from 1, and its column, from 0; line 0 for a place before it. The text is counted once.
function placer(text) {
  const ends = [-1];
  for (let at = text.indexOf('\n'); at >= 0; at = text.indexOf('\n', at + 1)) ends.push(at);
  return (place) => {
    if (place < 0) return { line: 0, column: 0 };
    let [least, most] = [1, ends.length];
    while (least < most) {
      const middle = (least + most) >> 1;
      if (ends[middle] < place) least = middle + 1;
      else most = middle;
    }
    return { line: least, column: place - ends[least - 1] - 1 };
  };
}

const ENTRY = /@\s*([A-Za-z]+)\s*[{(]\s*([^\s,{}()"]+)/g;
const PARENT = /\bcrossref\s*=\s*["{]\s*([^\s,{}"]+)/gi;

/** The entries of a database as a reader finds them, each with its type and key, its line, and the place of its key; text in `@comment`s may be among them. */
function entriesIn(text) {
  const placeAt = placer(text);
  const found = [...text.matchAll(ENTRY)].filter(([, type]) => !/^(?:string|preamble|comment)$/i.test(type));
  return found.map(({ 0: whole, 1: type, 2: key, index }) => ({ type, key, line: placeAt(index).line, at: { ...placeAt(index + whole.length - key.length), words: key } }));
}

/** Where a database names the parent of an entry, by the parent's key in small letters. */
function parentsIn(text) {
  const placeAt = placer(text);
  return new Map([...text.matchAll(PARENT)].map(({ 0: whole, 1: key, index }) => [key.toLowerCase(), { ...placeAt(index + whole.length - key.length), words: key }]));
}

const ACCENTS = { "'": '\u0301', '`': '\u0300', '^': '\u0302', '"': '\u0308', '~': '\u0303', '=': '\u0304', '.': '\u0307', c: '\u0327', v: '\u030c', u: '\u0306',
  H: '\u030b', k: '\u0328', d: '\u0323', b: '\u0331', r: '\u030a' };
const SIGNS = { ss: 'ß', o: 'ø', O: 'Ø', l: 'ł', L: 'Ł', ae: 'æ', AE: 'Æ', oe: 'œ', OE: 'Œ', aa: 'å', AA: 'Å', i: 'ı', j: 'ȷ', '&': '&', '%': '%', $: '$', '#': '#',
  _: '_', '{': '{', '}': '}', ' ': ' ', '-': '', '/': '', ',': '\u2009', TeX: 'TeX', LaTeX: 'LaTeX', TH: 'Þ', th: 'þ', DH: 'Ð', dh: 'ð', DJ: 'Đ', dj: 'đ', ldots: '…', dots: '…', textendash: '–', textemdash: '—' };
const SHAPES = { emph: 'em', textit: 'em', textsl: 'em', textbf: 'strong', texttt: 'code', url: 'code', path: 'code', doi: 'code', textsc: 'span', textrm: 'span', textsf: 'span',
  text: 'span', mbox: 'span', uppercase: 'span', bibinfo: null, enquote: 'q' };
const SWITCHES = { em: 'em', it: 'em', itshape: 'em', sl: 'em', slshape: 'em', bf: 'strong', bfseries: 'strong', tt: 'code', ttfamily: 'code', sc: 'span', scshape: 'span',
  rm: 'span', upshape: 'span', small: 'span' };
const GONE = new Set(['newblock', 'relax', 'penalty', 'noopsort', 'providecommand', 'bibAnnoteFile', 'BibitemOpen', 'BibitemShut', 'natexlab']);
const MOST_DEPTH = 100;

// A reader of a text of LaTeX, from a place on.
class Reading {
  constructor(text) {
    this.text = text;
    this.place = 0;
  }

  get isAtEnd() {
    return this.place >= this.text.length;
  }

  // What an expression matches here, which is passed over.
  take(expression) {
    expression.lastIndex = this.place;
    const found = expression.exec(this.text);
    if (found) this.place += found[0].length;
    return found;
  }

  // The text of the group that begins here, without its braces; or one character.
  argument() {
    this.take(/[ \n]*/y);
    if (this.text[this.place] !== '{') return this.take(/\\[A-Za-z]+|\\.|[^]/uy)?.[0] ?? '';
    let depth = 0;
    for (let to = this.place; to < this.text.length; to++) {
      if (this.text[to] === '\\') to++;
      else if (this.text[to] === '{') depth++;
      else if (this.text[to] === '}' && --depth === 0) {
        const inside = this.text.slice(this.place + 1, to);
        this.place = to + 1;
        return inside;
      }
    }
    const rest = this.text.slice(this.place + 1);
    this.place = this.text.length;
    return rest;
  }
}

const plain = (text) => text.replace(/---/g, '—').replace(/--/g, '–').replace(/``/g, '“').replace(/''/g, '”').replace(/`/g, '‘').replace(/'/g, '’').replace(/~/g, '\u00a0');

// Appends to an element what a text of LaTeX reads as: text alone, and elements of a few kinds, never HTML of the text.
function show(element, text, depth = 0) {
  const reading = new Reading(text);
  while (!reading.isAtEnd) {
    const words = reading.take(/[^\\{}$]+/y);
    if (words) element.append(plain(words[0]));
    else if (reading.text[reading.place] === '{') group(element, reading.argument(), depth);
    else if (reading.text[reading.place] === '\\') command(element, reading, depth);
    else reading.place++;
  }
}

function inside(element, name, text, depth) {
  const made = document.createElement(name);
  if (depth < MOST_DEPTH) show(made, text, depth + 1);
  else made.append(text);
  element.append(made);
}

// A group, which may begin with a switch of the font.
function group(element, text, depth) {
  const found = /^\s*\\([A-Za-z]+)\s*/.exec(text);
  const name = found && Object.hasOwn(SWITCHES, found[1]) ? SWITCHES[found[1]] : 'span';
  inside(element, name, name === 'span' ? text : text.slice(found[0].length), depth);
}

function accent(element, mark, letter) {
  const base = letter.replace(/^\\([ij])$/, '$1').replace(/^\{(.*)\}$/, '$1');
  element.append((base.slice(0, 1) + ACCENTS[mark]).normalize('NFC') + base.slice(1));
}

function command(element, reading, depth) {
  const [whole, name] = reading.take(/\\([A-Za-z]+|[^]|$)/y);
  if (Object.hasOwn(ACCENTS, name)) return accent(element, name, reading.argument());
  if (/^[A-Za-z]/.test(name)) reading.take(/[ \n]*/y);
  if (Object.hasOwn(SIGNS, name)) return element.append(SIGNS[name]);
  if (Object.hasOwn(SHAPES, name)) {
    if (SHAPES[name] === null) reading.argument();
    return inside(element, SHAPES[name] ?? 'span', reading.argument(), depth);
  }
  if (name === 'cite') return element.append(`[${reading.argument()}]`);
  if (name === 'href') {
    reading.argument();
    return inside(element, 'span', reading.argument(), depth);
  }
  if (Object.hasOwn(SWITCHES, name) || GONE.has(name)) return undefined;
  return element.append(whole);
}

// Whether a list has no items: nothing at all, or what goes round the items alone.
const isEmptyList = (text) => text.trim() === '' || /\\begin\{thebibliography\}\s*(?:\{[^{}]*\}\s*)?(?:\\end\{thebibliography\}|$)/.test(text);

// How many items of a list are made at once, and how many milliseconds the others may take before the page goes on.
const FIRST_ITEMS = 60;
const SLICE = 12;

// An item of a list, by its text after `\bibitem`.
function itemOf(part) {
  const item = document.createElement('li');
  const found = /^\s*(?:\[((?:[^[\]{}]|\{(?:[^{}]|\{[^{}]*\})*\})*)\])?\s*(?:%\n\s*)?\{[^{}]*\}([^]*)$/.exec(part);
  if (found?.[1]) {
    inside(item, 'b', `[${found[1]}]`, 0);
    item.append(' ');
  }
  show(item, (found ? found[2] : part).replace(/\\end\{thebibliography\}[^]*$/, '').trim());
  return item;
}

// Appends the other items of a list little by little, as long as it is in the page.
function appendSlowly(list, parts) {
  setTimeout(() => {
    if (!list.isConnected) return;
    const [made, began] = [[], performance.now()];
    while (made.length < parts.length && performance.now() - began < SLICE) made.push(itemOf(parts[made.length]));
    list.append(...made);
    if (made.length < parts.length) appendSlowly(list, parts.slice(made.length));
  });
}

/** A list of references as it would read: a list, or what it has where it isn't one. Of a long list the first items are there at once. */
function readable(text) {
  const [, ...parts] = text.split(/\\bibitem(?![A-Za-z])/);
  const shown = document.createElement('div');
  if (parts.length === 0) {
    if (isEmptyList(text)) shown.append('The list is empty.');
    else show(shown, text);
    return shown;
  }
  const list = document.createElement('ol');
  list.className = 'entries';
  list.append(...parts.slice(0, FIRST_ITEMS).map(itemOf));
  if (parts.length > FIRST_ITEMS) appendSlowly(list, parts.slice(FIRST_ITEMS));
  shown.append(list);
  return shown;
}
