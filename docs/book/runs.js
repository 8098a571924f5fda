// Examples of the book that can be run and changed where they stand: each gets a button, which opens a pane below it. RUNS has the jobs (runs.py), and the module runs them in
// a worker, so that an endless style holds nothing up. Whatever comes from a text is shown as text. The page is as it was where this file isn't.
/* global WORKER, RUNS, PROVED, unpacked */

const BUDGET = 10_000_000n;
const PATIENCE = 250;
const MOST_SHOWN = 20_000;
const OPTIONS = { 'min-crossrefs': 'minCrossrefs', line: 'line', 'entry-max': 'entryMax', 'global-max': 'globalMax', budget: 'budget', text: 'text' };
// The program's own options, as the rules have them.
const USUAL = { entryMax: 250, globalMax: 20_000 };
const BASE = { 'job.aux': '\\citation{k}\n\\bibdata{d}\n\\bibstyle{s}\n', 'd.bib': '@misc{k, title = {T}}\n', 'e.bib': '', 's.bst': '' };
const STYLE = `.run-it{font:600 .7rem/1.2 sans-serif;color:var(--link);background:var(--code);border:1px solid var(--edge);border-radius:.25rem;padding:.1rem .4rem;margin:0 .3rem;cursor:pointer}
.run-it:focus-visible,.run textarea:focus-visible,.run summary:focus-visible{outline:2px solid var(--target);outline-offset:2px}
.run{border:1px solid var(--edge);border-radius:.3rem;padding:.4rem .6rem;margin:.4rem 0;background:var(--paper);font-size:.85rem}
.run textarea{width:100%;font:.8rem/1.42 "DejaVu Sans Mono","Menlo","Consolas",monospace;color:inherit;background:var(--code);border:1px solid var(--edge);padding:.3rem;resize:vertical}
.run .verdict{font-weight:600}.run .no{color:var(--differs)}.run pre{max-height:16rem;overflow:auto}.run label,.run summary,.run .what{font:.75rem/1.4 sans-serif;color:var(--dim)}
.run-row .run{position:sticky;left:0;max-width:calc(100vw - 2rem)}
@media print{.run,.run-it{display:none}}`;

// ---- what comes of a job, as rule_jobs.py has it

function literalsIn(log) {
  const lines = log.split('\n').slice(0, -1);
  const at = lines.findIndex((line) => line.startsWith("Error--The literal stack isn't empty"));
  return at < 0 ? [] : lines.slice(at + 1, -1).reverse();
}

const errorsIn = (log) => log.split('\n').filter((line) => line.startsWith('Error--') && !line.includes("The literal stack isn't empty"));
const same = (one, other) => JSON.stringify(one) === JSON.stringify(other);
const saidIn = (log) => log.split('\n').filter((line) => /^(?:Error|Warning)/.test(line));

const IS_SO = {
  literals: (it, { log }) => same(literalsIn(log), it),
  words: (it, { log }) => same(literalsIn(log).map((text) => text.replace(/~/g, ' ')), it),
  errors: (it, { errors }) => errors.length === it,
  has: (it, { errors }) => it.every((text) => errors.some((line) => line.includes(text))),
  'in order': (it, { errors }) => errors.length === it.length && it.every((text, place) => errors[place].includes(text)),
  matches: (it, { log }) => it.some((text) => new RegExp(text).test(log)),
  logs: (it, { log }) => log.includes(it),
  lacks: (it, { log }) => !log.includes(it),
  begins: (it, { log }) => log.startsWith(it),
  said: (it, { log }) => same(saidIn(log), it),
  messages: (it, { log }) => saidIn(log).length === it,
  lines: ([ending, lines], { log }) => same([...log.matchAll(new RegExp(`--line (\\d+) of file .*\\.${ending}$`, 'gm'))].map(([, line]) => Number(line)), lines),
  list: (it, { list }) => list === it,
};

// What of a job isn't as the text has it: the names of `wanted`.
function amissIn(wanted, list, log) {
  const made = { list, log, errors: errorsIn(log) };
  return Object.entries(wanted).filter(([name, it]) => !IS_SO[name](it, made)).map(([name]) => name);
}

// ---- where examples stand

const squeezed = (text) => text.replace(/\s+/g, ' ').trim();

// The elements from a heading up to the next one.
function* after(heading) {
  for (let it = heading.nextElementSibling; it && !/^H[2-5]$/.test(it.tagName); it = it.nextElementSibling) yield it;
}

// The cell of a table, or the code, that has an example below the heading. One that has a button already is passed over for another with the same text.
function codeOf({ anchor, code }) {
  const heading = document.getElementById(anchor);
  const found = heading ? [...after(heading)].flatMap((it) => [...(it.tagName === 'PRE' ? [it] : it.querySelectorAll('code, td'))]) : [];
  // (a block with empty lines stands in the book in parts, of which the first one has the button)
  const isIt = (it) => (it.tagName === 'PRE' ? squeezed(code).startsWith(squeezed(it.textContent)) : squeezed(it.textContent) === squeezed(code));
  const same = found.filter(isIt);
  const inside = same.filter((it) => !same.some((other) => other !== it && it.contains(other)));
  return inside.find((it) => it.nextElementSibling?.className !== 'run-it' && !it.querySelector(':scope > .run-it')) ?? inside[0];
}

// The places of a run: the worked examples of its text, or its code below its heading. The same text may stand at several sections.
function placesOf(run, examples) {
  return run.anchor === '' ? examples.filter(([text]) => text === run.code).map(([, it]) => it) : [codeOf(run)].filter(Boolean);
}

function element(name, className, text = '') {
  const made = document.createElement(name);
  made.className = className;
  made.textContent = text;
  return made;
}

let panes = 0;

// Puts a button at an example; its pane opens below.
function addButton(run, place) {
  const button = element('button', 'run-it', 'run');
  button.type = 'button';
  button.setAttribute('aria-expanded', 'false');
  button.setAttribute('aria-label', `Run this example: ${squeezed(run.code || run.text).slice(0, 60)}`);
  let pane;
  button.onclick = () => {
    if (!pane) {
      pane = new Pane(run);
      pane.element.id = `run-${++panes}`;
      button.setAttribute('aria-controls', pane.element.id);
      put(pane.element, place);
    }
    const isOpen = button.getAttribute('aria-expanded') === 'true';
    button.setAttribute('aria-expanded', String(!isOpen));
    pane.show(!isOpen);
  };
  if (place.className === 'example') place.querySelector('footer').before(button);
  else if (place.tagName === 'TD') place.append(button);
  else place.after(button);
  return button;
}

// Puts a pane below the row, the paragraph or the example.
function put(pane, place) {
  const row = place.closest('tr');
  if (place.className === 'example') place.append(pane);
  else if (row) {
    const cell = element('td', '');
    cell.colSpan = row.children.length;
    cell.append(pane);
    const below = element('tr', 'run-row');
    below.append(cell);
    row.after(below);
  } else if (place.closest('li')) place.closest('li').append(pane);
  else (place.closest('p') ?? place.nextElementSibling ?? place).after(pane);
}

// ---- a pane

let machine;

// The module, compiled when an example is first run.
function compiled() {
  machine ??= unpacked.then((bytes) => WebAssembly.compile(bytes));
  return machine;
}

// A worker that has ended its job, and waits for another.
let idle;

function takeWorker() {
  const worker = idle ?? new Worker(WORKER);
  idle = undefined;
  return worker;
}

function giveBack(worker) {
  idle?.terminate();
  idle = worker;
}

const decoder = new TextDecoder();

class Pane {
  #run;
  #worker;
  #number = 0;
  #waiting;

  constructor(run) {
    this.#run = run;
    this.element = element('div', 'run');
    this.text = element('textarea', '');
    this.text.value = run.text;
    this.text.rows = Math.min(12, run.text.split('\n').length + 1);
    this.text.spellcheck = false;
    this.text.setAttribute('aria-label', `The example, which can be changed: ${run.file}`);
    this.text.oninput = () => {
      clearTimeout(this.#waiting);
      this.#waiting = setTimeout(() => this.run(), PATIENCE);
    };
    this.stop = element('button', 'run-it', 'stop');
    this.stop.type = 'button';
    this.stop.onclick = () => this.#end('Stopped.');
    this.verdict = element('p', 'verdict');
    this.verdict.setAttribute('role', 'status');
    this.shown = element('div', '');
    this.whole = element('details', '');
    this.whole.append(element('summary', '', 'The whole job'));
    this.whole.ontoggle = () => this.#showWhole();
    this.element.append(element('p', 'what', this.#what()), this.text, this.stop, this.verdict, this.shown, this.whole);
  }

  #what() {
    const { file, before, options } = this.#run;
    const said = Object.entries(options).map(([name, value]) => `--${name} ${value}`);
    return `${file}${before ? ', the part of it that is the example' : ''}${said.length > 0 ? `; with ${said.join(' ')}` : ''}${PROVED ? '' : '; NOT PROVED: this module was made for trying'}`;
  }

  // The files of the job, as they are at the time.
  files() {
    const { file, before, after: behind, files } = this.#run;
    const all = { ...BASE, ...files, [file]: before + this.text.value + behind };
    return Object.entries(all).filter(([, text]) => text !== null);
  }

  // The files of the job, which are shown where they are asked for.
  #showWhole() {
    if (!this.whole.open) return;
    const files = this.files().filter(([, text]) => text !== '');
    this.whole.replaceChildren(this.whole.firstChild, ...files.flatMap(([name, text]) => [element('p', 'what', name), element('pre', '', text)]));
  }

  show(isOpen) {
    this.element.hidden = !isOpen;
    if (isOpen) this.run();
    else this.#end('');
  }

  // Ends what runs, and says why.
  #end(words) {
    this.#worker?.terminate();
    this.#worker = undefined;
    this.#number++;
    this.stop.disabled = true;
    this.say(words);
  }

  say(words, state = '') {
    this.verdict.textContent = words;
    this.verdict.className = `verdict ${state}`;
    this.element.dataset.state = state;
  }

  async run() {
    this.#end('Running ..');
    this.#showWhole();
    this.stop.disabled = false;
    const number = this.#number;
    const module = await compiled();
    if (number !== this.#number) return;
    this.#worker = takeWorker();
    this.#worker.onmessage = ({ data }) => data.number === this.#number && this.#done(data);
    this.#worker.onerror = ({ message }) => this.#end(`It broke off: ${message}`);
    const options = { ...USUAL, budget: BUDGET };
    for (const [name, value] of Object.entries(this.#run.options)) options[OPTIONS[name]] = name === 'budget' ? BigInt(value) : value;
    this.#worker.postMessage({ number, module, job: 'job', files: this.files(), options });
  }

  #done({ result, failed }) {
    giveBack(this.#worker);
    this.#worker = undefined;
    this.#end('');
    if (failed) {
      this.say(`No result: ${failed}.`, 'no');
      return;
    }
    const [list, log] = [decoder.decode(result.list), decoder.decode(result.log)];
    this.#showMade(list, log);
    const amiss = amissIn(this.#run.wanted, list, log);
    const isChanged = this.text.value !== this.#run.text;
    if (isChanged) this.say(amiss.length > 0 ? 'Changed: now it comes to something else than the text says.' : 'Changed: it still comes to what the text says.', 'changed');
    else this.say(amiss.length > 0 ? `NOT what the text says: ${amiss.join(', ')}.` : 'As the text says.', amiss.length > 0 ? 'no' : 'yes');
  }

  #showMade(list, log) {
    const parts = [];
    const add = (head, text) => parts.push(element('p', 'what', head), element('pre', '', text.length > MOST_SHOWN ? `${text.slice(0, MOST_SHOWN)} ..` : text));
    const literals = literalsIn(log);
    if (literals.length > 0) add('Literals that are left, the lowest first', literals.join('\n'));
    if (list !== '') add('The list', list);
    add('The log', log);
    this.shown.replaceChildren(...parts);
  }
}

// ---- the page

function begin() {
  document.head.append(element('style', '', STYLE));
  const examples = [...document.querySelectorAll('.example')].map((it) => [it.querySelector('pre').textContent.replace(/\s/g, ''), it]);
  const lost = [];
  for (const run of RUNS) {
    // (a button is there before the next place is looked for)
    const places = placesOf(run, examples);
    places.forEach((place) => addButton(run, place));
    if (places.length === 0) lost.push(`${run.anchor} ${run.code}`);
  }
  // (what tests ask for: the examples that have no place on this page)
  document.documentElement.dataset.lost = JSON.stringify(lost);
}

begin();
