// Runs the examples of the book of definitions where they stand, in a headless chromium: each comes to what the text says, and can be changed.
//
//     node tests/documents/book_runs.mjs [PICTURES]
//
// It needs docs/book/out with book-runs.js (`make web`, then `make book`) and Debian's chromium; where that isn't there, a line says so. Into the folder PICTURES it puts some
// pictures. The last line is 'N passed, M failed'.
import { copyFileSync, existsSync, mkdirSync, mkdtempSync, readFileSync, rmSync, statSync, writeFileSync } from 'node:fs';
import { tmpdir } from 'node:os';
import path from 'node:path';
import { fileURLToPath, pathToFileURL } from 'node:url';
import { Browser, program } from '../../web/page/browser.mjs';

const OUT = path.resolve(path.dirname(fileURLToPath(import.meta.url)), '../../docs/book/out');
const PAGES = ['book.html', 'worked.html'];
const RUNS = path.join(OUT, 'book-runs.js');
// The examples are fewer only if the rules, or chapters.txt, lose some.
const LEAST = { rules: 120, worked: 98 };
const MOST_BYTES = 3_000_000;
const pictures = process.argv[2];
let passed = 0;
let failed = 0;

function check(name, is) {
  if (is) passed += 1;
  else {
    failed += 1;
    console.log(`FAILED: ${name}`);
  }
}

const READY = "document.documentElement.dataset.lost !== undefined";
// How many milliseconds a page or a job may take, on a machine with much else to do.
const PATIENCE = 120_000;
// Opens an example's pane, and answers its state once its job has ended.
const HELPERS = `
  window.ended = async (pane) => { for (const end = Date.now() + ${PATIENCE}; !pane.dataset.state && Date.now() < end;) await new Promise((done) => setTimeout(done, 2)); return pane.dataset.state; };
  window.openIt = async (button) => { button.click(); const pane = document.getElementById(button.getAttribute('aria-controls')); await ended(pane); return pane; };
  window.change = async (pane, text) => { const field = pane.querySelector('textarea'); pane.dataset.state = ''; field.value = text; field.dispatchEvent(new Event('input'));
    await new Promise((done) => setTimeout(done, 300)); return ended(pane); };
  window.buttons = () => [...document.querySelectorAll('.run-it[aria-expanded]')];
  true`;

// The examples of a page: of each its words, its state and what the pane says. Meanwhile the page isn't drawn: else it would be laid out anew, all of it, with each pane.
async function runAll(page) {
  return page.ask(`(async () => {
    const made = [];
    document.documentElement.style.display = 'none';
    for (const button of buttons()) {
      const pane = await openIt(button);
      made.push([button.getAttribute('aria-label'), pane.dataset.state, pane.querySelector('.verdict').textContent]);
      button.click();
    }
    document.documentElement.style.display = '';
    return made;
  })()`);
}

async function everyExample(page, name) {
  const made = await runAll(page);
  for (const [label, state, verdict] of made) check(`${name}: ${label}: ${verdict}`, state === 'yes');
  return made.length;
}

async function changes(page) {
  const state = (text) => page.ask(`change(window.pane, ${JSON.stringify(text)})`);
  const said = () => page.ask("window.pane.querySelector('.verdict').textContent + ' | ' + window.pane.textContent");
  await page.ask("(async () => { window.button = buttons().find((it) => it.ariaLabel.includes('substring$')); window.pane = await openIt(button); return true; })()");
  const text = await page.ask("window.pane.querySelector('textarea').value");
  check('another text comes to something else', (await state('"zzz"')) === 'changed' && (await said()).includes('something else') && (await said()).includes('"zzz"'));
  check('one that comes to the same is said to', (await state(`${text} %`.replace('%', ' '))) === 'changed' && (await said()).includes('still comes to'));
  check('the text as it was is as the text says', (await state(text)) === 'yes');
  check('a mistake shows its message', (await state('nosuch')) === 'changed' && (await said()).includes('nosuch is an unknown function'));
  const script = '"<img src=x onerror=window.hit=1><script>window.hit=1</script>" top$';
  await state(script);
  check('what a style writes is text', !(await page.ask('Boolean(window.hit)')) && (await said()).includes('<script>') && !(await page.ask("window.pane.querySelector('img, script') !== null")));
  await page.ask(`(() => { const field = window.pane.querySelector('textarea'); field.value = '{#1} {skip$} while$'; field.dispatchEvent(new Event('input')); })()`);
  check('an endless style ends at its budget', (await page.until("window.pane.textContent.includes('Ended: stopped')")));
  await page.ask("window.pane.querySelector('details').open = true");
  check('the whole job is shown, as it is now', await page.until("['job.aux', 'd.bib', 's.bst', 'ITERATE {f}', '{#1} {skip$} while$'].every((it) => window.pane.querySelector('details').textContent.includes(it))"));
  await page.ask("button.click()");
  check('the pane closes', await page.ask("window.pane.hidden && button.ariaExpanded === 'false'"));
  await page.ask("button.click()");
  check('and opens again with its text', await page.ask("!window.pane.hidden && window.pane.querySelector('textarea').value.includes('while$')"));
}

async function stops(page) {
  const said = await page.ask(`(async () => {
    await ended(window.pane);
    const field = window.pane.querySelector('textarea');
    const verdict = window.pane.querySelector('.verdict');
    field.value = '{#1} {"x" #1 pop$ pop$} while$';
    field.dispatchEvent(new Event('input'));
    while (verdict.textContent !== 'Running ..') await new Promise((done) => setTimeout(done, 1));
    window.pane.querySelector('.run-it').click();
    await new Promise((done) => setTimeout(done, 500));
    return verdict.textContent;
  })()`);
  check('a job can be stopped', said === 'Stopped.');
}

async function looks(page) {
  for (const scheme of ['light', 'dark']) {
    await page.scheme(scheme);
    for (const width of [1280, 390]) {
      await page.width(width);
      check(`nothing is wider than the page, ${width} px, ${scheme}`, await page.ask('document.documentElement.scrollWidth <= innerWidth'));
      await page.ask("window.pane.scrollIntoView()");
      check(`a pane is seen whole, ${width} px, ${scheme}`, await page.ask("(({ left, right }) => left >= 0 && right <= innerWidth)(window.pane.getBoundingClientRect())"));
      if (pictures) writeFileSync(path.join(pictures, `book-${scheme}-${width}.png`), await page.picture());
    }
  }
  await page.width(1280);
  check('letters are 11 pixels at least', await page.ask("[...window.pane.querySelectorAll('*')].every((it) => !it.offsetParent || parseFloat(getComputedStyle(it).fontSize) >= 11)"));
  check('each field and button has a name', await page.ask("[...document.querySelectorAll('.run textarea, .run-it')].every((it) => it.ariaLabel || it.textContent)"));
  await page.ask("buttons()[0].focus()");
  await page.press('Enter');
  check('Enter on a button opens its example', await page.ask("buttons()[0].ariaExpanded === 'true'"));
}

// A job whose text says something else is found out: the file beside the book with one number changed.
async function canFail(browser, room) {
  copyFileSync(path.join(OUT, 'book.html'), path.join(room, 'book.html'));
  const script = readFileSync(RUNS, 'utf8');
  const changed = script.replace(/"wanted": \{"errors": 0, "logs": "Ended: finished"\}/, '"wanted": {"errors": 1, "logs": "Ended: finished"}').replace(/"literals": \["\\"cde\\""/, '"literals": ["\\"cdx\\""');
  check('the examples are there to be changed', changed !== script);
  writeFileSync(path.join(room, 'book-runs.js'), changed);
  const page = await browser.open(pathToFileURL(path.join(room, 'book.html')).href);
  await page.until(READY, PATIENCE);
  await page.ask(HELPERS);
  const states = (await runAll(page)).map(([, state]) => state);
  check('an example that comes to something else is found', states.filter((it) => it === 'no').length === 2);
  await page.close();
  rmSync(path.join(room, 'book-runs.js'));
  const plain = await browser.open(pathToFileURL(path.join(room, 'book.html')).href);
  await plain.until("document.readyState === 'complete' && document.getElementById('find')");
  check('the book without the file has no button', await plain.ask("document.querySelectorAll('.run-it, .run').length === 0"));
  await plain.close();
}

async function main() {
  if (!existsSync(RUNS)) {
    console.log('FAILED: there is no docs/book/out/book-runs.js: run make web, then make book');
    console.log('0 passed, 1 failed');
    process.exitCode = 1;
    return;
  }
  check('the book is below 3 MB', statSync(path.join(OUT, 'book.html')).size < MOST_BYTES);
  if (!program()) {
    console.log('left out: the examples in the book (there is no chromium)');
    console.log(`${passed} passed, ${failed} failed`);
    return;
  }
  if (pictures) mkdirSync(pictures, { recursive: true });
  const browser = new Browser();
  const room = mkdtempSync(path.join(tmpdir(), 'book-runs-'));
  try {
    const lost = [];
    let count = 0;
    for (const name of PAGES) {
      const page = await browser.open(pathToFileURL(path.join(OUT, name)).href);
      check(`${name}: the examples have their buttons`, await page.until(READY, PATIENCE));
      lost.push(new Set(JSON.parse(await page.ask('document.documentElement.dataset.lost'))));
      await page.ask(HELPERS);
      count += await everyExample(page, name);
      if (name === PAGES[0]) for (const part of [changes, stops, looks]) await part(page);
      await page.close();
    }
    const nowhere = [...lost[0]].filter((it) => lost[1].has(it));
    check(`each example stands on a page: ${nowhere.slice(0, 5)}`, nowhere.length === 0);
    check(`${count} examples, of the rules and of sections`, count >= LEAST.rules + LEAST.worked);
    await canFail(browser, room);
  } finally {
    await browser.close();
    rmSync(room, { recursive: true, force: true });
  }
  console.log(`${passed} passed, ${failed} failed`);
  process.exitCode = failed > 0 ? 1 : 0;
}

await main();
