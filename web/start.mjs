// How soon the page has run its first job in chromium, in milliseconds from its opening by the browser's own clock: for measure.
import path from 'node:path';
import { fileURLToPath, pathToFileURL } from 'node:url';
import { Browser, program } from './page/browser.mjs';

const PAGE = path.resolve(path.dirname(fileURLToPath(import.meta.url)), 'out/btx.html');
// Notes when each of these is first there: something to read, and the result of the first job.
const WATCH = `new MutationObserver(() => {
  if (window.ended === undefined && /^Ended/.test(document.getElementById('status')?.textContent ?? '')) window.ended = performance.now();
}).observe(document, { childList: true, subtree: true, characterData: true });`;
const PAINT = "performance.getEntriesByName('first-contentful-paint')[0]?.startTime";

async function once(browser) {
  const page = await browser.open('about:blank');
  await page.send('Page.addScriptToEvaluateOnNewDocument', { source: WATCH });
  await page.send('Page.navigate', { url: pathToFileURL(PAGE).href });
  await page.until(`window.ended !== undefined && ${PAINT} !== undefined`);
  const found = await page.ask(`[${PAINT}, window.ended]`);
  await page.close();
  return found;
}

if (program()) {
  const browser = new Browser();
  try {
    for (let turn = 0; turn < 10; turn++) console.log(JSON.stringify(await once(browser)));
  } finally {
    await browser.close();
  }
}
