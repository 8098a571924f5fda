// A headless chromium, driven over a pipe by its DevTools protocol.
import { spawn } from 'node:child_process';
import { mkdtempSync, rmSync, statSync } from 'node:fs';
import { tmpdir } from 'node:os';
import path from 'node:path';

const NAMES = ['chromium', 'chromium-browser', 'google-chrome'];

/** The browser's program, or nothing where there is none. */
export function program() {
  const folders = (process.env.PATH ?? '').split(path.delimiter);
  return NAMES.find((name) => folders.some((folder) => spawnable(path.join(folder, name))));
}

function spawnable(file) {
  try {
    return statSync(file).isFile();
  } catch {
    return false;
  }
}

export class Browser {
  #process;
  #waiting = new Map();
  #number = 0;
  #kept = '';
  // What is told of each event that comes by itself.
  #listeners = [];
  #room = mkdtempSync(path.join(tmpdir(), 'btx-browser-'));

  constructor() {
    const words = ['--headless=new', '--no-sandbox', '--disable-gpu', '--remote-debugging-pipe', `--user-data-dir=${this.#room}`, 'about:blank'];
    this.#process = spawn(program(), words, { stdio: ['ignore', 'ignore', 'ignore', 'pipe', 'pipe'] });
    this.#process.stdio[4].on('data', (data) => this.#take(data.toString()));
  }

  #take(text) {
    const parts = (this.#kept + text).split('\0');
    this.#kept = parts.pop();
    for (const part of parts) {
      const { id, result, error, method, params, sessionId } = JSON.parse(part);
      if (method) this.#listeners.forEach((listener) => listener(method, params, sessionId));
      if (!this.#waiting.has(id)) continue;
      const { resolve, reject } = this.#waiting.get(id);
      this.#waiting.delete(id);
      if (error) reject(new Error(error.message));
      else resolve(result);
    }
  }

  send(method, params = {}, sessionId = undefined) {
    const id = ++this.#number;
    this.#process.stdio[3].write(`${JSON.stringify({ id, method, params, sessionId })}\0`);
    return new Promise((resolve, reject) => { this.#waiting.set(id, { resolve, reject }); });
  }

  /** The workers of a page that live, from now on: a set of their sessions. */
  async workersOf(page) {
    const workers = new Set();
    this.#listeners.push((method, { sessionId, targetInfo } = {}, of = undefined) => {
      if (of !== page.session) return;
      if (method === 'Target.attachedToTarget' && targetInfo.type === 'worker') workers.add(sessionId);
      if (method === 'Target.detachedFromTarget') workers.delete(sessionId);
    });
    await page.send('Target.setAutoAttach', { autoAttach: true, waitForDebuggerOnStart: false, flatten: true });
    return workers;
  }

  /** A new page at an address. */
  async open(url) {
    const { targetId } = await this.send('Target.createTarget', { url: 'about:blank' });
    const { sessionId } = await this.send('Target.attachToTarget', { targetId, flatten: true });
    const page = new Page((method, params) => this.send(method, params, sessionId), () => this.send('Target.closeTarget', { targetId }), sessionId);
    await page.send('Page.enable');
    await page.send('Page.navigate', { url });
    return page;
  }

  // Removes the browser's folder, into which its last processes may still write.
  async #clear() {
    for (let turn = 0; turn < 30; turn++) {
      try {
        rmSync(this.#room, { recursive: true, force: true });
        return;
      } catch {
        await new Promise((done) => { setTimeout(done, 100); });
      }
    }
  }

  async close() {
    const ended = new Promise((done) => { this.#process.on('exit', done); });
    await Promise.race([this.send('Browser.close').catch(() => {}), new Promise((done) => { setTimeout(done, 2000); })]);
    this.#process.kill('SIGKILL');
    await ended;
    await this.#clear();
  }
}

export class Page {
  constructor(send, close, session) {
    Object.assign(this, { send, close, session });
  }

  /** What an expression gives in the page. */
  async ask(expression) {
    const { result, exceptionDetails } = await this.send('Runtime.evaluate', { expression, returnByValue: true, awaitPromise: true });
    if (exceptionDetails) throw new Error(exceptionDetails.exception?.description ?? exceptionDetails.text);
    return result.value;
  }

  /** Waits until an expression holds; answers whether it did within these milliseconds. */
  async until(expression, patience = 30_000) {
    for (const end = Date.now() + patience; Date.now() < end;) {
      // (a page that isn't there yet can't be asked)
      if (await this.ask(expression).catch(() => false)) return true;
      await new Promise((done) => { setTimeout(done, 50); });
    }
    return false;
  }

  async press(key, modifiers = 0) {
    const windowsVirtualKeyCode = { Tab: 9, Enter: 13, Escape: 27, ArrowRight: 39, ArrowLeft: 37, End: 35, Home: 36, z: 90 }[key];
    // (a button is pressed by the text of the key)
    const text = key === 'Enter' ? '\r' : undefined;
    for (const type of ['keyDown', 'keyUp']) await this.send('Input.dispatchKeyEvent', { type, key, code: key, windowsVirtualKeyCode, modifiers, text });
  }

  async width(width, height = 900) {
    await this.send('Emulation.setDeviceMetricsOverride', { width, height, deviceScaleFactor: 1, mobile: width < 500 });
  }

  async scheme(value) {
    await this.send('Emulation.setEmulatedMedia', { features: [{ name: 'prefers-color-scheme', value }] });
  }

  async picture() {
    return Buffer.from((await this.send('Page.captureScreenshot', { format: 'png' })).data, 'base64');
  }
}
