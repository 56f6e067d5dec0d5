// A headless Chromium, driven over a pipe by its own protocol.
import { spawn } from 'node:child_process';
import { mkdtempSync, rmSync, writeFileSync } from 'node:fs';
import { tmpdir } from 'node:os';
import { join } from 'node:path';

const LONGEST_WAIT = 15000; // milliseconds

/** A started browser with one page. */
export class Browser {
  #process;
  #folder = mkdtempSync(join(tmpdir(), 'ostrubel-web-'));
  #answers = new Map();
  #listeners = [];
  #number = 0;
  #session;
  #rest = '';

  static async start() {
    const browser = new Browser();
    const words = ['--headless=new', '--remote-debugging-pipe', '--no-first-run', '--disable-gpu', '--hide-scrollbars'];
    if (process.getuid() === 0) words.push('--no-sandbox'); // root has no sandbox
    words.push(`--user-data-dir=${browser.#folder}`, '--window-size=1280,1000', 'about:blank');
    browser.#process = spawn('chromium', words, { stdio: ['ignore', 'ignore', 'ignore', 'pipe', 'pipe'] });
    browser.#process.stdio[4].setEncoding('utf8').on('data', (text) => browser.#take(text));
    const { targetInfos } = await browser.send('Target.getTargets');
    const { targetId } = targetInfos.find(({ type }) => type === 'page');
    const { sessionId } = await browser.send('Target.attachToTarget', { targetId, flatten: true });
    browser.#session = sessionId;
    for (const domain of ['Page', 'Runtime', 'DOM', 'Network', 'Accessibility']) await browser.send(`${domain}.enable`);
    return browser;
  }

  async stop() {
    await this.send('Browser.close', {}, false).catch(() => {});
    await new Promise((done) => {
      if (this.#process.exitCode !== null) done();
      else this.#process.once('exit', done);
    });
    rmSync(this.#folder, { recursive: true, force: true, maxRetries: 5, retryDelay: 200 });
  }

  /** A command of the protocol, and its result. */
  send(method, params = {}, inPage = true) {
    const id = ++this.#number;
    const session = inPage && this.#session ? { sessionId: this.#session } : {};
    this.#process.stdio[3].write(`${JSON.stringify({ id, method, params, ...session })}\0`);
    return new Promise((resolve, reject) => {
      const timer = setTimeout(() => reject(new Error(`${method}: no answer`)), LONGEST_WAIT);
      this.#answers.set(id, ({ result, error }) => {
        clearTimeout(timer);
        if (error) reject(new Error(`${method}: ${error.message}`));
        else resolve(result);
      });
    });
  }

  #take(text) {
    const parts = (this.#rest + text).split('\0');
    this.#rest = parts.pop();
    for (const part of parts) {
      const message = JSON.parse(part);
      if (message.id) {
        this.#answers.get(message.id)?.(message);
        this.#answers.delete(message.id);
      } else {
        this.#listeners.forEach((listener) => listener(message));
      }
    }
  }

  on(method, listener) {
    this.#listeners.push((message) => {
      if (message.method === method) listener(message.params);
    });
  }

  async open(url) {
    const loaded = new Promise((done) => this.on('Page.loadEventFired', done));
    await this.send('Page.navigate', { url });
    await loaded;
  }

  /** The value of an expression in the page. */
  async value(expression) {
    const answer = await this.send('Runtime.evaluate', { expression, returnByValue: true, awaitPromise: true });
    if (answer.exceptionDetails) throw new Error(`${expression}: ${answer.exceptionDetails.exception?.description}`);
    return answer.result.value;
  }

  /** Waits until an expression is true. */
  async until(expression) {
    const end = Date.now() + LONGEST_WAIT;
    while (!(await this.value(expression))) {
      if (Date.now() > end) throw new Error(`not so after ${LONGEST_WAIT / 1000} s: ${expression}`);
      await new Promise((done) => setTimeout(done, 50));
    }
  }

  /** Chooses a file as a person does. */
  async chooseFile(selector, path) {
    const { root } = await this.send('DOM.getDocument');
    const { nodeId } = await this.send('DOM.querySelector', { nodeId: root.nodeId, selector });
    await this.send('DOM.setFileInputFiles', { nodeId, files: [path] });
  }

  /** Presses a key: Tab, Enter, Space or a letter. */
  async press(key, modifiers = 0) {
    const known = { Tab: [9, ''], Enter: [13, '\r'], ' ': [32, ' '] };
    const [code, text] = known[key] ?? [key.toUpperCase().charCodeAt(0), key];
    const event = { key, code: key === ' ' ? 'Space' : key, windowsVirtualKeyCode: code, modifiers };
    await this.send('Input.dispatchKeyEvent', { type: text ? 'keyDown' : 'rawKeyDown', text, ...event });
    await this.send('Input.dispatchKeyEvent', { type: 'keyUp', ...event });
  }

  /** What a screen reader is given: [role, name] of each node that has both. */
  async spoken() {
    const { nodes } = await this.send('Accessibility.getFullAXTree');
    const heard = nodes.filter(({ ignored, role, name }) => !ignored && role && name?.value);
    return heard.map(({ role, name }) => [role.value, name.value]);
  }

  /** The whole page as a picture. */
  async picture(path) {
    const { data } = await this.send('Page.captureScreenshot', { format: 'png', captureBeyondViewport: true });
    writeFileSync(path, Buffer.from(data, 'base64'));
  }
}
