// Chromium over its debugging protocol, with node's own WebSocket and no packages: what page.mjs tries pages in.
import { spawn } from 'node:child_process';

const sleep = ms => new Promise(done => setTimeout(done, ms));

const FLAGS = ['--headless', '--no-sandbox', '--disable-gpu', '--remote-debugging-port=0'];
const DOMAINS = ['Page', 'Runtime', 'Network', 'Log', 'Accessibility', 'DOM'];
const TROUBLES = ['Runtime.exceptionThrown', 'Log.entryAdded', 'Runtime.consoleAPICalled', 'Page.javascriptDialogOpening'];

// A browser with one page; `home` is a folder for its profile and for what is downloaded. `before` is a function that
// runs in each page before its own script.
export async function openBrowser(home, before) {
  const words = [...FLAGS, '--user-data-dir=' + home, 'about:blank'];
  const child = spawn('chromium', words, { stdio: ['ignore', 'ignore', 'pipe'] });
  const address = await new Promise(done => child.stderr.on('data', text => {
    const found = /ws:\/\/\S+/.exec(text);
    if (found) done(found[0]);
  }));
  const pages = await (await fetch(`http://127.0.0.1:${new URL(address).port}/json`)).json();
  const page = pages.find(one => one.type === 'page'), browser = new Browser(child, new WebSocket(page.webSocketDebuggerUrl));
  await new Promise(done => { browser.socket.onopen = done; });
  for (const domain of DOMAINS) await browser.call(domain + '.enable');
  await browser.call('Browser.setDownloadBehavior', { behavior: 'allow', downloadPath: home });
  await browser.call('Page.addScriptToEvaluateOnNewDocument', { source: `(${before})()` });
  await browser.resize(1280);
  return browser;
}

class Browser {
  constructor(child, socket) {
    Object.assign(this, { child, socket, waiting: new Map(), events: [], last: 0 });
    socket.onmessage = ({ data }) => {
      const message = JSON.parse(data), done = this.waiting.get(message.id);
      if (done) done(message); else this.events.push(message);
      this.waiting.delete(message.id);
    };
  }

  call(method, params = {}) {
    return new Promise(done => {
      this.waiting.set(++this.last, done);
      this.socket.send(JSON.stringify({ id: this.last, method, params }));
    });
  }

  // The value of an expression in the page.
  async run(expression) {
    const { result } = await this.call('Runtime.evaluate', { expression, awaitPromise: true, returnByValue: true });
    if (!result.exceptionDetails) return result.result.value;
    throw new Error(expression + ': ' + JSON.stringify(result.exceptionDetails).slice(0, 600));
  }

  // What a function answers in the page.
  ask(act, ...words) { return this.run(`(${act})(...${JSON.stringify(words)})`); }

  // Opens a file with a state behind the #; milliseconds until it has loaded.
  async open(path, state = '') {
    await this.call('Page.navigate', { url: 'about:blank' });
    this.events = [];
    await this.call('Page.navigate', { url: `file://${path}${state ? '#' + state : ''}` });
    const isThere = () => location.protocol === 'file:' && document.readyState === 'complete';
    for (let i = 0; i < 1000 && !await this.ask(isThere); i++) await sleep(20);
    await sleep(50);
    return this.ask(() => Math.round(performance.getEntriesByType('navigation')[0].loadEventEnd));
  }

  // Errors, dialogs and what the console got since the page was opened; and the addresses that were asked for.
  troubles() {
    return this.events.filter(event => TROUBLES.includes(event.method)).map(event => JSON.stringify(event.params).slice(0, 300));
  }

  requests() {
    return this.events.filter(event => event.method === 'Network.requestWillBeSent')
      .map(event => event.params.request.url).filter(url => !/^(about|blob):/.test(url));
  }

  resize(width) {
    return this.call('Emulation.setDeviceMetricsOverride', { width, height: 900, deviceScaleFactor: 1, mobile: false });
  }

  async press(key) {
    for (const type of ['keyDown', 'keyUp']) await this.call('Input.dispatchKeyEvent', { type, key, code: key });
  }

  async point(x, y) {
    await this.call('Input.dispatchMouseEvent', { type: 'mouseMoved', x, y });
    await sleep(80);
  }

  // The page's own time, in milliseconds: that of its thread, whatever else has the processors.
  async ownTime() {
    const { metrics } = (await this.call('Performance.getMetrics')).result;
    return Math.round(metrics.find(one => one.name === 'TaskDuration').value * 1000);
  }

  async picture() { return Buffer.from((await this.call('Page.captureScreenshot')).result.data, 'base64'); }

  close() {
    this.socket.close();
    this.child.kill();
  }
}

export { sleep };
