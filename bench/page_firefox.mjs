// node --experimental-websocket page_firefox.mjs FOLDER HOME: whether Firefox draws the pages of FOLDER, without an error, and with the
// checksums of their tables; over WebDriver BiDi, with no packages. HOME is a folder for its profile.
import { spawn } from 'node:child_process';
import { createHash } from 'node:crypto';
import { readdirSync } from 'node:fs';
import { resolve } from 'node:path';
import { Reader } from './page_reader.mjs';

const [folder, home] = process.argv.slice(2);
const child = spawn('firefox-esr', ['--headless', '--no-remote', '--profile', home, '--remote-debugging-port', '0'],
  { stdio: ['ignore', 'ignore', 'pipe'] });
const address = await new Promise(done => child.stderr.on('data', text => {
  const found = /ws:\/\/\S+/.exec(text);
  if (found) done(found[0]);
}));
const socket = new WebSocket(address + '/session'), waiting = new Map(), errors = [];
await new Promise(done => { socket.onopen = done; });
socket.onmessage = ({ data }) => {
  const message = JSON.parse(data);
  if (waiting.has(message.id)) waiting.get(message.id)(message);
  else if (message.method === 'log.entryAdded' && message.params.level === 'error') errors.push(message.params.text);
};

let last = 0;
async function call(method, params) {
  const answer = new Promise(done => waiting.set(++last, done));
  socket.send(JSON.stringify({ id: last, method, params }));
  const { result, message } = await answer;
  if (!result) throw new Error(`${method}: ${message}`);
  return result;
}

// What a page shows, as a text.
const seen = () => JSON.stringify({
  isDrawn: document.documentElement.classList.contains('drawn'),
  charts: document.querySelectorAll('#main svg.chart').length,
  rows: document.querySelectorAll('#main details .scroll tbody tr').length,
  sums: [...document.querySelectorAll('#foot code.sum')].map(one => one.textContent),
  troubles: [...document.querySelectorAll('img, iframe, main script')].length,
});

await call('session.new', { capabilities: {} });
await call('session.subscribe', { events: ['log.entryAdded'] });
const { contexts: [{ context }] } = await call('browsingContext.getTree', {});
const files = Object.assign(new Reader(), { folder });
let wrong = 0;
const pages = readdirSync(folder).filter(name => name.endsWith('.html')).sort();
for (const name of pages) {
  errors.length = 0;
  await call('browsingContext.navigate', { context, url: `file://${resolve(folder)}/${name}#open=1`, wait: 'complete' });
  const answer = await call('script.evaluate', { expression: `(${seen})()`, target: { context }, awaitPromise: false });
  const page = JSON.parse(answer.result.value), isSolved = files.said(name).every(said => said.startsWith('accepted\n'));
  const sums = files.tables(name).map(text => createHash('sha256').update(text).digest('hex'));
  // two plans that are the same have no chart
  const isAlike = sums.length === 2 && sums[0] === sums[1];
  const isRight = page.isDrawn && !page.troubles && JSON.stringify(page.sums) === JSON.stringify(sums)
    && (!isSolved || isAlike || (page.charts > 0 && page.rows > 0)) && !errors.length;
  if (isRight) continue;
  wrong++;
  console.log(`wrong: ${name} in Firefox`, JSON.stringify([page, errors]).slice(0, 1500));
}
console.log(`page_firefox.mjs: ${pages.length} tried, ${wrong} wrong`);
socket.close();
child.kill();
process.exit(wrong ? 1 : 0);
