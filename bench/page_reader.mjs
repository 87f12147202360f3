// What the tests of pages share: the texts of a file, what a reader sees and does, and the count of checks.
import { existsSync, readFileSync } from 'node:fs';
import { openBrowser, sleep } from './page_browser.mjs';

// Runs in each page before its script. What it leaves there, `seen`, tells what stands on the page.
function prepare() {
  const all = (selector, from = document) => [...from.querySelectorAll(selector)];
  const texts = (selector, from) => all(selector, from).map(element => element.textContent);
  const figure = title => all('figure').find(one => one.querySelector('h4').textContent === title);
  const looks = from => all('.legend button svg', from).map(key => [...key.children].map(e => e.getAttribute('class')).join(' '));
  const isShown = element => !!element && element.getBoundingClientRect().height > 0;
  const choose = (label, value) => {
    const select = all('.bar label').find(one => one.firstChild.textContent === label).querySelector('select');
    select.value = value;
    select.dispatchEvent(new Event('change'));
  };
  window.seen = { all, texts, figure, looks, isShown, choose };
}

export class Reader {
  static async start(folder, home) {
    return Object.assign(new Reader(), { folder, home, tried: 0, wrong: 0, browser: await openBrowser(home, prepare) });
  }

  check(what, isGood, ...told) {
    this.tried++;
    if (isGood) return;
    this.wrong++;
    console.log('wrong: ' + what, JSON.stringify(told).slice(0, 1500));
  }

  // ---- The file

  fileText(name) { return readFileSync(`${this.folder}/${name}`, 'utf8'); }

  textsAfter(name, mark) {
    const references = { '&lt;': '<', '&gt;': '>', '&quot;': '"', '&#39;': "'", '&amp;': '&' };
    return this.fileText(name).split(mark).slice(1)
      .map(part => part.split('</')[0].replace(/&(lt|gt|quot|#39|amp);/g, one => references[one]));
  }

  tables(name) { return this.textsAfter(name, '<pre class="tables" tabindex="0">\n'); }

  said(name) { return this.textsAfter(name, '<pre class="said">\n'); }

  changes(name) { return this.textsAfter(name, '<pre class="changes">\n'); }

  fileNames(name) { return this.textsAfter(name, '<h3 class="name">'); }

  // ---- The page

  open(name, state) { return this.browser.open(`${this.folder}/${name}`, state); }

  ask(act, ...words) { return this.browser.ask(act, ...words); }

  texts(selector) { return this.ask(one => seen.texts(one), selector); }

  async text(selector) { return (await this.texts(selector))[0] || ''; }

  choose(label, value) { return this.ask((a, b) => seen.choose(a, b), label, value); }

  legend(title) { return this.ask(one => seen.texts('.legend li', seen.figure(one)), title); }

  note(title) { return this.ask(one => seen.texts('.note', seen.figure(one)).join(), title); }

  // How many elements of a figure's picture there are of a kind.
  count(title, selector) { return this.ask((one, kind) => seen.all('svg.chart ' + kind, seen.figure(one)).length, title, selector); }

  // The numbers of a figure, which are opened for it.
  async rows(title) {
    await this.ask(one => { seen.figure(one).querySelector('details').open = true; }, title);
    await sleep(60);
    return this.ask(one => seen.all('details .scroll tbody tr', seen.figure(one)).map(row => seen.texts('th, td', row)), title);
  }

  // Clicks on the button of a figure whose label begins so.
  click(title, label) {
    return this.ask((one, begin) => seen.figure(one).querySelector(`[aria-label^="${begin}"]`).click(), title, label);
  }

  clickAbove(text) {
    return this.ask(wanted => seen.all('.bar button').find(one => one.textContent === wanted).click(), text);
  }

  // A file that a click before has downloaded.
  async downloaded(file) {
    const path = `${this.home}/${file}`;
    for (let i = 0; i < 60 && !existsSync(path); i++) await sleep(50);
    await sleep(50);
    return existsSync(path) ? readFileSync(path, 'utf8') : '';
  }
}
