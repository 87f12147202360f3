// node --experimental-websocket page.mjs FOLDER HOME: tries the pages of FOLDER in Chromium, as a reader does. Prints what
// is wrong, and at the end how many checks were tried. HOME is a folder for downloads. Some checks want pages of certain
// names: the examples' and those that page_make.py makes.
import { createHash } from 'node:crypto';
import { readdirSync } from 'node:fs';
import { sleep } from './page_browser.mjs';
import { checkPictures } from './page_pictures.mjs';
import { Reader } from './page_reader.mjs';

const [folder, home] = process.argv.slice(2);
const reader = await Reader.start(folder, home), { browser } = reader;
const check = (...words) => reader.check(...words);
const ask = (...words) => reader.ask(...words);
const sha256 = text => createHash('sha256').update(text).digest('hex');
const isSame = (a, b) => JSON.stringify(a) === JSON.stringify(b);

// ---- Every page

async function checkPage(name) {
  const tables = reader.tables(name);
  await reader.open(name);
  check(`${name}: no error and no dialog`, !browser.troubles().length, browser.troubles());
  check(`${name}: no request but the file`, browser.requests().length === 1, browser.requests());
  check(`${name}: drawn`, await ask(() => document.documentElement.classList.contains('drawn')));
  check(`${name}: its title has the file's name`, (await ask(() => document.title)).includes(reader.fileNames(name)[0]));
  const texts = await Promise.all(['.tables', '.said', '.name', '.changes'].map(kind => reader.texts(kind)));
  const wanted = [tables, reader.said(name), reader.fileNames(name), reader.changes(name)];
  check(`${name}: texts are those of the file`, tables.length && isSame(texts, wanted));
  check(`${name}: names are text`, await ask(() => document.scripts.length === 1 && seen.all('style').length === 1
    && !document.querySelector('img, iframe, object, embed, form, link, base')
    && !seen.all('*').some(one => [...one.attributes].some(attribute => attribute.name.startsWith('on')))));
  const sums = await reader.texts('#foot code.sum');
  check(`${name}: the checksums are those of the tables`, isSame(sums, tables.map(sha256)), sums);
  await browser.resize(420);
  const width = await ask(() => document.documentElement.scrollWidth);
  check(`${name}: nothing wider than 420`, width <= 420, width);
  await browser.resize(1280);
  if (tables.every(text => text.includes('\nEmissionActivityRatio\n'))) await checkLooks(name);
}

async function checkLooks(name) {
  const looks = await ask(() => seen.all('#main figure')
    .filter(one => one.querySelector('h4').textContent.startsWith('Emissions')).map(one => seen.looks(one)));
  const isTold = list => new Set(list).size === Math.min(list.length, 27);
  check(`${name}: technologies of one emission look different`, looks.every(isTold), looks);
}

// ---- Pages of certain names

const tests = {};
const ELC = 'Production of ELC';

tests['country.html: pointer and keys'] = async name => {
  await reader.open(name);
  await ask(title => seen.figure(title).scrollIntoView({ block: 'center' }), ELC);
  await sleep(150);
  const box = await ask(title => seen.figure(title).querySelector('svg.chart').getBoundingClientRect().toJSON(), ELC);
  const isHidden = () => ask(() => document.getElementById('tip').hidden);
  await browser.point(box.left + box.width * 0.97, box.top + 60);
  const tip = await ask(() => document.getElementById('tip').innerText);
  const words = ['2035', 'GAS_PLANT', '35.7', 'WIND', '41.6', 'SOLAR', '27.9', 'Sum', '105.2', 'Final demand', '90.0'];
  check('the pointer tells the column', !await isHidden() && words.every(word => tip.includes(word)), tip);
  await browser.point(2, 2);
  check('and nothing elsewhere', await isHidden());

  await ask(title => seen.figure(title).querySelector('.holder').focus(), ELC);
  const aloud = [];
  for (const key of ['ArrowRight', 'ArrowRight', 'End', 'ArrowRight', 'Home', 'ArrowLeft']) {
    await browser.press(key);
    aloud.push(await reader.text('#live'));
  }
  const labels = aloud.map(text => text.split(',')[0]).join();
  check('the arrow keys read columns', labels === '2030,2031,2035,2035,2030,2030', labels);
  check('with their values', aloud[0] === '2030, SOLAR 26.2, WIND 10.4, GAS_PLANT 49.6, Final demand 80.0', aloud[0]);
  await browser.press('Escape');
  check('Escape takes it away', await isHidden());
};

tests['country.html: legend, sorting, width'] = async name => {
  await reader.open(name);
  const clickFirst = () => ask(title => seen.figure(title).querySelector('.legend button').click(), ELC);
  await clickFirst();
  const isOut = await ask(title => {
    const first = seen.figure(title).querySelector('.legend button');
    return first.getAttribute('aria-pressed') === 'false' && document.activeElement === first;
  }, ELC);
  check('the legend takes a series out', isOut && await reader.count(ELC, '.c1') === 0);
  await clickFirst();
  check('and puts it back', await reader.count(ELC, 'rect.c1') === 6);

  const before = await reader.rows(ELC), first = async () => (await reader.rows(ELC)).map(row => row[0]).join();
  const sortBy = column => ask((title, i) => seen.all('thead button', seen.figure(title))[i].click(), ELC, column);
  await sortBy(6);
  check('sorted by a column, sums last', await first() === 'WIND,GAS_PLANT,SOLAR,Sum,Final demand', await first());
  await sortBy(6);
  check('the other way', await first() === 'SOLAR,GAS_PLANT,WIND,Sum,Final demand', await first());
  await sortBy(6);
  check('and back', isSame(await reader.rows(ELC), before));
  await sortBy(0);
  check('by names', await first() === 'GAS_PLANT,SOLAR,WIND,Sum,Final demand', await first());
  await reader.click(ELC, 'Wide');
  check('wide', await ask(title => seen.figure(title).querySelector('svg.chart').viewBox.baseVal.width, ELC) === 1160);
};

tests['country.html: choices and address'] = async name => {
  await reader.open(name);
  await reader.choose('Charts', 'line');
  check('lines', await reader.count(ELC, 'path.l') === 3);
  await reader.choose('Technologies', '0');
  await reader.choose('Timeslices of', '2030');
  check('timeslices of another year', (await reader.texts('#main h4')).includes(ELC + ' in 2030'));
  await reader.choose('Fuel', 'HEAT');
  check('one fuel', isSame(await reader.texts('#main h3'), ['HEAT']));
  await ask(() => document.querySelector('.bar input').click());
  check('all numbers open', await ask(() => seen.all('#main figure details').every(one => one.open && one.querySelector('td'))));

  const address = await ask(() => location.hash);
  await reader.open(name, address.slice(1));
  const isKept = isSame(await reader.texts('#main h3'), ['HEAT']) && await ask(() => document.querySelector('.bar input').checked)
    && (await reader.texts('#main h4')).includes('Production of HEAT in 2030');
  check('the address keeps the choices', isKept && await ask(() => location.hash) === address, address);
  await reader.open(name, 'fuel=%3Cimg%20src=x%20onerror=alert(1)%3E&style=toString&region=__proto__&most=x&year=constructor'
    + '&view=__proto__&toString=1');
  const figures = await ask(() => seen.all('figure').length - 1000 * seen.all('img').length);
  check('a hostile address changes nothing', figures > 10 && !browser.troubles().length, figures);
};

tests['country.html: what is taken away'] = async name => {
  await reader.open(name);
  await reader.clickAbove('All tables');
  check('all tables, byte for byte', await reader.downloaded('country.dat.tables.csv') === reader.tables(name)[0]);
  await reader.click(ELC, 'Download the numbers');
  const lines = (await reader.downloaded('Production_of_ELC.csv')).split('\r\n');
  check('the numbers of a chart', lines[0] === 'Name,2030,2031,2032,2033,2034,2035' && lines.length === 7
    && lines[1].startsWith('GAS_PLANT,49.640000'), lines);
  await browser.call('Browser.grantPermissions', { permissions: ['clipboardReadWrite', 'clipboardSanitizedWrite'] });
  await browser.call('Page.bringToFront');
  await reader.click(ELC, 'Copy');
  for (let i = 0; i < 40 && await reader.text('#live') === ''; i++) await sleep(50);
  const copied = await ask(() => navigator.clipboard.readText());
  check('or copied', isSame(copied.split('\n'), lines), copied);

  await reader.clickAbove('Still page');
  const still = await reader.downloaded('country.dat.html');
  check('a still page, without a script', !still.includes('<script') && still.includes('<td>49.640000</td>'));
  await browser.open(`${home}/country.dat.html`);
  const parts = await ask(() => [seen.all('figure svg.chart').length, seen.all('figure details td').length]);
  check('which opens without an error', !browser.troubles().length && parts[0] > 10 && parts[1] > 100, parts, browser.troubles());
};

tests['country.html: a picture taken away'] = async name => {
  await reader.open(name);
  await reader.click(ELC, 'Download the picture');
  const picture = await ask(text => {
    const file = new DOMParser().parseFromString(text, 'image/svg+xml');
    const isOwn = one => [...one.attributes].every(attribute => !attribute.value.includes('var('));
    return {
      isSvg: file.documentElement.localName === 'svg' && !file.querySelector('parsererror, script, foreignObject'),
      isOwn: seen.all('*', file).every(isOwn), texts: seen.texts('text', file),
      fills: [...new Set(seen.all('rect[class^="c"]', file).map(one => one.getAttribute('fill')))],
    };
  }, await reader.downloaded('Production_of_ELC.svg'));
  const isWhole = ['Production of ELC', '2035', 'GAS_PLANT', 'SOLAR', 'Final demand'].every(text => picture.texts.includes(text));
  check('a picture with title, columns and legend', picture.isSvg && isWhole, picture);
  check('and with colours of its own', picture.isOwn && picture.fills.length === 3
    && picture.fills.every(fill => fill.startsWith('rgb(')), picture.fills);
};

tests['country.html: on paper'] = async name => {
  await reader.open(name);
  await browser.call('Emulation.setEmulatedMedia', { media: 'print' });
  await ask(() => window.dispatchEvent(new Event('beforeprint')));
  const paper = await ask(() => ({
    folds: seen.all('#main figure details').length,
    open: seen.all('#main figure details').filter(one => one.open && seen.isShown(one.querySelector('.paper td'))).length,
    others: seen.all('.bar, .tables, .tools').filter(seen.isShown).length,
  }));
  check('on paper all numbers are open, and no button', paper.folds > 10 && paper.folds === paper.open && !paper.others, paper);
  await ask(() => window.dispatchEvent(new Event('afterprint')));
  check('and folded afterwards', await ask(() => !seen.all('#main figure details').some(one => one.open)));
  await browser.call('Emulation.setEmulatedMedia', { media: '' });
  const { data } = (await browser.call('Page.printToPDF', { preferCSSPageSize: true })).result;
  const sheets = (Buffer.from(data, 'base64').toString('latin1').match(/\/Type\s*\/Page\b/g) || []).length;
  check('a PDF of several sheets', sheets > 5 && sheets < 30, sheets);
};

tests['country.html: in the dark, read aloud, and without scripts'] = async name => {
  await browser.call('Emulation.setEmulatedMedia', { features: [{ name: 'prefers-color-scheme', value: 'dark' }] });
  await reader.open(name);
  const colours = await ask(() => [getComputedStyle(document.body).backgroundColor, getComputedStyle(document.body).color]);
  check('dark where it is asked for', isSame(colours, ['rgb(16, 19, 23)', 'rgb(233, 236, 240)']), colours);
  await browser.call('Emulation.setEmulatedMedia', { features: [] });
  await reader.open(name);
  const { nodes } = (await browser.call('Accessibility.getFullAXTree')).result;
  const ofRoles = (...roles) => nodes.filter(node => node.role && roles.includes(node.role.value));
  const isNamed = node => !!(node.name && node.name.value), controls = ofRoles('button', 'combobox', 'checkbox');
  check('pictures have names for readers of the screen', ofRoles('image').filter(isNamed).length > 5, ofRoles('image').length);
  check('and so have all controls', controls.length > 30 && controls.every(isNamed), controls.length);

  await browser.call('Emulation.setScriptExecutionDisabled', { value: true });
  await reader.open(name);
  const root = (await browser.call('DOM.getDocument')).result.root.nodeId;
  const htmlOf = async selector => {
    const { nodeId } = (await browser.call('DOM.querySelector', { nodeId: root, selector })).result;
    return (await browser.call('DOM.getOuterHTML', { nodeId })).result.outerHTML;
  };
  const row = 'NewCapacity\nREGION,TECHNOLOGY,YEAR,VALUE\nISLE,WIND,2030,1.000000';
  check('without scripts the tables are there', (await htmlOf('.tables')).includes(row));
  check('and it is said why there are no charts', (await htmlOf('#main')).includes('running'));
  await browser.call('Emulation.setScriptExecutionDisabled', { value: false });
};

tests['country.html: order of capacity'] = async name => {
  const title = 'Capacity making ELC';
  await reader.open(name);
  check('what costs no investment comes last', isSame(await reader.legend(title), ['WIND', 'SOLAR', 'GAS_PLANT']));
  const sub = await ask(one => seen.texts('.sub', seen.figure(one)).join(), title);
  check('which is said', sub.includes('what costs no investment comes last'), sub);
  check('elsewhere the order is the file\'s', (await reader.legend(ELC)).join() === 'GAS_PLANT,WIND,SOLAR,Final demand');
};

// The functions of the script by themselves.
tests['country.html: functions'] = async name => {
  await reader.open(name);
  const cases = [
    ['whole("-1.5", 6)', -1500000n], ['whole("", 6)', null], ['whole("unknown", 6)', null],
    ['whole("0.123456789", 9)', 123456789n], ['whole("-0.000001", 6)', -1n],
    ['nearest(5n, 2n)', 3n], ['nearest(-5n, 2n)', -3n], ['nearest(4n, 3n)', 1n],
    ['roundedUp(1n, 3n)', 333334n], ['roundedUp(-1n, 3n)', -333333n], ['roundedUp(0n, 3n)', 0n],
    ['decimal(-1n)', '-0.000001'], ['cell(0n)', '0'], ['cell(null)', ''],
    ['short(1234567890000n)', '1\u202f234\u202f568'], ['short(9999000000n)', '9999'], ['short(-1500000n)', '\u22121.50'],
    ['short(0n)', '0'], ['short(12n)', '0.000012'], ['short(999999n)', '1.000'],
    ['share(1n, 1000n)', '<1\u00a0%'], ['share(999n, 1000n)', '>99\u00a0%'], ['share(1n, 0n)', ''],
    ['fieldsOf("a,,\\"b,\\"\\"c\\",d").join("|")', 'a||b,"c|d'], ['fieldsOf(",").length', 2], ['quoted("a,b")', '"a,b"'],
    ...[0, 3, 55, 56, 64, 1000].map(length => [`sha256("b".repeat(${length}))`, sha256('b'.repeat(length))]),
  ];
  const written = v => (typeof v === 'bigint' ? v + 'n' : v);
  for (const [text, wanted] of cases) {
    const found = await browser.run(`(${written})(${text})`);
    check(text, found === written(wanted), found);
  }
};

tests['r3-trade.html: regions'] = async name => {
  const headings = async state => {
    await reader.open(name, state);
    return (await reader.texts('#main h2')).join();
  };
  check('regions together', await headings('') === 'All regions together');
  check('one region', await headings('region=1') === 'B');
  check('each in turn', await headings('region=%2B') === 'A,B,C');
  check('a region that there isn\'t', await headings('region=7') === 'All regions together');
  await reader.choose('Region', '2');
  check('chosen', (await reader.texts('#main h2')).join() === 'C');
};

tests['compare.html: two plans'] = async name => {
  await reader.open(name);
  check('the headline tells the difference', (await reader.text('.num')).startsWith('+1299'));
  check('and what is proved', (await reader.text('.mark')).includes('at least 1298.621233 and at most 1298.621235'));
  check('no prices of a change', !(await reader.texts('#main h4')).some(title => title.startsWith('Price')));
  const emissions = 'Emissions of CO2: change', lines = await reader.count(emissions, ':is(.dem, .lim)');
  const note = await reader.note(emissions), isTold = file => note.includes(file + ' in 2030 and 5 more');
  check('lines of both plans are drawn, or told', lines === (isTold('free.dat') && isTold('country.dat') ? 0 : 12), lines, note);

  const changed = await reader.rows(ELC + ': change');
  await reader.choose('Show', 'first');
  check('the first plan by itself', (await reader.texts('#main h4')).includes('Price of ELC'));
  const first = await reader.rows(ELC);
  await reader.choose('Show', 'second');
  const second = await reader.rows(ELC), value = (rows, row, i) => Number((rows.find(one => one[0] === row) || [])[i] || 0);
  const isLess = ([row, ...cells]) => cells.every((cell, i) =>
    Math.abs(Number(cell) - value(second, row, i + 1) + value(first, row, i + 1)) < 1e-6);
  check('a change is the second less the first', changed.length > 2 && changed.every(isLess), changed, first, second);
};

tests['no-plan.html: said'] = async name => {
  await reader.open(name);
  check('no plan is told', await reader.text('.top .mark') === 'No plan exists');
  check('and nothing drawn or chosen', await ask(() => !document.querySelector('figure, .bar *')));
  check('what `table` prints is told of plans alone', !(await reader.text('#foot')).includes('sha256sum'));
};

tests['unbounded.html: said'] = async name => {
  await reader.open(name);
  check('a cost without end is told', await reader.text('.top .mark') === 'The cost falls without end');
  const direction = reader.tables(name)[0].split('\nRateOfActivity\n')[1].split('\n').filter(line => /\d$/.test(line));
  check('and what grows', (await reader.texts('.top tbody tr')).length === direction.length, direction.length);
};

// ---- The pages that page_make.py makes

tests['made-looks.html: looks'] = async name => {
  await reader.open(name, 'most=0');
  const looks = await ask(title => seen.looks(seen.figure(title)), 'Emissions: CO2');
  check('27 technologies of one emission look different', looks.length === 27 && new Set(looks).size === 27, looks);
};

tests['made-limits.html: emissions'] = async name => {
  const title = 'Emissions: CO2';
  await reader.open(name);
  check('a limit far above all bars isn\'t drawn', await reader.count(title, 'path.lim') === 1);
  check('what all years emit is told, and the limit', await reader.note(title) === 'All years together: 33.1, of a limit of '
    + '40.0. Too far above the bars to be drawn: Yearly limit in 2034, 4500.', await reader.note(title));
  const ticks = await ask(one => seen.texts('text.e', seen.figure(one)), title);
  check('it presses no bar', Math.max(...ticks.map(Number)) <= 10, ticks);
  const limits = (await reader.rows(title)).find(row => row[0] === 'Yearly limit');
  check('but stands in the numbers', limits[5] === '4500.000000', limits);
  check('what comes from elsewhere is taken off a limit', limits[6] === '3.750000', limits);
};

tests['made-small.html: small series'] = async name => {
  await reader.open(name);
  const few = ['GAS_PLANT', 'WIND', 'SOLAR', 'Final demand', '1 too small to be seen'];
  check('small series are one, which can\'t be seen', isSame(await reader.legend(ELC), few), await reader.legend(ELC));
  const rows = (await reader.rows(ELC)).map(row => row[0]);
  check('each with its numbers', rows.includes('SMALL1') && rows.includes('SMALL2'), rows);
  const heat = await reader.legend('Production of HEAT');
  check('small ones that can be seen together have a bar', heat.includes('other (60)'), heat);
  await reader.choose('Charts', 'share');
  check('also in shares', (await reader.legend(ELC)).includes('1 too small to be seen'));
  for (let i = 0; i < 3; i++)
    await ask(title => seen.figure(title).querySelector('.legend button[aria-pressed=true]').click(), ELC);
  const left = await reader.legend(ELC);
  check('and seen where the large ones are taken out', left.includes('SMALL1') && left.includes('SMALL2'), left);
};

tests['made-noise.html: changes'] = async name => {
  await reader.open(name);
  const rows = await reader.rows(ELC + ': change'), titles = (await reader.texts('#main h4'));
  check('a millionth is no change, and two are', isSame(rows, [['WIND', '0', '0', '-0.000002', '0', '0', '0']]), rows);
  check('of what doesn\'t change there is no chart', isSame(titles, [ELC + ': change']), titles);
  check('a headline of a millionth is 0', await reader.text('.num') === '0');
  check('two files of one name are told apart', await reader.text('h1') === 'country.dat (second) against country.dat (first)');
};

tests['made-huge.html: a large number'] = async name => {
  await reader.open(name);
  const cells = (await reader.rows(ELC)).flat();
  check('what no picture holds is told to the last place', cells.includes('123456789012345678901.000001'), cells);
};

tests['made-rare.html: rare things'] = async name => {
  await reader.open(name);
  const heading = await ask(() => seen.figure('Capacity').closest('.fuel').querySelector('h3').textContent);
  check('what makes nothing stands by itself', heading === 'Technologies that make no fuel'
    && isSame(await reader.legend('Capacity'), ['STORE']), heading);
  const gas = 'Price of GAS', note = await reader.note(gas);
  check('prices of years', await reader.count(gas, '.dot') === 6 && note.includes('asked for in the year'), note);
  check('without what was rounded, and places', (await reader.texts('dt')).join() === 'Cost,Bound,Gap');
};

tests['made-members.html: two files'] = async name => {
  await reader.open(name);
  const told = await reader.texts('#head .none');
  check('members of one file alone are told',
    isSame(told, ['Only in other.dat: TECHNOLOGY STORE, MODE_OF_OPERATION 7.']), told);
  check('what isn\'t proved isn\'t said', (await reader.text('.top .say')).startsWith('Not both plans are proved'));
};

// ---- Data that a file of changes has changed

const changesInHead = () => ask(() => seen.all('#head .made').map(one => ({
  summary: one.querySelector('summary').textContent, lines: one.querySelector('pre').textContent.split('\n'),
  inside: one.querySelectorAll('*').length, isShown: one.querySelector('pre').checkVisibility(),
})));

tests['country.html: data without changes'] = async name => {
  await reader.open(name);
  check('of data without changes the name is told alone', await reader.text('#head .file') === 'country.dat');
  check('and nothing of changes', !(await changesInHead()).length && !(await reader.text('#head')).includes('change'));
};

const CHANGES = ['NAME,REGION,TECHNOLOGY,YEAR,CHANGE,VALUE', 'CapitalCost,ISLE,SOLAR,2030,*,0.8',
  'CapitalCost,ISLE,SOLAR,2031,*,0.8', 'TotalAnnualMaxCapacity,ISLE,WIND,2035,=,4'];

tests['made-changes.html: changes in the head'] = async name => {
  await reader.open(name);
  check('how many changes were made', await reader.text('#head .file') === 'country.dat with 3 changes');
  check('in the title too', (await ask(() => document.title)).startsWith('country.dat with 3 changes: '));
  const [folded, ...others] = await changesInHead();
  check('which they are, folded', folded.summary === '3 changes' && !folded.isShown && !others.length, folded, others);
  check('line by line', isSame(folded.lines, CHANGES), folded.lines);
  await ask(() => document.querySelector('#head .made summary').click());
  check('unfolded by a click', (await changesInHead())[0].isShown);
  await ask(() => document.querySelector('#head .made summary').click());
  await browser.call('Emulation.setEmulatedMedia', { media: 'print' });
  check('and on paper', (await changesInHead())[0].isShown);
  await browser.call('Emulation.setEmulatedMedia', { media: '' });
};

tests['made-hostile-changes.html: changes in the head'] = async name => {
  await reader.open(name);
  check('one change', await reader.text('#head .file') === 'country.dat with 1 change');
  const [fold] = await changesInHead();
  const field = '"<script>alert(""1"")</script></pre><img src=x onerror=\'alert(2)\'>&lt;b&gt;&amp;"';
  check('markup and quotes of a field are text', fold.inside === 2
    && isSame(fold.lines, ['NAME,TECHNOLOGY,CHANGE,VALUE', `CapitalCost,${field},*,0.8`]), fold);
  check('which runs nothing', !browser.troubles().length && browser.requests().length === 1, browser.troubles());
};

tests['made-changes-of-both.html: changes in the head'] = async name => {
  const before = 'country.dat with 1 change', after = 'country.dat with 3 changes';
  await reader.open(name);
  check('each of two plans has its own', await reader.text('h1') === `${after} against ${before}`);
  const folds = await changesInHead();
  check('with its lines', isSame(folds.map(fold => [fold.summary, fold.lines]),
    [[before, CHANGES.slice(0, 2)], [after, CHANGES]]), folds);
  const shown = await ask(() => seen.texts('.bar label:first-child option'));
  check('and so they are chosen', isSame(shown, ['What changes', before, after]), shown);
};

// Time is the page's own, since other programs may have the processors; by the clock it is told only.
tests['made-large.html: time'] = async name => {
  await browser.call('Performance.setTimeDomain', { timeDomain: 'threadTicks' });
  await browser.call('Performance.enable', { timeDomain: 'threadTicks' });
  const clock = [], own = [], fuels = async () => (await reader.texts('#main h3')).length;
  for (let i = 0; i < 3; i++) {
    clock.push(await reader.open(name));
    own.push(await browser.ownTime());
  }
  const size = Math.round(reader.fileText(name).length / 1000);
  console.log(`${name}: ${size} KB, loaded in ${own.join(', ')} ms; by the clock in ${clock.join(', ')} ms`);
  check('a large page loads within 1.5 s', Math.min(...own) <= 1500, own);
  check('of many fuels the first is shown', await fuels() === 1, await fuels());
  await reader.choose('Fuel', '');
  check('and all where that is chosen', await fuels() === 15, await fuels());
  await reader.open(name, (await ask(() => location.hash)).slice(1));
  check('which the address keeps', await fuels() === 15, await fuels());
  await browser.call('Performance.disable');
};

// ---- All of it

const pages = readdirSync(folder).filter(file => file.endsWith('.html')).sort();
for (const name of pages) await checkPage(name);

let bars = 0;
for (const name of pages.filter(page => page !== 'made-large.html'))
  for (const style of ['stack', 'group', 'share']) bars += await checkPictures(reader, name, '', style);
for (const [name, state] of [['r3-trade.html', 'region=%2B'], ['compare.html', 'view=second']])
  if (pages.includes(name)) bars += await checkPictures(reader, name, state, 'stack');

const pageOf = test => test.split(':')[0], left = Object.keys(tests).filter(test => !pages.includes(pageOf(test)));
for (const [name, test] of Object.entries(tests)) if (!left.includes(name)) await test(pageOf(name));
if (left.length) console.log('not tried, for want of their pages: ' + left.join('; '));
console.log(`${pages.length} pages, ${bars} bars`);
console.log(`page.mjs: ${reader.tried} tried, ${reader.wrong} wrong`);
browser.close();
process.exit(reader.wrong ? 1 : 0);
