// Pictures against numbers: what the bars of each chart have to be, by the axis's own ticks and the table below it.

// What the pictures of a page show, and the numbers below them.
function picturesOf() {
  const number = text => Number(text.replace('\u2212', '-').replace(/[\u202f\u00a0%]/g, ''));
  const places = (element, names) => names.map(name => Number(element.getAttribute(name)));
  const charts = seen.all('#main figure').filter(one => one.querySelector('svg.chart') && !one.querySelector('.dot, path.l'));
  return charts.map(one => ({
    title: one.querySelector('h4').textContent,
    ticks: seen.all('text.e', one).map(e => [number(e.textContent), Number(e.getAttribute('y')) - 3.8]),
    rows: seen.all('details .scroll tbody tr:not(.sum)', one).map(row => seen.texts('td', row)),
    bars: seen.all('svg.chart rect:not(.light):not(.p1):not(.p2)', one).map(e => places(e, ['y', 'height'])),
    drawn: seen.all('svg.chart rect', one).map(e => e.getAttribute('class')),
    listed: seen.all('.legend rect:first-child', one).map(e => e.getAttribute('class')),
  }));
}

// The series that a picture has to show: those that aren't below a ten-thousandth of all, and one of all others.
function wantedSeries(rows) {
  const series = rows.map(row => row.map(text => Number(text)));
  const all = series.flat().reduce((sum, v) => sum + Math.abs(v), 0);
  const isSmall = values => values.every(v => Math.abs(v) * 10000 < all), small = series.filter(isSmall);
  const other = series[0].map((_, i) => small.reduce((sum, values) => sum + values[i], 0));
  return [...series.filter(values => !isSmall(values)), ...(small.length ? [other] : [])];
}

const inShares = values => {
  const all = values.reduce((sum, v) => sum + Math.max(v, 0), 0);
  return values.map(v => (all > 0 ? (100 * v) / all : 0));
};

// The bars that it has to have, in the order of columns: [y, height].
function wantedBars({ ticks: [[low, yLow], [next, yNext]], rows }, style) {
  const unit = (yLow - yNext) / (next - low), y = v => yLow - (v - low) * unit, series = wantedSeries(rows);
  const plain = series[0].map((_, i) => series.map(values => values[i]));
  const columns = style === 'share' ? plain.map(inShares) : plain;
  const isSeen = series.map((_, k) => columns.some(values => Math.abs(values[k]) * unit >= 0.5));
  return columns.flatMap(values => {
    const ends = { up: 0, down: 0 };
    return values.flatMap((v, k) => {
      const way = v > 0 ? 'up' : 'down', from = style === 'group' ? 0 : ends[way];
      ends[way] += v;
      return v && isSeen[k] ? [[y(Math.max(from, from + v)), Math.abs(v) * unit]] : [];
    });
  });
}

// Checks the pictures of a page; how many bars they have.
export async function checkPictures(reader, name, state, style) {
  await reader.open(name, `open=1&most=0&style=${style}&${state}`);
  let count = 0;
  for (const picture of await reader.ask(picturesOf)) {
    const wanted = wantedBars(picture, style), what = `${name}#${state}, ${style}, ${picture.title}`;
    const isAt = ([y, height], i) => Math.abs(y - picture.bars[i][0]) < 0.16 && Math.abs(height - picture.bars[i][1]) < 0.16;
    reader.check(`${what}: places and heights are the numbers`, wanted.length === picture.bars.length && wanted.every(isAt),
      wanted.slice(0, 9), picture.bars.slice(0, 9));
    reader.check(`${what}: all in the legend are drawn`, picture.listed.every(look => picture.drawn.includes(look)), picture.listed);
    count += wanted.length;
  }
  return count;
}
