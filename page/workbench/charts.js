'use strict';

// ---- rows of counts, as the program writes them

// `regs 1 accepted 3 lost 3:0 4:0 ..`: names and numbers, in order; of `lost` one for each cause.
function countsOf(row) {
  const found = [];
  const words = row.split(' ');
  for (let k = 0; k < words.length; k += 1) {
    if (words[k] === 'lost') {
      for (; /^\d+:\d+$/.test(words[k + 1] ?? ''); k += 1) found.push([`lost ${words[k + 1].split(':')[0]}`, words[k + 1].split(':')[1]]);
    } else {
      found.push([words[k], words[k + 1]]);
      k += 1;
    }
  }
  return found;
}

function made(kind, text, attributes = {}) {
  const svg = ['svg', 'rect', 'text', 'title'].includes(kind);
  const it = svg ? document.createElementNS('http://www.w3.org/2000/svg', kind) : document.createElement(kind);
  if (text !== '') it.textContent = text;
  for (const [name, value] of Object.entries(attributes)) it.setAttribute(name, value);
  return it;
}

function tableOf(rows) {
  const table = made('table', '');
  const head = table.createTHead().insertRow();
  for (const [name] of rows[0]) head.append(made('th', name, { scope: 'col' }));
  const body = table.createTBody();
  for (const row of rows) {
    const line = body.insertRow();
    for (const [, number] of row) line.insertCell().textContent = number;
  }
  return table;
}

// One row of counts below one another.
function listOf(row) {
  const table = made('table', '');
  for (const [name, number] of row) {
    const line = table.insertRow();
    line.append(made('th', name, { scope: 'row' }));
    line.insertCell().textContent = number;
  }
  return table;
}

// A table with these heads.
const textsOf = (heads, lines) => tableOf(lines.map((line) => heads.map((head, k) => [head, line[k]])));

// Bars of one count, one for each name; their lengths are in the proportion of the numbers.
const BAR = { height: 26, names: 70, length: 260, numbers: 80 };
function chartOf(title, bars, names = BAR.names) {
  const height = (bars.length + 1) * BAR.height;
  const width = names + BAR.length + BAR.numbers;
  const told = `${title}: ${bars.map(([name, number]) => `${name} ${number}`).join(', ')}`;
  const svg = made('svg', '', { class: 'chart', width, height, viewBox: `0 0 ${width} ${height}`, role: 'img', 'aria-label': told });
  const most = Math.max(1, ...bars.map(([, number]) => Number(number)));
  svg.append(made('text', title, { x: 0, y: 18, 'font-weight': 700 }));
  bars.forEach(([name, number], k) => {
    const y = (k + 1) * BAR.height;
    const length = (BAR.length * Number(number)) / most;
    svg.append(made('text', name, { x: names - 8, y: y + 18, 'text-anchor': 'end' }));
    svg.append(made('rect', '', { x: names, y: y + 3, width: length, height: BAR.height - 6 }));
    svg.append(made('text', number, { x: names + length + 6, y: y + 18 }));
  });
  return svg;
}

// Why an event is refused: the number, the name that figures and formats have, and the cause.
const CAUSES = [
  [1, 'out of range', 'it is outside memory'],
  [2, 'no lanes', 'the store names no byte'],
  [3, 'tag in use', 'the tag is owed a value that wasn\'t taken yet'],
  [4, 'replies full', 'the limit of outstanding loads is reached'],
  [5, 'targets full', 'four loads wait for the word already'],
  [6, 'block queued', 'this machine never answers it'],
  [7, 'no register', 'all registers are in use'],
  [8, 'set pending', 'every way of the set waits for words'],
  [9, 'queue full', 'the write queue has too few places for the dirty words'],
  [10, 'bank full', 'a bank has too little room for the commands'],
  [11, 'not present', 'no frame holds the block'],
  [12, 'stack full', 'the input stack is full'],
  [13, 'stray word', 'no register waits for the word; a whole machine never answers it'],
];
// A count's name, as a chart has it.
function titleOf(name) {
  const cause = CAUSES.find(([number]) => name === `lost ${number}`);
  return cause ? `${name}: ${cause[1]}` : name;
}

// The charts of a sweep, over the registers: of these counts, and of each cause of lost rounds, unless all are 0.
const OF_SWEEPS = ['rounds', 'stalled', 'waited', 'pumps', 'mean', 'longest'];
function sweepCharts(rows) {
  const named = rows.map((row) => new Map(row));
  const lost = [...named[0].keys()].filter((name) => name.startsWith('lost '));
  return [...OF_SWEEPS, ...lost].filter((name) => named.some((row) => Number(row.get(name) ?? 0) > 0))
    .map((name) => chartOf(titleOf(name), named.map((row) => [`regs ${row.get('regs')}`, row.get(name)])));
}
function driveCharts(row) {
  const counts = new Map(row);
  const of = (names) => names.filter((name) => counts.has(name)).map((name) => [name, counts.get(name)]);
  const causes = of([...counts.keys()].filter((name) => name.startsWith('lost '))).map(([name, number]) => [titleOf(name).slice(5), number]);
  return [chartOf('accepted requests', of(['hits', 'joins', 'misses'])), chartOf('rounds lost, by cause', causes, 230)];
}
