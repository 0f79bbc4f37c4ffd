'use strict';

const find = (id) => document.getElementById(id);
const PANES = ['picture', 'grade', 'check', 'explain', 'sweep', 'drive', 'help'];
const WITH_ROUNDS = ['sweep', 'drive'];
const LATENCY = 10;
const BUSY = 1;
const BEGIN = 'load 1 4\n';
const DELAY = 200;
let examples = [];
// Whether the program has `grade`.
let canGrade = false;
let pane = 'picture';
// What stands beside the lines, and behind that what is told of the cursor's line.
let beside = [];
let reasons = new Map();
// The number of the last edit: what answers an earlier one comes too late.
let edits = 0;
let timer = 0;
// the line that can't be read, if there is one
let faultLine = 0;
// What is asked for the last edit: the next one ends it.
let asking = new AbortController();

// ---- the machine's numbers

for (const [key, number, range, meaning] of KEYS) {
  const input = document.createElement('input');
  Object.assign(input, { type: 'number', min: 1, value: number, id: `number-${key}`, name: key });
  const label = document.createElement('label');
  label.title = `${key}: ${meaning}, ${range}`;
  label.append(key.replace('_', ' '), input);
  find('machine').append(label);
}

// The numbers that aren't the defaults.
function machineOf() {
  const found = {};
  for (const [key, number] of KEYS) {
    const value = find(`number-${key}`).value;
    if (value !== '' && Number(value) !== number) found[key] = Number(value);
  }
  return found;
}
const wholeMachine = () => ({ ...Object.fromEntries(KEYS), ...machineOf() });
function putMachine(machine) {
  for (const [key, number] of KEYS) find(`number-${key}`).value = machine[key] ?? number;
}

// ---- what is looked at: the numbers of memory's rounds, the tab, and the cursor's line where it isn't the last one

const numberIn = (id, least) => {
  const value = Math.floor(Number(find(id).value));
  return find(id).value === '' || !(value >= least && value <= 1000) ? null : value;
};
const latencyOf = () => numberIn('latency', 0) ?? LATENCY;
// (a bank that is always ready at once can't be busy)
const busyOf = () => (latencyOf() === 0 ? null : numberIn('busy', 1));
const roundsOf = () => ({ latency: latencyOf(), busy: busyOf() });
function viewOf() {
  const view = {};
  if (pane !== 'picture') view.tab = pane;
  if (latencyOf() !== LATENCY) view.latency = latencyOf();
  if (latencyOf() > 0 && busyOf() !== BUSY) view.busy = busyOf() ?? latencyOf();
  const after = find('trace').value.slice(find('trace').selectionStart);
  if (after.trim() !== '') view.line = lineAtCursor();
  return view;
}
function putView(view) {
  find('latency').value = view.latency ?? LATENCY;
  find('busy').value = view.busy ?? BUSY;
  showPane(panes().includes(view.tab) ? view.tab : 'picture');
}
// The cursor at the end of a line; with none of this number, at the end of all.
function putCursor(line) {
  const lines = find('trace').value.split('\n');
  const at = line >= 1 && line <= lines.length ? lines.slice(0, line).join('\n').length : find('trace').value.length;
  find('trace').setSelectionRange(at, at);
}
function putAddress() {
  const fragment = fragmentOf(find('trace').value, machineOf(), viewOf());
  history.replaceState(null, '', fragment);
  draft(fragment);
}
// What was worked at last, for who comes back by the page's bare address; nothing where the browser keeps nothing.
function draft(fragment) {
  try {
    if (fragment) localStorage.setItem('draft', fragment);
    return localStorage.getItem('draft');
  } catch {
    return null;
  }
}
// What stands there is left to the browser's 'back', before it is replaced.
function keepStep() {
  putAddress();
  history.pushState(null, '', location.href);
}
const panes = () => PANES.filter((name) => canGrade || name !== 'grade');

// ---- asking the program

async function ask(job, given, rounds = {}, signal = undefined) {
  try {
    const said = await fetch('answer', {
      method: 'POST',
      signal,
      headers: { 'Content-Type': 'application/json' },
      body: JSON.stringify({ job, given: withEnd(given), machine: machineOf(), ...rounds }),
    });
    return said.ok ? await said.json() : { status: -1, said: '', told: await said.text() };
  } catch {
    return { status: -1, said: '', told: './kroft-page has ended' };
  }
}
// Asks for what is shown now.
const askNow = (job, given, rounds) => ask(job, given, rounds, asking.signal);

// ---- the editor

function putAnswers(answers, fault) {
  const count = Math.max(1, find('trace').value.split('\n').length);
  find('numbers').textContent = Array.from({ length: count }, (_, k) => k + 1).join('\n');
  const box = find('answers');
  box.textContent = answers.join('\n');
  beside = answers;
  faultLine = fault && !fault.isRead ? fault.line : 0;
  if (fault) {
    const before = answers.slice(0, fault.line - 1);
    const line = document.createElement('span');
    line.className = 'fault';
    line.textContent = fault.text;
    line.title = fault.told ?? fault.text;
    box.textContent = before.map((it) => `${it}\n`).join('') + '\n'.repeat(fault.line - 1 - before.length);
    box.append(line, '\n');
    beside = [...before, ...Array(fault.line - 1 - before.length).fill(''), line.title];
  }
  scrolled();
  putHere();
  putPrinted();
}
// On paper a text has no end that is scrolled to.
function putPrinted() {
  const lines = linesOf(find('trace').value);
  const width = Math.max(...lines.map((line) => line.length));
  find('printed').textContent = lines.map((line, k) => `${String(k + 1).padStart(4)}  ${line.padEnd(width)}  ${beside[k] ?? ''}`.trimEnd()).join('\n');
}
const LINE = 20;
function scrolled() {
  for (const id of ['numbers', 'answers']) find(id).scrollTop = find('trace').scrollTop;
  find('cursor').style.top = `${4 + LINE * (lineAtCursor() - 1) - find('trace').scrollTop}px`;
}
const lineAtCursor = () => find('trace').value.slice(0, find('trace').selectionStart).split('\n').length;

// The cursor's line is marked, and its answer is told (a screen reader can't see what is beside a line).
function putHere() {
  const line = lineAtCursor();
  const answer = beside[line - 1];
  const words = answer ? `line ${line}: ${answer}${reasons.has(line) ? `, ${reasons.get(line)}` : ''}` : '';
  if (find('here').textContent !== words) find('here').textContent = words;
  scrolled();
}
function tell(words, isFault = false) {
  find('told').textContent = words;
  find('told').className = isFault ? 'fault' : '';
}

// ---- what is shown

// A text is judged by what it is; behind the tab for grades one with answers is a sheet.
function judgedAs(text) {
  const kind = kindOf(text, canGrade);
  return kind === 'recorded' && pane === 'grade' ? 'sheet' : kind;
}
const JUDGED_BY = { trace: 'run', recorded: 'check', sheet: 'grade' };
async function answerTrace(edit, text) {
  const kind = judgedAs(text);
  const answer = text === '' ? { status: 0, said: '', told: '' } : await askNow(JUDGED_BY[kind], text);
  if (edit !== edits) return;
  const fault = faultOf(answer);
  reasons = kind === 'sheet' ? wrongLines(answer.said) : new Map();
  putAnswers({ trace: () => answersOf(answer.said), recorded: () => [], sheet: () => (fault ? [] : marksOf(text, reasons)) }[kind](), fault);
  const said = linesOf(answer.said.trim());
  const told = answer.told.trim() || { trace: '', recorded: said[0] ?? '', sheet: said.at(-1) ?? '' }[kind];
  const isOpen = kind === 'sheet' && pane === 'picture' && beforeOpen(text).length < linesOf(text).length;
  const added = addedTo(told, text) || (isOpen ? 'drawn up to the first open line' : '');
  tell(added ? `${told} (${added})` : told, answer.told !== '' || fault !== null);
  for (const [key] of KEYS) find(`number-${key}`).setAttribute('aria-invalid', new RegExp(`^(machine: )?${key}\\b`).test(told));
}
const shown = {
  async picture(edit, text) {
    const isSheet = kindOf(text, canGrade) === 'sheet';
    // (up to the line that can't be read, if there is one; and nothing tells what a sheet asks)
    const lines = isSheet ? beforeOpen(text) : linesOf(text);
    const drawn = (faultLine > 0 ? lines.slice(0, faultLine - 1) : lines).join('\n');
    const answer = await askNow('show', isSheet ? traceOfSheet(drawn) : drawn);
    if (edit !== edits) return;
    // (a picture of another text would be taken for one of this)
    if (answer.picture) putPicture(answer.picture);
    else putTexts('picture', answer.told);
  },
  async grade(edit, text) {
    const answer = await askNow('grade', text);
    if (edit === edits) putTexts('grade', answer.said + answer.told);
  },
  async check(edit, text) { await putSaid('check', edit, text); },
  async explain(edit, text) { await putSaid('explain', edit, text); },
  async sweep(edit, text) {
    const parts = [];
    for (const rounds of [roundsOf(), {}]) {
      const answer = await askNow('sweep', requestsOf(text), rounds);
      if (edit !== edits) return;
      parts.push(made('h2', 'latency' in rounds ? `In rounds, with a latency of ${rounds.latency}${busyWords()}` : 'One after another'));
      const rows = answer.status === 0 ? linesOf(answer.said).map(countsOf) : [];
      if (rows.length > 0) parts.push(...sweepCharts(rows), tableOf(rows));
      parts.push(made('pre', answer.said || answer.told, { class: 'said' }));
    }
    find('pane-sweep').replaceChildren(...parts);
  },
  async drive(edit, text) {
    const answer = await askNow('drive', requestsOf(text), roundsOf());
    if (edit !== edits) return;
    putTexts('drive', answer.said || answer.told);
    if (answer.status === 0) find('pane-drive').append(listOf(countsOf(answer.said.trim())), ...driveCharts(countsOf(answer.said.trim())));
  },
  async help() {},
};
const requestsOf = (text) => (kindOf(text, canGrade) === 'sheet' ? traceOfSheet(text) : text);
const busyWords = () => (busyOf() === null ? '' : `, a bank busy for ${busyOf()}`);

function putTexts(name, ...texts) {
  find(`pane-${name}`).textContent = '';
  for (const text of texts) find(`pane-${name}`).append(made('pre', text, { class: 'said' }));
}
// A trace is judged by the run that the program makes of it.
async function putSaid(job, edit, text) {
  const run = kindOf(text, canGrade) === 'recorded' ? text : (await askNow('run', requestsOf(text))).said;
  if (edit !== edits) return;
  const answer = await askNow(job, run);
  if (edit === edits) putTexts(job, answer.said + answer.told);
}

// The picture stands at the step of the cursor's line. A new one is put in place of the old when it is there.
function putPicture(name) {
  const frame = document.createElement('iframe');
  const pane = find('pane-picture');
  frame.title = 'picture';
  frame.dataset.name = name;
  frame.setAttribute('sandbox', 'allow-scripts');
  frame.className = 'coming';
  frame.dataset.step = stepAtCursor();
  frame.src = `${name}#${frame.dataset.step}`;
  frame.onload = () => {
    // (a newer one may have been put there meanwhile)
    if (pane.lastChild !== frame) return;
    for (const it of [...pane.childNodes]) if (it !== frame) it.remove();
    frame.className = '';
    frame.dataset.isThere = 'yes';
    followCursor();
  };
  for (const it of pane.querySelectorAll('.coming')) it.remove();
  pane.append(frame);
}
// Lines that only show something, or say nothing, are no steps.
function stepAtCursor() {
  const text = find('trace').value.slice(0, find('trace').selectionStart);
  const line = find('trace').value.slice(find('trace').selectionStart).split('\n', 1)[0];
  const lines = (text + line).split('\n').filter((it) => !saysNothing(it));
  return lines.filter((it) => !/^(reg|bank|settled)\b/.test(it)).length;
}
function followCursor() {
  putHere();
  const frame = find('pane-picture').querySelector('iframe:last-of-type');
  if (frame && frame.dataset.isThere && frame.dataset.step !== String(stepAtCursor())) {
    frame.dataset.step = stepAtCursor();
    frame.contentWindow.location.replace(`${new URL(frame.dataset.name, location.href).href.split('#')[0]}#${stepAtCursor()}`);
  }
}

async function update() {
  clearTimeout(timer);
  asking.abort();
  asking = new AbortController();
  edits += 1;
  const edit = edits;
  const text = find('trace').value;
  delete document.body.dataset.done;
  putAddress();
  await answerTrace(edit, text);
  if (edit === edits) await shown[pane](edit, text);
  if (edit === edits) document.body.dataset.done = edit;
}
function later() {
  clearTimeout(timer);
  delete document.body.dataset.done;
  timer = setTimeout(update, DELAY);
}
// Puts a text in place of the editor's as if it were typed, so that the browser's undo brings back what stood there.
function putText(text) {
  const box = find('trace');
  if (box.value === text) return;
  const before = document.activeElement;
  box.focus({ preventScroll: true });
  box.select();
  document.execCommand(text === '' ? 'delete' : 'insertText', false, text);
  if (box.value !== text) box.value = text;
  before.focus({ preventScroll: true });
}
function putTrace(text) {
  keepStep();
  putText(text);
  putCursor(0);
  find('trace').scrollTop = find('trace').scrollHeight;
  update();
}

function choose(name) {
  showPane(name);
  update();
}
function showPane(name) {
  pane = name;
  for (const it of PANES) {
    find(`pane-${it}`).hidden = it !== name;
    find(`tab-${it}`).setAttribute('aria-selected', it === name);
    find(`tab-${it}`).tabIndex = it === name ? 0 : -1;
  }
  for (const id of ['timing', 'saves']) find(id).hidden = !WITH_ROUNDS.includes(name);
}

// ---- what the user does

for (const name of PANES) find(`tab-${name}`).onclick = () => choose(name);
document.querySelector('.tabs').addEventListener('keydown', (event) => {
  const move = { ArrowRight: 1, ArrowLeft: -1 }[event.key];
  if (!move || event.target.getAttribute('role') !== 'tab') return;
  choose(panes().at((panes().indexOf(pane) + move) % panes().length));
  find(`tab-${pane}`).focus();
});
find('trace').addEventListener('input', later);
find('trace').addEventListener('scroll', scrolled);
for (const kind of ['keyup', 'click']) {
  find('trace').addEventListener(kind, () => {
    followCursor();
    putAddress();
  });
}
find('machine').addEventListener('input', later);
find('machine').addEventListener('submit', (event) => event.preventDefault());
find('timing').addEventListener('input', later);
find('new').onclick = () => putTrace('');
find('alone').onclick = () => {
  const isAlone = find('work').classList.toggle('alone');
  find('alone').setAttribute('aria-pressed', isAlone);
};
async function write(made) {
  const text = withEnd(find('trace').value);
  if (kindOf(text, canGrade) !== 'trace') {
    tell('lines are written behind a trace alone: this text has answers', true);
    return;
  }
  const fault = faultOf(await ask('run', text));
  if (fault) tell(`line ${fault.line} has to be put right first: ${fault.text}`, true);
  else {
    const whole = await made(text);
    if (withEnd(find('trace').value) === text) putTrace(whole);
    else tell('the text was changed meanwhile: no line was written', true);
  }
}
find('settle').onclick = () => write((text) => settled(ask, text, wholeMachine()));
find('bring').onclick = () => {
  const block = Number(find('block').value || NaN);
  const blocks = blocksOf(wholeMachine());
  if (!(Number.isInteger(block) && block >= 0 && block < blocks)) tell(`a block is a whole number below ${blocks}`, true);
  else write((text) => broughtIn(ask, text, block, wholeMachine()));
};

// ---- what is taken along

function save(name, text, kind) {
  const address = URL.createObjectURL(new Blob([text], { type: kind }));
  made('a', '', { href: address, download: name }).click();
  setTimeout(() => URL.revokeObjectURL(address), 60000);
}
find('save').onclick = () => save(`kroft.${kindOf(find('trace').value, canGrade)}`, withEnd(find('trace').value), 'text/plain');
// (the figure and the table are the program's)
async function saveFigure(form, kind) {
  const answer = await ask(`${pane} ${form}`, requestsOf(find('trace').value), roundsOf());
  if (answer.status === 0) save(`${pane}.${form}`, answer.said, kind);
  else tell(linesOf(answer.told)[0], true);
}
find('save-svg').onclick = () => saveFigure('svg', 'image/svg+xml');
find('save-csv').onclick = () => saveFigure('csv', 'text/csv');
find('link').onclick = async () => {
  putAddress();
  try {
    await navigator.clipboard.writeText(location.href);
    tell('the link has the trace and the machine. Pasted into the trace of any ./kroft-page, it opens there');
  } catch {
    tell(`this browser copies nothing: the link is ${location.href}`, true);
  }
};
// A link that is pasted opens, of whichever page it is.
find('trace').addEventListener('paste', (event) => {
  const link = linkIn(event.clipboardData.getData('text'));
  if (!link) return;
  event.preventDefault();
  keepStep();
  history.replaceState(null, '', link);
  follow();
});

find('example').onchange = () => {
  const chosen = examples.find((it) => it.name === find('example').value);
  if (!chosen) return;
  if (chosen.name.endsWith('.toml')) {
    keepStep();
    putMachine(machineIn(chosen.text));
    update();
  } else {
    if (chosen.name.endsWith('.sheet')) showPane('grade');
    putTrace(chosen.text);
  }
};
function follow() {
  const { trace, machine, view } = readFragment(location.hash);
  putMachine(machine);
  putView(view);
  putText(trace ?? BEGIN);
  putCursor(view.line);
  update();
}
window.addEventListener('hashchange', follow);

function putHelp() {
  find('pane-help').append(
    made('h2', 'The lines of a trace'), textsOf(['line', 'example', 'what it does'], LINES),
    made('h2', 'Their fields'), textsOf(['field', 'what it may be'], Object.entries(FIELDS)),
    made('h2', 'Answers'), made('p', `Behind \u2018 -> \u2019 stands ${ANSWERS}.`),
    made('h2', 'Causes of a refusal, which changes nothing'), textsOf(['refused', 'name', 'cause'], CAUSES),
    made('h2', 'The numbers of a machine'),
    textsOf(['number', 'what it is', 'what it may be', 'default'], KEYS.map(([key, number, range, meaning]) => [key, meaning, range, number])));
}

async function begin() {
  putHelp();
  const told = await (await fetch('examples')).json();
  canGrade = told.jobs.includes('grade');
  find('tab-grade').hidden = !canGrade;
  examples = told.examples;
  for (const { name } of examples) find('example').append(made('option', name, { value: name }));
  if (location.hash.length < 2) history.replaceState(null, '', draft() ?? '#');
  // (what the page begins with isn't undone)
  find('trace').value = readFragment(location.hash).trace ?? BEGIN;
  follow();
}
begin();
