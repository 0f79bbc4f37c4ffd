'use strict';

const find = (id) => document.getElementById(id);

function element(kind, className, ...children) {
  const made = document.createElement(kind);
  if (className) made.className = className;
  made.append(...children);
  return made;
}

// The picture of the machine: an entry for each place, which is drawn anew when its text changes.
class Picture {
  constructor(run) {
    this.run = run;
    this.spots = new Map();
    this.drawn = new Map();
    this.marked = [];
    this.used = new Set();
    // whether it shows what waiting loads will get, and the registers that frames wait for
    this.isWhole = false;
    this.waitsFor = new Map();
    for (const [, , , , changes] of run.steps) for (const [k, text] of changes) if (text !== '') this.used.add(places[k]);
    this.makeFrames();
    this.makeRegisters();
    for (const [letter, id] of [['s', 'stack'], ['q', 'queue'], ['v', 'ready']]) this.makeList(letter, find(`${id}-list`));
    this.makeBanks();
    this.makeMemory();
    this.makeLines();
  }

  spot(name, kind = 'div', className = 'entry') {
    const made = element(kind, className);
    made.dataset.place = name;
    this.spots.set(name, made);
    return made;
  }

  makeFrames() {
    const head = element('tr');
    head.append(element('th', 'set'));
    for (const way of range(sizes.ways)) {
      head.append(element('th', 'name'), element('th', 'title', `way ${way}`));
      head.append(...range(sizes.blockWords).map((i) => element('th', '', `+${i}`)));
    }
    for (const cell of head.children) cell.scope = 'col';
    this.giveWidths(head);
    const rows = range(sizes.sets).filter((set) => sizes.sets <= 4 || this.isSetUsed(set));
    find('frames-table').append(element('thead', '', head), element('tbody', '', ...rows.map((set) => this.frameRow(set))));
  }

  // A column is as wide as the longest text in it, and a table that is wider than its box is scrolled.
  giveWidths(head) {
    const digits = (number) => 9 * String(number).length;
    const widths = { set: 32 + digits(sizes.sets - 1), name: 17 + digits(sizes.frames - 1), title: this.longestBlock() };
    for (const [kind, width] of Object.entries(widths)) {
      for (const cell of head.querySelectorAll(`.${kind}`)) cell.style.width = `${width}px`;
    }
    find('frames-table').style.minWidth = `${widths.set + sizes.ways * (widths.name + widths.title + 69 * sizes.blockWords)}px`;
  }

  // How wide the longest name of a block is in a frame.
  longestBlock() {
    const pen = document.createElement('canvas').getContext('2d');
    pen.font = `italic ${getComputedStyle(document.body).font}`;
    const names = this.run.steps.flatMap(([, , , , changes]) => changes.filter(([k]) => lettersOf[k] === 'f').map(([, text]) => text));
    const longest = names.reduce((a, b) => (b.length > a.length ? b : a), '');
    return Math.max(64, Math.ceil(pen.measureText(longest.replace(', pending', ' ..')).width) + 6);
  }

  isSetUsed(set) { return range(sizes.ways).some((way) => this.used.has(`f${set * sizes.ways + way}`)); }

  frameRow(set) {
    const row = element('tr', '', element('th', '', `set ${set}`));
    row.firstChild.scope = 'row';
    for (const way of range(sizes.ways)) {
      const frame = set * sizes.ways + way;
      row.append(element('th', '', `f${frame}`), this.spot(`f${frame}`, 'td', 'block'));
      row.append(...range(sizes.blockWords).map((i) => this.spot(`c${frame}.${i}`, 'td', 'word')));
    }
    return row;
  }

  makeRegisters() {
    for (const slot of range(sizes.registers)) {
      const fields = element('div', 'fields', ...range(sizes.blockWords).map((i) => this.field(slot, i)));
      fields.style.gridTemplateColumns = `repeat(${Math.min(4, sizes.blockWords)}, auto)`;
      const head = element('div', 'register-head', element('span', 'at', `r${slot}`), this.spot(`r${slot}`));
      const made = element('div', 'register', head, fields);
      made.id = `register-${slot}`;
      find('registers-list').append(made);
    }
  }

  field(slot, i) {
    const loads = [];
    for (let at = 0; placeNumber.has(`l${slot}.${i}.${at}`); at += 1) loads.push(this.spot(`l${slot}.${i}.${at}`));
    return element('div', 'field', this.spot(`w${slot}.${i}`), ...loads);
  }

  item(name, at) {
    const made = element('li', '', element('span', 'at', String(at)), this.spot(name));
    made.hidden = true;
    return made;
  }

  makeList(letter, list) {
    for (let at = 0; placeNumber.has(`${letter}${at}`); at += 1) {
      if (this.used.has(`${letter}${at}`)) list.append(this.item(`${letter}${at}`, at));
    }
  }

  makeBanks() {
    find('banks-list').classList.toggle('many', sizes.banks > 4);
    for (const bank of range(sizes.banks)) {
      const head = element('div', 'bank-head', element('h3', '', `Bank ${bank}`), element('div', 'stored'));
      const lists = element('div', 'bank-lists scrolls', ...['m', 'a'].map((letter) => element('ol', letter === 'm' ? 'commands' : 'answers')));
      lists.children[0].setAttribute('aria-label', `commands of bank ${bank}`);
      lists.children[1].setAttribute('aria-label', `answers of bank ${bank}`);
      ['m', 'a'].forEach((letter, n) => this.makeList(`${letter}${bank}.`, lists.children[n]));
      const made = element('div', 'bank', head, lists);
      made.id = `bank-${bank}`;
      find('banks-list').append(made);
    }
  }

  makeMemory() {
    for (const at of range(sizes.memory)) {
      const made = this.item(`b${at}`, at);
      made.hidden = false;
      find('memory-list').append(made);
    }
  }

  makeLines() {
    for (const slot of range(sizes.registers)) {
      const made = element('li', '', element('span', 'at', `r${slot}`), this.spot(`g${slot}`));
      find('lines-list').append(made);
    }
  }

  // ---- a step

  draw() {
    const changed = new Set(this.run.changed().map((k) => places[k]));
    for (const it of this.marked) it.classList.remove('changed', 'read');
    this.marked = [];
    this.waitsFor = new Map(range(sizes.registers).map((slot) => [frameOf(this.run.text(`r${slot}`)), slot]));
    for (const [name, spot] of this.spots) this.drawSpot(name, spot, changed.has(name));
    for (const slot of range(sizes.registers)) this.drawRegister(slot);
    this.drawRequest();
    this.drawStored(changed);
    for (const bank of range(sizes.banks)) this.drawBank(bank);
    this.markCame();
    this.markRead();
    this.showMarked();
  }

  drawSpot(name, spot, isChanged) {
    const text = this.run.text(name);
    const shown = text === '' ? (isChanged ? '-' : '') : this.nameOf(name, text);
    if (this.drawn.get(name) !== shown) {
      this.drawn.set(name, shown);
      if (name[0] === 'c' && text !== '') this.drawWord(spot, shown);
      else spot.textContent = shown;
      spot.classList.toggle('pending', text.endsWith(', pending'));
      if (spot.parentNode.tagName === 'LI' && !'bg'.includes(name[0])) spot.parentNode.hidden = shown === '';
      if (name[0] === 'l') spot.hidden = shown === '';
    }
    if (isChanged) this.mark(spot, 'changed');
  }

  mark(spot, how) {
    spot.classList.add(how);
    this.marked.push(spot);
  }

  // What is shown of a text at a place.
  nameOf(name, text) {
    const [first, second] = numbersOf[placeNumber.get(name)];
    switch (name[0]) {
      case 'r': return registerName(text);
      case 'w': return fieldName(text, addressIn(blockOf(this.run.text(`r${first}`)) ?? 0, second));
      case 'l': return loadName(text, this.isWhole);
      case 'c': return this.wordName(first, second, text);
      case 'f': return text.replace(', pending', ' ..');
      case 's': case 'a': return entryName(text, this.run.addressFor(text));
      case 'q': return queuedName(text);
      case 'm': return commandName(text, first);
      case 'v': return replyName(text);
      default: return text;
    }
  }

  // A frame's word: of one that is still to come the bytes that are there.
  wordName(frame, i, text) {
    const slot = this.waitsFor.get(frame);
    const there = slot === undefined ? '1111' : bytesThere(this.run.text(`w${slot}.${i}`));
    return masked(there, text.slice(0, 8), '..') + text.slice(8);
  }

  // A word that came is another one also if its digits are those that stood there.
  markCame() {
    for (const k of this.run.changed()) {
      const [slot, i] = numbersOf[k];
      if (lettersOf[k] !== 'w' || bytesThere(this.run.before(places[k])) === '1111' || bytesThere(this.run.texts[k]) !== '1111') continue;
      const spot = this.spots.get(`c${frameOf(this.run.before(`r${slot}`))}.${i}`);
      if (spot && spot.textContent !== '' && !spot.classList.contains('changed')) this.mark(spot, 'changed');
    }
  }

  // A word of a frame. The bytes that memory doesn't have yet stand out.
  drawWord(spot, text) {
    const { word, mask } = cellParts(text);
    spot.textContent = '';
    for (const k of range(4)) {
      const digits = word.slice(2 * k, 2 * k + 2);
      spot.append(mask[k] === '1' ? element('span', 'dirty', digits) : digits);
    }
    if (mask === '0000') spot.removeAttribute('aria-label');
    else spot.setAttribute('aria-label', text);
  }

  drawRegister(slot) {
    const isFree = [`r${slot}`, ...range(sizes.blockWords).map((i) => `w${slot}.${i}`)]
      .every((name) => ['', 'free'].includes(this.drawn.get(name)));
    find(`register-${slot}`).classList.toggle('free', isFree);
  }

  // A bank in which nothing stands. If there are many banks, it is folded away.
  drawBank(bank) {
    const box = find(`bank-${bank}`);
    box.classList.toggle('empty', !box.querySelector('li:not([hidden]), .stored .entry'));
  }

  // Who asks: the event at hand, with its address cut into its parts.
  drawRequest() {
    const event = this.run.steps[this.run.now][0];
    const box = find('request');
    box.textContent = '';
    if (event === '') return;
    box.append(element('b', '', requestName(event)));
    const asked = askedWord(event);
    if (asked !== null) {
      const { block, set, word, bank } = cut(asked);
      for (const part of [`word ${asked} =`, `block ${block}`, `set ${set}`, `word +${word}`, `bank ${bank}`]) box.append(element('span', '', part));
    }
    const evicted = /^evict (\d+)$/.exec(event);
    if (evicted) box.append(element('span', '', `set ${Number(evicted[1]) % sizes.sets}`));
  }

  // A word of memory that changed is shown at its bank too.
  drawStored(changed) {
    for (const bank of range(sizes.banks)) find(`bank-${bank}`).querySelector('.stored').textContent = '';
    for (const name of changed) {
      if (name[0] !== 'b') continue;
      const at = Number(name.slice(1));
      const made = element('span', 'entry', `memory, word ${at}: ${this.run.text(name)}`);
      find(`bank-${at % sizes.banks}`).querySelector('.stored').append(made);
      this.mark(made, 'changed');
    }
  }

  // The words that a hit reads: the frame's, and the input stack's if it stands there.
  markRead() {
    for (const name of this.read()) if (this.spots.has(name)) this.mark(this.spots.get(name), 'read');
  }

  read() {
    const [event, answer, words] = this.run.steps[this.run.now];
    if (!event.startsWith('load') || answer !== 'accepted' || !words.startsWith('a hit')) return [];
    const { block, word } = cut(askedWord(event));
    const frame = range(sizes.frames).find((it) => /^block (\d+)/.exec(this.run.text(`f${it}`))?.[1] === String(block));
    const slot = range(sizes.registers).find((it) => this.run.text(`r${it}`).startsWith(`valid, block ${block},`));
    const inStack = slot !== undefined && this.run.text(`w${slot}.${word}`).startsWith('in stack');
    const entry = range(sizes.stack).find((at) => this.run.text(`s${at}`).startsWith(`register ${slot}, word ${word}:`));
    return inStack ? [`c${frame}.${word}`, `s${entry}`] : [`c${frame}.${word}`];
  }

  // A list that is longer than its box is moved to what is marked in it: all of it, or as much as fits from the first on.
  showMarked() {
    for (const box of [...document.querySelectorAll('.scrolls')].reverse()) {
      const marked = box.scrollHeight > box.clientHeight ? [...box.querySelectorAll('.changed, .read')] : [];
      const rects = marked.map((it) => it.getBoundingClientRect()).filter((it) => it.height > 0);
      if (rects.length === 0) continue;
      const outer = box.getBoundingClientRect();
      const below = Math.max(...rects.map((it) => it.bottom)) + 4 - outer.bottom;
      if (below > 0) box.scrollTop += below;
      const above = outer.top + 4 - Math.min(...rects.map((it) => it.top)) + Math.max(0, below);
      if (above > 0) box.scrollTop -= above;
    }
  }
}

// ---- arrows

// What moved in the step at hand: pairs of boxes, with what went from one to the other.
function movesOf(run) {
  const [event, answer, words] = run.steps[run.now];
  const kind = event.split(' ')[0];
  if (run.now === 0 || answer === 'nothing' || answer.startsWith('refused')) return [];
  const changed = run.changed().map((k) => places[k]);
  const of = (letters) => changed.filter((name) => letters.includes(name[0]));
  const moves = { load: asked, store: asked, prefetch: asked, evict: evicted, drain: drained, serve: served,
    arrive: arrived, process: processed, take: taken };
  return moves[kind](run, event, of, words);
}
function dirtyOut(run, of) {
  const count = of('q').filter((name) => run.text(name) !== '').length;
  return count > 0 ? [['frames', 'queue', count === 1 ? '1 dirty word' : `${count} dirty words`]] : [];
}
function asked(run, event, of, words) {
  const at = askedWord(event);
  const found = [];
  const tag = /^load (\d+)/.exec(event);
  if (of('rwl').length > 0) found.push(['asks', 'registers', tag ? `t${tag[1]}, word ${at}` : `word ${at}`]);
  if (of('m').length > 0) found.push(['registers', 'banks', `reads of block ${cut(at).block}`]);
  if (of('v').length > 0) found.push(['asks', 'frames', `t${tag[1]}, word ${at}`], ['frames', 'ready', 'hit']);
  if (event.startsWith('store')) found.push(['asks', 'frames', `word ${at}`]);
  if (words.startsWith('a miss')) found.push(...dirtyOut(run, of));
  return found;
}
function evicted(run, event, of) {
  return dirtyOut(run, of);
}
function drained(run) {
  return [['queue', 'banks', queuedName(run.before('q0'))]];
}
function served(run, event) {
  const bank = Number(event.split(' ')[1]);
  const command = run.before(`m${bank}.0`);
  return [[`commands ${bank}`, command.startsWith('read') ? `answers ${bank}` : `memory ${bank}`, '']];
}
function arrived(run, event) {
  const [, bank, place] = event.split(' ');
  const text = run.before(`a${bank}.${place}`);
  return [[`bank ${bank}`, 'stack', entryName(text, run.addressFor(text))]];
}
function processed(run, event, of) {
  const text = run.before(`s${event.split(' ')[1]}`);
  const [slot] = ownerOf(text);
  const found = [];
  if (run.before(`r${slot}`).startsWith('valid')) found.push(['stack', 'frames', `word ${run.addressFor(text)}`]);
  const loads = of('v').length;
  if (loads > 0) found.push(['registers', 'ready', loads === 1 ? '1 load' : `${loads} loads`]);
  return found;
}
function taken(run, event) {
  return [['ready', 'asks', replyName(run.before(`v${event.split(' ')[1]}`))]];
}

// The ways that are always there, and where each leaves one box and reaches the other, as parts of their sides.
const WAYS = [
  ['asks', 'frames'], ['asks', 'registers'], ['frames', 'ready'], ['ready', 'asks'], ['registers', 'banks'],
  ['registers', 'ready'], ['frames', 'queue'], ['stack', 'frames'], ['banks', 'stack'], ['queue', 'banks'],
];

class Arrows {
  constructor(svg) {
    this.svg = svg;
  }

  make(kind, attributes, text) {
    const made = document.createElementNS('http://www.w3.org/2000/svg', kind);
    for (const [name, value] of Object.entries(attributes)) made.setAttribute(name, value);
    if (text) made.textContent = text;
    this.svg.append(made);
    return made;
  }

  box(name) {
    const [id, bank] = name.split(' ');
    const inner = { commands: '.commands', answers: '.answers', memory: '.stored' };
    const it = inner[id] ? find(`bank-${bank}`).querySelector(inner[id]) : find(bank === undefined ? id : `${id}-${bank}`);
    const around = this.svg.getBoundingClientRect();
    const r = it.getBoundingClientRect();
    return { x: r.x - around.x, y: r.y - around.y, w: r.width, h: r.height, r: r.right - around.x, b: r.bottom - around.y };
  }

  // The corners of a way, and where its label stands.
  corners(from, to) {
    const a = this.box(from);
    const z = this.box(to);
    const down = (x) => ({ points: [[x, a.b], [x, z.y]], at: [x, (a.b + z.y) / 2] });
    const up = (x) => ({ points: [[x, a.y], [x, z.b]], at: [x, (a.y + z.b) / 2] });
    switch (`${from.split(' ')[0]} ${to.split(' ')[0]}`) {
      case 'asks frames': return { points: [[a.r - 90, a.b], [a.r - 90, z.y - 12], [z.x + 60, z.y - 12], [z.x + 60, z.y]], at: [a.r, z.y - 12] };
      case 'asks registers': return down(a.x + 120);
      case 'frames ready': return up(a.x + 260);
      case 'ready asks': return { points: [[a.x, a.y + 14], [z.r, a.y + 14]], at: [a.x + 8, a.b + 11] };
      case 'registers banks': return down(a.x + 140);
      case 'registers ready': return { points: [[a.r, a.y + 30], [a.r + 13, a.y + 30], [a.r + 13, z.b + 6], [z.x + 20, z.b + 6], [z.x + 20, z.b]], at: [z.x + 70, z.b + 11] };
      case 'frames queue': return down(z.x + z.w / 2);
      case 'stack frames': return up(a.x + a.w / 2);
      case 'banks stack': case 'bank stack': return this.rise(a, z);
      case 'queue banks': return down(a.x + a.w / 2);
      case 'commands answers': return { points: [[a.x + a.w - 6, a.y + 8], [z.x + 4, z.y + 8]], at: null };
      default: return { points: [[a.x + 20, a.y], [z.x + 6, z.b - 2]], at: null };
    }
  }

  // From a bank to the stack, which needn't stand above it.
  rise(a, z) {
    const to = z.x + z.w / 2;
    const from = a.w > z.w * 2 ? to : a.x + a.w / 2;
    const middle = (a.y + z.b) / 2;
    return { points: [[from, a.y], [from, middle], [to, middle], [to, z.b]], at: [to, middle] };
  }

  // A way with its head.
  way(from, to, moved) {
    const { points, at } = this.corners(from, to);
    const [[x0, y0], [x1, y1]] = points.slice(-2);
    const length = Math.hypot(x1 - x0, y1 - y0) || 1;
    const [ux, uy] = [(x1 - x0) / length, (y1 - y0) / length];
    const size = moved ? 9 : 6;
    const head = [[-uy, ux], [uy, -ux]].map(([px, py]) => [x1 - size * ux + size * 0.7 * px, y1 - size * uy + size * 0.7 * py]);
    const line = points.map(([x, y]) => `${x},${y}`).join(' L');
    this.make('path', { d: `M${line} M${head[0].join(',')} L${x1},${y1} L${head[1].join(',')}`, class: moved ? 'moved' : '' });
    return at;
  }

  label(text, [x, y]) {
    const rect = this.make('rect', { rx: 3, height: 18 });
    const words = this.make('text', { x: x + 10, y: y + 5 }, text);
    const width = words.getComputedTextLength() + 8;
    const most = this.svg.getBoundingClientRect().width - width - 2;
    const left = Math.max(0, Math.min(most, x + 6));
    words.setAttribute('x', left + 4);
    for (const [name, value] of Object.entries({ x: left, y: y - 9, width })) rect.setAttribute(name, value);
  }

  draw(moves) {
    this.svg.textContent = '';
    if (getComputedStyle(this.svg).display === 'none') return;
    for (const [from, to] of WAYS) this.way(from, to, false);
    const labels = moves.map(([from, to, text]) => [text, this.way(from, to, true)]);
    for (const [text, at] of labels) if (text && at) this.label(text, at);
  }
}
