'use strict';

// The line of time: a column an event; a row for each load, and rows for registers, banks, stack and queue.
// Only the columns in sight are drawn.
const LABELS = 92;
const LEGEND = 17;
// The widest that a column gets.
const WIDEST = 240;
// Behind the last column, for names.
const MARGIN = 130;
const FONT = '14px Arial, "Liberation Sans", sans-serif';

const CAUSES = [
  ['command', 'its bank', '--bank'],
  ['answer', 'arrival', '--arrival'],
  ['stack', 'processing', '--stack'],
  ['ready', 'being taken', '--ready'],
  ['refused 3', 'its tag', '--refused', '-'],
  ['refused 4', 'a place for its reply', '--refused', '-|'],
  ['refused 5', 'a place at the word', '--refused', '\\'],
  ['refused 7', 'a register', '--refused', '/'],
  ['refused 8', 'a way', '--refused', '/\\'],
  ['refused 9', 'the write queue', '--refused', '|'],
  ['refused 10', 'room at a bank', '--refused', '|/'],
];

class Line {
  constructor(canvas, run, story) {
    this.canvas = canvas;
    this.pen = canvas.getContext('2d');
    this.run = run;
    this.story = story;
    this.first = 0;
    this.column = 0;
    this.resize();
  }

  // The heights of the groups of rows. Many rows share the height of few.
  layOut() {
    const { loads, rows } = this.story;
    this.loadHeight = rows > 6 ? 14 : 16;
    this.registerHeight = Math.min(7, 40 / sizes.registers);
    this.bankHeight = Math.min(6, 36 / sizes.banks);
    const groups = [
      ['loads', loads.all.length === 0 ? 0 : Math.min(rows, MOST_ROWS) * this.loadHeight],
      ['registers', sizes.registers * this.registerHeight],
      ['banks', sizes.banks * this.bankHeight],
      ['stack', 14],
      ['queue', 14],
    ];
    this.top = {};
    this.legend = this.layOutLegend();
    let y = LEGEND * (1 + this.legend.at(-1).row);
    for (const [name, height] of groups) {
      this.top[name] = y;
      y += Math.max(height, name === 'loads' && height === 0 ? 0 : 14) + 2;
    }
    return y;
  }

  // What the legend says, in as many rows as it needs: each cause that there is, and what a value looks like.
  layOutLegend() {
    this.pen.font = FONT;
    const named = [...CAUSES.filter(([cause]) => this.story.loads.causes.has(cause)), ['', 'has its value', '--value']];
    let x = LABELS;
    let row = 0;
    return named.map(([, name, colour, hatching]) => {
      const width = this.pen.measureText(name).width + 34;
      if (x > LABELS && x + width > this.width) [x, row] = [LABELS, row + 1];
      x += width;
      return { name, colour, hatching, row, x: x - width, end: x };
    });
  }

  resize() {
    const width = this.canvas.clientWidth;
    this.width = width;
    const height = this.layOut();
    const scale = window.devicePixelRatio || 1;
    this.height = height;
    this.canvas.style.height = `${height}px`;
    document.documentElement.style.setProperty('--line-of-time', `${height}px`);
    this.canvas.width = Math.round(width * scale);
    this.canvas.height = Math.round(height * scale);
    this.pen.setTransform(scale, 0, 0, scale, 0, 0);
    const style = getComputedStyle(document.documentElement);
    const colours = new Map();
    this.colour = (name) => {
      if (!colours.has(name)) colours.set(name, style.getPropertyValue(name).trim());
      return colours.get(name);
    };
    if (this.column === 0) this.column = Math.max(9, Math.min(64, (width - LABELS - MARGIN) / (this.run.last + 1)));
    this.draw();
  }

  zoom(by) {
    this.column = Math.max(2, Math.min(WIDEST, this.column * by));
    this.draw();
  }

  x(step) { return LABELS + (step - this.first) * this.column; }

  columns() { return (this.width - LABELS) / this.column; }

  // The first column in sight, if the last one is.
  most() { return Math.max(0, this.run.last + 1 + MARGIN / this.column - this.columns()); }

  // The step of a point of the canvas.
  stepAt(x) { return Math.max(0, Math.min(this.run.last, Math.floor(this.first + (x - LABELS) / this.column))); }

  // The cursor stays in sight, with room on both sides where the run goes on.
  follow() {
    const room = Math.min(8, Math.floor(this.columns() / 3));
    const { now } = this.run;
    if (now - room < this.first) this.first = now - room;
    if (now + 1 + room > this.first + this.columns()) this.first = now + 1 + room - this.columns();
    this.first = Math.max(0, Math.min(this.most(), this.first));
  }

  // Moves what is in sight, without the cursor.
  pan(columns) {
    this.first = Math.max(0, Math.min(this.most(), this.first + columns));
    this.paint();
  }

  draw() {
    this.follow();
    this.paint();
  }

  paint() {
    const { pen } = this;
    pen.clearRect(0, 0, this.width, this.height);
    pen.font = FONT;
    pen.textBaseline = 'middle';
    this.paintNames();
    this.chooseRows();
    pen.save();
    pen.beginPath();
    pen.rect(LABELS, 0, this.width - LABELS, this.height);
    pen.clip();
    this.paintCursor(true);
    this.paintLoads();
    this.paintRegisters();
    this.paintLevels();
    this.paintCursor(false);
    this.paintLoadNames();
    pen.restore();
    this.paintLegend();
    this.canvas.setAttribute('aria-label', this.spoken());
  }

  text(words, x, y, colour = '--text') {
    this.pen.fillStyle = this.colour(colour);
    this.pen.fillText(words, x, y);
  }

  bar(from, to, y, height, colour) {
    const x = Math.round(this.x(from));
    this.pen.fillStyle = this.colour(colour);
    this.pen.fillRect(x, y, Math.max(1, Math.round(this.x(to + 1)) - x), height);
  }

  inSight(from, to) { return to >= this.first - 1 && from <= this.first + this.columns(); }

  paintNames() {
    const { top } = this;
    const names = [['loads', 'loads'], ['registers', 'registers'], ['banks', 'banks'], ['stack', 'stack'], ['queue', 'queue']];
    for (const [group, name] of names) {
      if (group !== 'loads' || this.story.loads.all.length > 0) this.text(name, 6, top[group] + 8, '--soft');
    }
  }

  paintCursor(behind) {
    const { pen } = this;
    const x = this.x(this.run.now);
    if (behind) {
      pen.fillStyle = this.colour('--mark');
      pen.fillRect(x, this.top.loads - 2, this.column, this.height);
    } else {
      pen.fillStyle = this.colour('--edge');
      pen.fillRect(Math.round(x + this.column / 2) - 1, this.top.loads - 2, 2, this.height);
    }
  }

  // The loads in sight, with the rows in which they are drawn: if there are too many, those nearest to the cursor.
  chooseRows() {
    const { now } = this.run;
    const away = (load) => Math.max(0, load.asked - now, now - load.end);
    const nearest = new Map();
    // (a name may stand behind its bar)
    this.inRows = this.story.loads.all.filter((load) => this.inSight(load.asked, load.end + 12));
    for (const load of this.inRows) nearest.set(load.row, Math.min(away(load), nearest.get(load.row) ?? Infinity));
    const chosen = [...nearest].sort((a, b) => a[1] - b[1] || a[0] - b[0]).slice(0, MOST_ROWS).map(([row]) => row);
    const sorted = this.story.rows > MOST_ROWS ? chosen.sort((a, b) => a - b) : range(MOST_ROWS);
    this.rowNumber = new Map(sorted.map((row, n) => [row, n]));
    this.inRows = this.inRows.filter((load) => this.rowNumber.has(load.row));
    this.folded = nearest.size > MOST_ROWS ? nearest.size - MOST_ROWS : 0;
  }

  paintLoads() { for (const load of this.inRows) this.paintLoad(load); }

  paintLoadNames() {
    // what stands in each row: bars, and then names
    this.filled = new Map(this.inRows.map((load) => [load.row, []]));
    for (const load of this.inRows) this.fill(load, this.x(load.asked), this.x(load.end + 1));
    for (const load of this.inRows) this.paintName(load);
  }

  fill(load, from, to) { this.filled.get(load.row).push([from, to]); }

  // Whether nothing stands there in the load's row.
  isFree(load, from, to) {
    return from >= LABELS && to <= this.width && this.filled.get(load.row).every(([a, z]) => to <= a || z <= from);
  }

  rowOf(load) { return this.top.loads + this.rowNumber.get(load.row) * this.loadHeight; }

  paintLoad(load) {
    const y = this.rowOf(load);
    const height = this.loadHeight - 2;
    for (const { from, to, cause } of load.parts) {
      const row = CAUSES.find(([name]) => name === cause);
      this.bar(from, to, y, height, row ? row[2] : '--refused');
      if (row && row[3]) this.hatch(row[3], Math.max(this.x(from), LABELS), Math.min(this.x(to + 1), this.width), y, height);
    }
    if (load.taken) this.bar(load.end, load.end, y, height, '--value');
  }

  // Lines of one or two directions, so that a refusal is told from a wait, and from one of another cause, without colours.
  hatch(directions, left, right, y, height) {
    const { pen } = this;
    pen.save();
    pen.beginPath();
    pen.rect(left, y, Math.max(0, right - left), height);
    pen.clip();
    pen.strokeStyle = this.colour('--back');
    pen.beginPath();
    for (const direction of directions) {
      const lean = { '/': height, '\\': -height }[direction] ?? 0;
      if (direction === '-') pen.rect(left - 1, y + height / 3, right - left + 2, height / 3);
      else for (let x = left - height; x < right + height; x += 6) this.stroke(x, y + height, x + lean, y);
    }
    pen.stroke();
    pen.restore();
  }

  stroke(x0, y0, x1, y1) {
    this.pen.moveTo(x0, y0);
    this.pen.lineTo(x1, y1);
  }

  // The load's name, and whom it overtook: in its bar, or beside one that is too short.
  paintName(load) {
    const name = `t${load.tag}: word ${load.at}`;
    const over = load.overtakes.length > 0 ? `overtakes ${load.overtakes.map((tag) => `t${tag}`).join(', ')}` : '';
    const from = Math.max(this.x(load.asked), LABELS) + 3;
    const end = this.x(load.end + 1);
    const y = this.rowOf(load) + this.loadHeight / 2;
    const width = (words) => this.pen.measureText(words).width + 8;
    if (load.accepted !== load.asked && from + width(name) < end) {
      this.pen.fillStyle = this.colour('--refused');
      this.pen.fillRect(from - 3, this.rowOf(load), width(name), this.loadHeight - 2);
    }
    const put = (x, words, colour) => {
      this.text(words, x, y, colour);
      this.fill(load, x, x + width(words));
    };
    if (from + width(name) + width(over) < end) {
      this.text(name, from, y, '--on-bar');
      this.text(over, end - width(over) + 3, y, '--on-bar');
    } else if (from + width(name) < end) {
      this.text(name, from, y, '--on-bar');
      if (over && this.isFree(load, end + 4, end + width(over))) put(end + 4, over, '--over');
    } else {
      const place = (needed) => [end + 4, this.x(load.asked) - needed].find((it) => this.isFree(load, it, it + needed - 4));
      const whole = place(width(name) + (over ? width(over) : 0));
      const x = whole ?? place(width(name));
      if (x === undefined) return;
      put(x, name);
      if (over && whole !== undefined) put(x + width(name), over, '--over');
    }
  }

  // The steps in sight.
  seen() {
    const from = Math.max(0, Math.floor(this.first));
    const to = Math.min(this.run.last, Math.ceil(this.first + this.columns()));
    return { from, to };
  }

  paintRegisters() {
    const { from, to } = this.seen();
    this.story.blocks.forEach((texts, slot) => {
      const y = this.top.registers + slot * this.registerHeight;
      this.bar(from, to, y + this.registerHeight - 2, 1, '--line');
      for (let step = from; step <= to; step += 1) {
        if (texts[step] === '' || texts[step] === 'free') continue;
        this.bar(step, step, y, this.registerHeight - 2, texts[step].startsWith('obsolete') ? '--obsolete' : '--register');
      }
    });
  }

  // How much stands in the banks, the stack and the queue: the fuller, the higher.
  paintLevels() {
    const { from, to } = this.seen();
    this.story.banks.forEach((counts, bank) => {
      const most = Math.min(8, sizes.registers * sizes.blockWords);
      this.level(counts, most, this.top.banks + bank * this.bankHeight, this.bankHeight - 1, '--bank', from, to);
    });
    this.level(this.story.stack, sizes.stack, this.top.stack, 12, '--stack', from, to);
    this.level(this.story.queue, sizes.queue, this.top.queue, 12, '--queue', from, to);
  }

  level(counts, most, y, height, colour, from, to) {
    this.bar(from, to, y + height - 1, 1, '--line');
    for (let step = from; step <= to; step += 1) {
      const high = Math.max(2, Math.min(1, counts[step] / most) * (height - 1));
      if (counts[step] > 0) this.bar(step, step, y + height - high, high, colour);
    }
  }

  paintLegend() {
    this.text('waits for', 6, 9, '--soft');
    for (const { name, colour, hatching, row, x } of this.legend) {
      this.pen.fillStyle = this.colour(colour);
      this.pen.fillRect(x, 4 + row * LEGEND, 14, 11);
      if (hatching) this.hatch(hatching, x, x + 14, 4 + row * LEGEND, 11);
      this.text(name, x + 18, 9 + row * LEGEND, '--soft');
    }
    const { end, row } = this.legend.at(-1);
    const words = `${this.folded} more rows of loads are folded`;
    if (this.folded > 0 && end + this.pen.measureText(words).width < this.width) this.text(words, end, 9 + row * LEGEND, '--soft');
  }

  // What the line shows at the cursor, in words.
  spoken() {
    const { now, last } = this.run;
    const waiting = this.story.loads.all.filter((load) => load.asked <= now && now <= load.end && !(load.taken && load.end === now));
    const told = waiting.map((load) => {
      const part = load.parts.find((it) => it.from <= now && now <= it.to);
      const row = part && CAUSES.find(([cause]) => cause === part.cause);
      return `the load with tag ${load.tag} of word ${load.at}, asked in step ${load.asked}, waits for ${row ? row[1] : 'its end'}`;
    });
    return `line of time, step ${now} of ${last}: ${told.length ? told.join('; ') : 'no load waits'}`;
  }
}
