'use strict';

// The run: which text stands at each place behind a step, forwards and backwards.
// A step is [event, answer, words, recorded, changes]: the recorded answer if it isn't the machine's, and '' if not; a change is
// [place, text].
class Run {
  constructor(all) {
    this.steps = all;
    this.last = all.length - 1;
    this.texts = places.map(() => '');
    this.now = -1;
    // What stood, before each step, at the places that it changed.
    this.stood = [];
    this.forward();
  }

  forward() {
    this.now += 1;
    const changes = this.steps[this.now][4];
    this.stood[this.now] = changes.map(([k]) => [k, this.texts[k]]);
    for (const [k, text] of changes) this.texts[k] = text;
  }

  backward() {
    for (const [k, text] of this.stood[this.now]) this.texts[k] = text;
    this.now -= 1;
  }

  go(to) {
    const step = Math.max(0, Math.min(this.last, to));
    while (this.now < step) this.forward();
    while (this.now > step) this.backward();
  }

  text(name) {
    const k = placeNumber.get(name);
    return k === undefined ? '' : this.texts[k];
  }

  // The text before the step at hand.
  before(name) {
    const k = placeNumber.get(name);
    const change = this.now > 0 && this.stood[this.now].find(([place]) => place === k);
    return change ? change[1] : this.text(name);
  }

  // The places that the step at hand changed, which the first picture hasn't.
  changed() {
    return this.now > 0 ? this.steps[this.now][4].map(([k]) => k) : [];
  }

  // The address of the word that an entry is for.
  addressFor(text) {
    const [slot, word] = ownerOf(text) || [0, 0];
    return addressIn(blockOf(this.text(`r${slot}`)) ?? blockOf(this.before(`r${slot}`)) ?? 0, word);
  }
}

// ---- what the line of time draws

// The most loads that are drawn below one another.
const MOST_ROWS = 8;

// The lives of all loads: asked, accepted, value; with what each waited for at each step in between.
class Loads {
  constructor() {
    this.all = [];
    // loads that were refused and may be asked again, by tag and address
    this.asked = new Map();
    // loads that were accepted, by tag
    this.owed = new Map();
    this.causes = new Set();
  }

  begin(step, tag, at) {
    const load = { tag, at, asked: step, accepted: null, end: step, taken: false, overtakes: [], parts: [] };
    this.all.push(load);
    return load;
  }

  ask(step, tag, at, answer) {
    const key = `${tag} ${at}`;
    const load = this.asked.get(key) || this.begin(step, tag, at);
    this.asked.delete(key);
    const last = load.parts[load.parts.length - 1];
    if (last) last.to = step - 1;
    if (answer === 'accepted') {
      // (whoever asked under this tag before has given up)
      for (const [other, it] of this.asked) if (it.tag === tag) this.asked.delete(other);
      load.accepted = step;
      this.owed.set(tag, load);
    } else {
      load.parts.push({ from: step, to: step, cause: answer });
      this.causes.add(answer);
      load.end = step;
      this.asked.set(key, load);
    }
  }

  wait(step, tag, cause) {
    const load = this.owed.get(tag);
    if (!load) return;
    const last = load.parts[load.parts.length - 1];
    if (last && last.cause === cause && last.to === step - 1) last.to = step;
    else load.parts.push({ from: step, to: step, cause });
    this.causes.add(cause);
    load.end = step;
    if (cause === 'ready' && load.overtakes.length === 0 && (!last || last.cause !== 'ready')) this.overtake(load);
  }

  // The loads that were accepted earlier and still wait for a word.
  overtake(load) {
    const early = [...this.owed.values()].filter((it) => it.accepted < load.accepted);
    load.overtakes = early.filter((it) => it.parts[it.parts.length - 1].cause !== 'ready').map((it) => it.tag);
  }

  take(step, tag) {
    const load = this.owed.get(tag);
    if (!load) return;
    this.owed.delete(tag);
    load.taken = true;
    load.end = step;
  }
}

// All that the line of time draws, found in one walk over the run.
class Story {
  constructor(run) {
    const steps = run.last + 1;
    this.loads = new Loads();
    this.blocks = range(sizes.registers).map(() => new Array(steps).fill(''));
    this.banks = range(sizes.banks).map(() => new Uint16Array(steps));
    this.stack = new Uint16Array(steps);
    this.queue = new Uint16Array(steps);
    // how many entries stand in each of them, and where each word that is on its way is
    this.counts = { s: 0, q: 0, banks: range(sizes.banks).map(() => 0) };
    this.whereabouts = new Map();
    this.waiting = new Map();
    run.go(0);
    this.note(run, 0);
    while (run.now < run.last) {
      run.forward();
      this.note(run, run.now);
    }
    this.giveRows();
    run.go(0);
  }

  note(run, step) {
    const touched = new Set();
    run.steps[step][4].forEach(([k, text], n) => this.noteChange(k, run.stood[step][n][1], text, touched));
    for (const bank of touched) this.noteBank(run, bank);
    for (const slot of range(sizes.registers)) this.blocks[slot][step] = run.text(`r${slot}`);
    this.stack[step] = this.counts.s;
    this.queue[step] = this.counts.q;
    this.counts.banks.forEach((count, bank) => { this.banks[bank][step] = count; });
    this.noteLoads(run, step);
  }

  noteChange(k, before, after, touched) {
    const letter = lettersOf[k];
    const more = (after !== '' ? 1 : 0) - (before !== '' ? 1 : 0);
    if (letter === 's' || letter === 'q') this.counts[letter] += more;
    if (letter === 'm' || letter === 'a') {
      this.counts.banks[numbersOf[k][0]] += more;
      touched.add(numbersOf[k][0]);
    }
    if (letter === 'l') this.noteWaiting(k, before, after);
  }

  // The tag of a waiting load, and its place.
  noteWaiting(k, before, after) {
    const tagOf = (text) => Number(/^tag (\d+)/.exec(text)[1]);
    if (before !== '' && this.waiting.get(tagOf(before)) === k) this.waiting.delete(tagOf(before));
    if (after !== '') this.waiting.set(tagOf(after), k);
  }

  // Which words a bank is asked for, and which it has answered.
  noteBank(run, bank) {
    for (const [key, it] of this.whereabouts) if (it.bank === bank) this.whereabouts.delete(key);
    for (const [letter, cause] of [['m', 'command'], ['a', 'answer']]) {
      for (let place = 0; run.text(`${letter}${bank}.${place}`) !== ''; place += 1) {
        const owner = ownerOf(run.text(`${letter}${bank}.${place}`));
        if (owner) this.whereabouts.set(owner.join('.'), { bank, cause });
      }
    }
  }

  noteLoads(run, step) {
    const [event, answer] = run.steps[step];
    const asked = /^load (\d+) (\d+)$/.exec(event);
    const value = /^value (\d+) /.exec(answer);
    if (asked) this.loads.ask(step, Number(asked[1]), Number(asked[2]), answer);
    if (value) this.loads.take(step, Number(value[1]));
    for (const [tag] of this.loads.owed) this.loads.wait(step, tag, this.causeOf(run, tag));
  }

  causeOf(run, tag) {
    if (!this.waiting.has(tag)) return 'ready';
    const [slot, word] = numbersOf[this.waiting.get(tag)];
    if (run.text(`w${slot}.${word}`).startsWith('in stack')) return 'stack';
    const found = this.whereabouts.get(`${slot}.${word}`);
    return found ? found.cause : 'command';
  }

  // A row for each load: its own, or one that is free again if there are more loads than rows.
  giveRows() {
    const most = Math.max(3, Math.min(MOST_ROWS, this.loads.all.length));
    const before = [];
    this.loads.all.forEach((load, n) => {
      let row = n < most ? n : before.findIndex(({ end }) => end < load.asked - 1);
      if (row < 0) row = before.length;
      before[row] = load;
      load.row = row;
    });
    this.rows = Math.max(most, before.length);
  }
}
