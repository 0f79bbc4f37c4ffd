'use strict';
window.onerror = (told) => { document.body.dataset.fault = String(told); };

// ---- a trace, a machine and a view in an address

// Behind '#': the trace, with ~ for the end of a line and _ for a space; then each number that isn't the default, and what is
// looked at: `tab`, `latency`, `busy`, and the `line` of the cursor.
function fragmentOf(trace, machine, view) {
  const text = encodeURIComponent(trace).replace(/[~_]/g, (it) => (it === '~' ? '%7E' : '%5F')).replace(/%0A/g, '~').replace(/%20/g, '_');
  const more = Object.entries({ ...machine, ...view }).map(([key, value]) => `&${key}=${value}`);
  return `#trace=${text}${more.join('')}`;
}
function readFragment(fragment) {
  const found = { trace: null, machine: {}, view: {} };
  for (const part of fragment.replace(/^#/, '').split('&')) {
    const [key, value] = part.split('=');
    const isNumber = /^\d{1,10}$/.test(value ?? '');
    if (key === 'trace' && value !== undefined) found.trace = decoded(value);
    else if (key === 'tab') found.view.tab = value;
    else if (isNumber && ['latency', 'busy', 'line'].includes(key)) found.view[key] = Number(value);
    else if (isNumber && isKey(key)) found.machine[keyOf(key)] = Number(value);
  }
  return found;
}
function decoded(text) {
  try {
    return decodeURIComponent(text.replace(/~/g, '%0A').replace(/_/g, '%20'));
  } catch {
    return '';
  }
}

// What a person copied that holds a link: what stands in it behind '#'.
const linkIn = (text) => /^\S*(#trace=\S*)$/.exec(text.trim())?.[1];

// The numbers of a machine: default, what it may be, what it is.
const KEYS = [
  ['block_words', 4, '1 to 16', 'words of a block'],
  ['ways', 2, '1 to 16', 'frames of a set'],
  ['registers', 4, '1 to 64', 'miss registers (MSHRs)'],
  ['stack', 4, '1 to 64', 'words in the input stack'],
  ['words', 64, '1 to 1048576, a multiple of block_words', 'words of memory'],
  ['sets', 4, '1 to 1024', 'sets of the cache'],
  ['banks', 4, '1 to 16', 'banks of memory'],
  ['bank_queue', 8, 'block_words divided by banks, rounded up, to 64', 'commands that wait in a bank'],
  ['write_queue', 8, 'block_words to 256', 'words that wait to be written back'],
  ['replies', 8, '1 to 64', 'outstanding loads'],
];
// (a shape file has another name for one of them)
const keyOf = (name) => (name === 'regs' ? 'registers' : name);
const isKey = (name) => KEYS.some(([key]) => key === keyOf(name));
const machineIn = (toml) => Object.fromEntries([...toml.matchAll(/^(\w+) = (\d+)$/gm)].map(([, key, number]) => [keyOf(key), Number(number)]));

// ---- the lines of a trace

// A line, an example, and what it does.
const LINES = [
  ['load TAG AT', 'load 1 4', 'loads the word at AT under a request\'s id'],
  ['store AT MASK WORD', 'store 4 1100 aabb0000', 'stores the bytes that the mask names'],
  ['prefetch AT', 'prefetch 8', 'brings a word\'s block in'],
  ['evict BLOCK', 'evict 1', 'frees the block\'s frame; its dirty words enter the write queue'],
  ['drain', 'drain', 'sends the front of the write queue to its bank'],
  ['serve BANK', 'serve 0', 'lets a bank serve its first command'],
  ['arrive BANK PLACE', 'arrive 0 0', 'moves the bank\'s answer at this place into the input stack'],
  ['process PLACE', 'process 0', 'fills the frame with the word at this place of the stack, and answers the loads that wait for it'],
  ['take PLACE', 'take 0', 'takes the ready value at this place'],
  ['reg SLOT', 'reg 0', 'shows a miss register'],
  ['bank AT', 'bank 4', 'shows a word as its bank has it'],
  ['settled', 'settled', 'shows whether nothing is dirty or in flight'],
];
const NUMBER = 'a whole number, 0 to 4294967295, with no zero in front';
const FIELDS = {
  TAG: 'a request\'s id: a whole number, 0 to 65535, with no zero in front',
  AT: `a word of memory: ${NUMBER}`,
  MASK: 'four digits 0 or 1, byte 0 of the word first',
  WORD: 'eight digits 0 to 9 or a to f, byte 0 first',
  BLOCK: `a block of memory: ${NUMBER}`,
  BANK: `a bank: ${NUMBER}`,
  PLACE: `a place, from 0: ${NUMBER}`,
  SLOT: `a register: ${NUMBER}`,
};
const ANSWERS = 'accepted, moved, nothing, refused N (1 to 13) or value TAG WORD; in a sheet also ?, accepted hit, accepted join or accepted miss';

function isField(name, text) {
  if (name === 'MASK') return /^[01]{4}$/.test(text);
  if (name === 'WORD') return /^[0-9a-f]{8}$/.test(text);
  return /^(0|[1-9]\d{0,9})$/.test(text) && Number(text) < (name === 'TAG' ? 2 ** 16 : 2 ** 32);
}

// What is wrong with a line that can't be read: its field, and what it may be.
function wrongWith(line) {
  const [name, ...given] = line.split(' -> ', 1)[0].split(' ');
  const row = LINES.find(([it]) => it.split(' ')[0] === name);
  if (!row) return `a line begins with ${LINES.map(([it]) => it.split(' ')[0]).join(', ')}`;
  const [, ...fields] = row[0].split(' ');
  const at = fields.findIndex((field, k) => !isField(field, given[k] ?? ''));
  if (at >= 0) return `${row[0]}: ${fields[at]} is ${given[at] ? FIELDS[fields[at]] : 'missing'}`;
  if (given.length > fields.length) return `${row[0]}: ${given[fields.length] ? `'${given[fields.length]}'` : 'a space'} is too much`;
  return `an answer is ${ANSWERS}`;
}

// What the page adds to a fault that the program or the server told of this text.
function addedTo(told, text) {
  const line = /^line (\d+): (unknown command|bad field)/.exec(told);
  if (line) return wrongWith(linesOf(text)[line[1] - 1]);
  const number = KEYS.find(([key]) => told.startsWith(`${key} is no whole number`));
  return number ? `${number[0]}: ${number[2]}` : '';
}

// ---- a trace as the program reads it

const withEnd = (text) => (text === '' || text.endsWith('\n') ? text : `${text}\n`);
const linesOf = (text) => withEnd(text).split('\n').slice(0, -1);

// The answers of `run`, one a line.
const answersOf = (said) => linesOf(said).map((line) => line.slice(line.indexOf(' -> ') + 4));

// The line that a fault or a mismatch names, and what is said of it.
function faultOf(answer) {
  const fault = /^line (\d+): (.*)/.exec(answer.told);
  if (fault) return { line: Number(fault[1]), text: fault[2] };
  const mismatch = /^mismatch at line (\d+)/.exec(answer.said);
  // (beside a line that has its answer there is little room)
  return mismatch ? { line: Number(mismatch[1]), text: 'not flat', told: 'flat memory never answers so', isRead: true } : null;
}

// ---- lines that are written by a button

const isIdle = (answer) => answer === 'nothing' || answer.startsWith('refused');

// A round of moves: all that may come from the banks, and, if all is to end, what is taken and written back too.
function roundOf(banks, isWhole) {
  const lines = [];
  for (let bank = 0; bank < banks; bank += 1) lines.push(`serve ${bank}`, `arrive ${bank} 0`, 'process 0');
  return isWhole ? [...lines, 'take 0', 'drain'] : lines;
}

// The answers of these lines behind a trace.
async function answersBehind(ask, trace, lines) {
  const answer = await ask('run', trace + lines.map((it) => `${it}\n`).join(''));
  return answersOf(answer.said).slice(linesOf(trace).length);
}

// Tries lines behind a trace by the program, and gives those that did something, up to the first one behind which `isEnd`
// holds of the registers; and whether anything moved in the last round. An event that moves nothing changes nothing, so
// the lines that are left are answered as they were.
async function triedLines(ask, trace, lines, registers, isEnd) {
  const shows = registers.map((slot) => `reg ${slot}`);
  const said = await answersBehind(ask, trace, lines.flatMap((it) => [it, ...shows]));
  const found = [];
  for (let k = 0; k < lines.length; k += 1) {
    const at = k * (1 + shows.length);
    if (said[at] === undefined) break;
    if (!isIdle(said[at])) found.push(lines[k]);
    if (isEnd(said.slice(at + 1, at + 1 + shows.length))) return { found, ended: true };
  }
  return { found, ended: false };
}

const ROUNDS = 8;

// Adds rounds until nothing moves any more, or `isEnd` holds.
async function movedOn(ask, trace, banks, isWhole, registers, isEnd) {
  let text = trace;
  for (let turn = 0; turn < 100; turn += 1) {
    const rounds = Array.from({ length: ROUNDS }, () => roundOf(banks, isWhole)).flat();
    const { found, ended } = await triedLines(ask, text, rounds, registers, isEnd);
    text += found.map((it) => `${it}\n`).join('');
    if (ended || found.length === 0) return text;
  }
  return text;
}

// Until nothing is on its way, and memory has all that was stored: blocks with stored bytes are given up.
async function settled(ask, trace, { banks, block_words: blockWords }) {
  const isDone = async (text) => (await answersBehind(ask, text, ['settled']))[0] === 'yes';
  let text = await movedOn(ask, trace, banks, true, [], () => false);
  const stored = new Set([...trace.matchAll(/^store (\d+) /gm)].map(([, at]) => Math.floor(Number(at) / blockWords)));
  for (const block of stored) {
    if (await isDone(text)) break;
    // (the write queue is empty: what is drained is the block's)
    const [, drained] = await answersBehind(ask, text, [`evict ${block}`, 'drain']);
    if (drained === 'moved') text = await movedOn(ask, `${text}evict ${block}\n`, banks, true, [], () => false);
  }
  return text;
}

// How many blocks' first words a line may name: such a number is below 2^32.
const blocksOf = (machine) => Math.ceil(2 ** 32 / machine.block_words);

// Until no register waits for words of the block.
async function broughtIn(ask, trace, block, { banks, registers: count, block_words: blockWords }) {
  const registers = Array.from({ length: count }, (_, slot) => slot);
  const isWaiting = (shown) => shown.startsWith('V- ') && Number(shown.split(' ')[1]) === block;
  const asked = `${trace}prefetch ${blockWords * block}\n`;
  const said = await answersBehind(ask, trace, [`prefetch ${blockWords * block}`, ...registers.map((slot) => `reg ${slot}`)]);
  if (said[0] !== 'accepted' || !said.slice(1).some(isWaiting)) return asked;
  return movedOn(ask, asked, banks, false, registers, (shown) => !shown.some(isWaiting));
}
