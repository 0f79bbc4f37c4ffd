'use strict';
window.onerror = (told) => { document.body.dataset.fault = String(told); };

// ---- the places of a picture: a letter, and numbers with points between them

const placeNumber = new Map(places.map((name, k) => [name, k]));
const lettersOf = places.map((name) => name[0]);
const numbersOf = places.map((name) => name.slice(1).split('.').map(Number));
const countOf = (letter) => numbersOf.reduce((most, of, k) => (lettersOf[k] === letter ? Math.max(most, of[0] + 1) : most), 0);
const range = (n) => Array.from({ length: n }, (_, k) => k);

// The machine's numbers.
const sizes = {
  blockWords,
  ways,
  frames: countOf('f'),
  sets: countOf('f') / ways,
  registers: countOf('r'),
  stack: countOf('s'),
  queue: countOf('q'),
  banks: countOf('m'),
  ready: countOf('v'),
  memory: countOf('b'),
};

// ---- addresses

// An address, cut: its block, the set in which the block may be, the word's number in the block, and its bank.
function cut(at) {
  const block = Math.floor(at / sizes.blockWords);
  return { at, block, set: block % sizes.sets, word: at % sizes.blockWords, bank: at % sizes.banks };
}
const addressIn = (block, word) => block * sizes.blockWords + word;
const addressAt = (bank, place) => place * sizes.banks + bank;

// ---- the program's texts, in parts

// The bytes of a word that a mask names, and for each other one __, or .. where it is still to come.
const masked = (mask, word, other = '__') => range(4).map((k) => (mask[k] === '1' ? word.slice(2 * k, 2 * k + 2) : other)).join('');

// A register's block, or null.
function blockOf(text) {
  const found = /^(?:valid|obsolete), block (\d+)/.exec(text);
  return found ? Number(found[1]) : null;
}
function registerName(text) {
  const found = /^(valid|obsolete), block (\d+)(?:, frame (\d+))?, words came: (\d+)$/.exec(text);
  if (!found) return text;
  const [, state, block, frame, came] = found;
  const who = state === 'valid' ? `block ${block} in f${frame}` : `obsolete: block ${block}`;
  return `${who}, ${came} of ${sizes.blockWords} came`;
}
function fieldName(text, at) {
  return text === '' ? '' : `${at} ${text}`;
}
// A load, with the bytes that it has; and what it will get, if that is wanted.
function loadName(text, isWhole) {
  const found = /^tag (\d+)(?: is owed (\w{8})(?:, holds (\d{4}) (\w{8}))?)?$/.exec(text);
  if (!found) return text;
  const [, tag, owed, mask, held] = found;
  if (!owed) return `t${tag}`;
  return `t${tag}: ${masked(mask ?? '0000', held ?? owed, '..')}${isWhole ? ` will be ${owed}` : ''}`;
}
function entryName(text, at) {
  const found = /^register (\d+), word \d+: (\w{8})$/.exec(text);
  return found ? `word ${at}, r${found[1]}: ${found[2]}` : text;
}
function queuedName(text) {
  const found = /^word (\d+), block \d+: (\d{4}) (\w{8})$/.exec(text);
  return found ? `word ${found[1]}: ${masked(found[2], found[3])}` : text;
}
function commandName(text, bank) {
  const read = /^read place (\d+): register (\d+), word \d+$/.exec(text);
  if (read) return `read word ${addressAt(bank, Number(read[1]))}, r${read[2]}`;
  const write = /^write place (\d+): (\d{4}) (\w{8})$/.exec(text);
  return write ? `write word ${addressAt(bank, Number(write[1]))}: ${masked(write[2], write[3])}` : text;
}
function replyName(text) {
  return text.replace(/^tag (\d+)/, 't$1');
}
// The word that a request is for, or null.
function askedWord(event) {
  const found = /^(?:load \d+|store|prefetch) (\d+)/.exec(event);
  return found ? Number(found[1]) : null;
}
// An event, without its address.
function requestName(event) {
  return event.replace(/^load (\d+) \d+$/, 'load t$1').replace(/^prefetch \d+$/, 'prefetch')
    .replace(/^store \d+ (\d{4}) (\w{8})$/, (_, mask, word) => `store ${masked(mask, word)}`)
    .replace(/^evict (\d+)$/, 'evict block $1').replace(/^serve (\d+)$/, 'serve bank $1')
    .replace(/^arrive (\d+) (\d+)$/, 'arrive from bank $1, answer $2').replace(/^process (\d+)$/, 'process stack $1')
    .replace(/^take (\d+)$/, 'take value $1');
}
// The bytes of a word in a frame that are there, by what its register says of it: all, or those of its code while it is to come.
function bytesThere(text) {
  const found = /^(?:missing|in stack)(?:, code (\d{4}))?$/.exec(text);
  return found ? found[1] ?? '0000' : '1111';
}
// The frame that a register waits for, or null.
function frameOf(text) {
  const found = /^valid, block \d+, frame (\d+)/.exec(text);
  return found ? Number(found[1]) : null;
}
// A word of a frame: its digits, and which of its bytes memory doesn't have yet.
function cellParts(text) {
  const [word, mask] = text.split(', dirty ');
  return { word, mask: mask || '0000' };
}
// The register and the word of its block that an entry of the input stack, an answer or a read is for, as a pair of numbers.
function ownerOf(text) {
  const found = /register (\d+), word (\d+)/.exec(text);
  return found ? [Number(found[1]), Number(found[2])] : null;
}
