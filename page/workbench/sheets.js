'use strict';

// ---- what a text is: a trace, a recorded run, or a sheet of predictions

const ARROW = ' -> ';

// A sheet's line without the blanks at its end, of which a CR is one. Nothing is said by an empty one, and by a comment.
const trimmed = (line) => line.replace(/[ \t\f\r]+$/, '');
const isComment = (line) => line.startsWith('#');
const saysNothing = (line) => trimmed(line) === '' || isComment(line);

// A line's command, and its prediction: '' if that is left out behind the arrow, null if nothing is predicted.
const commandOf = (line) => trimmed(line).split(ARROW, 1)[0].replace(/ ->$/, '');
function predictionOf(line) {
  const behind = saysNothing(line) ? '' : trimmed(line).slice(commandOf(line).length);
  return behind === '' ? null : behind.slice(ARROW.length);
}
const isPredictedOnly = (said) => /^(\?|accepted (hit|join|miss)|)$/.test(said);

// A recorded run has an answer in each line; a sheet has some, or some that only a sheet has, or a comment. Without a
// grader there are no sheets, and a run is known by its first line.
function kindOf(text, canGrade) {
  const lines = linesOf(text);
  if (!canGrade) return (lines[0] ?? '').includes(ARROW) ? 'recorded' : 'trace';
  if (lines.some(isComment)) return 'sheet';
  const said = lines.map(predictionOf).filter((it) => it !== null);
  if (said.length === 0) return 'trace';
  const isExact = said.length === lines.length && lines.every((line) => line === trimmed(line));
  return isExact && !said.some(isPredictedOnly) ? 'recorded' : 'sheet';
}

// The lines that have a command, without their predictions.
const traceOfSheet = (text) => linesOf(text).filter((line) => !saysNothing(line)).map((line) => `${commandOf(line)}\n`).join('');

// The lines of a sheet before the first that is open: what stands behind would tell its answer.
function beforeOpen(text) {
  const lines = linesOf(text);
  const open = lines.findIndex((line) => predictionOf(line) === '?');
  return open < 0 ? lines : lines.slice(0, open);
}

// What the grader wrote of each line: `line N: ..`, and below it what the answer is.
function wrongLines(said) {
  const found = new Map();
  const lines = linesOf(said);
  lines.forEach((line, k) => {
    const wrong = /^line (\d+): /.exec(line);
    if (wrong) found.set(Number(wrong[1]), /^ /.test(lines[k + 1] ?? '') ? lines[k + 1].trim() : '');
  });
  return found;
}

// What stands beside the lines of a sheet.
function marksOf(text, wrong) {
  return linesOf(text).map((line, k) => {
    const said = predictionOf(line);
    if (said === null) return '';
    if (said === '?') return 'open';
    return wrong.has(k + 1) ? 'wrong' : 'right';
  });
}
