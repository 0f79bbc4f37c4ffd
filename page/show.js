'use strict';

const run = new Run(steps);
const story = new Story(run);
const line = new Line(find('line'), run, story);
const picture = new Picture(run);
const arrows = new Arrows(find('arrows'));
let timer = 0;

function draw() {
  const [event, answer, words, recorded] = run.steps[run.now];
  find('number').textContent = run.now;
  find('event').textContent = run.now > 0 ? `${event} -> ${answer}` : 'start';
  find('recorded').textContent = recorded && `recorded: ${recorded}`;
  find('words').textContent = words;
  find('slider').value = run.now;
  picture.draw();
  arrows.draw(movesOf(run));
  line.draw();
  document.body.dataset.step = run.now;
}
function go(to) {
  run.go(to);
  draw();
}
function stop() {
  clearInterval(timer);
  timer = 0;
  find('play').textContent = 'play';
}
function play() {
  if (timer) { stop(); return; }
  if (run.now === run.last) go(0);
  find('play').textContent = 'stop';
  timer = setInterval(() => { if (run.now < run.last) go(run.now + 1); else stop(); }, 900);
}
function move(to) { stop(); go(to); }

function toggle(button, box) {
  const isShown = find(box).hidden;
  find(box).hidden = !isShown;
  find(button).setAttribute('aria-pressed', isShown);
  line.resize();
  arrows.draw(movesOf(run));
}
const switches = { 'show-memory': 'memory-box', 'show-lines': 'lines-box', 'show-keys': 'keys' };
for (const [button, box] of Object.entries(switches)) find(button).onclick = () => toggle(button, box);

function showValues() {
  picture.isWhole = !picture.isWhole;
  find('show-values').setAttribute('aria-pressed', picture.isWhole);
  draw();
}
find('show-values').onclick = showValues;

find('to-first').onclick = () => move(0);
find('back').onclick = () => move(run.now - 1);
find('next').onclick = () => move(run.now + 1);
find('to-last').onclick = () => move(run.last);
find('play').onclick = play;
find('slider').oninput = () => move(Number(find('slider').value));
find('wider').onclick = () => line.zoom(1.25);
find('narrower').onclick = () => line.zoom(0.8);
find('line').onclick = (event) => move(line.stepAt(event.offsetX));
find('line').addEventListener('wheel', (event) => {
  if (event.ctrlKey) return;
  event.preventDefault();
  line.pan((event.deltaX + event.deltaY) / 20);
}, { passive: false });

const keys = {
  ArrowLeft: () => move(run.now - 1), ArrowRight: () => move(run.now + 1),
  Home: () => move(0), End: () => move(run.last), ' ': play,
  PageUp: () => move(run.now - 10), PageDown: () => move(run.now + 10),
  '+': () => line.zoom(1.25), '-': () => line.zoom(0.8),
  m: () => toggle('show-memory', 'memory-box'), r: () => toggle('show-lines', 'lines-box'), v: showValues,
};
document.addEventListener('keydown', (event) => {
  if (event.ctrlKey || event.altKey || event.metaKey || !keys[event.key]) return;
  if (event.key === ' ' && event.target.tagName === 'BUTTON') return;
  event.preventDefault();
  keys[event.key]();
});
function follow() {
  const wanted = location.hash.slice(1);
  go(wanted === 'end' ? run.last : Number(wanted) || 0);
}
window.addEventListener('hashchange', follow);
window.addEventListener('resize', () => { line.resize(); arrows.draw(movesOf(run)); });
matchMedia('(prefers-color-scheme: dark)').addEventListener('change', () => line.resize());
// (on paper the line of time is dark on white too)
for (const [kind, isPaper] of [['beforeprint', true], ['afterprint', false]]) {
  window.addEventListener(kind, () => {
    document.documentElement.classList.toggle('paper', isPaper);
    line.resize();
  });
}
find('slider').max = run.last;
find('last').textContent = run.last;
follow();
line.resize();
