// What a person sees of the page: each entry by its name, with its text and how it is marked. It goes by headings, labels
// and positions, and by colours as they are computed; never by the names that the page's script uses.
(() => {
  const colourOf = (name) => {
    const probe = document.createElement('i');
    probe.style.background = `var(${name})`;
    document.body.append(probe);
    const colour = getComputedStyle(probe).backgroundColor;
    probe.remove();
    return colour;
  };
  const marks = { [colourOf('--mark')]: 'changed', [colourOf('--read')]: 'read' };
  const isSeen = (it) => it.getClientRects().length > 0;
  const markOf = (it) => marks[getComputedStyle(it).backgroundColor] || '';
  const sectionOf = (title) => [...document.querySelectorAll('section')].find((it) => it.querySelector('h2').textContent === title);

  function wordOf(cell) {
    const lanes = [];
    for (const part of cell.childNodes) {
      const isDirty = part.nodeType === 1 && getComputedStyle(part).textDecorationLine === 'underline';
      for (let k = 0; k < part.textContent.length; k += 2) lanes.push(isDirty ? '1' : '0');
    }
    return cell.textContent + (lanes.includes('1') ? `, dirty ${lanes.join('')}` : '');
  }

  window.readPage = () => {
    const seen = {};
    const note = (name, it, text = it.textContent) => {
      if (isSeen(it) && (text !== '' || markOf(it))) seen[name] = [text, markOf(it)];
    };
    for (const row of sectionOf('Frames').querySelectorAll('tbody tr')) {
      let frame = null;
      let word = -1;
      for (const cell of row.children) {
        const label = /^f(\d+)$/.exec(cell.textContent);
        if (cell.tagName === 'TH') { frame = label && `frame ${label[1]}`; word = -1; continue; }
        if (word < 0) note(frame, cell, cell.textContent + (getComputedStyle(cell).fontStyle === 'italic' ? ' italic' : ''));
        else note(`${frame} word ${word}`, cell, wordOf(cell));
        word += 1;
      }
    }
    for (const box of sectionOf('Registers').querySelectorAll('.register')) {
      const [label, entry] = box.querySelector('.register-head').children;
      const name = label.textContent.replace(/^r/, 'register ');
      note(name, entry);
      [...box.querySelectorAll('.field')].forEach((field, i) => {
        [...field.children].forEach((it, n) => note(`${name} word ${i}${n > 0 ? ` load ${n - 1}` : ''}`, it));
      });
    }
    const list = (name, items) => {
      for (const item of items) {
        const entry = item.children[1];
        if (isSeen(item)) seen[name + item.children[0].textContent] = [entry.textContent, markOf(entry)];
      }
    };
    list('input stack ', sectionOf('Input stack').querySelectorAll('li'));
    list('write queue ', sectionOf('Write queue').querySelectorAll('li'));
    list('ready ', sectionOf('Ready values').querySelectorAll('li'));
    list('memory ', sectionOf('Memory, as the banks have it').querySelectorAll('li'));
    list('line ', sectionOf('Registers, as a trace shows them').querySelectorAll('li'));
    for (const box of sectionOf('Banks').querySelectorAll('.bank')) {
      const name = box.querySelector('h3').textContent.toLowerCase();
      for (const it of box.querySelectorAll('ol')) list(`${name} ${it.getAttribute('aria-label').split(' ')[0].slice(0, -1)} `, it.children);
      for (const it of box.querySelectorAll('.stored .entry')) note(`${name} stored`, it);
    }
    return {
      entries: seen,
      event: document.getElementById('event').textContent,
      recorded: document.getElementById('recorded').innerText,
      words: document.getElementById('words').textContent,
      request: document.getElementById('request').innerText.replace(/\s+/g, ' ').trim(),
      step: [document.getElementById('number').textContent, document.getElementById('slider').value, document.body.dataset.step].join(' '),
      arrows: [...document.querySelectorAll('#arrows path.moved')].length,
      labels: [...document.querySelectorAll('#arrows text')].map((it) => it.textContent),
      fault: document.body.dataset.fault || '',
      outside: [...document.querySelectorAll('.changed, .read')].filter((it) => {
        const r = it.getBoundingClientRect();
        return isSeen(it) && it.closest('#machine') && (r.bottom > innerHeight || r.right > innerWidth || r.top < 0);
      }).length,
    };
  };

  // ---- single looks

  // Where the column of a step stands in the line of time.
  window.columnOf = (step) => {
    const r = document.getElementById('line').getBoundingClientRect();
    return [r.x + line.x(step) + line.column / 2, r.y + 40];
  };
  // Whether the line of time has the cursor's colour at a step.
  window.isCursorAt = (step) => {
    const canvas = document.getElementById('line');
    const x = Math.round(line.x(step + 0.5) * devicePixelRatio);
    const [r, g, b] = canvas.getContext('2d').getImageData(x, canvas.height - 3, 1, 1).data;
    return colourOf('--edge') === `rgb(${r}, ${g}, ${b})`;
  };
  window.namelessControls = () => [...document.querySelectorAll('button, input')]
    .filter((it) => !it.getAttribute('aria-label') && !it.textContent).map((it) => it.id);
  window.smallTexts = () => [...document.querySelectorAll('body *')]
    .filter((it) => isSeen(it) && it.textContent.trim() !== '' && parseFloat(getComputedStyle(it).fontSize) < 14)
    .map((it) => it.id || it.className);
  window.pageSize = () => [document.documentElement.scrollHeight, document.documentElement.scrollWidth];
  // What stands over another text: labels of ways, names in the line of time over names or bars; and names of blocks that are cut.
  window.covered = () => {
    const isOver = (a, b) => a.left < b.right - 1 && b.left < a.right - 1 && a.top < b.bottom - 3 && b.top < a.bottom - 3;
    const labels = [...document.querySelectorAll('#arrows rect')].map((it) => it.getBoundingClientRect());
    const texts = [];
    const walker = document.createTreeWalker(document.getElementById('machine'), NodeFilter.SHOW_TEXT);
    for (let it = walker.nextNode(); it; it = walker.nextNode()) {
      const range = document.createRange();
      range.selectNodeContents(it);
      const boxes = [...document.querySelectorAll('.scrolls')].filter((of) => of.contains(it)).map((of) => of.getBoundingClientRect());
      const isShown = (r) => boxes.every((box) => r.top >= box.top - 3 && r.bottom <= box.bottom + 3);
      if (it.textContent.trim() !== '' && !it.parentNode.closest('#arrows')) texts.push(...[...range.getClientRects()].filter(isShown));
    }
    const names = [];
    const text = line.text;
    line.text = (words, x, y, colour) => {
      const right = Math.min(line.width, x + line.pen.measureText(words).width);
      if (words !== '' && right > x) names.push({ words, left: x, right, top: y - 7, bottom: y + 7 });
      text.call(line, words, x, y, colour);
    };
    line.paint();
    line.text = text;
    const bars = line.inRows.map((it) => ({ tag: it.tag, left: Math.max(92, line.x(it.asked)), right: line.x(it.end + 1), top: line.rowOf(it),
      bottom: line.rowOf(it) + line.loadHeight - 2 }));
    const found = labels.filter((it, k) => [...labels.slice(k + 1), ...texts].some((of) => isOver(it, of))).map(() => 'a label');
    names.forEach((it, k) => {
      if (names.slice(k + 1).some((of) => isOver(it, of))) found.push(it.words);
      const isOfAnother = (bar) => isOver(it, bar) && !it.words.startsWith(`t${bar.tag}:`) && !it.words.startsWith('overtakes');
      if (bars.some(isOfAnother)) found.push(`${it.words} over a bar`);
    });
    const cut = [...document.querySelectorAll('td.block, td.word, #frames-table th')].filter((it) => it.scrollWidth > it.clientWidth + 1);
    return [...found, ...cut.map((it) => it.textContent)];
  };
  // How many marks of all steps lie outside of what their lists show.
  window.hiddenMarks = () => {
    let hidden = 0;
    for (let step = 0; step <= run.last; step += 1) {
      go(step);
      for (const it of document.querySelectorAll('.changed, .read')) {
        const box = it.closest('.scrolls');
        if (!box || !isSeen(it)) continue;
        const inner = it.getBoundingClientRect();
        const outer = box.getBoundingClientRect();
        if (inner.bottom > outer.bottom + 3 || inner.top < outer.top - 3) hidden += 1;
      }
    }
    return hidden;
  };
  // Milliseconds for one of fifty calls.
  window.spent = (call) => {
    const begin = performance.now();
    for (let k = 0; k < 50; k += 1) call(k);
    return (performance.now() - begin) / 50;
  };
  // Whether something holds within some milliseconds: as soon as it does.
  window.until = async (holds, milliseconds) => {
    const end = performance.now() + milliseconds;
    while (!holds() && performance.now() < end) await new Promise((done) => { setTimeout(done, 20); });
    return holds();
  };

  // The ways of going to steps, each of which gives what is seen behind every move.
  const wait = () => new Promise((done) => { addEventListener('hashchange', () => done(), { once: true }); });
  const press = (key) => document.body.dispatchEvent(new KeyboardEvent('keydown', { key, bubbles: true, cancelable: true }));
  const click = (id) => document.getElementById(id).click();
  const goes = {
    key: (step, before) => press(step === before + 1 ? 'ArrowRight' : step === before - 1 ? 'ArrowLeft' : step === 0 ? 'Home' : 'End'),
    button: (step, before) => click(step === before + 1 ? 'next' : step === before - 1 ? 'back' : step === 0 ? 'to-first' : 'to-last'),
    slider: (step) => {
      const slider = document.getElementById('slider');
      slider.value = step;
      slider.dispatchEvent(new Event('input', { bubbles: true }));
    },
    address: async (step, before) => {
      if (location.hash === `#${step}`) return;
      const told = wait();
      location.hash = `#${step}`;
      await told;
    },
  };
  window.walk = async (how, wanted, before) => {
    const seen = [];
    for (const step of wanted) {
      await goes[how](step, before);
      before = step;
      seen.push(readPage());
    }
    return seen;
  };
})();
