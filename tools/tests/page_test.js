// What a reader of the page does, for tools/tests/page.py: it uses the page, and posts a line for each thing that it sees.
import { check, choose, editor, show, state } from './main.js';
import { fileOf, isCalling } from './calls.js';

const by = id => document.getElementById(id), all = selector => [...document.querySelectorAll(selector)];
const texts = selector => all(selector).map(element => element.textContent.trim());
const lines = [];
// A line of the report, without times and without the numbers of words that another compiler would make.
const report = (name, ...seen) => lines.push(`${name}: ${seen.join(' | ').replace(/\n/g, ' / ').replace(/\d+ ms/g, 'N ms').replace(/\b(saves|costs) \d+/g, '$1 N').replace(/\d+ ((?:machine )?words)/g, 'N $1')}`);
const pause = time => new Promise(done => setTimeout(done, time));
// Waits until nothing is called any more, as seen at two moments.
const settled = async () => { for (let idle = 0; idle < 2; idle = isCalling() || by('view').hasAttribute('aria-busy') ? 0 : idle + 1) await pause(20); };
const click = async selector => { document.querySelector(selector).click(); await settled(); };
const press = async (element, key, more = {}) => { element.dispatchEvent(new KeyboardEvent('keydown', { key, bubbles: true, cancelable: true, ...more })); await settled(); };
const write = async (id, value) => { by(id).value = value; by(id).dispatchEvent(new Event('change')); await settled(); };
const cells = row => [...row.children].map(cell => cell.textContent).join(' ');

// Every view of three programs.
async function views(found) {
  for (const [name, list] of [['factorial', 'trace,side,tidy'], ['primes', 'trace,tidy'], ['faults/division_by_zero', 'dead,tidy']]) {
    by('list').value = '';
    state.view = 'Run';
    const place = found.findIndex(example => example.name === name);
    await write('example', place);
    report(`${name}, checked`, by('checked').textContent, by('wanted').textContent);
    report(`${name}, run`, all('#runs tr')[1].children[1].textContent, texts('.printed'), texts('.meaning'));
    await write('list', list);
    report(`${name}, run with ${list}`, all('#runs tr')[2].children[1].textContent, texts('.printed'), all('#guards tr').slice(1).map(cells));
    await show('Passes');
    report(`${name}, passes`, texts('#view > .panel > details > summary'), `${all('#view .new').length} lines new, ${all('#view .gone').length} gone`);
    await show('Graph');
    report(`${name}, graph`, `functions ${all('.flow .frame').length}`, `${all('.flow .block').length} blocks, ${all('.flow .block.speculative').length} speculative`, `${all('.flow .way').length} ways`, texts('.flow .fails.said'));
    await show('Profile');
    report(`${name}, profile`, all('#entries tr').slice(1).map(row => row.dataset.line));
    await show('Words');
    const named = all('#words .first').map(row => [row.children[1].textContent.trim(), row.children[3].textContent]);
    report(`${name}, words`, texts('#view p')[0].split('.')[0], `${texts('.together').length} told apart badly`, named.filter(([item, word]) => word && /const|guard|div|^@/.test(item)).slice(0, 4).map(([item, word]) => `${item} ${word.split(' ')[0]}`));
    await show('Monitor');
    for (let step = 0; step < 3; step++) await click('#monitor-step');
    report(`${name}, monitor`, by('monitor-at').textContent, all('#variables tbody tr').map(cells));
  }
}

async function profile(text) {
  by('list').value = 'trace,side';
  await choose(text, '20');
  await show('Profile');
  report('entries', all('#entries tr').slice(1).map(cells));
  await click('#entries input');
  report('switched off', state.entries.map(entry => entry.on), all('#entries tr').slice(1).map(cells));
  await show('Run');
  report('guards', all('#guards tr').slice(1).map(cells));
  await show('Profile');
  by('hot').value = 1;
  by('hot').dispatchEvent(new Event('change'));
  await click('#record');
  report('recorded again', all('#entries tr').length - 1, document.activeElement.id);
}

async function monitor(text) {
  by('list').value = '';
  await choose(text, '20');
  await show('Monitor');
  const item = number => all('button.item')[number];
  by('monitor-step').focus();
  for (const key of ['s', 's', 's']) await press(by('monitor-step'), key);
  report('steps by keys', by('monitor-at').textContent, document.activeElement.id);
  item(0).focus();
  await press(item(0), 'End');
  await press(document.activeElement, 'ArrowUp');
  document.activeElement.click();
  await settled();
  report('no mark at a label', texts('#view .items + div, #view .row + div')[0], all('.marked').length);
  item(6).click();
  await settled();
  for (const key of ['g', 'g']) await press(by('monitor-go'), key);
  report('a loop', by('monitor-at').textContent, all('#variables tbody tr').map(cells), `${all('#variables .here').length} changed`);
  item(6).click();
  await settled();
  await press(by('monitor-go'), 'g');
  report('the end', by('monitor-at').textContent, texts('#printed'), by('monitor-go').getAttribute('aria-disabled'));
  await press(by('monitor-go'), 'r');
  report('from the start', by('monitor-at').textContent, texts('#printed'));
  by('list').value = 'trace';
  by('args').value = '4';
  await show('Monitor');
  await click('#after-passes');
  all('button.item').find(one => one.textContent.includes('guard')).click();
  await settled();
  for (let go = 0; go < 4; go++) await press(by('monitor-go'), 'g');
  const before = all('#variables tbody tr').map(cells).join();
  await click('#monitor-step');
  report('a guard fails', before, by('monitor-at').textContent, all('button.item.here')[0].textContent.trim(), all('#variables tbody tr').map(cells));
  await click('#after-passes');
}

// What is written by hand, at the start of the program: it is checked and shown without any other order.
async function type(text) {
  const rich = document.querySelector('.CodeMirror')?.CodeMirror, area = by('source');
  if (rich) rich.replaceRange(text, { line: 0, ch: 0 }); else {
    area.setRangeText(text, 0, 0);
    area.dispatchEvent(new Event('input'));
  }
  await pause(600);
  await settled();
}

// The colours of CodeMirror, by the tokens of its lines; a text area has none.
const COLOURS = 'keyword:from string:"a" keyword:import def:@f | def:@main variable:n type:int type:ptr type:int | variable:int type:int keyword:const number:-1 | '
  + 'tag:.x variable:b type:bool keyword:const atom:true comment:# c | keyword:br variable:b tag:.x tag:.x keyword:print variable:print | variable:c type:char keyword:const string:\'\'\'';

async function colours() {
  editor.text = 'from "a" import @f;\n@main(n: int): ptr<int> {\nint: int = const -1;\n.x: b: bool = const true; # c\nbr b .x .x; print print;\nc: char = const \'\'\';\n}\n';
  await pause(300);
  const seen = all('.CodeMirror-line').map(line => [...line.querySelectorAll('[class^=cm-]')].map(token => `${token.className.slice(3)}:${token.textContent}`).join(' ')).filter(Boolean).join(' | ');
  report('colours', editor.name === 'text area' || seen === COLOURS || seen);
}

async function written(text) {
  state.view = 'Run';
  by('list').value = '';
  await choose(text, '5');
  await type('# A comment.\n@f {\n}\n');
  report('written', by('checked').textContent, texts('.printed'), by('example').value);
  await type('@');
  report('written wrongly', by('checked').textContent, editor.marked(), texts('#view'));
}

async function wrong() {
  for (const [name, text] of [['a name', '@main {\n  one: int = const 1;\n  # a comment; with a semicolon\n  print one;\n  print x;\n}\n'], ['the form', '@main {\n  print one\n}\n'],
    ['a function that is missing', '@main {\n  call @f;\n}\n'], ['no main', '@f {\n}\n'], ['an import', 'from "/etc/passwd" import @f;\n@main {\n}\n']]) {
    editor.text = text;
    await check();
    report(`wrong, ${name}`, by('checked').textContent, editor.marked(), by('explained').textContent);
  }
  editor.text = '@main {\n  print one\n}\n';
  await check();
  by('go-there').click();
  report('the cursor goes there', by('editor').contains(document.activeElement));
  await choose('@main {\n}\n', '');
  report('right again', by('checked').textContent, editor.marked().length);
}

async function ends() {
  state.view = 'Run';
  const loops = choose('@main {\n.again:\n  jmp .again;\n}\n', '', { steps: '10000000000' });
  for (let tries = 0; tries < 100 && by('stop').disabled; tries++) await pause(50);
  await pause(300);
  report('it runs', by('stop').disabled, texts('#busy'));
  document.dispatchEvent(new KeyboardEvent('keydown', { key: '.', ctrlKey: true, bubbles: true }));
  await loops;
  await settled();
  report('stopped', all('#runs td')[1].textContent, by('stop').disabled);
  await choose('@main {\n  x: int = const 1111111111111111111;\n.again:\n  print x x x x;\n  jmp .again;\n}\n', '', { steps: '10000000000' });
  report('cut', all('#runs td')[1].textContent, texts('.cut')[0]?.replace(/\d+/, 'N'));
  await choose('@main {\n.again:\n  jmp .again;\n}\n', '', { steps: '1000' });
  report('spent', all('#runs td')[1].textContent, texts('.meaning'));
  await choose('@main(n: int) {\n}\n', '');
  report('arguments', all('#runs td')[1].textContent, texts('.meaning'));
}

async function link(text) {
  by('list').value = 'dead';
  await choose(text, '5', { frames: '7' });
  by('link').click();
  await settled();
  const held = location.hash;
  by('list').value = '';
  await choose('@main {\n}\n', '');
  location.hash = '';
  await pause(100);
  location.hash = held;
  await pause(100);
  await settled();
  report('link', editor.text === text, by('args').value, by('list').value, by('frames').value, texts('.printed'));
  history.replaceState(null, '', '#');
}

// The contrast of a text to what is behind it, by the rule of WCAG.
function contrast(element) {
  const parts = color => /^rgba?\((.*)\)$/.exec(color)[1].split(/[ ,/]+/).map(Number);
  const light = color => parts(color).slice(0, 3).map(part => part / 255).map(part => part <= 0.04045 ? part / 12.92 : ((part + 0.055) / 1.055) ** 2.4).reduce((sum, part, place) => sum + part * [0.2126, 0.7152, 0.0722][place], 0);
  const isSeen = color => (parts(color)[3] ?? 1) === 1, style = getComputedStyle(element);
  let behind = element.closest('svg') ? element.closest('g').querySelector('rect') : element, color = null;
  for (; behind && !color; behind = behind.parentElement) {
    const { backgroundColor, fill } = getComputedStyle(behind), found = behind.tagName === 'rect' ? fill : backgroundColor;
    color = isSeen(found) ? found : null;
  }
  const [low, high] = [light(element.closest('svg') ? style.fill : style.color), light(color)].sort((a, b) => a - b);
  return (high + 0.05) / (low + 0.05);
}

// In light and in dark every text can be read, no view is wider than the window, and all that can be used is reached by Tab.
async function looks(text) {
  by('list').value = 'trace,side,tidy';
  await choose(text, '20');
  const low = [];
  let wide = 0;
  for (const theme of ['light', 'dark']) {
    by('theme').value = theme;
    by('theme').dispatchEvent(new Event('change'));
    for (const name of ['Run', 'Passes', 'Graph', 'Profile', 'Words', 'Monitor']) {
      await show(name);
      wide = Math.max(wide, document.documentElement.scrollWidth - innerWidth, by('view').scrollWidth - by('view').clientWidth);
      const shown = all('body *').filter(element => element.checkVisibility?.() && !element.matches(':disabled, option, optgroup, textarea, .CodeMirror-cursors *') && [...element.childNodes].some(node => node.nodeType === 3 && node.data.trim()));
      low.push(...shown.filter(element => contrast(element) < 4.5).map(element => `${theme} ${name} ${element.tagName}.${element.getAttribute('class')} ${contrast(element).toFixed(1)}`));
    }
  }
  report('contrast', low.length ? low.join() : 'every text 4.5 or more');
  report('width', innerWidth <= 1000, wide);
  const unreached = all('button, input, select, summary, [role=tab]').filter(element => element.tabIndex < 0 && !element.matches('[role=tab][aria-selected=false], .item, .CodeMirror *'));
  report('reached by Tab', unreached.length, all('#tabs [tabindex="0"]').length, all('button.item[tabindex="0"]').length);
  by('tab-Monitor').focus();
  await press(by('tab-Monitor'), 'ArrowRight');
  report('tabs by keys', state.view, document.activeElement.id);
  await press(document.activeElement, 'ArrowLeft');
  report('tabs by keys', state.view, document.activeElement.id);
  by('args').value = '5';
  await show('Run');
  by('args').value = '6';
  await press(document.body, 'Enter', { ctrlKey: true });
  report('runs by keys', texts('.printed'));
}

async function use() {
  await settled();
  const found = await fileOf('examples.json'), { text } = found.find(example => example.name === 'factorial');
  report('editor', editor.name, texts('#example optgroup').length);
  for (const part of [() => views(found), () => profile(text), () => monitor(text), colours, () => written(text), wrong, ends, () => link(text), () => looks(text)]) await part();
}

try { await use(); } catch (error) { lines.push(`error: ${error.stack}`); }
await fetch('report', { method: 'POST', body: lines.join('\n') });
