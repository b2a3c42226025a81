// The page: the program with its arguments and passes on the left, and one view of it on the right.
import { fileOf, newWork } from './calls.js';
import { openEditor } from './editor.js';
import { button, counted, make } from './elements.js';
import { listing } from './listing.js';
import { monitor } from './monitor.js';
import { profile, record } from './profile.js';
import { placeOfMessage } from './programs.js';
import { graph, passes, run } from './views.js';

const by = id => document.getElementById(id);
const VIEWS = { Run: run, Passes: passes, Graph: graph, Profile: profile, Words: listing, Monitor: monitor };
const LIMITS = ['steps', 'frames', 'cells'];
const PASSES = {
  trace: 'lays recorded paths between speculate and commit, with guards in place of branches',
  side: 'gives guards of traces exits of their own, which need not test again what the guard tested',
  ssa: 'brings the program into SSA form: each variable is assigned by one item',
  const: 'writes out what is the same in all runs: values, branches and guards',
  dead: 'puts nop in place of what nobody reads and nothing reaches',
  unssa: 'makes a variable of each shadow, and copies of get and set',
  merge: 'gives one name to variables that copies relate',
  tidy: 'drops every nop, and every item that nothing reaches',
  color: 'gives one name to variables that are never needed at once',
};
export const state = { program: '', args: [], list: '', limits: {}, head: 'bril-profile 2', entries: [], recorded: false, hot: 4, view: 'Run' };
export let editor = null;

// The words of a line of arguments, parted by blanks; quotes hold a blank.
const wordsOf = line => [...line.matchAll(/'([^']*)'|"([^"]*)"|(\S+)/g)].map(found => found[1] ?? found[2] ?? found[3]);

function read() {
  const program = editor.text, args = wordsOf(by('args').value);
  const limits = Object.fromEntries(LIMITS.map(name => [name, by(name).value.trim()]).filter(([, value]) => value));
  if (JSON.stringify([program, args, limits]) !== JSON.stringify([state.program, state.args, state.limits])) Object.assign(state, { entries: [], recorded: false });
  Object.assign(state, { program, args, limits, list: by('list').value.replace(/\s/g, '') });
}

let work = newWork();

// Fills the view of this name; what the last one still calls is ended.
export async function show(name = state.view) {
  read();
  const isSame = name === state.view;
  state.view = name;
  for (const tab of by('tabs').children) {
    tab.setAttribute('aria-selected', String(tab.textContent === name));
    tab.tabIndex = tab.textContent === name ? 0 : -1;
  }
  work.end();
  const mine = work = newWork(), panel = make('div', { className: 'panel' }), view = by('view'), from = isSame ? view.scrollTop : 0;
  const turn = () => {
    if (mine !== work || panel.isConnected) return;
    const hadFocus = view.contains(document.activeElement);
    view.replaceChildren(panel);
    if (hadFocus) view.focus();
  };
  const waits = setTimeout(turn, 200);
  view.setAttribute('aria-busy', 'true');
  view.setAttribute('aria-labelledby', `tab-${name}`);
  try {
    if (state.list.split(',').includes('trace') && !state.recorded) await record(state, mine.call);
    await VIEWS[name](state, panel, mine.call);
  } catch (error) {
    panel.append(make('p', { className: 'wrong', text: `This can't be shown: ${error.message}` }));
    console.error(error);
  }
  clearTimeout(waits);
  turn();
  if (mine !== work) return;
  view.scrollTop = from;
  view.removeAttribute('aria-busy');
}

const stop = () => work.stop();
let checking = newWork();

// Where a refused program is wrong, and how: by roolvist-explain, where that is here, else by the message of `check`.
async function faultOf(left, call) {
  const said = (left.end || left.err || left.out).trim().replace(/^page\.bril: /, '');
  if (left.status !== 65) return { said };
  const explained = await call('explain', { program: state.program }), lines = explained.status === 65 ? explained.err.trim().split('\n') : [];
  const [, line, column, why] = /^page\.bril:(?:(\d+):(\d+):)? error: (.*)$/.exec(lines[0] ?? '') ?? [], help = lines.find(text => text.startsWith('help: ')) ?? '';
  if (line) return { place: { line: line - 1, column: column - 1 }, said, why, help };
  const at = placeOfMessage(state.program, left.err), before = state.program.slice(0, Math.max(at, 0)).split('\n');
  return { place: at < 0 ? null : { line: before.length - 1, column: before.at(-1).length }, said, why, help };
}

// Checks the program, marks the line of its fault, and says what it is.
export async function check() {
  read();
  checking.end();
  const { call } = checking = newWork(), mine = checking, left = await call('check', { program: state.program });
  const fault = left.status === 0 ? null : await faultOf(left, call);
  if (mine !== checking) return null;
  editor.mark(fault?.place ?? null);
  const [, functions, items] = /^ok (\d+) (\d+)$/m.exec(left.out) ?? [];
  const where = fault?.place ? `line ${fault.place.line + 1}: ` : '', accepted = `accepted: ${counted(+functions, 'function')}, ${counted(+items, 'item')}`;
  const text = fault ? where + (fault.why ?? fault.said) : accepted;
  by('checked').className = fault ? 'wrong' : '';
  by('checked').replaceChildren(text, ...(fault?.place ? [' ', button('Go there', () => editor.go(fault.place), { id: 'go-there' })] : []));
  by('explained').textContent = fault?.why ? `${fault.help.replace('help: ', 'To mend it: ')}. check says: ${fault.said}` : '';
  const main = /@main\s*\(([^)]*)\)/.exec(state.program);
  by('wanted').textContent = main ? `main takes ${main[1].trim()}` : 'main takes none';
  return left.status ?? -1;
}

// What a link holds: the program, its arguments, its passes, which view is open, and the limits.
function toLink() {
  const bytes = new TextEncoder().encode(JSON.stringify([state.program, by('args').value, state.list, state.view, state.limits]));
  return '#' + btoa(Array.from(bytes, byte => String.fromCharCode(byte)).join('')).replace(/[+/]/g, char => char === '+' ? '-' : '_');
}

function fromLink() {
  try {
    const text = atob(location.hash.slice(1).replace(/[-_]/g, char => char === '-' ? '+' : '/')), bytes = Uint8Array.from(text, char => char.charCodeAt(0));
    const [program, args, list, view, limits = {}] = JSON.parse(new TextDecoder().decode(bytes));
    if (![program, args, list].every(text => typeof text === 'string')) return false;
    put(program, args, limits);
    by('example').value = '';
    by('list').value = list;
    state.view = VIEWS[view] ? view : 'Run';
    return true;
  } catch {
    return false;
  }
}

async function link() {
  read();
  history.replaceState(null, '', toLink());
  const copied = await navigator.clipboard?.writeText(location.href).then(() => true, () => false);
  by('linked').textContent = copied ? 'The address holds it, and is copied.' : 'The address holds it.';
}

function put(program, args, limits) {
  editor.text = program;
  by('args').value = args;
  for (const name of LIMITS) by(name).value = limits[name] ?? '';
  by('limits').open = Object.keys(limits).length > 0;
}

// Checks the program, and fills the view again; where it is refused, nothing is shown of the one before.
async function refresh() {
  const status = await check();
  if (status === 0) return show();
  if (status !== null) {
    work.end();
    by('view').removeAttribute('aria-busy');
    by('view').replaceChildren(make('p', { className: 'wrong', text: 'The program is refused, so there is nothing to show of it.' }));
  }
}

export function choose(program, args, limits = {}) {
  put(program, args, limits);
  return refresh();
}

function changeList(names) {
  by('list').value = names.join(',');
  return refresh();
}

function addButtons() {
  const listed = () => by('list').value.split(',').filter(Boolean);
  const explained = name => ({ title: PASSES[name], attributes: { 'aria-description': PASSES[name] } });
  for (const name of Object.keys(VIEWS)) by('tabs').append(button(name, () => show(name), { id: `tab-${name}`, attributes: { role: 'tab', 'aria-controls': 'view' } }));
  for (const name of Object.keys(PASSES)) by('pass-buttons').append(button(`+ ${name}`, () => changeList([...listed(), name]), explained(name)));
  by('pass-buttons').append(button('take the last away', () => changeList(listed().slice(0, -1))), button('all', () => changeList(Object.keys(PASSES))),
    button('none', () => changeList([])));
  by('passes-told').append(...Object.entries(PASSES).flatMap(([name, does]) => [make('dt', { text: name }), make('dd', { text: does })]));
}

// The menu of examples, in groups by their folders.
function addExamples(found) {
  const groups = new Map();
  for (const [place, { name }] of found.entries()) {
    const [folder, file] = name.includes('/') ? name.split('/') : ['examples', name];
    if (!groups.has(folder)) groups.set(folder, make('optgroup', { label: folder }));
    groups.get(folder).append(new Option(file, place));
  }
  by('example').append(new Option('(your own)', ''), ...groups.values());
  by('example').addEventListener('change', () => {
    const { text, args, limits } = found[by('example').value] ?? { text: '@main {\n}\n', args: '', limits: {} };
    choose(text, args, limits);
  });
}

function addKeys() {
  by('tabs').addEventListener('keydown', event => {
    const names = Object.keys(VIEWS), at = names.indexOf(state.view), to = { ArrowRight: at + 1, ArrowLeft: at - 1, Home: 0, End: -1 }[event.key];
    if (to === undefined) return;
    event.preventDefault();
    const name = names.at(to % names.length);
    show(name);
    by(`tab-${name}`).focus();
  });
  document.addEventListener('keydown', event => {
    if (event.ctrlKey && event.key === 'Enter') { event.preventDefault(); refresh(); }
    if (event.ctrlKey && event.key === '.') { event.preventDefault(); stop(); }
  });
}

async function begin() {
  const [found, installed] = await Promise.all([fileOf('examples.json'), fileOf('library.json')]);
  let waits;
  const changed = () => { by('example').value = ''; clearTimeout(waits); waits = setTimeout(refresh, 400); };
  editor = await openEditor(by('editor'), installed, changed);
  addButtons();
  addExamples(found);
  addKeys();
  for (const id of ['args', 'list', ...LIMITS]) by(id).addEventListener('change', refresh);
  by('stop').addEventListener('click', stop);
  by('link').addEventListener('click', link);
  by('theme').addEventListener('change', () => { document.documentElement.dataset.theme = by('theme').value; });
  addEventListener('hashchange', () => { if (fromLink()) refresh(); });
  new MutationObserver(() => { by('stop').disabled = !by('view').hasAttribute('aria-busy'); }).observe(by('view'), { attributes: true });
  if (location.hash.length > 10 && fromLink()) await refresh(); else {
    const first = found.findIndex(example => example.name === 'factorial');
    by('example').value = first;
    await choose(found[first].text, found[first].args);
  }
  if (location.hash.startsWith('#test')) import('./test.js');
}

begin();
