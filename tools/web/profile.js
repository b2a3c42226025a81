// The profile of a run: its entries are switched on and off, and what each costs is counted.
import { countsOf } from './calls.js';
import { button, counted, headOf, make } from './elements.js';
import { message, passOptions, runOf } from './views.js';

// Records the profile of the program's run, with all entries switched on.
export async function record(state, call) {
  const left = await call('record', { program: state.program, args: state.args, options: { ...state.limits, hot: String(state.hot) } });
  state.recorded = true;
  if (![0, 2].includes(left.status)) return left;
  const [head, ...lines] = left.out.trimEnd().split('\n');
  Object.assign(state, { head, entries: lines.map(line => ({ line, on: true })) });
  return left;
}

const partsOf = line => /^trace (@\S+) (\.\S+) (\S+)(?: (\d+))?$/.exec(line).slice(1);
const price = words => words === null ? '-' : words < 0 ? `saves ${-words}` : words > 0 ? `costs ${words}` : 'no change';

// The words that the run takes with each choice of entries; the newest counting stops the one before.
let turn = 0;

async function count(state, call, told) {
  const mine = ++turn, wordsWith = async entries => countsOf(await runOf(state, call, passOptions({ ...state, entries }))).words;
  const words = await wordsWith(state.entries), none = await wordsWith(state.entries.map(entry => ({ ...entry, on: false })));
  if (mine !== turn) return;
  told.textContent = words === null || none === null ? 'The run was not counted.' : `With these entries ${counted(words, 'word')}, without any ${none}.`;
  for (const [place, entry] of state.entries.entries()) {
    const other = await wordsWith(state.entries.map((one, at) => at === place ? { ...one, on: !one.on } : one));
    if (mine !== turn) return;
    entry.cell.textContent = price(words === null || other === null ? null : entry.on ? words - other : other - words);
  }
}

function rowOf(entry, refresh) {
  const [name, label, choices, arrivals] = partsOf(entry.line);
  const change = () => { entry.on = box.checked; refresh(); };
  const box = make('input', { type: 'checkbox', checked: entry.on, attributes: { 'aria-label': entry.line }, on: { change } });
  entry.cell = make('td', { className: 'number', text: '...' });
  return make('tr', { attributes: { 'data-line': entry.line } }, make('td', {}, box), make('td', { className: 'mono', text: `${name} ${label}` }),
    make('td', { className: 'mono choices', text: choices }), make('td', { className: 'number', text: arrivals ?? '1' }), entry.cell);
}

export async function profile(state, panel, call) {
  const hot = make('input', { type: 'number', min: 1, max: 65536, value: state.hot, id: 'hot', on: { change: () => { state.hot = hot.value; } } });
  const told = make('p', { attributes: { role: 'status' }, text: 'counting ...' }), failed = make('p');
  const again = async () => {
    const left = await record(state, call);
    await profile(state, panel, call);
    if (![0, 2].includes(left.status)) panel.append(await message(left, call));
    document.getElementById('record')?.focus();
  };
  if (!state.recorded) await record(state, call);
  const usesProfile = state.list.split(',').includes('trace'), rows = state.entries.map(entry => rowOf(entry, () => count(state, call, told)));
  const recording = [button('Record the run again', again, { id: 'record' }), make('label', {}, 'a label is hot after ', hot, ' arrivals')];
  panel.replaceChildren(make('div', { className: 'row' }, ...recording), failed);
  if (!rows.length) return failed.replaceChildren('No label was arrived at so often: the profile has no entries.');
  panel.append(make('p', { text: 'Each entry is a path from a label on: at its branches it went T, to the first label, or F, to the second.' }), told,
    make('table', { id: 'entries' }, headOf('on', 'label', 'choices', 'arrivals', 'words'), ...rows));
  if (!usesProfile) for (const { cell } of state.entries) cell.textContent = '-';
  if (!usesProfile) return told.replaceChildren('Only the pass trace uses a profile: put it first into the list, to see what each entry costs.');
  await count(state, call, told);
}
