// The views of a program: its run, the program after each pass, its flow graphs. Each is a function that is given the page's state,
// an element that it fills, and how to call the program.
import { countsOf, endOf } from './calls.js';
import { button, counted, headOf, make, output } from './elements.js';
import { addFailures, drawGraph, readGraph } from './flow_graph.js';
import { changes, linesOf } from './programs.js';

// The options of the passes that are put together, with the profile's entries that are switched on.
export function passOptions(state) {
  const entries = state.entries.filter(entry => entry.on).map(entry => entry.line + '\n').join('');
  return { passes: state.list, ...(state.entries.length ? { profile: state.head + '\n' + entries } : {}) };
}

export function runOf(state, call, options) {
  return call('run', { program: state.program, args: state.args, options: { ...state.limits, ...options, stats: '' } });
}

// How a call ended where it didn't end well, and what that means.
export async function message(left, call) {
  const line = endOf(left), said = make('p', { className: 'wrong', text: line });
  if (left.status) {
    const meaning = await call('meaning', { line });
    if (meaning.status === 0) said.append(make('span', { className: 'meaning', text: ` ${meaning.out.trim()}` }));
  }
  return said;
}

// The items of a program's text, by function and number.
const itemsOf = text => new Map(linesOf(text).filter(({ item }) => item !== null).map(({ line, name, item }) => [`${name} ${item}`, line.trim()]));

function guardTable(guards, items) {
  const rows = guards.map(({ name, item, fails }) => make('tr', { className: fails ? 'failed' : '' },
    make('td', { className: 'mono', text: `@${name} ${item}` }), make('td', { className: 'mono', text: items.get(`${name} ${item}`) ?? '' }),
    make('td', { className: 'number', text: fails })));
  return make('table', { id: 'guards' }, headOf('item', 'guard', 'failed'), ...rows);
}

function runTable(runs) {
  const rows = runs.map(([name, left]) => make('tr', {}, make('td', { text: name }), make('td', { className: left.status === 0 ? '' : 'wrong', text: endOf(left) }),
    make('td', { className: 'number', text: countsOf(left).words ?? '-' }), make('td', { className: 'number', text: `${left.ms} ms` })));
  return make('table', { id: 'runs' }, headOf('', 'end', 'machine words', 'time'), ...rows);
}

const HINT = 'To see a trace, put trace into the list on the left: then Graph shows it, and this view how often its guards fail.';

function compared(before, after) {
  if (after === before) return 'Both execute as many words.';
  return `With the passes it executes ${counted(Math.abs(after - before), 'word')} ${after < before ? 'less' : 'more'}.`;
}

export async function run(state, panel, call) {
  const plain = await runOf(state, call, {}), made = state.list ? await runOf(state, call, passOptions(state)) : plain;
  const { words, guards } = countsOf(made), before = countsOf(plain).words;
  const children = [runTable([['without passes', plain], ...(state.list ? [['with the passes', made]] : [])])];
  if (made.status !== 0) children.push(await message(made, call));
  if (state.list && words !== null && before !== null) children.push(make('p', { text: compared(before, words) }));
  if (!plain.end && !made.end && plain.out !== made.out) children.push(make('p', { className: 'wrong', text: 'The two print something else.' }));
  if (guards.length) {
    const after = await call('passes', { program: state.program, options: passOptions(state) });
    children.push(make('h2', { text: state.list ? 'Guards, in the program after the passes' : 'Guards' }), guardTable(guards, itemsOf(after.out)));
  }
  if (!state.list) children.push(make('p', { className: 'hint', text: HINT }));
  const printed = made.out ? output(made.out, made.end === 'cut', 'printed') : make('p', { text: 'Nothing was printed.' });
  panel.replaceChildren(...children, make('h2', { text: 'Output' }), printed);
}

// The lines of a text and what became of them; longer stretches that stayed are folded, and what is too long is cut with a word.
const MOST_LINES = 4000;

function marked(all) {
  const changed = all.slice(0, MOST_LINES), stays = changed.map(([mark]) => mark === ' '), rows = [];
  const row = ([mark, line]) => make('div', { className: { '+': 'new', '-': 'gone' }[mark] ?? '', text: `${mark} ${line}` });
  const folded = part => make('details', { className: 'stays' }, make('summary', { text: `... ${counted(part.length, 'line')} as before` }), ...part.map(row));
  for (let place = 0; place < changed.length;) {
    let end = place;
    while (stays[end]) end++;
    const from = place ? place + 3 : place, to = end < changed.length ? end - 3 : end;
    if (to - from > 4 && stays.includes(false)) {
      rows.push(...changed.slice(place, from).map(row), folded(changed.slice(from, to)));
      place = to;
    }
    end = Math.max(end, place + 1);
    rows.push(...changed.slice(place, end).map(row));
    place = end;
  }
  const rest = all.length - changed.length;
  return make('div', { className: 'code' }, ...rows, ...(rest ? [make('span', { className: 'cut', text: `... cut here, ${rest} more lines` })] : []));
}

export async function passes(state, panel, call) {
  const names = state.list ? state.list.split(',') : [], options = passOptions(state);
  if (!names.length) panel.append(make('p', { text: 'Put passes into the list on the left, to see what each makes of the program.' }));
  let before = null;
  for (let count = 0; count <= names.length; count++) {
    const these = { ...options, passes: names.slice(0, count).join(',') };
    const left = await call('passes', { program: state.program, options: these });
    if (left.status !== 0) return panel.append(await message(left, call));
    const ran = await runOf(state, call, these), words = countsOf(ran).words, lines = left.out.replace(/\n$/, '').split('\n');
    const changed = before ? changes(before, lines) : lines.map(line => [' ', line]), isSame = before && changed.every(([mark]) => mark === ' ');
    const items = counted(linesOf(left.out).filter(line => line.item !== null).length, 'item'), name = count ? `after ${names[count - 1]}` : 'the program';
    const title = `${name}: ${items}, ${words === null ? endOf(ran) : `${words} words`}${isSame ? ', nothing changed' : ''}`;
    panel.append(make('details', { open: !isSame }, make('summary', { text: title }), marked(changed)));
    before = lines;
  }
}

const MOST_BLOCKS = { laid: 1500, own: 300 };
const LEGEND = [['plain', 'a block of items'], ['speculative', 'in a speculation, as all of a trace'], ['next', 'where control goes'],
  ['fails', 'where a guard goes that fails'], ['back', 'the state that it brings back']];

export async function graph(state, panel, call) {
  const options = passOptions(state), ran = await runOf(state, call, options);
  const left = await call('graph', { program: state.program, options: { ...options, ...(state.showsAll ? {} : { reached: '' }) } });
  if (left.status !== 0) return panel.append(await message(left, call));
  const functions = readGraph(left.out), blocks = functions.flatMap(one => one.blocks).length;
  if (blocks > (left.laid ? MOST_BLOCKS.laid : MOST_BLOCKS.own)) {
    return panel.append(make('p', { text: `These are too many blocks to draw: ${blocks}. This is their text for dot.` }), output(left.out));
  }
  addFailures(functions, countsOf(ran).guards);
  const picture = drawGraph(functions, left.laid), width = +picture.getAttribute('width');
  const frame = make('div', { id: 'picture', tabIndex: 0, attributes: { role: 'group', 'aria-label': 'The flow graphs' } }, picture);
  let scale = 1;
  const zoom = wanted => {
    scale = Math.min(3, Math.max(0.3, wanted));
    picture.setAttribute('width', width * scale);
    picture.removeAttribute('height');
  };
  const again = async () => {
    state.showsAll = all.checked;
    panel.replaceChildren();
    await graph(state, panel, call);
    document.getElementById('all-blocks')?.focus();
  };
  const all = make('input', { type: 'checkbox', checked: Boolean(state.showsAll), id: 'all-blocks', on: { change: again } });
  panel.replaceChildren(
    make('div', { className: 'row' }, button('Smaller', () => zoom(scale / 1.25)), button('Larger', () => zoom(scale * 1.25)),
      make('label', {}, all, ' also what is never reached')),
    make('ul', { className: 'legends' }, ...LEGEND.map(([kind, text]) => make('li', { className: `legend ${kind}`, text }))), frame);
  zoom(Math.min(1, Math.max(0.85, frame.clientWidth / width)));
}
