// Steps through the program on the machine. The program's `monitor` reads a whole script, so each order runs the script so far again.
import { endOf } from './calls.js';
import { button, headOf, make, output } from './elements.js';
import { linesOf } from './programs.js';
import { message, passOptions } from './views.js';

const MOST_ITEMS = 3000;
const fresh = (key, text, marks = new Set()) => ({
  key, text, marks, orders: [...marks].map(place => `break ${place}`), at: null, variables: new Map(), before: new Map(), ended: '', printed: '',
});

// What a script wrote: the last stop, the variables that were shown there, and what the program printed before; where it ended all
// that it printed. No program prints such lines as these: between two characters of one item stands a blank.
function read(text, hasEnded) {
  const lines = text.replace(/\n$/, '').split('\n'), last = hasEnded ? -1 : lines.findLastIndex(line => /^stop @\S+ \d+$/.test(line));
  const [, name, item] = /^stop @(\S+) (\d+)$/.exec(lines[last]) ?? [], shown = last < 0 ? [] : lines.slice(last + 1);
  const variables = shown.map(line => /^([A-Za-z_%][\w%.]*): (.*)$/.exec(line)).filter(Boolean).map(([, variable, value]) => [variable, value]);
  const printed = (hasEnded ? lines : lines.slice(0, last)).filter(line => !/^(?:(?:stop|no point) @\S+ \d+|end)$/.test(line));
  return { at: name && { name, item: +item }, variables: new Map(variables), printed: printed.join('\n') };
}

// Carries out one more order, and answers what there is to say of it: a text, or how the call ended.
async function carryOut(line, state, call) {
  const now = state.monitor, goesOn = /^(go|step)$/.test(line);
  if (goesOn && now.ended) return '';
  const script = [...now.orders, line, ...(goesOn ? ['show'] : [])].map(text => text + '\n').join('');
  const left = await call('monitor', { program: now.text, args: state.args, options: state.limits, script });
  if (left.end || ![0, 2, 3].includes(left.status)) return left;
  const [, verb, place] = /^(\w+) ?(.*)$/.exec(line);
  if (left.out.includes(`no point ${place}\n`)) return 'The machine never stops there: it is a label, a nop, or never reached.';
  now.orders.push(line);
  if (verb === 'break') now.marks.add(place);
  if (verb === 'clear') now.marks.delete(place);
  if (goesOn) {
    now.ended = left.status !== 0 ? endOf(left) : /^end$/m.test(left.out) ? 'the program has ended' : '';
    Object.assign(now, { before: now.variables }, read(left.out, Boolean(now.ended)));
  }
  return left.status === 0 ? '' : left;
}

// The items as buttons that set and take marks; the arrow keys go from one to the next.
function itemList(text, mark) {
  const places = new Map(), lines = linesOf(text).map(({ line, name, item }) => {
    if (item === null) return make('div', { className: 'mono', text: line });
    const made = button(`${String(item).padStart(3)} ${line}`, () => mark(`@${name} ${item}`), { className: 'item', tabIndex: places.size ? -1 : 0 });
    places.set(`@${name} ${item}`, made);
    return made;
  });
  const move = event => {
    const all = [...places.values()], at = all.indexOf(event.target), to = { ArrowDown: at + 1, ArrowUp: at - 1, Home: 0, End: all.length - 1 }[event.key];
    if (at < 0 || to === undefined) return;
    event.preventDefault();
    const next = all[Math.max(0, Math.min(all.length - 1, to))];
    for (const item of all) item.tabIndex = item === next ? 0 : -1;
    next.focus();
  };
  const attributes = { role: 'group', 'aria-label': 'Items: Enter marks one, where go stops' };
  return { places, list: make('div', { className: 'items', on: { keydown: move }, attributes }, ...lines) };
}

function variableRows({ variables, before }) {
  return [...variables].map(([name, value]) => {
    const old = before.get(name), isNew = old !== value;
    return make('tr', { className: isNew ? 'here' : '' }, make('td', { className: 'mono', text: name }), make('td', { className: 'mono value', text: value }),
      make('td', { className: 'mono old', text: isNew ? old ?? 'new' : '' }));
  });
}

// What shows where the program is, and a function that brings it up to date.
function display(places, list, buttons) {
  const said = make('span', { id: 'monitor-at', attributes: { role: 'status' } }), rows = make('tbody'), printed = make('div', { id: 'printed' });
  function update(now) {
    const here = now.at && `@${now.at.name} ${now.at.item}`, item = places.get(here);
    for (const made of buttons) made.setAttribute('aria-disabled', String(Boolean(now.ended)));
    for (const [place, made] of places) {
      made.classList.toggle('marked', now.marks.has(place));
      made.classList.toggle('here', place === here);
      made.setAttribute('aria-pressed', String(now.marks.has(place)));
    }
    said.textContent = now.ended || (now.at ? `at item ${now.at.item} of @${now.at.name}` : 'not begun');
    rows.replaceChildren(...variableRows(now));
    printed.replaceChildren(now.printed ? output(now.printed) : 'nothing yet');
    if (item) list.scrollTop += item.getBoundingClientRect().top - list.getBoundingClientRect().top - list.clientHeight / 2;
  }
  const shown = make('div', {}, make('h2', { text: 'Variables that are still read' }),
    make('table', { id: 'variables' }, make('thead', {}, headOf('name', 'value', 'before')), rows), make('h2', { text: 'Printed' }), printed);
  return { said, shown, update };
}

export async function monitor(state, panel, call) {
  const made = await call('passes', { program: state.program, options: state.stepsMade ? passOptions(state) : { passes: '' } });
  if (made.status !== 0) return panel.replaceChildren(await message(made, call));
  if (linesOf(made.out).length > MOST_ITEMS) {
    return panel.replaceChildren(make('p', { text: 'These are too many items to step through here: `tools/step` takes them.' }));
  }
  const key = JSON.stringify([made.out, state.args, state.limits]), told = make('div');
  if (state.monitor?.key !== key) state.monitor = fresh(key, made.out);
  let queue = Promise.resolve();
  async function follow(line) {
    const left = await carryOut(line, state, call);
    told.replaceChildren(typeof left === 'string' ? left : await message(left, call));
    update(state.monitor);
  }
  const order = line => { queue = queue.then(() => follow(line)); };
  const again = () => {
    state.monitor = fresh(key, made.out, state.monitor.marks);
    told.replaceChildren();
    update(state.monitor);
  };
  const keys = event => {
    const does = { s: () => order('step'), g: () => order('go'), r: again }[event.key];
    if (does && !event.ctrlKey && !event.metaKey && !event.altKey) does();
  };
  const change = async () => {
    state.stepsMade = after.checked;
    await monitor(state, panel, call);
    document.getElementById('after-passes')?.focus();
  };
  const { places, list } = itemList(made.out, place => order(`${state.monitor.marks.has(place) ? 'clear' : 'break'} ${place}`));
  const buttons = [['step', 'Step (s)'], ['go', 'Go (g)']].map(([line, title]) => button(title, () => order(line), { id: `monitor-${line}` }));
  const after = make('input', { type: 'checkbox', id: 'after-passes', checked: Boolean(state.stepsMade), on: { change } });
  const { said, shown, update } = display(places, list, buttons);
  const choice = state.list ? [make('label', {}, after, ' the program after the passes')] : [];
  panel.replaceChildren(make('div', { on: { keydown: keys } },
    make('div', { className: 'row' }, ...buttons, button('From the start (r)', again, { id: 'monitor-again' }), ...choice, said),
    told, make('div', { className: 'columns' }, list, shown)));
  update(state.monitor);
}
