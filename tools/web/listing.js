// The machine words of a program beside the items that they were made of.
import { headOf, make, output } from './elements.js';
import { meaningOf, targetOf } from './meanings.js';
import { linesOf } from './programs.js';
import { message, passOptions } from './views.js';
import { piecesOf } from './words.js';

const MOST_ROWS = 5000;
const TOLD = 'x2 is the frame, x8 counts the frames that may still be made, x10 and x17 are for calls of the system; other registers are variables.';
const wordsOf = left => left.status === 0 ? left.out.trimEnd().split('\n') : null;

// What stands at a pc, for whoever reads where a jump goes: the label there, or the item's number, or the pc alone.
function namer(pieces) {
  const names = new Map();
  for (const { lines: [line], first, end } of pieces) {
    const label = /^(\.\S+):$/.exec(line?.line ?? '')?.[1] ?? /^(@[^ ({:]+)/.exec(line?.line ?? '')?.[1];
    const name = label ?? (end > first && line && line.item !== null ? `item ${line.item}` : null);
    if (name && !names.has(4 * first)) names.set(4 * first, name);
  }
  return pc => names.has(pc) ? `${names.get(pc)} (${pc})` : `${pc}`;
}

// The rows of a piece: one for each word, or one without words.
function rowsOf({ lines, first, end }, words, named) {
  const count = Math.max(1, end - first), head = (className, text) => make('td', { className, text, rowSpan: count });
  const items = lines.length ? lines.map(({ line }) => line).join('\n') : '(the start and the end)';
  const heads = [head('number', lines.map(({ item }) => item ?? '').join('\n')), head(lines.length ? 'made' : 'start', items)];
  return Array.from({ length: count }, (_, offset) => {
    const place = first + offset, word = place < end ? words[place] : null, pc = 4 * place, before = words.slice(Math.max(first, place - 2), place);
    return make('tr', { className: offset ? '' : 'first' }, ...(offset ? [] : heads), make('td', { className: 'number', text: word === null ? '' : pc }),
      make('td', { className: targetOf(word, pc) === null ? 'word' : 'word jump', text: word ?? '' }),
      make('td', { className: 'does', text: word === null ? '' : meaningOf(word, pc, before, named) }));
  });
}

export async function listing(state, panel, call) {
  const options = passOptions(state), frames = state.limits.frames ? { frames: state.limits.frames } : {};
  const list = (program, more) => call('list', { program, options: { ...frames, ...more } });
  const [items, listed] = await Promise.all([call('passes', { program: state.program, options }), list(state.program, options)]);
  if (items.status !== 0 || listed.status !== 0) return panel.append(await message(items.status !== 0 ? items : listed, call));
  const words = wordsOf(listed);
  if (words.length > MOST_ROWS) {
    return panel.append(make('p', { text: `These are too many to stand side by side: ${words.length} words.` }), output(items.out), output(listed.out));
  }
  const pieces = await piecesOf(items.out, words, async program => wordsOf(await list(program)));
  const named = namer(pieces), together = pieces.filter(({ lines }) => lines.length > 1).length;
  const many = linesOf(items.out).filter(({ item }) => item !== null).length;
  panel.replaceChildren(make('p', { text: `${many} items, ${words.length} machine words. ${TOLD}` }),
    make('table', { id: 'words' }, headOf('', 'item', 'pc', 'words', 'what they do'), ...pieces.flatMap(piece => rowsOf(piece, words, named))));
  if (together) panel.prepend(make('p', { className: 'together', text: `In ${together} rows the words of several items couldn't be told apart.` }));
}
