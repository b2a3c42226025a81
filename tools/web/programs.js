// Programs as text: the items of a canonical text, the place of an item in any text, and what differs between two texts.

// The lines of a canonical text, each with its function and the number of its item, if it is one.
export function linesOf(text) {
  let name = null, item = 0;
  return text.replace(/\n$/, '').split('\n').map(line => {
    if (line.startsWith('@')) { name = /^@([^ ({:]+)/.exec(line)[1]; item = 0; return { line, name, item: null }; }
    return line === '}' ? { line, name, item: null } : { line, name, item: item++ };
  });
}

// The tokens of a text, as far as items are to be found: comments and chars are left out.
function* tokens(text) {
  const pattern = /#[^\n]*|'(?:\\[0abtnvfr]|[^\n])'|[@.]?[A-Za-z_%][A-Za-z0-9_%.]*|\S/g;
  for (const found of text.matchAll(pattern)) if (!/^[#']/.test(found[0])) yield { text: found[0], at: found.index };
}

// Where item `item` of function `number` begins in a text, or the function itself where the item is none; -1 if nowhere.
export function placeOf(text, number, item) {
  let depth = 0, seen = -1, count = 0, begins = true, before = null, open = -1;
  for (const token of tokens(text)) {
    if (depth === 0 && token.text[0] === '@' && before !== 'import' && before !== 'as' && before !== ',') { seen++; open = token.at; }
    if (seen === number && depth === 0 && item === null && open >= 0) return open;
    if (token.text === '{') { depth = 1; count = 0; begins = true; before = '{'; continue; }
    if (token.text === '}') { if (seen === number && count === item) return token.at; depth = 0; }
    if (depth === 1 && begins) { if (seen === number && count === item) return token.at; begins = false; }
    if (depth === 1 && (token.text === ';' || token.text === ':' && before[0] === '.')) { count++; begins = true; }
    before = token.text;
  }
  return -1;
}

// Where a message of `check` points to in a text; -1 if nowhere.
export function placeOfMessage(text, message) {
  const byte = /^page\.bril: text \d+ at (\d+)/.exec(message);
  if (byte) return new TextDecoder().decode(new TextEncoder().encode(text).slice(0, +byte[1])).length;
  const item = /^(?:name|check) \d+ function (\d+) item (\d+|-)/.exec(message);
  return item ? placeOf(text, +item[1], item[2] === '-' ? null : +item[2]) : -1;
}

// The lines of two lists with what becomes of them: ' ', '-' and '+', by the longest common sequence.
export function changes(before, after) {
  let from = 0, end = 0;
  while (from < before.length && from < after.length && before[from] === after[from]) from++;
  while (end < before.length - from && end < after.length - from && before.at(-1 - end) === after.at(-1 - end)) end++;
  const a = before.slice(from, before.length - end), b = after.slice(from, after.length - end);
  const most = a.length * b.length > 4e6 ? null : table(a, b), made = [];
  let i = 0, j = 0;
  while (most && i < a.length && j < b.length) {
    if (a[i] === b[j]) { made.push([' ', b[j++]]); i++; } else if (most[i + 1][j] >= most[i][j + 1]) made.push(['-', a[i++]]); else made.push(['+', b[j++]]);
  }
  const same = lines => lines.map(line => [' ', line]);
  return [...same(before.slice(0, from)), ...made, ...a.slice(i).map(line => ['-', line]), ...b.slice(j).map(line => ['+', line]),
    ...same(before.slice(before.length - end))];
}

function table(a, b) {
  const most = Array.from({ length: a.length + 1 }, () => new Uint32Array(b.length + 1));
  for (let i = a.length - 1; i >= 0; i--) for (let j = b.length - 1; j >= 0; j--) most[i][j] = a[i] === b[j] ? most[i + 1][j + 1] + 1 : Math.max(most[i + 1][j], most[i][j + 1]);
  return most;
}
