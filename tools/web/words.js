// Which machine words were made of which item. The program's listing doesn't say it, so the page asks for the words of the same
// program with marks: before each item it puts jumps past each other, which change nothing but where words stand. What is between
// two marks was made of the item there. That is believed only where the words without the marks are the listing, each jump to the
// same word.
import { linesOf } from './programs.js';

const isLabel = line => /^\.[^ ]*:$/.test(line.trim());

// A mark of `size` words: jumps past those behind them, the last one to the next word. No two of its words are equal.
const markWords = size => Array.from({ length: size }, (_, place) => `jal x0, ${4 * (size - place)}`);
const mark = (label, size) => [...Array(size + 1).fill(`  jmp ${label};`), `${label}:`];

// The program with a mark before each of the chosen points; a point is a place in `lines` that is no label's, or that of a `}`.
// Where `even`, all other items get as many that do nothing, so that each stretch of items grows alike: before them too, but behind
// a label to which the jump before it leads, since that takes no word.
function marked(lines, chosen, size, even) {
  let prefix = '.mark';
  while (lines.some(({ line }) => line.includes(prefix))) prefix += '_';
  const padding = even ? Array(size + 2).fill('  nop;') : [];
  const jumpsTo = (line, label) => /^  (?:jmp|br) /.test(line) && line.replace(/;$/, '').split(' ').includes(label);
  const isNext = place => isLabel(lines[place].line) && jumpsTo(lines[place - 1].line, lines[place].line.slice(0, -1));
  return lines.flatMap(({ line, item }, place) => {
    if (chosen.has(place)) return [...mark(`${prefix}${place}`, size), line];
    if (item === null && line !== '}') return [line];
    return isNext(place) ? [line, ...padding] : [...padding, line];
  }).join('\n') + '\n';
}

const startsAt = (words, place, part) => part.every((word, offset) => words[place + offset] === word);
const jump = word => /^(jal x\d+|b[a-z]+ x\d+, x\d+), (-?\d+)$/.exec(word)?.slice(1) ?? null;
const turned = head => head.replace(/^b(eq|ne) /, (_, name) => name === 'eq' ? 'bne ' : 'beq ');

// Whether a branch of the listing stands here as one over a jump, as it does where its label is far.
function isFar(words, place, wanted) {
  const [head] = jump(wanted) ?? [''];
  return /^b(eq|ne) /.test(head) && words[place] === `${turned(head)}, 8` && /^jal x0, /.test(words[place + 1]);
}

// The words of a program with marks beside those without: for each of the marks in turn the place in `plain` where it stood; null
// where other words are left, or jumps to other words.
function unmarked(words, plain, count, size) {
  const marks = markWords(size), places = [], old = [], jumps = [];
  let at = 0;
  for (let place = 0; place < words.length;) {
    const isMark = startsAt(words, place, marks), taken = isMark ? size : isFar(words, place, plain[at]) ? 2 : 1;
    for (let offset = 0; offset < taken; offset++) old[place + offset] = at;
    place += taken;
    if (isMark) { places.push(at); continue; }
    if (jump(plain[at])) jumps.push([place - 1, at]); else if (words[place - 1] !== plain[at]) return null;
    at++;
  }
  const leadsAlike = ([now, before]) => {
    const [head, by] = jump(words[now]) ?? [], [wanted, distance] = jump(plain[before]);
    return (head === wanted || head === 'jal x0' && isFar(words, now - 1, plain[before])) && old[now + by / 4] === before + distance / 4;
  };
  return places.length === count && at === plain.length && jumps.every(leadsAlike) ? places : null;
}

// The points of a program that can be marked: before each item that is no label, and at the end of each function.
const pointsOf = lines => lines.flatMap(({ line, item }, place) => line === '}' || item !== null && !isLabel(line) ? [place] : []);

// For each point that could be told the place of its first word, by the places of lines. All are marked at once. Where that changes
// other words, some are marked at a time: what a branch reaches, and which registers many variables share, may depend on how many
// items are between.
async function firstWords(lines, plain, list) {
  const points = pointsOf(lines), found = new Map();
  let size = 1;
  while (plain.some((_, place) => startsAt(plain, place, markWords(size)))) size++;
  for (const step of [1, 4, 16]) {
    for (let begin = 0; begin < step; begin++) {
      const chosen = points.filter((point, number) => number % step === begin && !found.has(point));
      if (!chosen.length) continue;
      const words = await list(marked(lines, new Set(chosen), size, step === 1));
      const places = words && unmarked(words, plain, chosen.length, size);
      if (places) chosen.forEach((point, number) => found.set(point, places[number]));
    }
    if (found.size === points.length) break;
  }
  return found;
}

// The pieces of a listing in turn: of each the lines of the program that it was made of, and the place of its first word. Words
// before the first function have no line, and lines whose words can't be told apart stand in one piece. `list` gives the words of
// a program, or null.
export async function piecesOf(text, plain, list) {
  const lines = linesOf(text), found = await firstWords(lines, plain, list), pieces = [{ lines: [], first: 0 }];
  // A JAL to `main` and three words that end the program stand before the functions, and a JALR by the link ends each function.
  let begin = plain.findIndex(word => word.startsWith('jal x1, ')) + 4, next = null;
  const firsts = lines.map(() => null);
  for (let place = lines.length - 1; place >= 0; place--) {
    const isPoint = lines[place].line === '}' || lines[place].item !== null && !isLabel(lines[place].line);
    if (isPoint) next = found.get(place) ?? null;
    firsts[place] = next;
  }
  for (const [place, line] of lines.entries()) {
    const isHead = line.line.startsWith('@'), first = isHead ? begin : firsts[place];
    if (first === null) pieces.at(-1).lines.push(line); else pieces.push({ lines: [line], first });
    if (line.line === '}') begin = first === null ? null : plain.indexOf('jalr x0, x1, 0', first) + 1;
  }
  return pieces.map((piece, place) => ({ ...piece, end: pieces[place + 1]?.first ?? plain.length }));
}
