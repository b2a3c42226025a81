// What a machine word does, in a few words.

const OPERATIONS = { add: '+', sub: '-', mul: '*', div: '/', and: '&', or: '|', xor: '^', sll: '<<', srl: '>>', sra: '>>', slt: '<', sltu: '<' };
const BRANCHES = { beq: '=', bne: '≠', blt: '<', bge: '≥', bltu: '<', bgeu: '≥' };
const CALLS = ['', 'print x10', 'print x10 as true or false', 'print x10 as a character', 'print a blank', 'print a line feed',
  'get a block of x10 cells', 'free the block x10', 'end'];
const FAULTS = ['the end of the program', 'DivZero', 'BadChar', 'BadAlloc', 'BadFree', 'Access', 'Uninit', 'Leak', 'Frames', 'Cells', 'PtrRange', 'Allocs'];

const shown = register => register === 'x0' ? '0' : register;
const sum = (register, number) => register === 'x0' ? `${number}` : number === 0 ? register : `${register} ${number < 0 ? '-' : '+'} ${Math.abs(number)}`;

// Where a word at this pc may go on, by its own distance; null if only to the next word, or to where a register says.
export function targetOf(word, pc) {
  const found = /^(?:jal x\d+|b[a-z]+ x\d+, x\d+), (-?\d+)$/.exec(word);
  return found ? pc + +found[1] : null;
}

// The number that the last of these words puts into a register, if it is a constant.
function constantIn(register, words) {
  const found = words.map(word => new RegExp(`^addi ${register}, x0, (-?\\d+)$`).exec(word)).filter(Boolean).at(-1);
  return found ? +found[1] : null;
}

function callOf(before) {
  const number = constantIn('x17', before.slice(-1));
  return number === 8 ? `end: ${FAULTS[constantIn('x10', before.slice(-2))] ?? 'x10 says how'}` : CALLS[number] ?? 'call';
}

// What a word does. `before` are the words that stand before it, and `named` says of a pc what stands there.
export function meaningOf(word, pc, before, named) {
  const [name, ...rest] = word.split(/,? /), [a, b, c] = rest, number = +rest.at(-1), target = targetOf(word, pc);
  if (word === 'ecall') return callOf(before);
  if (word === 'jalr x0, x1, 0') return 'go back to the caller';
  if (name === 'jal') return a === 'x0' ? `go to ${named(target)}` : `call ${named(target)}`;
  if (BRANCHES[name]) return `go to ${named(target)} if ${shown(a)} ${BRANCHES[name]} ${shown(b)}`;
  if (name === 'lui') return `${a} = ${number * 4096}`;
  const memory = /^(-?\d+)\((x\d+)\)$/.exec(b);
  if (memory) return name === 'sd' ? `memory[${sum(memory[2], +memory[1])}] = ${shown(a)}` : `${a} = memory[${sum(memory[2], +memory[1])}]`;
  if (name === 'addi') return `${a} = ${sum(b, number)}`;
  if (name === 'sltiu' && number === 1) return `${a} = 1 if ${b} = 0, else 0`;
  if (name === 'srli' && number === 0) return `${a} = ${b}`;
  const operation = OPERATIONS[name] ?? OPERATIONS[name.replace(/i(u?)$/, '$1')];
  return operation ? `${a} = ${shown(b)} ${operation} ${shown(c)}` : '';
}
