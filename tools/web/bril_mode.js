// How CodeMirror colours Bril. No name is reserved in Bril: an operation is what stands where an item begins, or behind its `=`,
// without a `:` behind itself.

const TYPES = /^(?:int|bool|char|ptr|float)$/;

function nextToken(stream, state) {
  if (stream.eatSpace()) return null;
  if (stream.match(/^#.*/)) return 'comment';
  if (stream.match(/^'(?:\\[0abtnvfr]|[^])'/u) || stream.match(/^"[^"]*"?/)) return 'string';
  const { begins } = state;
  state.begins = false;
  if (stream.match(/^@[A-Za-z_%][\w%.]*/)) return 'def';
  if (stream.match(/^\.[A-Za-z_%][\w%.]*/)) return 'tag';
  if (stream.match(/^[+-]?\d[\w.]*/)) return 'number';
  const name = stream.match(/^[A-Za-z_%][\w%.]*/);
  if (name) return ofName(name[0], stream, state, begins);
  return ofMark(stream.next(), state);
}

function ofName(name, stream, state, begins) {
  if (state.typed && TYPES.test(name)) return 'type';
  if (begins && !stream.match(/^\s*:/, false)) return 'keyword';
  if (!state.inBody && /^(?:from|import|as)$/.test(name)) return 'keyword';
  return /^(?:true|false)$/.test(name) ? 'atom' : 'variable';
}

// What a mark says of the tokens behind it: whether they are a type, and whether an item or an operation begins.
function ofMark(mark, state) {
  if (mark === '{' || mark === '}') state.inBody = mark === '{';
  if (mark === ':') {
    state.begins = state.afterLabel;
    state.typed = !state.afterLabel;
  } else if (mark !== '<' && mark !== '>') {
    state.typed = false;
    state.begins = mark === '{' || mark === ';' || mark === '=';
  }
  return null;
}

export function addBril(CodeMirror) {
  CodeMirror.defineMode('bril', () => ({
    startState: () => ({ begins: false, typed: false, inBody: false, afterLabel: false }),
    token(stream, state) {
      const style = nextToken(stream, state);
      if (style !== 'comment' && stream.current().trim()) state.afterLabel = style === 'tag';
      return style;
    },
    lineComment: '#',
  }));
}
