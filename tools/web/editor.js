// The editor of the program's text: CodeMirror, where Debian's package libjs-codemirror is installed, else a text area with the
// numbers of its lines. Both have a text, mark a line with a fault, and put the cursor there; Tab leaves them.
import { addBril } from './bril_mode.js';
import { make } from './elements.js';

const LABEL = "The program's text";

// An editor in the place of `host`. `changed` is called after each change by hand.
export async function openEditor(host, installed, changed) {
  if (!installed.includes('library/codemirror.js')) return plainEditor(host, changed);
  // Its style stands before the page's own, which says what is otherwise.
  await new Promise(done => document.head.prepend(make('link', { rel: 'stylesheet', href: 'library/codemirror.css', on: { load: done, error: done } })));
  await import('./library/codemirror.js').catch(() => {});
  return globalThis.CodeMirror?.defineMode ? richEditor(host, globalThis.CodeMirror, changed) : plainEditor(host, changed);
}

function richEditor(host, CodeMirror, changed) {
  addBril(CodeMirror);
  const extraKeys = { Tab: false, 'Shift-Tab': false };
  const editor = CodeMirror(host, { mode: 'bril', theme: 'bril', lineNumbers: true, indentUnit: 2, screenReaderLabel: LABEL, extraKeys });
  editor.on('change', (_, change) => { if (change.origin !== 'setValue') changed(); });
  let unmark = () => {};
  return {
    name: 'CodeMirror',
    get text() { return editor.getValue(); },
    set text(text) { editor.setValue(text); editor.clearHistory(); },
    // Marks a line, from 0, and in it what stands from a column on; or takes the mark away.
    mark(place) {
      unmark();
      unmark = () => {};
      if (!place || place.line >= editor.lineCount()) return;
      const line = editor.addLineClass(place.line, 'wrap', 'wrong-line'), end = editor.getLine(place.line).length;
      const text = editor.markText({ line: place.line, ch: place.column }, { line: place.line, ch: end }, { className: 'wrong-text' });
      unmark = () => { editor.removeLineClass(line, 'wrap', 'wrong-line'); text.clear(); };
    },
    go({ line, column }) { editor.focus(); editor.setCursor(line, column); },
    marked: () => [...host.querySelectorAll('.wrong-line .CodeMirror-linenumber')].map(number => number.textContent),
  };
}

function plainEditor(host, changed) {
  const gutter = make('pre', { id: 'gutter', attributes: { 'aria-hidden': 'true' } });
  const band = make('div', { id: 'band', hidden: true, attributes: { 'aria-hidden': 'true' } });
  const area = make('textarea', { id: 'source', wrap: 'off', spellcheck: false, attributes: { 'aria-label': LABEL } });
  let at = null;
  const follow = () => {
    gutter.scrollTop = area.scrollTop;
    band.hidden = at === null;
    const { lineHeight, paddingTop } = getComputedStyle(area), height = parseFloat(lineHeight);
    if (at !== null) Object.assign(band.style, { height: `${height}px`, top: `${parseFloat(paddingTop) + at * height - area.scrollTop}px` });
  };
  const number = () => {
    const numbers = area.value.split('\n').map((_, line) => `${line + 1}\n`), part = (from, to) => numbers.slice(from, to).join('');
    gutter.replaceChildren(...(at === null ? [part()] : [part(0, at), make('span', { className: 'wrong', text: part(at, at + 1) }), part(at + 1)]));
    follow();
  };
  area.addEventListener('input', () => { number(); changed(); });
  area.addEventListener('scroll', follow);
  host.append(gutter, make('div', { id: 'written' }, band, area));
  return {
    name: 'text area',
    get text() { return area.value; },
    set text(text) { area.value = text; at = null; number(); },
    mark(place) { at = place?.line ?? null; number(); },
    go({ line, column }) {
      const start = area.value.split('\n').slice(0, line).reduce((sum, text) => sum + text.length + 1, 0) + column;
      area.focus();
      area.setSelectionRange(start, start);
    },
    marked: () => [...gutter.querySelectorAll('.wrong')].map(span => span.textContent.trim()),
  };
}
