// Elements of the page.

// An element with its classes, its attributes, its text or children, and what happens where it is used.
export function make(kind, { className, text, on, attributes, ...rest } = {}, ...children) {
  return dress(Object.assign(document.createElement(kind), rest), { className, text, on, attributes }, children);
}

// The same of a picture.
export function makeShape(kind, { className, text, on, ...attributes } = {}, ...children) {
  return dress(document.createElementNS('http://www.w3.org/2000/svg', kind), { className, text, on, attributes }, children);
}

function dress(made, { className, text, on = {}, attributes = {} }, children) {
  if (className) made.setAttribute('class', className);
  if (text !== undefined) made.textContent = text;
  for (const [name, value] of Object.entries(attributes)) made.setAttribute(name, value);
  for (const [event, does] of Object.entries(on)) made.addEventListener(event, does);
  made.append(...children);
  return made;
}

export const button = (text, does, rest = {}) => make('button', { text, type: 'button', on: { click: does }, ...rest });
export const headOf = (...texts) => make('tr', {}, ...texts.map(text => make('th', { text, scope: 'col' })));
export const counted = (count, one, many = `${one}s`) => `${count} ${count === 1 ? one : many}`;

// A text of many lines; what is too long for a page to show, or was too long to be sent, is cut with a word.
const MOST_SHOWN = 200_000;

export function output(text, wasCut = false, className = '') {
  const rest = text.length - MOST_SHOWN, end = rest > 0 ? `\n... cut here, ${rest} more characters` : '';
  const shown = make('pre', { className, text: text.slice(0, MOST_SHOWN) });
  if (end || wasCut) shown.append(make('span', { className: 'cut', text: end + (wasCut ? '\n... cut here: no more was taken' : '') }));
  return shown;
}
