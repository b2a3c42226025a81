// Flow graphs as `tools/cfg` writes them: reads them, places them, and draws them as a picture.
import { makeShape } from './elements.js';
import { layOut } from './layout.js';

const LINE = 14, CHARACTER = 7.25, PAD = 8, HEAD = 24;

// A text between quotes: its lines, of which `\l` ends each.
const linesOfLabel = label => label.replace(/\\(.)/g, (_, char) => char === 'l' ? '\n' : char).replace(/\n$/, '').split('\n');
const attribute = (text, name) => new RegExp(`\\b${name}=("(?:[^"\\\\]|\\\\.)*"|\\w+)`).exec(text)?.[1].replace(/^"|"$/g, '') ?? '';

// What a way is, by its colour and style.
function kindOf(text) {
  const color = attribute(text, 'color');
  return color === 'red' ? 'fails' : attribute(text, 'style') === 'dashed' ? 'back' : color === 'grey' ? 'unreached' : 'next';
}

// The functions of a text for `dot`: of each its head, its blocks with their lines, and its ways.
export function readGraph(text) {
  const functions = [];
  for (const line of text.split('\n')) {
    const head = /^    label="(.*)";$/.exec(line), block = /^    (b\d+_\d+) \[(.*)\];$/.exec(line);
    const way = /^    (b\d+_\d+) -> (b\d+_\d+)(?: \[(.*)\])?;$/.exec(line);
    if (head) functions.push({ head: linesOfLabel(head[1])[0], blocks: [], ways: [] });
    if (block) functions.at(-1).blocks.push(readBlock(block[1], block[2]));
    if (way) functions.at(-1).ways.push({ from: way[1], to: way[2], kind: kindOf(way[3] ?? ''), label: attribute(way[3] ?? '', 'label') });
  }
  return functions;
}

function readBlock(name, text) {
  const lines = linesOfLabel(attribute(text, 'label')), kind = { blue: 'speculative', grey: 'unreached' }[attribute(text, 'color')] ?? 'plain';
  return { name, lines, kind, width: Math.max(...lines.map(line => line.length)) * CHARACTER + 2 * PAD, height: lines.length * LINE + 2 * PAD };
}

// How often each guard failed, as labels of the ways that it then takes.
export function addFailures(functions, guards) {
  for (const { head, blocks, ways } of functions) {
    const name = /^@([^ ({:]+)/.exec(head)[1];
    for (const way of ways.filter(({ kind }) => kind === 'fails')) {
      const item = +/\d+/.exec(blocks.find(block => block.name === way.from).lines.at(-1))[0];
      way.fails = guards.find(guard => guard.name === name && guard.item === item)?.fails;
      if (way.fails !== undefined) way.label = `fails ${way.fails}`;
    }
  }
}

// The picture of a function by our own layout, with its size.
function placedByUs({ blocks, ways }) {
  if (!blocks.length) return { places: new Map(), paths: [], labels: [], width: 0, height: 0 };
  const { places, points } = layOut(blocks, ways.map(way => Object.assign(way, { isAside: way.kind === 'back' })));
  const corners = blocks.flatMap(({ name, width, height }) => [-1, 1].map(side => {
    const { x, y } = places.get(name);
    return { x: x + side * width / 2, y: y + side * height / 2 };
  }));
  const all = [...corners, ...points.values()].flat(), left = Math.min(...all.map(({ x }) => x)) - PAD, top = -PAD - HEAD;
  const move = ({ x, y }) => ({ x: x - left, y: y - top }), moved = ways.map(way => points.get(way).map(move));
  return {
    places: new Map([...places].map(([name, at]) => [name, move(at)])),
    paths: ways.map((way, place) => smooth(moved[place], way.isAside || way.from === way.to)),
    labels: moved.map(([a, b]) => ({ x: (a.x + b.x) / 2, y: (a.y + b.y) / 2 })),
    width: Math.max(...all.map(({ x }) => x)) - left + PAD,
    height: Math.max(...all.map(({ y }) => y)) - top + PAD,
  };
}

// The points of curves through the given ones that are upright in each, or, on a way aside, level in both ends.
function smooth(points, isAside) {
  if (isAside) return points;
  return points.flatMap((to, place) => {
    if (!place) return [to];
    const from = points[place - 1], middle = (from.y + to.y) / 2;
    return [{ x: from.x, y: middle }, { x: to.x, y: middle }, to];
  });
}

// The same of all functions by what `dot` answers in JSON, in one picture; where that doesn't fit it throws.
function placedByDot(functions, laid) {
  const { bb, objects, edges = [] } = JSON.parse(laid), [, , width, height] = bb.split(',').map(Number), scale = CHARACTER / 6.02;
  const point = text => {
    const [x, y] = text.split(',').map(Number);
    return { x: x * scale, y: (height - y) * scale };
  };
  const named = new Map(objects.map(object => [object.name, object]));
  const left = edges.map(edge => ({ ...edge, from: objects[edge.tail].name, to: objects[edge.head].name, kind: kindOf(`style=${edge.style} color=${edge.color}`) }));
  const taken = way => left.splice(left.findIndex(edge => ['from', 'to', 'kind'].every(key => edge[key] === way[key])), 1)[0];
  const pictures = functions.map(({ blocks, ways }, number) => {
    for (const block of blocks) Object.assign(block, { width: named.get(block.name).width * 72 * scale, height: named.get(block.name).height * 72 * scale });
    const found = ways.map(taken), [x0, y0, x1, y1] = named.get(`cluster_${number}`)?.bb.split(',') ?? [0, 0, 0, 0];
    const low = point(`${x0},${y1}`), high = point(`${x1},${y0}`);
    return {
      places: new Map(blocks.map(({ name }) => [name, point(named.get(name).pos)])),
      paths: found.map(edge => { const [end, ...rest] = edge.pos.replace(/^e,/, '').split(' '); return [...rest, end].map(point); }),
      labels: found.map(edge => edge.lp ? point(edge.lp) : null),
      frame: { x: low.x, y: low.y, width: high.x - low.x, height: high.y - low.y },
    };
  });
  return { pictures, width: width * scale, height: height * scale };
}

// All functions in one picture, one below the other.
function placed(functions, laid) {
  try {
    if (laid) return placedByDot(functions, laid);
  } catch {
    // What can't be read is placed by us.
  }
  let y = 4;
  const pictures = functions.map(one => {
    const picture = placedByUs(one), width = Math.max(picture.width, one.head.length * CHARACTER + 2 * PAD);
    const frame = { x: 4, y, width, height: Math.max(picture.height, HEAD + PAD) };
    y += frame.height + 12;
    return { ...picture, frame, shift: { x: 4 + (width - picture.width) / 2, y: frame.y } };
  });
  return { pictures, width: Math.max(...pictures.map(({ frame }) => frame.width), 0) + 8, height: y };
}

const numbers = ({ x, y }) => `${x.toFixed(1)} ${y.toFixed(1)}`;

// A way with its head. Its points are those of Bezier curves; one more is where the head ends, to which a line goes.
function drawWay(points, kind) {
  const last = points.at(-1), before = points.slice(0, -1).findLast(({ x, y }) => Math.hypot(last.x - x, last.y - y) > 1) ?? points[0];
  const length = Math.hypot(last.x - before.x, last.y - before.y) || 1, along = { x: (last.x - before.x) / length, y: (last.y - before.y) / length };
  const corner = side => ({ x: last.x - 9 * along.x - side * 4 * along.y, y: last.y - 9 * along.y + side * 4 * along.x });
  const curves = points.slice(1, points.length - (points.length - 1) % 3).map((point, place) => (place % 3 ? ' ' : ' C ') + numbers(point)).join('');
  return makeShape('g', { className: `way ${kind}` }, makeShape('path', { d: `M ${numbers(points[0])}${curves} L ${numbers(last)}` }),
    makeShape('polygon', { points: [last, corner(1), corner(-1)].map(numbers).join(' ') }));
}

function drawBlock({ lines, kind, width, height }, { x, y }) {
  const line = Math.min(LINE, (height - 6) / lines.length), left = x - width / 2, top = y - lines.length * line / 2 + line * 0.76;
  return makeShape('g', { className: `block ${kind}` }, makeShape('rect', { x: left, y: y - height / 2, width, height, rx: 3 }),
    ...lines.map((text, place) => makeShape('text', { x: left + PAD, y: top + place * line, text })));
}

// What is said of a way, at a place: behind it, or where `dot` made room for it.
function drawLabel({ label, kind, fails }, at, hasRoom) {
  if (!at || !label) return [];
  const className = `said ${kind}${fails ? ' often' : ''}`;
  return [makeShape('text', { className, x: at.x + (hasRoom ? 0 : 6), y: at.y + 3, 'text-anchor': hasRoom ? 'middle' : 'start', text: label })];
}

function drawFunction({ head, blocks, ways }, { places, paths, labels, frame, shift = { x: 0, y: 0 } }, hasRoom) {
  return makeShape('g', {}, makeShape('rect', { className: 'frame', ...frame, rx: 4 }),
    makeShape('text', { className: 'head', x: frame.x + PAD, y: frame.y + 17, text: head }),
    makeShape('g', { transform: `translate(${shift.x} ${shift.y})` }, ...ways.map((way, place) => drawWay(paths[place], way.kind)),
      ...blocks.map(block => drawBlock(block, places.get(block.name))), ...ways.flatMap((way, place) => drawLabel(way, labels[place], hasRoom))));
}

// The picture of flow graphs, in its own size; `laid` is how `dot` lays them out, or nothing.
export function drawGraph(functions, laid) {
  const { pictures, width, height } = placed(functions, laid), size = { width: Math.ceil(width), height: Math.ceil(height) };
  return makeShape('svg', { viewBox: `0 0 ${size.width} ${size.height}`, ...size, className: 'flow' },
    ...functions.map((one, number) => drawFunction(one, pictures[number], Boolean(laid))));
}
