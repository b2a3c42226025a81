// A layout of a flow graph in layers, for where `dot` isn't installed. All lengths are those of the picture.

const GAP = { across: 26, down: 44, way: 12 };

// The ways without those that lead back to a block from which they came, as a walk from the first block sees it; these are turned.
function acyclic(blocks, ways) {
  const onWalk = new Set(), done = new Set(), turned = new Set();
  const visit = name => {
    const left = [[name, ways.filter(way => way.from === name)]];
    onWalk.add(name);
    while (left.length) {
      const [at, rest] = left.at(-1), way = rest.shift();
      if (!way) { onWalk.delete(at); done.add(at); left.pop(); } else if (onWalk.has(way.to)) turned.add(way); else if (!done.has(way.to)) {
        onWalk.add(way.to);
        left.push([way.to, ways.filter(next => next.from === way.to)]);
      }
    }
  };
  for (const { name } of blocks) if (!done.has(name)) visit(name);
  return ways.map(way => ({ way, isTurned: turned.has(way), from: turned.has(way) ? way.to : way.from, to: turned.has(way) ? way.from : way.to }));
}

// The layer of each block: below all from which an arc comes.
function layersOf(blocks, arcs) {
  const layer = new Map(blocks.map(({ name }) => [name, 0]));
  for (let changed = true; changed;) {
    changed = false;
    for (const { from, to } of arcs) if (layer.get(to) <= layer.get(from)) { layer.set(to, layer.get(from) + 1); changed = true; }
  }
  return layer;
}

// Rows of nodes: the blocks, and for an arc past a layer a bend in it. Each node knows those above and below.
function rowsOf(blocks, arcs, layer) {
  const nodes = new Map(blocks.map(block => [block.name, { width: block.width, height: block.height, layer: layer.get(block.name), above: [], below: [] }]));
  const rows = Array.from({ length: Math.max(...layer.values()) + 1 }, () => []);
  for (const node of nodes.values()) rows[node.layer].push(node);
  for (const arc of arcs) {
    arc.nodes = [nodes.get(arc.from)];
    for (let at = layer.get(arc.from) + 1; at < layer.get(arc.to); at++) {
      const bend = { width: GAP.way, height: 0, layer: at, above: [], below: [] };
      rows[at].push(bend);
      arc.nodes.push(bend);
    }
    arc.nodes.push(nodes.get(arc.to));
    arc.nodes.slice(1).forEach((node, place) => { node.above.push(arc.nodes[place]); arc.nodes[place].below.push(node); });
  }
  return { nodes, rows };
}

const mean = numbers => numbers.reduce((sum, number) => sum + number, 0) / numbers.length;

// Puts each row into the order of the middles of its neighbours, down and up, some times.
function order(rows) {
  const number = row => row.forEach((node, place) => { node.place = place; });
  rows.forEach(number);
  for (let turn = 0; turn < 12; turn++) {
    const side = turn % 2 ? 'below' : 'above';
    for (const row of turn % 2 ? [...rows].reverse() : rows) {
      for (const node of row) node.wanted = node[side].length ? mean(node[side].map(next => next.place)) : node.place;
      row.sort((a, b) => a.wanted - b.wanted || a.place - b.place);
      number(row);
    }
  }
}

// The places of a row that are nearest to those that are wanted, with room between: neighbours that want to be too near move as one.
function place(row) {
  const groups = [];
  let before = 0;
  for (const node of row) {
    node.offset = before + node.width / 2;
    before += node.width + GAP.across;
    groups.push({ nodes: [node], x: node.wanted - node.offset });
    while (groups.length > 1 && groups.at(-2).x > groups.at(-1).x) {
      const { nodes } = groups.pop();
      groups.at(-1).nodes.push(...nodes);
      groups.at(-1).x = mean(groups.at(-1).nodes.map(one => one.wanted - one.offset));
    }
  }
  for (const { nodes, x } of groups) for (const node of nodes) node.x = x + node.offset;
}

function placeAll(rows) {
  for (const row of rows) {
    for (const node of row) node.wanted = 0;
    place(row);
  }
  for (let turn = 0; turn < 24; turn++) {
    for (const row of turn % 2 ? [...rows].reverse() : rows) {
      for (const node of row) {
        const near = turn > 20 ? [...node.above, ...node.below] : node[turn % 2 ? 'below' : 'above'];
        node.wanted = near.length ? mean(near.map(next => next.x)) : node.x;
      }
      place(row);
    }
  }
  let y = 0;
  for (const row of rows) {
    const height = Math.max(...row.map(node => node.height));
    for (const node of row) Object.assign(node, { y: y + height / 2, top: y, bottom: y + height });
    y += height + GAP.down;
  }
}

// Where the arcs leave a block, or come to it: side by side along its lower or upper edge.
function ports(node, side, arcs) {
  const end = side === 'below' ? 0 : -1, next = arc => arc.nodes.at(side === 'below' ? 1 : -2).x;
  const mine = arcs.filter(arc => arc.nodes.at(end) === node).sort((a, b) => next(a) - next(b));
  mine.forEach((arc, number) => {
    arc[side] = { x: node.x + ((number + 1) / (mine.length + 1) - 0.5) * node.width * 0.7, y: node.y + (side === 'below' ? 1 : -1) * node.height / 2 };
  });
}

// Places blocks of given widths and heights and the ways between them: `blocks` are {name, width, height}, `ways` {from, to,
// isAside}. Answers the middle of each block by its name, and the points of each way, through which it goes straight down or up.
// A way aside moves no block, and goes around the right of both.
export function layOut(blocks, ways) {
  const arcs = acyclic(blocks, ways.filter(way => way.from !== way.to && !way.isAside));
  const { nodes, rows } = rowsOf(blocks, arcs, layersOf(blocks, arcs));
  order(rows);
  placeAll(rows);
  for (const node of nodes.values()) {
    ports(node, 'below', arcs);
    ports(node, 'above', arcs);
  }
  const points = new Map(arcs.map(arc => {
    const bends = arc.nodes.slice(1, -1).flatMap(({ x, top, bottom }) => [{ x, y: top }, { x, y: bottom }]), path = [arc.below, ...bends, arc.above];
    return [arc.way, arc.isTurned ? path.reverse() : path];
  }));
  for (const way of ways) if (!points.has(way)) points.set(way, aside(nodes.get(way.from), nodes.get(way.to)));
  return { places: new Map([...nodes].map(([name, { x, y }]) => [name, { x, y }])), points };
}

function aside(from, to) {
  const x = Math.max(from.x + from.width / 2, to.x + to.width / 2) + 18, shift = from === to ? from.height / 4 : 0;
  return [{ x: from.x + from.width / 2, y: from.y + shift }, { x, y: from.y + shift }, { x, y: to.y - shift }, { x: to.x + to.width / 2, y: to.y - shift }];
}
