// @ts-check
/**
 * Lays boxes out in layers: supertypes and containers come first. A line that passes a layer has a point there. The order in a layer, and
 * the positions, follow the neighbours.
 */

/** @typedef {import('./mermaid.mjs').Picture} Picture */
/** @typedef {{x: number, y: number}} Point */
/**
 * A box or a point of a line: its size, its layer, its middle, and its neighbours in the layers above and below.
 * @typedef {{width: number, height: number, layer: number, x: number, y: number, up: number[], down: number[]}} Spot
 */
/**
 * The middle of each box, the points of each line, and the size.
 * @typedef {{boxes: Spot[], lines: Point[][], width: number, height: number}} Layout
 */

const GAP = 36; // between boxes
const LAYERS = 100; // between layers
const ASIDE = 110; // between columns of boxes without lines: a line of a box to itself has its label there
const LEAST = 600; // height of a column
const SWEEPS = 12;

/**
 * @param {Picture} picture
 * @param {{width: number, height: number}[]} sizes
 * @returns {Layout}
 */
export function layOut(picture, sizes) {
  const numbers = new Map(picture.boxes.map((it, at) => [it.name, at]));
  const ends = picture.lines.map((it) => [numbers.get(it.from) ?? 0, numbers.get(it.to) ?? 0]);
  const lone = new Set(sizes.keys());
  ends.forEach(([from, to]) => from !== to && (lone.delete(from), lone.delete(to)));
  /** @type {Spot[]} */
  const spots = sizes.map((size) => ({ ...size, layer: 0, x: 0, y: 0, up: [], down: [] }));
  const kept = downward(sizes.length, ends);
  setLayers(spots, kept);
  const chains = addPoints(spots, kept);
  const layers = inLayers(spots, lone);
  for (let sweep = 0; sweep < SWEEPS; sweep += 1) {
    order(layers, spots, sweep % 2 === 0 ? 'up' : 'down');
  }
  setPlaces(layers, spots);
  const joined = spots.filter((_, at) => !lone.has(at));
  const width = Math.max(0, ...joined.map((it) => it.x + it.width / 2));
  const height = Math.max(0, ...joined.map((it) => it.y + it.height / 2));
  const size = placeLone([...lone].map((it) => spots[it]), width, height);
  const ways = setPorts(chains, spots);
  const lines = ways.map((way, at) => (kept[at].isTurned ? way.reverse() : way));
  return { boxes: spots.slice(0, sizes.length), lines, ...size };
}

/**
 * Reverses lines that would close a cycle.
 * @param {number} count
 * @param {number[][]} ends
 * @returns {{from: number, to: number, isTurned: boolean}[]}
 */
function downward(count, ends) {
  const out = Array.from({ length: count }, () => /** @type {number[]} */ ([]));
  ends.forEach(([from], line) => out[from].push(line));
  const turned = new Set();
  const state = new Array(count).fill(0);
  for (let top = 0; top < count; top += 1) {
    const stack = state[top] === 0 ? [{ box: top, at: 0 }] : [];
    state[top] = state[top] || 1;
    while (stack.length > 0) {
      const here = stack[stack.length - 1];
      const line = out[here.box][here.at];
      here.at += 1;
      if (line === undefined) {
        state[here.box] = 2;
        stack.pop();
      } else if (state[ends[line][1]] === 1) {
        turned.add(line);
      } else if (state[ends[line][1]] === 0) {
        state[ends[line][1]] = 1;
        stack.push({ box: ends[line][1], at: 0 });
      }
    }
  }
  return ends.map(([from, to], line) => (turned.has(line) ? { from: to, to: from, isTurned: true } : { from, to, isTurned: false }));
}

/**
 * Puts each box into a layer below all boxes from which lines lead to it.
 * @param {Spot[]} spots
 * @param {{from: number, to: number}[]} lines
 */
function setLayers(spots, lines) {
  let isMoved = true;
  for (let round = 0; isMoved && round <= spots.length; round += 1) {
    isMoved = false;
    for (const { from, to } of lines) {
      if (from !== to && spots[to].layer <= spots[from].layer) {
        spots[to].layer = spots[from].layer + 1;
        isMoved = true;
      }
    }
  }
}

/**
 * Adds a point for each layer that a line passes. Returns the points of each line.
 * @param {Spot[]} spots
 * @param {{from: number, to: number}[]} lines
 * @returns {number[][]}
 */
function addPoints(spots, lines) {
  return lines.map(({ from, to }) => {
    const chain = [from];
    for (let layer = spots[from].layer + 1; from !== to && layer < spots[to].layer; layer += 1) {
      spots.push({ width: 8, height: 0, layer, x: 0, y: 0, up: [], down: [] });
      chain.push(spots.length - 1);
    }
    chain.push(to);
    for (let at = 0; from !== to && at + 1 < chain.length; at += 1) {
      spots[chain[at]].down.push(chain[at + 1]);
      spots[chain[at + 1]].up.push(chain[at]);
    }
    return chain;
  });
}

/**
 * The boxes and points of each layer.
 * @param {Spot[]} spots
 * @param {Set<number>} lone
 * @returns {number[][]}
 */
function inLayers(spots, lone) {
  /** @type {number[][]} */
  const layers = [];
  spots.forEach((spot, at) => {
    if (!lone.has(at)) {
      (layers[spot.layer] ??= []).push(at);
    }
  });
  return layers.filter((it) => it !== undefined);
}

/**
 * Orders each layer by the middle of the neighbours in the layer above or below.
 * @param {number[][]} layers
 * @param {Spot[]} spots
 * @param {'up' | 'down'} side
 */
function order(layers, spots, side) {
  for (const layer of side === 'up' ? layers : [...layers].reverse()) {
    layer.forEach((it, at) => (spots[it].x = at));
  }
  for (const layer of side === 'up' ? layers : [...layers].reverse()) {
    const wanted = new Map(layer.map((it) => [it, middle(spots[it][side], spots) ?? spots[it].x]));
    layer.sort((one, other) => (wanted.get(one) ?? 0) - (wanted.get(other) ?? 0));
    layer.forEach((it, at) => (spots[it].x = at));
  }
}

/**
 * The middle of some boxes and points.
 * @param {number[]} some
 * @param {Spot[]} spots
 * @returns {number | null}
 */
function middle(some, spots) {
  return some.length === 0 ? null : some.reduce((sum, it) => sum + spots[it].x, 0) / some.length;
}

/**
 * Gives each box and point its position: in its order, as near to its neighbours as possible.
 * @param {number[][]} layers
 * @param {Spot[]} spots
 */
function setPlaces(layers, spots) {
  let top = GAP / 2;
  for (const layer of layers) {
    const height = Math.max(...layer.map((it) => spots[it].height));
    let left = 0;
    for (const it of layer) {
      spots[it].y = top + height / 2;
      spots[it].x = left + spots[it].width / 2;
      left += spots[it].width + GAP;
    }
    top += height + LAYERS;
  }
  for (let sweep = 0; sweep < SWEEPS; sweep += 1) {
    const side = sweep % 2 === 0 ? 'up' : 'down';
    for (const layer of side === 'up' ? layers : [...layers].reverse()) {
      pull(layer, spots, side);
    }
  }
  const least = Math.min(0, ...layers.flat().map((it) => spots[it].x - spots[it].width / 2)) - GAP / 2;
  layers.flat().forEach((it) => (spots[it].x -= least));
}

/**
 * Moves the boxes and points of a layer to their neighbours, and then apart: from the left, from the right, and to the middle of both.
 * @param {number[]} layer
 * @param {Spot[]} spots
 * @param {'up' | 'down'} side
 */
function pull(layer, spots, side) {
  const wanted = layer.map((it) => middle(spots[it][side], spots) ?? spots[it].x);
  const gap = (/** @type {number} */ at) => (spots[layer[at]].width + spots[layer[at + 1]].width) / 2 + GAP;
  const right = [...wanted];
  const left = [...wanted];
  for (let at = 0; at + 1 < layer.length; at += 1) {
    right[at + 1] = Math.max(right[at + 1], right[at] + gap(at));
  }
  for (let at = layer.length - 2; at >= 0; at -= 1) {
    left[at] = Math.min(left[at], left[at + 1] - gap(at));
  }
  layer.forEach((it, at) => (spots[it].x = (left[at] + right[at]) / 2));
}

/**
 * Gives each line its own position at the lower side of its first box and at the upper side of its last box, in the order of the next
 * points.
 * @param {number[][]} chains
 * @param {Spot[]} spots
 * @returns {Point[][]}
 */
function setPorts(chains, spots) {
  const ways = chains.map((chain) => chain.map((it) => ({ x: spots[it].x, y: spots[it].y })));
  for (const side of [0, 1]) {
    /** @type {Map<number, number[]>} */
    const lines = new Map();
    chains.forEach((chain, line) => {
      const box = side === 0 ? chain[0] : chain[chain.length - 1];
      lines.set(box, [...(lines.get(box) ?? []), line]);
    });
    for (const [box, some] of lines) {
      const next = (/** @type {number} */ line) => spots[side === 0 ? chains[line][1] : chains[line][chains[line].length - 2]].x;
      some.sort((one, other) => next(one) - next(other) || one - other);
      const { x, y, width, height } = spots[box];
      some.forEach((line, at) => {
        const port = ways[line][side === 0 ? 0 : ways[line].length - 1];
        port.x = x - width / 2 + (width * (at + 1)) / (some.length + 1);
        port.y = side === 0 ? y + height / 2 : y - height / 2;
      });
    }
  }
  return ways;
}

/**
 * Puts boxes without lines in columns on the right of the others. Returns the size of the diagram.
 * @param {Spot[]} lone
 * @param {number} width of the others
 * @param {number} height of the others
 * @returns {{width: number, height: number}}
 */
function placeLone(lone, width, height) {
  const tall = Math.max(height, LEAST);
  let [left, top, wide, low] = [width + (width > 0 ? ASIDE : GAP / 2), GAP / 2, 0, height];
  for (const spot of lone) {
    if (top + spot.height > tall && top > GAP) {
      [left, top, wide] = [left + wide + ASIDE, GAP / 2, 0];
    }
    spot.x = left + spot.width / 2;
    spot.y = top + spot.height / 2;
    top += spot.height + GAP;
    low = Math.max(low, top - GAP);
    wide = Math.max(wide, spot.width);
  }
  return { width: lone.length > 0 ? left + wide : width, height: low + GAP / 2 };
}
