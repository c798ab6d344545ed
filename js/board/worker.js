/* The worker of the board. It asks the proved functions for all that is played, and the page stays free meanwhile.
 * Lattices, numbers drawn at random and files are its own, and not proved. */
import { ChipfireFault, Graph, load } from "../chipfire.js";

const STOPPED = 13;
const SIZES = 1024;
const DEGREES = { square: 4, triangular: 6, hexagonal: 3 };
/** How many vertices are compared before all are. */
const FEW = 200;
/** How borders are joined, and how many chips each firing dissipates, since without a border none would leave. */
const BORDERS = {
  open: { periodic: [false, false], loss: 0 },
  sides: { periodic: [false, true], loss: 0 },
  all: { periodic: [true, true], loss: 1 },
};

let chipfire, graph, pile;

const numbersOf = (words) => {
  const found = new Float64Array(words.length);
  for (let at = 0; at < words.length; at++) found[at] = Number(words[at]);
  return found;
};

const wordsOf = (numbers) => BigUint64Array.from(numbers, BigInt);

const sumOf = (numbers) => numbers.reduce((sum, it) => sum + it, 0);

/** Numbers from 0 to below 1 that a seed determines (mulberry32). */
function drawn(seed) {
  let state = seed >>> 0;
  return () => {
    state = (state + 0x6d2b79f5) >>> 0;
    let it = Math.imul(state ^ (state >>> 15), 1 | state);
    it = (it + Math.imul(it ^ (it >>> 7), 61 | it)) ^ it;
    return ((it ^ (it >>> 14)) >>> 0) / 2 ** 32;
  };
}

const gridOf = ({ lattice, rows, columns, borders }) =>
  Graph.grid(rows, columns, { lattice, ...BORDERS[borders] });

/** How many chips each vertex needs to fire. */
function degrees() {
  const found = new Float64Array(graph.vertices);
  for (let edge = 0; edge < graph.tails.length; edge++) {
    found[Number(graph.tails[edge])] += Number(graph.mults[edge]);
  }
  return found;
}

/** Keeps a game with these chips, in place of the one before. */
function keep(chips, limit) {
  pile?.free();
  pile = undefined;
  pile = chipfire.pile(graph, wordsOf(chips), { limit });
}

/** Plays the pile to its end, or as far as its limit allows: whether it ended. */
function playOn() {
  try {
    pile.drops([]);
    return true;
  } catch (fault) {
    if (fault instanceof ChipfireFault && fault.number === STOPPED) return false;
    throw fault;
  }
}

/** Drops a chip on each of these vertices: of each avalanche the size, the area, and what was dissipated. */
function dropAll(vertices) {
  const { sizes, areas, losts } = pile.drops(vertices);
  return Array.from(sizes, (size, drop) => [size, areas[drop], losts[drop]].map(Number));
}

const ends = (chips) => numbersOf(chipfire.stabilize(graph, wordsOf(chips)).chips);

/** Makes what a board begins with, by the name of what it is. */
const FILLS = {
  heap({ amount, rows, columns }) {
    const chips = new Float64Array(graph.vertices);
    chips[columns * Math.floor(rows / 2) + Math.floor(columns / 2)] = amount;
    return chips;
  },
  uniform: ({ amount }) => new Float64Array(graph.vertices).fill(amount, 0, graph.sink),
  random({ amount, seed }) {
    const draw = drawn(seed);
    return new Float64Array(graph.vertices).map((_, at) => (at < graph.sink ? Math.floor(draw() * (amount + 1)) : 0));
  },
  identity: () => numbersOf(chipfire.identity(graph)),
  recurrent({ seed }) {
    const draw = drawn(seed);
    const chips = ends(degrees().map((degree) => degree && degree - 1 + Math.floor(draw() * degree)));
    chips[graph.sink] = 0;
    return chips;
  },
};

/** Whether two graphs have the same edges, in any order, out of the vertices below some number. */
function areSame(one, other, most) {
  const sums = new Map();
  for (const [{ tails, heads, mults }, sign] of [[one, 1], [other, -1]]) {
    for (let edge = 0; edge < tails.length; edge++) {
      const tail = Number(tails[edge]);
      if (tail >= most) continue;
      const ends = tail * 2 ** 21 + Number(heads[edge]);
      sums.set(ends, (sums.get(ends) ?? 0) + sign * Number(mults[edge]));
    }
  }
  return Array.from(sums.values()).every((sum) => sum === 0);
}

const rowsOf = ({ tails, heads, mults }) =>
  Array.from(tails, (tail, edge) => [Number(tail), Number(heads[edge]), Number(mults[edge])]);

/** The sizes that a lattice with these edges may have: the squares beside the first one show the columns. */
function sizesOf({ tails, heads }, sink) {
  const beside = Array.from(heads, Number).filter((_, edge) => tails[edge] === 0n);
  const widths = new Set([sink, ...beside.flatMap((head) => [head, head + 1, sink - head])]);
  const sizes = [...widths].map((columns) => ({ rows: sink / columns, columns }));
  return sizes.filter(({ rows, columns }) => Number.isInteger(rows) && rows <= SIZES && columns <= SIZES);
}

/** The board whose graph this is. */
function boardOf({ vertices, sink, edges }) {
  if (sink !== vertices - 1 || sink < 1) throw new Error("its sink is not the last vertex");
  const wanted = Graph.fromEdges(vertices, sink, edges);
  const degree = sumOf(numbersOf(wanted.mults)) / sink;
  for (const size of sizesOf(wanted, sink)) {
    for (const lattice of Object.keys(DEGREES)) {
      for (const borders of Object.keys(BORDERS)) {
        const how = { ...size, lattice, borders };
        if (DEGREES[lattice] + BORDERS[borders].loss !== degree) continue;
        const isEven = (size.rows % 2 === 0 || borders !== "all") && (size.columns % 2 === 0 || borders === "open");
        if (lattice === "hexagonal" && !isEven) continue;
        const own = gridOf(how);
        if ([FEW, vertices].every((most) => areSame(wanted, own, most))) return how;
      }
    }
  }
  throw new Error("it is no lattice that the board draws");
}

/** The chips that rows of a text put on vertices. */
function chipsOf(text, vertices) {
  const [header, ...rows] = text.replace(/^\ufeff/, "").split(/\r?\n|\r/).filter(Boolean);
  if (header !== "vertex,chips") throw new Error("chips.csv begins with vertex,chips");
  const chips = new Float64Array(vertices);
  for (const row of rows) {
    const fields = /^(\d+),(\d+)$/.exec(row);
    if (!fields || Number(fields[1]) >= vertices) throw new Error(`chips.csv: ${row}`);
    chips[Number(fields[1])] = Number(fields[2]);
  }
  return chips;
}

/** What the page may ask for. */
const CALLS = {
  async load({ module }) {
    chipfire = await load(module);
    return { version: chipfire.version };
  },
  grid(how) {
    pile?.free();
    pile = undefined;
    graph = gridOf(how);
    return { degrees: degrees() };
  },
  fill: (how) => ({ chips: FILLS[how.fill](how) }),
  stabilize({ chips }) {
    const its = chipfire.stabilize(graph, wordsOf(chips));
    const fired = numbersOf(its.fired);
    return { chips: numbersOf(its.chips), fired, total: sumOf(fired) };
  },
  /** Lets each vertex fire as often as the limit says at most; with chips it begins anew. */
  round({ chips, most }) {
    if (chips) keep(chips, most);
    else pile.put(pile.chips(), { limit: most });
    const isOver = playOn();
    const fired = numbersOf(pile.fired());
    return { isOver, fired, chips: numbersOf(pile.chips()), total: sumOf(fired) };
  },
  /** Drops chips, each on a vertex or anywhere; with chips it begins anew. */
  drops({ chips, count, vertex, seed }) {
    if (chips) keep(chips);
    playOn();
    const draw = drawn(seed);
    const places = Array.from({ length: count }, () => vertex ?? Math.floor(draw() * graph.sink));
    const last = places.pop();
    const avalanches = dropAll(places);
    const before = pile.fired();
    avalanches.push(...dropAll([last]));
    const lit = Uint8Array.from(pile.fired(), (count, place) => Number(count !== before[place]));
    return { avalanches, lit, at: last, chips: numbersOf(pile.chips()) };
  },
  save({ chips }) {
    const { vertices, sink } = graph;
    const text = JSON.stringify({ edges: rowsOf(graph), sink, version: 1, vertices });
    const rows = Array.from(chips, (count, at) => (count ? `${at},${count}\n` : ""));
    return { graph: `${text}\n`, chips: `vertex,chips\n${rows.join("")}` };
  },
  open({ texts }) {
    const json = texts.find((it) => it.trimStart().startsWith("{"));
    const csv = texts.find((it) => it !== json);
    if (!json) throw new Error("a game has graph.json, and chips.csv beside it");
    const saved = JSON.parse(json);
    const board = boardOf(saved);
    return { board, chips: csv === undefined ? new Float64Array(saved.vertices) : chipsOf(csv, saved.vertices) };
  },
};

async function handle(data) {
  try {
    postMessage({ id: data.id, ...(await CALLS[data.ask](data)) });
  } catch (error) {
    postMessage({ id: data.id, error: error.text ?? error.message });
  }
}

let last = Promise.resolve();
onmessage = ({ data }) => {
  last = last.then(() => handle(data));
};
