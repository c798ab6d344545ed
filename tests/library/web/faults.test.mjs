// Each fault with its number, place and text, what is refused before a call, and an instance that has trapped.
import assert from "node:assert/strict";
import { readFileSync } from "node:fs";
import { test } from "node:test";
import { Chipfire, ChipfireFault, Graph, MAX_LIMIT, URL_OF_MODULE, load } from "./package.mjs";

const chipfire = await load();
const SINK = 2;
const EDGES = [[0, 1], [0, SINK], [1, 0], [1, SINK]];
const TRIANGLE = Graph.fromEdges(3, SINK, EDGES);
const MOST_EDGES = 2 ** 23;

const withEdge = (...edge) => Graph.fromEdges(3, SINK, [...EDGES, edge]);
const play = (graph, chips = [0, 0, 0], how = {}) => () => chipfire.stabilize(graph, chips, how);
const drop = (chips, at, amounts, how) => () => chipfire.avalanches(TRIANGLE, chips, at, amounts, how);

/** Edges without a fault of their own, as many as this. */
function edges(count) {
  const ones = new BigUint64Array(count).fill(1n);
  return new Graph(3, SINK, ones, ones.map(() => 2n), ones);
}

/** A pile that is freed already. */
function freed() {
  const pile = chipfire.pile(TRIANGLE, [0, 0, 0]);
  pile.free();
  pile.free();
  return pile;
}

// Each fault, its place, words of its text, and a call that has it.
const CASES = [
  [1, 0, "no vertices, or more than 2097152", play(Graph.fromEdges(0, 0, []), [])],
  [2, 0, "the sink is not a vertex", play(Graph.fromEdges(3, 3, []))],
  [3, 0, "more than 8388608 edges", play(edges(MOST_EDGES + 1))],
  [4, 4, "an end of edge 4 is not a vertex", play(withEdge(0, 3))],
  [5, 4, "edge 4 sends no chips", play(withEdge(0, 1, 0))],
  [6, 4, "edge 4 is a loop", play(withEdge(1, 1))],
  [7, 4, "edge 4 leaves the sink", play(withEdge(SINK, 1))],
  [8, 1, "no walk leads from vertex 1 to the sink", play(Graph.fromEdges(3, SINK, [[0, SINK]]))],
  [9, 0, "not one number for each vertex", drop([0, 0], [], [])],
  [10, 0, "more than 1099511627776 chips", play(TRIANGLE, [MAX_LIMIT, 1, 0])],
  [11, 0, "the firing limit is above", play(TRIANGLE, [0, 0, 0], { limit: MAX_LIMIT + 1n })],
  [12, 0, "have different lengths", play(TRIANGLE, [0, 0])],
  [13, 1, "the limit stopped the play of drop 1", drop([1, 1, 0], [0, 0], [1, 4], { limit: 1 })],
  [14, 0, "there is no pile", () => freed().drop(0)],
  [26, 1, "row 1 names a vertex", drop([0, 0, 0], [0, 3], [1, 1])],
  [46, 0, "no such edge", () => chipfire.books([3], [5]).sent(4)],
  [53, 1, "1 is the least vertex that differs", () => chipfire.verify(TRIANGLE, [2, 0, 0], [1, 1, 0], [0, 1, 1])],
];

for (const [number, place, text, call] of CASES) {
  test(`fault ${number}`, () => {
    assert.throws(call, (fault) => {
      assert.ok(fault instanceof ChipfireFault && fault instanceof Error);
      assert.deepEqual([fault.name, fault.number, fault.place], ["ChipfireFault", number, place]);
      assert.ok(fault.text.includes(text), fault.text);
      assert.ok(!fault.text.includes("{}"), fault.text);
      assert.equal(fault.message, `fault ${number} ${fault.kind}, at ${place}: ${fault.text}`);
      return true;
    });
  });
}

test("drops that the limit stops keep the rows of those before", () => {
  const pile = chipfire.pile(TRIANGLE, [1, 1, 0], { limit: 2 });
  assert.throws(() => pile.drops([0, 1, 0], [1, 0, 9]), (fault) => {
    assert.deepEqual([fault.number, fault.place], [13, 2]);
    assert.deepEqual(Object.entries(fault.made).map(([name, row]) => [name, ...row]), [
      ["sizes", 2n, 0n],
      ["areas", 2n, 0n],
      ["losts", 2n, 0n],
    ]);
    return true;
  });
  pile.put([0, 0, 0]);
  assert.deepEqual(Object.values(pile.drops([0, 0])).map((it) => [...it]), [[0n, 1n], [0n, 1n], [0n, 1n]]);
  pile.free();
});

test("a graph that is too large has no identity and no script", () => {
  for (const vertices of [2 ** 21 + 1, 2n ** 63n]) {
    for (const call of ["identity", "burning"]) {
      const graph = Graph.fromEdges(vertices, 0, []);
      assert.throws(() => chipfire[call](graph), (fault) => fault.number === 1 && fault.place === 0);
    }
  }
});

test("books that are freed have no calls", () => {
  const books = chipfire.books([3], [5]);
  books.free();
  books.free();
  for (const call of [() => books.sent(5), () => books.isOver(true), () => books.parent]) {
    assert.throws(call, /books were freed/);
  }
});

test("a claim that is right is no fault", () => {
  assert.equal(chipfire.verify(TRIANGLE, [2, 0, 0], [1, 0, 0], [0, 1, 1]), undefined);
});

test("what is no whole number from 0 to 2^64 - 1 is refused before the call", () => {
  for (const chips of [[0.5, 0, 0], ["1", 0, 0], [null, 0, 0], [2 ** 53, 0, 0], 3, null, {}]) {
    assert.throws(play(TRIANGLE, chips), TypeError);
  }
  for (const chips of [[-1, 0, 0], [0n, 0n, 2n ** 64n], BigInt64Array.of(0n, -1n, 0n)]) {
    assert.throws(play(TRIANGLE, chips), RangeError);
  }
  for (const vertex of [3, -1, 0.5, "length", ""]) {
    assert.throws(() => TRIANGLE.chips({ [vertex]: 1 }), RangeError);
  }
  assert.throws(() => Graph.grid(2.5), TypeError);
});

test("arrays of any kind are taken, and none is changed", () => {
  const wanted = [1n, 0n, 3n];
  for (const kind of [Array, Uint8Array, Int32Array, Float64Array]) {
    const chips = kind.from([4, 0, 0]);
    assert.deepEqual([...chipfire.stabilize(TRIANGLE, chips).chips], wanted);
    assert.deepEqual([...chips], [4, 0, 0]);
  }
  const chips = BigUint64Array.of(4n, 0n, 0n);
  const { fired, stopped } = chipfire.stabilize(TRIANGLE, chips, { guess: [2, 1, 0] });
  assert.deepEqual([[...chips], [...fired], stopped], [[4n, 0n, 0n], [2n, 1n, 0n], 0n]);
});

test("an instance that has trapped is thrown away", async () => {
  const compiled = await WebAssembly.compile(readFileSync(URL_OF_MODULE));
  const { exports } = await WebAssembly.instantiate(compiled);
  const spoilt = new Chipfire(exports);
  const pile = spoilt.pile(TRIANGLE, [4, 0, 0]);
  new Uint8Array(exports.memory.buffer).fill(255);
  assert.throws(() => pile.drop(0), WebAssembly.RuntimeError);
  for (const call of [() => pile.drop(0), () => spoilt.version, () => spoilt.stabilize(TRIANGLE, [0, 0, 0])]) {
    assert.throws(call, /has trapped.*load another/);
  }
  const { chips } = (await load(compiled)).stabilize(TRIANGLE, [4, 0, 0]);
  assert.deepEqual([...chips], [1n, 0n, 3n]);
});
