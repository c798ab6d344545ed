// Memory that runs out: fault 90, and nothing has changed.
import assert from "node:assert/strict";
import { readFileSync } from "node:fs";
import { test } from "node:test";
import { Graph, URL_OF_MODULE, bytesWithMemory, load, outcome } from "./package.mjs";

const PAGE = 65536;
const NO_MEMORY = 90n;
/** The stack has 16 pages, which the module has at first. */
const FIRST = 17;
const TRIANGLE = Graph.fromEdges(3, 2, [[0, 1], [0, 2], [1, 0], [1, 2]]);

test("with ever more memory a call is refused, and from some on it is not", async () => {
  const grid = Graph.grid(120);
  const chips = new BigUint64Array(grid.vertices).fill(2n);
  const drops = Array(1000).fill(1);
  const seen = { stabilize: [], avalanches: [], pile: [] };
  for (let most = FIRST; most < FIRST + 120; most += 6) {
    const chipfire = await load(bytesWithMemory(FIRST, most));
    const calls = {
      stabilize: () => Object.values(chipfire.stabilize(grid, chips)),
      avalanches: () => Object.values(chipfire.avalanches(grid, chips, drops, drops)),
      pile: () => Object.values(chipfire.pile(grid, chips).drop(1, 1000)),
    };
    for (const [name, call] of Object.entries(calls)) {
      seen[name].push(outcome(call)[0]);
      assert.ok(chips.every((it) => it === 2n));
      assert.ok(chipfire.memory <= most * PAGE);
      const small = outcome(() => [...chipfire.stabilize(TRIANGLE, [4, 0, 0]).chips]);
      assert.deepEqual(small, [0n, 0n, 1n, 0n, 3n]);
    }
  }
  for (const statuses of Object.values(seen)) {
    const enough = statuses.indexOf(0n);
    assert.ok(enough > 0, String(statuses));
    assert.deepEqual(statuses, statuses.map((_, at) => (at < enough ? NO_MEMORY : 0n)));
  }
});

test("a pile that finds no memory for another game stays as it was", async () => {
  const chipfire = await load(bytesWithMemory(FIRST, FIRST + 40));
  const grid = Graph.grid(60);
  const pile = chipfire.pile(grid, grid.chips({ 1830: 100 }));
  pile.drop(1830, 1);
  const before = [pile.chips(), pile.fired()];
  assert.equal(outcome(() => [chipfire.pile(Graph.grid(200), new BigUint64Array(40001))])[0], NO_MEMORY);
  assert.deepEqual([pile.chips(), pile.fired()], before);
  pile.free();
});

test("blocks that are freed side by side are one, in whichever order", async () => {
  const { instance } = await WebAssembly.instantiate(readFileSync(URL_OF_MODULE));
  const { chipfire_room: room, chipfire_free: free } = instance.exports;
  for (const order of [[0, 1, 2], [0, 2, 1], [1, 0, 2], [1, 2, 0], [2, 0, 1], [2, 1, 0]]) {
    const blocks = [1, 2, 3].map(() => room(1000n));
    const last = room(1000n);
    for (const at of order) free(blocks[at]);
    const whole = room(3000n);
    assert.equal(whole, blocks[0], String(order));
    free(whole);
    free(last);
  }
});

test("memory that is freed is used again", async () => {
  const chipfire = await load();
  const sizes = [];
  for (let round = 0; round < 60; round++) {
    const grids = [3 + (round % 20), 40, 7].map((side) => Graph.grid(side));
    const piles = grids.map((grid) => chipfire.pile(grid, grid.chips({ 4: 300 })));
    piles.forEach((pile) => pile.drop(4, 50));
    piles.reverse().forEach((pile) => pile.free());
    sizes.push(chipfire.memory);
  }
  assert.deepEqual(sizes.slice(20), Array(40).fill(sizes[20]));
});
