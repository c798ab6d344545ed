// A large grid beside what the native library has returned, which lies in the file that CHIPFIRE_LARGE names.
import assert from "node:assert/strict";
import { readFileSync } from "node:fs";
import { test } from "node:test";
import { Graph, load } from "./package.mjs";

const SIDE = Number(process.env.CHIPFIRE_SIDE);
const CHIPS = Number(process.env.CHIPFIRE_CHIPS);

test("a heap on a large grid", async () => {
  const chipfire = await load();
  const grid = Graph.grid(SIDE);
  const bytes = readFileSync(process.env.CHIPFIRE_LARGE);
  const wanted = new BigUint64Array(bytes.buffer.slice(bytes.byteOffset, bytes.byteOffset + bytes.length));
  const { chips, fired, stopped } = chipfire.stabilize(grid, grid.chips({ [(SIDE * SIDE - 1) / 2]: CHIPS }));
  assert.equal(stopped, 0n);
  assert.equal(chips.length + fired.length, wanted.length);
  assert.ok(chips.every((it, at) => it === wanted[at]));
  assert.ok(fired.every((it, at) => it === wanted[chips.length + at]));
});

test("the largest squares, and a few chips on them", async () => {
  const chipfire = await load();
  const grid = Graph.grid(1024);
  const { chips, fired } = chipfire.stabilize(grid, grid.chips({ 0: 6 }));
  assert.deepEqual([chips[0], chips[1], chips[1024], chips[grid.sink]], [2n, 1n, 1n, 2n]);
  assert.deepEqual([fired[0], fired.filter((it) => it > 0n).length], [1n, 1]);
});
