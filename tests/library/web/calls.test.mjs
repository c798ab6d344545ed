// The calls that CHIPFIRE_CASES has, a JSON text in each line, beside what the native library has returned.
import assert from "node:assert/strict";
import { readFileSync } from "node:fs";
import { test } from "node:test";
import { Chipfire, Graph, URL_OF_MODULE, outcome } from "./package.mjs";

const { exports } = (await WebAssembly.instantiate(readFileSync(URL_OF_MODULE))).instance;
const chipfire = new Chipfire(exports);
/** Where memory begins that is taken. */
const FIRST = exports.chipfire_room(8n);
exports.chipfire_free(FIRST);

const graphOf = ([vertices, sink, columns]) => new Graph(vertices, sink, ...columns);

/** Numbers as they stand in a case: BigInts in arrays. */
const plain = (it) => (it instanceof BigUint64Array ? [...it] : it);

const CALLS = {
  stabilizeAll(graph, limit, guesses, chips, games) {
    const how = { limit, guesses, games: Number(games) };
    return [outcome(() => Object.values(chipfire.stabilizeAll(graphOf(graph), chips, how)))];
  },
  avalanches(graph, limit, at, amounts, chips) {
    const play = () => chipfire.avalanches(graphOf(graph), chips, at, amounts, { limit });
    return [outcome(() => Object.values(play()))];
  },
  verify(graph, limit, chips, fired, ends) {
    const play = () => chipfire.verify(graphOf(graph), chips, fired, ends, { limit });
    return [outcome(() => (play(), []))];
  },
  pile(graph, limit, chips, steps) {
    let pile;
    const found = [outcome(() => ((pile = chipfire.pile(graphOf(graph), chips, { limit })), []))];
    const calls = {
      draw: (seed, first, rows) => [pile.randomRecurrent(seed, { first, rows })],
      put: (its) => (pile.put(its, { limit }), []),
      drop: (vertex, amount) => Object.values(pile.drop(vertex, amount)),
      drops: (at, amounts) => Object.values(pile.drops(at, amounts)),
    };
    for (const [name, ...step] of pile ? steps : []) {
      found.push(outcome(() => calls[name](...step)), [pile.chips(), pile.fired()]);
    }
    pile?.free();
    return found;
  },
  draw(graph, seed, first, rows) {
    return [outcome(() => [chipfire.randomRecurrent(graphOf(graph), seed, { first, rows })])];
  },
  group(graph, name, chips) {
    const calls = {
      burning: () => Object.values(chipfire.burning(graphOf(graph))),
      areRecurrent: () => [chipfire.areRecurrent(graphOf(graph), chips).map((is) => BigInt(is))],
      identity: () => [chipfire.identity(graphOf(graph))],
    };
    return [outcome(calls[name] ?? (() => [chipfire[name](graphOf(graph), chips)]))];
  },
  grid(rows, columns, lattice, periodic, loss) {
    const how = { lattice, periodic, loss: Number(loss) };
    const { vertices, sink, tails, heads, mults } = Graph.grid(Number(rows), Number(columns), how);
    const edges = new Map();
    tails.forEach((tail, at) => {
      const ends = JSON.stringify([Number(tail), Number(heads[at])]);
      edges.set(ends, (edges.get(ends) ?? 0n) + mults[at]);
    });
    const found = [...edges].map(([ends, mult]) => [...JSON.parse(ends).map(BigInt), mult]);
    const order = ([tail, head], [otherTail, otherHead]) => Number(tail - otherTail || head - otherHead);
    return [BigInt(vertices), BigInt(sink), found.sort(order)];
  },
  books(ins, outs, steps) {
    let books;
    const found = [outcome(() => ((books = chipfire.books(ins, outs)), []))];
    const calls = {
      sent: (edge) => (books.sent(edge), []),
      got: (edge) => (books.got(edge), []),
      acknowledge: (passive) => books.acknowledge(passive).sort(([one], [other]) => Number(one - other)),
      settled: (edge, count) => [books.settled(edge, count)],
      isOver: (ended) => [BigInt(books.isOver(ended))],
    };
    for (const [name, ...step] of books ? steps : []) {
      found.push(outcome(() => calls[name](...step)), [books.parent ?? 2n ** 64n - 1n, books.deficit]);
    }
    books?.free();
    return found;
  },
};

/** A case has its numbers as texts, since a number of JSON has 53 bits here. */
function numbersOf(it) {
  if (Array.isArray(it)) return it.map(numbersOf);
  return typeof it === "string" && /^\d+$/.test(it) ? BigInt(it) : it;
}

const columns = (it) => (Array.isArray(it) ? it.map(columns) : plain(it));

test("each call is as the native library's", () => {
  const lines = readFileSync(process.env.CHIPFIRE_CASES, "ascii").trim().split("\n");
  for (const line of lines) {
    const [name, given, wanted] = JSON.parse(line);
    const found = columns(CALLS[name](...numbersOf(given)));
    assert.deepEqual(found, numbersOf(wanted), line);
  }
  assert.equal(lines.length, Number(process.env.CHIPFIRE_COUNT));
});

test("calls give back their memory", () => {
  const lines = readFileSync(process.env.CHIPFIRE_CASES, "ascii").trim().split("\n");
  for (const line of lines.slice(0, 200)) {
    const [name, given] = JSON.parse(line);
    CALLS[name](...numbersOf(given));
  }
  const size = chipfire.memory;
  const all = exports.chipfire_room(BigInt(size) - FIRST);
  exports.chipfire_free(all);
  assert.deepEqual([all, chipfire.memory], [FIRST, size]);
});
