// A use of each type of the package, which tsc reads with chipfire.d.ts.
import { Books, Chipfire, ChipfireFault, Graph, load, MAX_LIMIT, Pile, Whole } from "chipfire";

const grid: Graph = Graph.grid(7);
const other: Graph = Graph.fromEdges(2, 1, [[0, 1], [0, 1n, 2]]);
const columns = new Graph(2n, 1, other.tails, [1, 1], new Uint32Array([1, 2]));

async function play(): Promise<void> {
  const chipfire: Chipfire = await load(new URL("https://example.org/chipfire.wasm"));
  const { chips, fired, stopped } = chipfire.stabilize(grid, grid.chips({ 24: 100n }), { limit: MAX_LIMIT });
  const all = chipfire.stabilizeAll(columns, [1, 2n, 3, 4], { guesses: [0, 0, 0, 0], games: 2 });
  const sums: BigUint64Array[] = [chips, fired, all.chips, all.stopped];
  const { sizes, areas, losts } = chipfire.avalanches(grid, chips, [24], new Uint8Array([1]));
  chipfire.verify(grid, [], fired, chips, { limit: 5 });
  const pile: Pile = chipfire.pile(grid, chips);
  const size: bigint = pile.drop(24).size + stopped + BigInt(sums.length) + sizes[0] + areas[0] + losts[0];
  const dropped: BigUint64Array = pile.drops([24, 25], new Uint8Array([1, 2])).sizes;
  pile.put(pile.chips());
  pile.free();
  const { script } = chipfire.burning(grid);
  const configurations = [chipfire.identity(grid), chipfire.recurrent(grid, chips), chipfire.superstable(grid, script)];
  configurations.push(chipfire.randomRecurrent(grid, 1n), pile.randomRecurrent(1, { first: 2n, rows: 3 }));
  const areAll: boolean = chipfire.areRecurrent(grid, chipfire.inverse(grid, dropped)).every((is) => is);
  if (areAll) configurations.pop();
  const books: Books = chipfire.books([1], new Set<Whole>([2, 3n]));
  books.sent(2);
  const total: bigint = books.acknowledge(true).reduce((sum, [edge, count]) => sum + edge * count, books.deficit);
  const isOver: boolean = books.isOver(true) && books.parent === null && total > size;
  // @ts-expect-error  (a text is no number)
  pile.drop("24");
  if (isOver) throw new Error(`${chipfire.version}: ${books.settled(2, 1)}`);
  books.free();
}

play().catch((fault: unknown) => {
  if (fault instanceof ChipfireFault) console.log(fault.number + fault.place, fault.kind, fault.text);
});
