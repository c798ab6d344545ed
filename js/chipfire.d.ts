/** chipfire: chip-firing games (abelian sandpiles), played by proved functions as WebAssembly, in browsers and Node.
 *
 * A graph has 1 to 2^21 vertices, numbered from 0, and up to 2^23 edges. No edge is a loop or leaves the sink, and from
 * each vertex some way leads to the sink. An edge sends 1 to 2^20 chips at each firing of its tail. There are up to
 * 2^40 chips.
 *
 * Each call takes numbers and arrays in any form, and returns those of 64 bits: a BigInt, or a BigUint64Array. It
 * changes no array that it is given. What is refused throws a ChipfireFault, and what is no whole number from 0 to 2^64
 * - 1 a TypeError or a RangeError. A call ends only with its play: call from a worker what may take long. */

/** A whole number; above 2^53 a BigInt. */
export type Whole = number | bigint;
/** Whole numbers: a BigUint64Array is taken as it is, and others are converted. */
export type Wholes = ArrayLike<Whole>;

/** The most that a vertex may fire: 2^40. */
export const MAX_LIMIT: bigint;

/** A call that was refused. `chipfire explain NUMBER` says more of a fault. */
export class ChipfireFault extends Error {
  /** The number of the fault. */
  readonly number: number;
  /** The edge, the vertex, the game or the drop that it is about, from 0; and 0 if it is about none. */
  readonly place: number;
  /** The name of the fault. */
  readonly kind: string;
  /** What is wrong. */
  readonly text: string;
  /** Of `Pile.drops` that the limit stopped, the rows of the drops before. */
  readonly made?: Columns;
}

/** A directed multigraph. */
export class Graph {
  readonly vertices: Whole;
  readonly sink: Whole;
  /** Of each edge its tail, its head, and how many chips one firing of the tail sends along it. */
  readonly tails: BigUint64Array;
  readonly heads: BigUint64Array;
  readonly mults: BigUint64Array;
  constructor(vertices: Whole, sink: Whole, tails: Wholes, heads: Wholes, mults: Wholes);
  /** The graph of edges as rows [tail, head] or [tail, head, mult]. */
  static fromEdges(vertices: Whole, sink: Whole, edges: Iterable<readonly Whole[]>): Graph;
  /** A lattice of squares: `columns * row + column`, and after them the sink, to which a square sends a chip for each
   * side without a neighbour. */
  static grid(rows: number, columns?: number, options?: Lattice): Graph;
  /** Chips on the graph: none but those of an object by vertices, as `{ 24: 100 }`. */
  chips(on?: Readonly<Record<number, Whole>>): BigUint64Array;
}

export interface Lattice {
  /** "square", by default; "triangular", with 6 neighbours: also those above to the right and below to the left; or
   * "hexagonal", with 3: left, right, and below if row and column together are even, else above. */
  lattice?: "square" | "triangular" | "hexagonal";
  /** Whether the first and the last row are neighbours, and whether the first and the last column are; or one for both. */
  periodic?: boolean | readonly [boolean, boolean];
  /** How many chips more each square sends to the sink. If both directions are periodic, some are needed. */
  loss?: number;
}

export interface Limited {
  /** How often each vertex may fire at most: MAX_LIMIT by default. */
  limit?: Whole;
}

/** Which configurations of a seed are drawn. */
export interface Drawn {
  /** The number of the first one: 0 by default. */
  first?: Whole;
  /** How many there are: 1 by default. */
  rows?: Whole;
}

/** How a game ends. */
export interface Stabilized {
  /** The chips of each vertex at the end. */
  chips: BigUint64Array;
  /** How often each vertex fired: the odometer. */
  fired: BigUint64Array;
  /** How many vertices could fire at the end, and had fired as often as the limit allows. */
  stopped: bigint;
}

/** How many games end, each game's numbers after those of the one before. */
export interface AllStabilized {
  chips: BigUint64Array;
  fired: BigUint64Array;
  /** One number for each game. */
  stopped: BigUint64Array;
}

/** What one drop set off. */
export interface Avalanche {
  /** How often vertices fired. */
  size: bigint;
  /** How many different vertices fired. */
  area: bigint;
  /** How many chips were dissipated: they came to the sink. */
  lost: bigint;
}

/** The columns of avalanches: one number for each drop. */
export interface Columns {
  sizes: BigUint64Array;
  areas: BigUint64Array;
  losts: BigUint64Array;
}

/** The chips after all drops, and what these set off. */
export interface Avalanches extends Columns {
  chips: BigUint64Array;
}

/** How a recurrent configuration burns. */
export interface Burning {
  /** How often each vertex fires: the least burning script. */
  script: BigUint64Array;
  /** How many chips that takes from each vertex on balance. */
  chips: BigUint64Array;
}

/** A game that is kept, and on which chips are dropped. The most chips and the limit are for all drops together. */
export interface Pile {
  /** Plays on by about this number of visits of a vertex or an edge, by default to the end; whether it goes on. */
  play(visits?: Whole): boolean;
  /** Plays what is still to be played, then drops chips on a vertex, 1 by default, and plays to the end. */
  drop(vertex: Whole, amount?: Whole): Avalanche;
  /** The same for many drops, one after another: `amounts[i]` chips, 1 by default, on vertex `at[i]`. All are checked
   * before the first is dropped, so a fault changes nothing, but for 13: there the limit stopped the drop at its place,
   * and `made` of the fault has the rows of those before. */
  drops(at: Wholes, amounts?: Wholes): Columns;
  /** Random recurrent configurations of the graph, as those of `Chipfire.randomRecurrent`. The pile stays as it is. */
  randomRecurrent(seed: Whole, options?: Drawn): BigUint64Array;
  /** The chips of each vertex; before the first drop those that were put there. */
  chips(): BigUint64Array;
  /** How often each vertex has fired. */
  fired(): BigUint64Array;
  /** Puts other chips there, in place of all. All counts are 0 again. */
  put(chips: Wholes, options?: Limited): void;
  /** Gives its memory back: there is no pile any more. */
  free(): void;
}

/** The books of a process, by which it knows when messages may be acknowledged, and a root when all is over (Dijkstra
 * and Scholten). docs/DETECTOR.md says what a process owes. An edge is a number below 2^64 - 1. A call takes no longer for
 * many edges than for one, but for a search. */
export interface Books {
  /** The edge whose message engages the process, or null. */
  readonly parent: bigint | null;
  /** How many acknowledgements the process waits for. */
  readonly deficit: bigint;
  /** Notes a message that was sent on the edge. */
  sent(edge: Whole): void;
  /** Notes a message that came on the edge. It engages a neutral process. */
  got(edge: Whole): void;
  /** Acknowledges all that may be: pairs of an edge and how many of its messages are acknowledged so far. Each goes to the
   * tail of its edge, for `settled`; a later pair of an edge makes an earlier one needless. `passive` says that the
   * process sends nothing, and that only a message makes it work again. */
  acknowledge(passive: boolean): [edge: bigint, count: bigint][];
  /** Notes how many messages of the edge its head has acknowledged so far; returns how many are new. */
  settled(edge: Whole, count: Whole): bigint;
  /** Asked of the root: whether all is over, once it sends no more. */
  isOver(ended: boolean): boolean;
  /** Gives its memory back: there are no books any more. */
  free(): void;
}

/** The proved functions, in one instance of the module. After a trap, as of the engine's stack, it refuses each call,
 * since its memory may be in the midst of a change: load another. */
export class Chipfire {
  /** Takes what an instance of the module exports; `load` makes one. */
  constructor(exports: WebAssembly.Exports);
  readonly version: string;
  /** How many bytes of memory the instance has; it never gives any back. */
  readonly memory: number;
  /** Plays a game to its end. An initial guess of the counts changes no result; the play is shorter if it is near. */
  stabilize(graph: Graph, chips: Wholes, options?: Limited & { guess?: Wholes }): Stabilized;
  /** Plays many games on one graph, whose chips stand one game's after another's. */
  stabilizeAll(
    graph: Graph,
    chips: Wholes,
    options?: Limited & { guesses?: Wholes; games?: number },
  ): AllStabilized;
  /** Plays a game to its end, and then drops `amounts[i]` chips on vertex `at[i]`, each drop played to its end. */
  avalanches(graph: Graph, chips: Wholes, at: Wholes, amounts: Wholes, options?: Limited): Avalanches;
  /** Throws fault 53 unless a game that begins with `chips` ends with these counts and `ends`. */
  verify(graph: Graph, chips: Wholes, fired: Wholes, ends: Wholes, options?: Limited): void;
  /** The least burning script of a graph. */
  burning(graph: Graph): Burning;
  /** Whether configurations, whose chips stand one's after another's, are recurrent. Chips on the sink do not count, here
   * and below. */
  areRecurrent(graph: Graph, chips: Wholes): boolean[];
  /** For each configuration the one recurrent configuration that is equivalent to it. */
  recurrent(graph: Graph, chips: Wholes): BigUint64Array;
  /** For each the one superstable configuration that is equivalent to it. */
  superstable(graph: Graph, chips: Wholes): BigUint64Array;
  /** For each the recurrent configuration whose stable sum with it, or with its recurrent representative, is the identity. */
  inverse(graph: Graph, chips: Wholes): BigUint64Array;
  /** The identity of the sandpile group. */
  identity(graph: Graph): BigUint64Array;
  /** Random recurrent configurations, one's chips after another's. Graph, seed and the number of a configuration determine
   * it. If each edge that does not lead to the sink has one back, all are equally probable, which is not proved. */
  randomRecurrent(graph: Graph, seed: Whole, options?: Drawn): BigUint64Array;
  /** Keeps a game. It plays nothing yet. */
  pile(graph: Graph, chips: Wholes, options?: Limited): Pile;
  /** New books of a process, by the numbers of its edges. */
  books(ins: Iterable<Whole>, outs: Iterable<Whole>): Books;
}

/** Loads the module: chipfire.wasm beside this file, or from a URL, of bytes, or as WebAssembly has compiled it. */
export function load(source?: string | URL | BufferSource | WebAssembly.Module): Promise<Chipfire>;
