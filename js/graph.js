/* Graphs and chips as the module takes them. This file asks for nothing, and nothing in it is proved. */

/** Which squares lie beside one, as [rows down, columns to the right]: if row and column together are even, or odd. */
const SQUARE = [[-1, 0], [0, -1], [0, 1], [1, 0]];
const TRIANGULAR = [...SQUARE, [-1, 1], [1, -1]];
const BESIDE = {
  square: [SQUARE, SQUARE],
  triangular: [TRIANGULAR, TRIANGULAR],
  hexagonal: [SQUARE.slice(1), SQUARE.slice(0, 3)],
};

/** A whole number as the module has it. */
export function word(number) {
  if (typeof number !== "bigint" && !Number.isSafeInteger(number)) {
    throw new TypeError(`${String(number)} is no whole number, or has to be a BigInt`);
  }
  const found = BigInt(number);
  if (BigInt.asUintN(64, found) === found) return found;
  throw new RangeError(`${number} is not from 0 to 2^64 - 1`);
}

/** Whole numbers as the module has them: the same array, if it has them so. */
export function words(numbers) {
  if (numbers instanceof BigUint64Array) return numbers;
  if (!Number.isSafeInteger(numbers?.length)) throw new TypeError("numbers are an array, as Graph.chips makes one");
  if (!(numbers instanceof Uint32Array)) return BigUint64Array.from(numbers, word);
  const found = new BigUint64Array(numbers.length);
  const halves = new Uint32Array(found.buffer); // (the low one first, as in the module)
  for (let at = 0; at < numbers.length; at++) halves[2 * at] = numbers[at];
  return found;
}

/** A place in a direction of this size: beyond its end the first one again, or none. */
function wrapped(place, size, isPeriodic) {
  if (place >= 0 && place < size) return place;
  return isPeriodic ? (place + size) % size : NaN;
}

/** A directed multigraph: its number of vertices, its sink, and of each edge the tail, the head, and how many chips one
 * firing of the tail sends along it. */
export class Graph {
  constructor(vertices, sink, tails, heads, mults) {
    this.vertices = vertices;
    this.sink = sink;
    this.tails = words(tails);
    this.heads = words(heads);
    this.mults = words(mults);
  }

  /** The graph of edges as rows [tail, head] or [tail, head, mult]. */
  static fromEdges(vertices, sink, edges) {
    const rows = Array.from(edges, ([tail, head, mult = 1]) => [tail, head, mult]);
    return new Graph(vertices, sink, ...[0, 1, 2].map((at) => rows.map((row) => row[at])));
  }

  /** The squares of a lattice by rows, and the sink after them, which gets a chip for each side without a neighbour. */
  static grid(rows, columns = rows, { lattice = "square", periodic = false, loss = 0 } = {}) {
    const [sink, each] = [word(rows) * word(columns), word(loss)].map(Number);
    const [sides, joined] = [BESIDE[lattice], [periodic, periodic].flat()];
    if (!sides) throw new RangeError(`there is no ${lattice} lattice`);
    if (lattice === "hexagonal" && [rows, columns].some((size, at) => joined[at] && size % 2)) {
      throw new RangeError("a hexagonal lattice has an even size where it is periodic");
    }
    const most = sink * (sides[0].length + 1);
    const [tails, heads, mults] = [0, 1, 2].map(() => new Uint32Array(most));
    let count = 0;
    const add = (tail, head, mult) => {
      tails[count] = tail;
      heads[count] = head;
      mults[count++] = mult;
    };
    for (let square = 0; square < sink; square++) {
      const column = square % columns;
      const row = (square - column) / columns;
      let lost = each;
      for (const [down, right] of sides[(row + column) % 2]) {
        const there = columns * wrapped(row + down, rows, joined[0]);
        const head = there + wrapped(column + right, columns, joined[1]);
        if (Number.isNaN(head)) lost += 1;
        else add(square, head, 1);
      }
      if (lost > 0) add(square, sink, lost);
    }
    return new Graph(sink + 1, sink, ...[tails, heads, mults].map((it) => it.subarray(0, count)));
  }

  /** Chips on the graph: none but those of an object by vertices. */
  chips(on = {}) {
    const found = new BigUint64Array(Number(this.vertices));
    for (const [vertex, chips] of Object.entries(on)) {
      if (!Object.hasOwn(found, vertex)) throw new RangeError(`there is no vertex ${vertex}`);
      found[vertex] = word(chips);
    }
    return found;
  }
}
