/* chipfire: chip-firing games (abelian sandpiles), played by proved functions as WebAssembly, in browsers and Node.
 *
 *     import { load, Graph } from "./chipfire.js";
 *     const chipfire = await load();
 *     const grid = Graph.grid(7, 7);
 *     const { chips, fired } = chipfire.stabilize(grid, grid.chips({ 24: 100 }));
 *
 * chipfire.d.ts says what each call takes and returns. Nothing in this file is proved. */
import { faults } from "./faults.js";
import { Graph, word, words } from "./graph.js";

export { Graph };

/** The most that a vertex may fire. */
export const MAX_LIMIT = 2n ** 40n;
/** The parent of a process that no message engages. */
const NEUTRAL = 2n ** 64n - 1n;
/** How many numbers the struct of books has, and where the parent and the deficit stand among them. */
const STRUCT = { length: 7, parent: 4, deficit: 6 };
/** The numbers of some faults. */
const FAULT = { vertices: 1, stopped: 13, noPile: 14, noMemory: 90 };

/** A call that was refused: the number of the first fault, where it is, and what is wrong. */
export class ChipfireFault extends Error {
  constructor(number, place) {
    const [kind, text] = faults[number];
    const wrong = text.replaceAll("{}", String(place));
    super(`fault ${number} ${kind}, at ${place}: ${wrong}`);
    Object.assign(this, { name: "ChipfireFault", number, place, kind, text: wrong });
  }
}

/** A graph as each call takes it. */
const given = ({ vertices, sink, tails, heads, mults }) => [word(vertices), word(sink), tails, heads, mults];

/** How many configurations of a graph lie one after another; a part of one counts too, and is refused. */
const configurations = (graph, chips) => Math.ceil(chips.length / Math.max(Number(graph.vertices), 1));

/** Numbers that a call writes, in each row one for each vertex, of which a graph has up to 2^21. */
function none({ vertices }, rows = 1) {
  if (vertices > 2 ** 21) throw new ChipfireFault(FAULT.vertices, 0);
  return new BigUint64Array(Number(rows) * Number(vertices));
}

/** What a call that draws takes of a seed, of the number of the first configuration, and of how many there are. */
const draws = (seed, { first = 0, rows = 1 } = {}) => [seed, first, rows].map(word);

/** Columns that a call writes, one number for each drop. */
const columns = (drops) => Object.fromEntries(["sizes", "areas", "losts"].map((it) => [it, new BigUint64Array(drops)]));

/** An instance of the module, and its memory. */
class Instance {
  #exports;

  constructor(exports) {
    this.#exports = exports;
    this.memory = exports.memory;
  }

  /** Calls a function of the module. A trap leaves the memory in the midst of a change, so there is no further call. */
  run(name, ...numbers) {
    if (!this.#exports) throw new Error("a call has trapped, and its instance was thrown away: load another");
    try {
      return this.#exports[`chipfire_${name}`](...numbers);
    } catch (error) {
      this.#exports = null;
      throw error;
    }
  }

  /** Takes memory for some numbers, and returns where it is. */
  take(length) {
    const at = this.run("room", 8n * BigInt(length));
    if (at !== 0n) return at;
    throw new ChipfireFault(FAULT.noMemory, 0);
  }

  /** The numbers that lie in the memory. (If the memory grows, an earlier view has none any more.) */
  view(at, length) {
    return new BigUint64Array(this.memory.buffer, Number(at), length);
  }

  /** Calls a function on numbers, on copies of arrays, and on those of `found`, which it writes. It may write up to
   * three numbers after these, which are returned. A fault is thrown: the first of them is its place. */
  call(name, its, found = {}) {
    const written = Object.values(found);
    const all = [...its, ...written].map((it) => (typeof it === "bigint" ? it : words(it)));
    const first = this.take(all.reduce((sum, it) => sum + (it.length ?? 0), 3));
    let end = first;
    const numbers = all.flatMap((it) => {
      if (typeof it === "bigint") return it;
      const at = end;
      this.view(at, it.length).set(it);
      end += 8n * BigInt(it.length);
      return [at, BigInt(it.length)];
    });
    this.view(end, 3).fill(0n);
    const status = this.run(name, ...numbers, end, end + 8n, end + 16n);
    const report = this.view(end, 3).slice();
    for (const array of written.reverse()) {
      end -= 8n * BigInt(array.length);
      array.set(this.view(end, array.length));
    }
    this.run("free", first);
    if (status !== 0n) throw new ChipfireFault(Number(status), Number(report[0]));
    return report;
  }
}

/** The proved functions. */
export class Chipfire {
  #instance;

  /** Takes what an instance of the module exports. */
  constructor(exports) {
    this.#instance = new Instance(exports);
  }

  get version() {
    const number = Number(this.#instance.run("version"));
    return [number / 1e6, (number / 1e3) % 1e3, number % 1e3].map(Math.floor).join(".");
  }

  get memory() {
    return this.#instance.memory.buffer.byteLength;
  }

  stabilize(graph, chips, { limit, guess } = {}) {
    const its = this.stabilizeAll(graph, chips, { limit, guesses: guess, games: 1 });
    return { ...its, stopped: its.stopped[0] };
  }

  stabilizeAll(graph, chips, { limit = MAX_LIMIT, guesses = [], games } = {}) {
    const ends = words(chips).slice();
    const fired = new BigUint64Array(ends.length);
    const stopped = new BigUint64Array(games ?? configurations(graph, ends));
    return this.#call("stabilize_all", graph, [word(limit), guesses], { chips: ends, fired, stopped });
  }

  avalanches(graph, chips, at, amounts, { limit = MAX_LIMIT } = {}) {
    const found = { chips: words(chips).slice(), ...columns(at.length) };
    return this.#call("avalanches", graph, [word(limit), at, amounts], found);
  }

  verify(graph, chips, fired, ends, { limit = MAX_LIMIT } = {}) {
    this.#call("verify", graph, [word(limit), chips, fired, ends]);
  }

  burning(graph) {
    return this.#call("burning", graph, [], { script: none(graph), chips: none(graph) });
  }

  areRecurrent(graph, chips) {
    const found = { flags: new BigUint64Array(configurations(graph, chips)) };
    return Array.from(this.#call("are_recurrent", graph, [chips], found).flags, (flag) => flag === 1n);
  }

  recurrent = (graph, chips) => this.#represented("recurrent", graph, chips);
  superstable = (graph, chips) => this.#represented("superstable", graph, chips);
  inverse = (graph, chips) => this.#represented("inverse", graph, chips);
  pile = (graph, chips, options) => pileOf(this.#instance, graph, chips, options);
  books = (ins, outs) => booksOf(this.#instance, ins, outs);

  identity(graph) {
    return this.#call("identity", graph, [], { chips: none(graph) }).chips;
  }

  randomRecurrent(graph, seed, options) {
    const drawn = draws(seed, options);
    return this.#call("random_recurrent", graph, drawn, { chips: none(graph, drawn[2]) }).chips;
  }

  #represented(name, graph, chips) {
    const found = words(chips).slice();
    return this.#call(name, graph, [BigInt(configurations(graph, found))], { found }).found;
  }

  #call(name, graph, more, found) {
    this.#instance.call(name, [...given(graph), ...more], found);
    return found;
  }
}

/** Takes memory in the module for `length` numbers. Returns where they lie, what calls a function on them, at first to
 * begin, and what frees them, after a call of `ending`. */
function kept(instance, length, gone, ending) {
  let at = instance.take(length);
  instance.view(at, length).fill(0n);
  const place = () => {
    if (at !== 0n) return at;
    throw gone();
  };
  const call = (name, its, found) => instance.call(name, [place(), ...its], found);
  const free = () => {
    if (at === 0n) return;
    if (ending) instance.run(ending, at);
    instance.run("free", at);
    at = 0n;
  };
  const begin = (name, its) => {
    try {
      call(name, its);
    } catch (error) {
      if (error instanceof ChipfireFault) free();
      throw error;
    }
  };
  return { place, begin, call, free };
}

/** A game that is kept, and on which chips are dropped. */
function pileOf(instance, graph, chips, { limit = MAX_LIMIT } = {}) {
  const game = [...given(graph), word(limit), words(chips)];
  const { begin, call, free } = kept(instance, 2, () => new ChipfireFault(FAULT.noPile, 0), "pile_free");
  begin("pile_new", game);
  const copied = (name) => {
    const copy = new BigUint64Array(Number(graph.vertices));
    call(name, [], { copy });
    return copy;
  };
  return {
    play: (visits = 2n ** 64n - 1n) => call("pile_play", [word(visits)])[0] !== 0n,
    drop(vertex, amount = 1) {
      const [size, area, lost] = call("pile_drop", [word(vertex), word(amount)]);
      return { size, area, lost };
    },
    drops(at, amounts = new Uint32Array(at.length).fill(1)) {
      const found = columns(at.length);
      try {
        call("pile_drops", [at, amounts], found);
      } catch (fault) {
        if (fault.number !== FAULT.stopped) throw fault;
        const made = Object.entries(found).map(([name, column]) => [name, column.subarray(0, fault.place)]);
        throw Object.assign(fault, { made: Object.fromEntries(made) });
      }
      return found;
    },
    randomRecurrent(seed, options) {
      const drawn = draws(seed, options);
      const chips = none(graph, drawn[2]);
      call("pile_random_recurrent", drawn, { chips });
      return chips;
    },
    chips: () => copied("pile_chips"),
    fired: () => copied("pile_fired"),
    put(chips, { limit = MAX_LIMIT } = {}) {
      call("pile_put", [word(limit), chips]);
    },
    free,
  };
}

/** Opens books in the module: a struct with a parent edge and two sums, and after it three numbers for each edge. */
function opened(instance, ins, outs) {
  const sides = [ins, outs].map((edges) => Array.from(BigUint64Array.from(edges, word).sort()));
  const tallies = sides.flat().flatMap((edge) => [edge, 0n, 0n]);
  const length = STRUCT.length + tallies.length;
  const its = kept(instance, length, () => new Error("the books were freed"));
  const [count, others] = sides.map((side) => BigInt(side.length));
  const first = its.place() + 8n * BigInt(STRUCT.length);
  const struct = [first, count, first + 24n * count, others, NEUTRAL, 0n, 0n];
  instance.view(its.place(), length).set([...struct, ...tallies]);
  its.begin("books_open", []);
  return its;
}

/** The books of a process. */
function booksOf(instance, ins, outs) {
  const { place, call, free } = opened(instance, ins, outs);
  const number = (at) => instance.view(place(), STRUCT.length)[at];
  /** The edges on which messages may wait for their acknowledgement: the parent came first. */
  const owed = new Set();
  const acknowledged = (edge, passive) => {
    const [count, soFar] = call("books_acknowledge", [edge, BigInt(Boolean(passive))]);
    if (edge !== number(STRUCT.parent)) owed.delete(edge);
    return count > 0n ? [[edge, soFar]] : [];
  };
  return {
    get parent() {
      return number(STRUCT.parent) === NEUTRAL ? null : number(STRUCT.parent);
    },
    get deficit() {
      return number(STRUCT.deficit);
    },
    sent(edge) {
      call("books_sent", [word(edge)]);
    },
    got(edge) {
      call("books_got", [word(edge)]);
      owed.add(word(edge));
    },
    // (the last message of the parent waits for those of all other edges)
    acknowledge: (passive) => [...owed].reverse().flatMap((edge) => acknowledged(edge, passive)),
    settled: (edge, count) => call("books_settled", [word(edge), word(count)])[0],
    isOver: (ended) => call("books_is_over", [BigInt(Boolean(ended))])[0] === 1n,
    free,
  };
}

/** What WebAssembly has compiled, or compiles of bytes or of what lies at a URL. */
async function compiled(source) {
  if (source instanceof WebAssembly.Module) return source;
  if (source instanceof ArrayBuffer || ArrayBuffer.isView(source)) return WebAssembly.compile(source);
  const url = new URL(source);
  if (url.protocol === "file:" && globalThis.process?.versions?.node) {
    const { readFile } = await import("node:fs/promises");
    return WebAssembly.compile(await readFile(url));
  }
  const response = await fetch(url);
  if (!response.ok) throw new Error(`${url}: ${response.status} ${response.statusText}`);
  return WebAssembly.compile(await response.arrayBuffer());
}

/** Loads the module: chipfire.wasm beside this file, or from a URL, of bytes, or as WebAssembly has compiled it. */
export async function load(source = new URL("chipfire.wasm", import.meta.url)) {
  const { exports } = await WebAssembly.instantiate(await compiled(source));
  return new Chipfire(exports);
}
