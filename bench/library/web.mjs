// Plays what bench/web.py asks for, by the package for browsers and Node whose chipfire.js is named: each line of standard
// input is a JSON text, and each line of standard output says the seconds of its calls, and a sum of what they return.
import { createHash } from "node:crypto";
import { createInterface } from "node:readline";

const { Graph, load } = await import(process.argv[2]);
const chipfire = await load();

/** The columns that one call returns. */
function played(graph, { chips, at }) {
  if (at === null) return Object.values(chipfire.stabilize(graph, chips)).slice(0, 2);
  return Object.values(chipfire.avalanches(graph, chips, at, at.map(() => 1n)));
}

for await (const line of createInterface({ input: process.stdin })) {
  const { vertices, sink, columns, chips, at, calls } = JSON.parse(line);
  const graph = new Graph(vertices, sink, ...columns);
  const given = { chips: BigUint64Array.from(chips, BigInt), at: at && BigUint64Array.from(at, BigInt) };
  let found;
  const begun = performance.now();
  for (let call = 0; call < calls; call++) found = played(graph, given);
  const seconds = (performance.now() - begun) / 1000;
  const sum = createHash("sha256");
  for (const column of found) sum.update(new Uint8Array(column.buffer));
  console.log(JSON.stringify({ seconds, sum: sum.digest("hex") }));
}
