// What the module asks for and has, and the ways to load it.
import assert from "node:assert/strict";
import { readFileSync } from "node:fs";
import { createServer } from "node:http";
import { test } from "node:test";
import { Graph, URL_OF_MODULE, load } from "./package.mjs";

const bytes = readFileSync(URL_OF_MODULE);
const compiled = await WebAssembly.compile(bytes);

test("it asks for nothing, and has the functions of the header", () => {
  assert.deepEqual(WebAssembly.Module.imports(compiled), []);
  const names = WebAssembly.Module.exports(compiled).map(({ name }) => name);
  const rooms = ["chipfire_free", "chipfire_room", "memory"];
  assert.deepEqual(names.sort(), [...process.env.CHIPFIRE_DECLARED.split(" "), ...rooms].sort());
});

test("its version", async () => {
  assert.equal((await load()).version, process.env.CHIPFIRE_VERSION);
});

test("it is loaded from bytes, a compiled module, a file or a server", async () => {
  const server = createServer((request, response) => {
    response.statusCode = request.url === "/chipfire.wasm" ? 200 : 404;
    response.end(request.url === "/chipfire.wasm" ? bytes : "");
  });
  await new Promise((done) => server.listen(0, "127.0.0.1", done));
  const address = `http://127.0.0.1:${server.address().port}`;
  const own = new Uint8Array(bytes).buffer;
  const sources = [bytes, own, compiled, URL_OF_MODULE, URL_OF_MODULE.href, `${address}/chipfire.wasm`];
  try {
    for (const source of sources) {
      const { chips } = (await load(source)).stabilize(Graph.grid(1), [5, 0]);
      assert.deepEqual([...chips], [1n, 4n]);
    }
    await assert.rejects(load(`${address}/other.wasm`), /404/);
  } finally {
    server.close();
  }
});
