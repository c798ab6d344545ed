// The package under test, in the folder that CHIPFIRE_WEB names.
import { readFileSync } from "node:fs";
import { pathToFileURL } from "node:url";

const FOLDER = pathToFileURL(`${process.env.CHIPFIRE_WEB}/`);
export const URL_OF_MODULE = new URL("chipfire.wasm", FOLDER);
export const { Chipfire, ChipfireFault, Graph, MAX_LIMIT, load } = await import(
  new URL("chipfire.js", FOLDER)
);

/** What a call throws if that is a fault, as [number, place] and the columns of what was made before, and else [0, 0] and what
 * it returns, as columns. */
export function outcome(call) {
  try {
    return [0n, 0n, ...call()];
  } catch (error) {
    if (!(error instanceof ChipfireFault)) throw error;
    return [BigInt(error.number), BigInt(error.place), ...Object.values(error.made ?? {})];
  }
}

/** The module's bytes, with other numbers for how many pages of memory it has at first and at most. */
export function bytesWithMemory(pages, most) {
  const bytes = [...readFileSync(URL_OF_MODULE)];
  const numbers = (value) => {
    const low = value & 127;
    return value < 128 ? [low] : [low | 128, ...numbers(value >> 7)];
  };
  const read = (at) => {
    let [value, shift, end] = [0, 0, at];
    for (; bytes[end] & 128; shift += 7) value |= (bytes[end++] & 127) << shift;
    return [value | (bytes[end] << shift), end + 1];
  };
  for (let at = 8; ; ) {
    const [length, begin] = read(at + 1);
    if (bytes[at] === 5) {
      const section = [1, 1, ...numbers(pages), ...numbers(most)];
      bytes.splice(at, begin + length - at, 5, ...numbers(section.length), ...section);
      return Uint8Array.from(bytes);
    }
    at = begin + length;
  }
}
