// Runs the program `request` in WebAssembly on texts from standard input, each behind its length (4 bytes, little-endian), and writes what it
// gave to its two outputs in the same form: `tests/page_texts.py` compares.
import { readFileSync, writeSync } from "node:fs";
import { dirname, join } from "node:path";
import { fileURLToPath } from "node:url";
import { loadRequest } from "../src/program.mjs";

const folder = join(dirname(fileURLToPath(import.meta.url)), "../../target/web");
const run = await loadRequest(readFileSync(join(folder, "request.wasm")));
const input = readFileSync(0);
const out = [];
const put = (bytes) => {
  const length = Buffer.alloc(4);
  length.writeUInt32LE(bytes.length);
  out.push(length, Buffer.from(bytes));
};
for (let at = 0; at < input.length; ) {
  const length = input.readUInt32LE(at);
  const { output, errorBytes } = run(new Uint8Array(input.subarray(at + 4, at + 4 + length)));
  put(output);
  put(errorBytes);
  at += 4 + length;
}
const all = Buffer.concat(out);
for (let at = 0; at < all.length; ) at += writeSync(1, all, at);
