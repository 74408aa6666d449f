// Holds the library in WebAssembly against the archive, call by call: number, values and every byte of every buffer.
//   node web/test/library.mjs [CALLS] [SEED]         after `web/build`; wants a C compiler
import { execFileSync } from "node:child_process";
import { readFileSync, writeFileSync } from "node:fs";
import { dirname, join } from "node:path";
import { fileURLToPath } from "node:url";
import { draws } from "./draws.mjs";

const top = join(dirname(fileURLToPath(import.meta.url)), "../..");
const made = join(top, "target/web");
const calls = Number(process.argv[2] ?? 30_000);
const seed = Number(process.argv[3] ?? 1954);

// in the order of native.c
const NAMES =
  ("sheet sheet_and_share star share second mirror read write listing fit from_tables root mend sheet_of_doubles " +
    "doubles network star_second horizon star_horizon contact star_contact").split(" ");
// the arguments of each: B a buffer with its length, I a whole number, D a double, V a value
const FORMS =
  ("BBBV BBBV BBBV BIBV BIBBV BBV BBV BBV BBV BBIV BBV IV BBBVV BDIBBBV BBV BBBBV BIBBV BIBBV BIBBV BIIIBBV " +
    "BIIIBBV").split(" ");

const { instance } = await WebAssembly.instantiate(readFileSync(join(made, "ukhtvaresh.wasm")), {});
const { memory, __heap_base: base } = instance.exports;
const start = Math.ceil(base.value / 16) * 16;

// Makes a call in WebAssembly: { number, values, after }
function inWasm({ name, buffers, numbers = [], doubles = [] }) {
  let next = start;
  const room = (bytes) => {
    const at = next;
    next += Math.ceil((bytes + 8) / 16) * 16;
    return at;
  };
  const rooms = buffers.map(({ bytes }) => room(bytes.length));
  const values = [room(8), room(8)];
  const missing = Math.ceil(next / 65_536) - memory.buffer.byteLength / 65_536;
  if (missing > 0) memory.grow(missing);
  buffers.forEach(({ bytes }, k) => new Uint8Array(memory.buffer).set(bytes, rooms[k]));
  const view = () => new DataView(memory.buffer);
  values.forEach((at) => view().setBigUint64(at, 0n, true));
  const counts = { B: 0, I: 0, D: 0, V: 0 };
  const words = [...FORMS[NAMES.indexOf(name)]].flatMap((kind) => {
    const k = counts[kind]++;
    if (kind === "B") return [rooms[k], BigInt(buffers[k].elements)];
    if (kind === "I") return [BigInt.asIntN(64, numbers[k])];
    return kind === "D" ? [doubles[k]] : [values[k]];
  });
  const number = BigInt.asUintN(64, instance.exports[`ukhtvaresh_${name}`](...words));
  return {
    number,
    values: values.map((at) => view().getBigUint64(at, true)),
    after: buffers.map(({ bytes }, k) => Buffer.from(memory.buffer.slice(rooms[k], rooms[k] + bytes.length))),
  };
}

const words = (...numbers) => Buffer.from(new Uint32Array(numbers).buffer);
const long = (...numbers) => Buffer.from(new BigInt64Array(numbers.map((n) => BigInt.asIntN(64, BigInt(n)))).buffer);

const asked = [];
const given = [];
const lengths = [];
const counts = {};
for (const call of draws(calls, seed, inWasm)) {
  const { name, buffers, numbers = [], doubles = [] } = call;
  asked.push(words(NAMES.indexOf(name), buffers.length, numbers.length, doubles.length));
  for (const { elements, bytes } of buffers) asked.push(long(elements, bytes.length), Buffer.from(bytes));
  asked.push(long(...numbers), Buffer.from(new Float64Array(doubles).buffer));
  const { number, values, after } = inWasm(call);
  const whole = Buffer.concat([long(number, ...values), ...after]);
  given.push(whole);
  lengths.push([whole.length, name]);
  const kind = name === "root" ? "0" : String(number);
  counts[name] ??= {};
  counts[name][kind] = (counts[name][kind] ?? 0) + 1;
}
writeFileSync(join(made, "calls"), Buffer.concat(asked));

const program = join(made, "native");
execFileSync(process.env.CC ?? "cc", ["-std=c99", "-O2", join(top, "web/test/native.c"), join(top, "target/staticlib/libukhtvaresh.a"), "-o", program]);
const native = execFileSync("sh", ["-c", `"$0" <"$1"`, program, join(made, "calls")], { maxBuffer: 2 ** 31 - 1 });
const wasm = Buffer.concat(given);
if (!native.equals(wasm)) {
  let at = 0;
  lengths.forEach(([length, name], k) => {
    if (!native.subarray(at, at + length).equals(wasm.subarray(at, at + length))) {
      console.error(`call ${k}, ${name}: the two differ`);
      process.exit(1);
    }
    at += length;
  });
  console.error("the two have different lengths");
  process.exit(1);
}
const REQUESTS =
  ("sheet sheet_and_share star share second star_second horizon star_horizon contact star_contact mirror " +
    "sheet_of_doubles network").split(" ");
const requests = lengths.filter(([, name]) => REQUESTS.includes(name)).length;
console.log(`${lengths.length} calls, ${requests} of them requests, ${wasm.length.toLocaleString("en")} bytes compared, no difference`);
for (const [name, kinds] of Object.entries(counts)) {
  const told = Object.entries(kinds).map(([number, count]) => `${number === "0" ? "answered" : `refused ${number}`} ${count}`);
  console.log(`  ${name}: ${told.join(", ")}`);
}
