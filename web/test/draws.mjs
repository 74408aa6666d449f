// Calls of every function of the library, by chance: most requests near real eclipses and occultations, some anywhere in their ranges, some
// beyond them or of another shape; rooms that are long enough and rooms that are not.
import { readFileSync } from "node:fs";
import { dirname, join } from "node:path";
import { fileURLToPath } from "node:url";
import { numbersOf, fieldTables } from "../src/fields.mjs";

const examples = join(dirname(fileURLToPath(import.meta.url)), "../../examples");
const example = (name) => new Uint8Array(readFileSync(join(examples, `${name}.bin`)));
const ECLIPSES = ["hopkinsville2017", "moscow1954", "kiev1954"].map(example);
const STARS = ["potsdam1956", "kansas1949"].map(example);

// Numbers by chance from a seed (mulberry32).
function chance(seed) {
  let state = seed >>> 0;
  const random = () => {
    state = (state + 0x6d2b79f5) >>> 0;
    let t = Math.imul(state ^ (state >>> 15), state | 1);
    t ^= t + Math.imul(t ^ (t >>> 7), t | 61);
    return ((t ^ (t >>> 14)) >>> 0) / 2 ** 32;
  };
  const within = (low, high) => low + Math.floor(random() * (high - low + 1));
  return { random, within, one: (list) => list[within(0, list.length - 1)], often: (share) => random() < share };
}

const buffer = (bytes, size = 1, elements = Math.floor(bytes.length / size)) => ({ elements, bytes });
const longs = (numbers) => buffer(new Uint8Array(new BigInt64Array(numbers.map((n) => BigInt.asIntN(64, BigInt(n)))).buffer), 8);

export function* draws(count, seed, made) {
  const { random, within, one, often } = chance(seed);
  const filled = (length) => Uint8Array.from({ length }, () => within(0, 255));
  const room = (length, size = 1) => buffer(filled(length * size), size);
  const sines = () => room(often(0.97) ? 901 : within(0, 950), 4);
  const sheetRoom = () => room(often(0.9) ? 400 : within(0, 60));

  // a request's bytes: an example with another station, window or guard; anywhere in the ranges; or damaged
  function request(star) {
    const base = one(star ? STARS : ECLIPSES);
    const numbers = numbersOf(base);
    const records = fieldTables(star);
    const anywhere = often(0.3);
    for (const [at, record] of records.entries())
      for (const [name, , , low, high] of record)
        if (anywhere || at === 1) numbers[name] = often(0.03) ? one([low, high]) : within(low, high);
        else if (at === 0 && often(0.3)) numbers[name] = Math.max(low, Math.min(high, numbers[name] + within(-2000, 2000)));
    const first = within(-10_800, 10_800);
    numbers.first = often(0.5) ? first : -7_200;
    numbers.last = often(0.5) ? Math.min(10_800, numbers.first + within(0, 3_000)) : 10_800;
    numbers.guard = often(0.6) ? 16 : within(16, 1_000);
    if (often(0.08)) {
      const [name, , , low, high] = one(one(records));
      numbers[name] = one([low - 1, high + 1, -numbers[name]]);
    }
    let bytes = packed(numbers, records, star);
    if (often(0.02)) bytes[within(0, bytes.length - 1)] ^= 1 << within(0, 7);
    if (often(0.02)) bytes = bytes.slice(0, within(0, bytes.length - 1));
    return bytes;
  }

  function packed(numbers, records, star) {
    const view = new DataView(new ArrayBuffer(star ? 79 : 115));
    let at = 0;
    records.forEach((record, k) => {
      view.setUint8(at++, k === 0 ? (star ? 5 : 2) : k + 2);
      for (const [name, , width] of record) {
        if (width === 4) view.setInt32(at, numbers[name]);
        else view.setUint16(at, numbers[name] & 0xffff);
        at += width;
      }
    });
    return new Uint8Array(view.buffer);
  }

  // a sheet that the library made of a request by chance, at times damaged
  function sheet() {
    const name = one(["sheet", "sheet_and_share", "star"]);
    const said = made({ name, buffers: [buffer(request(name === "star")), room(901, 4), room(4_000)] });
    if (said.number !== 0n) return filled(within(0, 60));
    const bytes = new Uint8Array(said.after[2].subarray(0, Number(said.values[0])));
    if (often(0.3)) bytes[within(0, bytes.length - 1)] ^= 1 << within(0, 7);
    if (often(0.05)) return Uint8Array.from([...bytes, ...filled(within(1, 9))]);
    return often(0.1) ? bytes.slice(0, within(0, bytes.length)) : bytes;
  }

  const second = () => (often(0.97) ? within(-10_800, 10_800) : one([-10_801, 10_801, 2 ** 40]));
  // a phase and two seconds, most often in order
  const contact = () => {
    const seconds = [second(), second()];
    return [often(0.9) ? within(0, 1) : within(-2, 3), ...(often(0.9) ? seconds.sort((a, b) => a - b) : seconds)];
  };
  const near = (numbers) => numbers.map((n) => n + (often(0.1) ? within(-2_000, 2_000) : 0));
  const rows = readFileSync(join(examples, "rows1954.txt"), "utf8").split("\n").filter((line) => line && !line.startsWith("#"));
  const ROWS = rows.flatMap((line) => line.split(/\s+/).map(Number));

  const calls = {
    sheet: () => [buffer(request(false)), sines(), sheetRoom()],
    sheet_and_share: () => [buffer(request(false)), sines(), sheetRoom()],
    star: () => [buffer(request(true)), sines(), sheetRoom()],
    share: () => [[buffer(request(false)), sines()], [second()]],
    second: () => [[buffer(request(false)), sines(), room(often(0.97) ? 8 : within(0, 9), 8)], [second()]],
    star_second: () => [[buffer(request(true)), sines(), room(often(0.97) ? 5 : within(0, 6), 8)], [second()]],
    horizon: () => [[buffer(request(false)), sines(), room(often(0.97) ? 3 : within(0, 4), 8)], [second()]],
    star_horizon: () => [[buffer(request(true)), sines(), room(often(0.97) ? 3 : within(0, 4), 8)], [second()]],
    contact: () => [[buffer(request(false)), sines(), room(often(0.97) ? 2 : within(0, 3), 8)], contact()],
    star_contact: () => [[buffer(request(true)), sines(), room(often(0.97) ? 2 : within(0, 3), 8)], contact()],
    mirror: () => [buffer(request(false)), room(often(0.95) ? 115 : within(0, 130))],
    read: () => [buffer(sheet()), room(often(0.9) ? 400 : within(0, 30), 4)],
    write() {
      const read = made({ name: "read", buffers: [buffer(sheet()), room(5_000, 4)] });
      const entries = read.number === 0n ? new Uint8Array(read.after[1].subarray(0, 20 * Number(read.values[0]))) : filled(4 * within(0, 40));
      if (often(0.2) && entries.length > 0) entries[within(0, entries.length - 1)] ^= 1 << within(0, 7);
      return [buffer(entries, 4), sheetRoom()];
    },
    listing: () => [buffer(sheet()), room(often(0.9) ? 2_000 : within(0, 200))],
    fit() {
      const cubic = [within(-2e8, 2e8), within(-1e8, 1e8), within(-1e5, 1e5), within(-1e4, 1e4)];
      const hours = [-3, -2, -1, 0, 1, 2, 3].map((h) => cubic[0] + h * (cubic[1] + h * (cubic[2] + h * cubic[3])));
      const tolerance = often(0.95) ? within(0, 1_000) : one([-1, 1_001]);
      if (often(0.03)) hours[within(0, 6)] = one([-1, 1]) * (1e9 + 1);
      return [[longs(often(0.9) ? cubic : near(cubic)), longs(near(hours))], [tolerance]];
    },
    from_tables() {
      const anywhere = () => ROWS.map((n) => Math.floor(n * (0.8 + 0.4 * random())));
      return [longs(often(0.9) ? near(ROWS) : anywhere()), room(often(0.95) ? 56 : within(0, 60), 8)];
    },
    root: () => [[], [BigInt(within(0, 2 ** 32)) * BigInt(within(0, 2 ** 32)) + BigInt(within(0, 2 ** 31))]],
    mend() {
      const file = Uint8Array.from(Array.from({ length: within(0, 4) }, () => [...sheet(), ...filled(often(0.5) ? 0 : within(0, 9))]).flat());
      return [buffer(file), room(often(0.9) ? file.length : within(0, 40)), room(often(0.9) ? file.length + 16 : within(0, 40))];
    },
    sheet_of_doubles() {
      const units = numbersOf(packed(numbersOf(one(ECLIPSES)), fieldTables(false), false));
      const [elements] = fieldTables(false);
      const values = elements.map(([name, decimals]) => {
        if (often(0.01)) return one([NaN, Infinity, 1e300]);
        return (units[name] + (often(0.2) ? random() - 0.5 : 0)) / 10 ** decimals;
      });
      const rest = [within(1, 999), within(-9e7, 9e7), within(-500, 9_000), within(-1e4, 2e4), -5_000, within(-5_000, 10_800), 16];
      const hours = often(0.98) ? within(0, 1) : 2;
      const elementDoubles = buffer(new Uint8Array(new Float64Array(values).buffer), 8);
      const longitude = (360 * random() - 180) / (hours ? 15 : 1);
      return [[elementDoubles, longs(rest), sines(), sheetRoom()], [hours], [longitude]];
    },
    doubles() {
      const [elements] = fieldTables(false);
      const units = elements.map(([, , , low, high]) => (often(0.005) ? high + 1 : within(low, high)));
      return [longs([...units, within(-18e7, 18e7)]), room(often(0.95) ? 23 : within(0, 25), 8)];
    },
    network() {
      const numbers = numbersOf(one(ECLIPSES));
      const eclipse = [...fieldTables(false)[0].map(([name]) => numbers[name]), often(0.05) ? 10_801 : -3_600, within(-3_000, 6_000), 16];
      const size = often(0.95) ? within(1, 8) : one([0, 64, 65]);
      const stations = Array.from({ length: size }, (_, k) => {
        const clock = often(0.97) ? within(0, k) : within(0, 99);
        return [k + 1, within(3e7, 6e7), within(-1e8, 5e7), within(0, 3_000), within(0, 7_000), clock];
      });
      if (often(0.05) && size > 1) stations[within(1, size - 1)][0] = 1; // a number twice
      if (often(0.05) && size > 0) stations[0][5] = within(1, size); // a ring
      const list = longs(stations.flat());
      return [longs(eclipse), { elements: size, bytes: list.bytes }, sines(), room(64, 8)];
    },
  };
  const names = Object.keys(calls);
  // half of all calls are for sheets
  const weighted = [...names, ...Array(5).fill(["sheet", "sheet_and_share", "star"]).flat()];
  for (let k = 0; k < count; k++) {
    const name = one(weighted);
    const given = calls[name]();
    const [buffers, numbers = [], doubles = []] = Array.isArray(given[0]) ? given : [given];
    yield { name, buffers, numbers: numbers.map(BigInt), doubles };
  }
}
