// The proved library, compiled to WebAssembly. Each call lends memory behind the library's own, as include/ukhtvaresh.h
// says. Pointers are numbers, lengths and 64-bit values BigInt.

export class Refused extends Error {
  constructor(number, place) {
    super(`refused ${number} ${place}`);
    this.number = number;
    this.place = place;
  }
}

const SINES = 901; // numbers of the sine table
const SHEET = 65_536; // bytes of the longest sheet, as of the program `sheet`
const ENTRIES = Math.ceil(SHEET / 5); // no record but the end has fewer bytes
const TEXT = 6 * SHEET;
const STORED = 10_800; // a second is stored plus this
const NO_DIRECTION = 65_535;
const TABLES = [42, 7, 3]; // numbers of rows, sidereal angles and radii
const ELEMENTS = 22;
const MISFITS = 6;

const STATES = ["outside", "inside", "unsure"];
const PHASES = { 0x10: "penumbra", 0x20: "central", 0x40: "star" };
const OF_PHASE = ["enter", "leave", "graze", "open"];

function entryOf([kind, a, b, c, d]) {
  if (kind === 0x01) return { name: "head", station: a, first: b - STORED, last: c - STORED, guard: d };
  if (kind === 0x30) return { name: "closest", second: a - STORED, magnitude: b };
  if (kind === 0x31) return { name: "share", share: a };
  if (kind === 0x7f) return { name: "end" };
  const name = OF_PHASE[kind & 0x0f];
  const entry = { name, phase: PHASES[kind & 0xf0], from: a - STORED, to: b - STORED };
  if (name === "enter" || name === "leave") entry.direction = c === NO_DIRECTION ? null : c;
  return entry;
}

export async function loadLibrary(wasm) {
  const { instance } = await WebAssembly.instantiate(wasm, {});
  const { memory, __heap_base: base } = instance.exports;

  // rooms one after the other, each on a multiple of 8
  let next = Math.ceil(base.value / 8) * 8;
  const room = (bytes) => {
    const at = next;
    next += Math.ceil(bytes / 8) * 8;
    return at;
  };
  const request = room(128);
  const sines = room(4 * SINES);
  const value = room(8);
  const shadow = room(8 * 8);
  const tables = TABLES.map((count) => room(8 * count));
  const elements = room(8 * ELEMENTS);
  const misfits = room(8 * MISFITS);
  const sheet = room(SHEET);
  const entries = room(20 * ENTRIES);
  const text = room(TEXT);
  const missing = Math.ceil(next / 65_536) - memory.buffer.byteLength / 65_536;
  if (missing > 0) memory.grow(missing);

  const put = (at, bytes) => new Uint8Array(memory.buffer, at, bytes.length).set(bytes);
  const taken = (at, length) => new Uint8Array(memory.buffer, at, length).slice();

  // Calls a function and gives its value, or throws its refusal.
  function call(name, ...words) {
    const number = instance.exports[`ukhtvaresh_${name}`](...words, value);
    const given = Number(new DataView(memory.buffer).getBigUint64(value, true));
    if (number !== 0n) throw new Refused(Number(number), given);
    return given;
  }

  function sheetBy(name, bytes) {
    put(request, bytes);
    return taken(sheet, call(name, request, BigInt(bytes.length), sines, BigInt(SINES), sheet, BigInt(SHEET)));
  }

  const direction = (tenths) => (tenths === NO_DIRECTION ? null : tenths);
  const numbersIn = (at, count) => Array.from(new BigInt64Array(memory.buffer, at, count), Number);

  // The numbers of a second, so many of them.
  function numbersAt(name, bytes, second, count) {
    put(request, bytes);
    call(name, request, BigInt(bytes.length), BigInt(second), sines, BigInt(SINES), shadow, BigInt(count));
    return numbersIn(shadow, count);
  }

  // Where the Sun or the star is at a second: tenths of a degree, null for none.
  function horizonBy(name, bytes, second) {
    const [altitude, azimuth, zenith] = numbersAt(name, bytes, second, 3);
    return { altitude, azimuth: direction(azimuth), zenith: direction(zenith) };
  }

  // The two hundredths of a second, from the reference instant, between which a contact truly lies.
  function contactBy(name, bytes, phase, from, to) {
    put(request, bytes);
    const words = [BigInt(bytes.length), BigInt(phase), BigInt(from), BigInt(to), sines, BigInt(SINES)];
    call(name, request, ...words, shadow, 2n);
    return numbersIn(shadow, 2);
  }

  return {
    sheet: (bytes) => sheetBy("sheet", bytes),
    sheetAndShare: (bytes) => sheetBy("sheet_and_share", bytes),
    star: (bytes) => sheetBy("star", bytes),

    // The shadow at a second of an eclipse's request.
    second(bytes, second) {
      const [u, v, l1, l2, penumbra, central, magnitude, direction] = numbersAt("second", bytes, second, 8);
      return { second, u, v, l1, l2, penumbra: STATES[penumbra], central: STATES[central], magnitude, direction };
    },

    // The shadow at a second of a star's.
    starSecond(bytes, second) {
      const [u, v, radius, state, direction] = numbersAt("star_second", bytes, second, 5);
      return { second, u, v, radius, state: STATES[state], direction };
    },

    horizon: (bytes, second) => horizonBy("horizon", bytes, second),
    starHorizon: (bytes, second) => horizonBy("star_horizon", bytes, second),
    contact: (bytes, phase, from, to) => contactBy("contact", bytes, phase === "central" ? 1 : 0, from, to),
    starContact: (bytes, from, to) => contactBy("star_contact", bytes, 0, from, to),

    // The 22 elements of seven rows, and the largest misfit of x, y, d, l1, l2, mu at the seven hours.
    elements(rows, sidereal, radii, tolerance) {
      [rows, sidereal, radii].forEach((numbers, k) =>
        new BigInt64Array(memory.buffer, tables[k], TABLES[k]).set(numbers.map(BigInt)),
      );
      const given = TABLES.flatMap((count, k) => [tables[k], BigInt(count)]);
      const made = [elements, BigInt(ELEMENTS), misfits, BigInt(MISFITS)];
      call("elements", ...given, BigInt(tolerance), sines, BigInt(SINES), ...made);
      return { elements: numbersIn(elements, ELEMENTS), misfits: numbersIn(misfits, MISFITS) };
    },

    // The covered share at a second, in millionths.
    share(bytes, second) {
      put(request, bytes);
      return call("share", request, BigInt(bytes.length), BigInt(second), sines, BigInt(SINES));
    },

    // The entries of a sheet.
    read(bytes) {
      put(sheet, bytes);
      const count = call("read", sheet, BigInt(bytes.length), entries, BigInt(5 * ENTRIES));
      const numbers = new Uint32Array(memory.buffer, entries, 5 * count);
      return Array.from({ length: count }, (_, k) => entryOf(numbers.subarray(5 * k, 5 * k + 5)));
    },

    listing(bytes) {
      put(sheet, bytes);
      return new TextDecoder().decode(taken(text, call("listing", sheet, BigInt(bytes.length), text, BigInt(TEXT))));
    },
  };
}
