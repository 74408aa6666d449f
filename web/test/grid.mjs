// Compares the map's cells, of which those amid empty ones are skipped, with all cells of 2 degrees, each computed:
//   node web/test/grid.mjs [STEP]         after `web/build`; every STEPth eclipse (40), and the twelve smallest
import assert from "node:assert/strict";
import { readFileSync } from "node:fs";
import { dirname, join } from "node:path";
import { fileURLToPath } from "node:url";
import { loadLibrary } from "../src/library.mjs";
import { readCatalogue } from "../src/catalogue.mjs";
import { GUARD, mapRequest, movedTo } from "../src/making.mjs";
import { cellsOf } from "../src/grid.mjs";
import { seenOf } from "../src/seen.mjs";

const top = join(dirname(fileURLToPath(import.meta.url)), "../..");
const folder = process.env.WASM ?? join(top, "target/web");
const library = await loadLibrary(readFileSync(join(folder, "ukhtvaresh.wasm")));
const eclipses = readCatalogue(readFileSync(join(top, "almanac/catalogue/eclipses.txt"), "utf8"));
const step = Number(process.argv[2] ?? 40);
const SIZE = 2;
const WORLD = { west: -180, east: 180, south: -92, north: 92 };
const CLOSE = 16; // seconds that a sunrise may be off, as in the map

const smallest = [...eclipses].sort((a, b) => a.magnitude - b.magnitude).slice(0, 12);
const chosen = new Set([...smallest, ...eclipses.filter((_, k) => k % step === 0)]);
let cells = 0;
let sheets = 0;
for (const eclipse of chosen) {
  const bytes = mapRequest(library, eclipse, { radii: "document02", guard: GUARD, deltaT: null });
  const drawn = new Map();
  for (const cell of cellsOf(library, bytes, WORLD, SIZE)) {
    if (cell.size < SIZE) break;
    sheets += 1;
    if (cell.size === SIZE) drawn.set(`${cell.west} ${cell.south}`, cell.magnitude);
  }
  for (let south = WORLD.south; south < WORLD.north; south += SIZE)
    for (let west = WORLD.west; west < WORLD.east; west += SIZE) {
      const latitude = Math.max(-90, Math.min(90, south + SIZE / 2));
      const moved = movedTo(bytes, latitude * 1e6, (west + SIZE / 2) * 1e6, 0);
      const seen = seenOf(library, moved, library.read(library.sheet(moved)), CLOSE);
      const magnitude = seen && !seen.down ? seen.magnitude : 0;
      assert.equal(drawn.get(`${west} ${south}`) ?? 0, magnitude, `${eclipse.date} at ${latitude} ${west + SIZE / 2}`);
      cells += 1;
    }
}
console.log(`${chosen.size} eclipses, ${cells} cells, no difference; the map computed ${sheets} sheets`);
