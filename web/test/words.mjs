// Checks without a browser: coordinates as people paste them, clocks, both languages complete.      node
// web/test/words.mjs
import assert from "node:assert/strict";
import { readFileSync } from "node:fs";
import { dirname, join } from "node:path";
import { fileURLToPath } from "node:url";
import { coordinatesIn } from "../src/coordinates.mjs";
import { ENGLISH } from "../src/english.mjs";
import { RUSSIAN_TEXTS } from "../src/russian.mjs";
import { RUSSIAN_CITIES } from "../src/russiancities.mjs";
import { readCities, matching, plainName } from "../src/cities.mjs";
import { readCatalogue, tablesAround, instantOf } from "../src/catalogue.mjs";
import { between, clocksOf, nearestTime, readLeapSeconds, shortened, taiLessUtc } from "../src/scales.mjs";

const top = join(dirname(fileURLToPath(import.meta.url)), "../..");
const read = (name) => readFileSync(join(top, name), "utf8");

// ---- coordinates
const DALLAS = [32_776_700, -96_797_000];
const PAIRS = [
  ["32.7767, -96.7970", DALLAS],
  ["32.7767,-96.7970", DALLAS],
  ["32.7767 -96.7970", DALLAS],
  ["32,7767 -96,7970", DALLAS],
  ["32,7767; -96,7970", DALLAS],
  ["32,7767, -96,7970", DALLAS],
  ["32.7767, −96.7970", DALLAS],
  ["N 32.7767 W 96.7970", DALLAS],
  ["N32.7767 W96.7970", DALLAS],
  ["96.797W 32.7767N", DALLAS],
  ["lat: 32.7767, lng: -96.797", DALLAS],
  ["(32.7767, -96.797)", DALLAS],
  ["32°46'36\"N 96°47'49\"W", [32_776_667, -96_796_944]],
  ["32°46′36″N, 96°47′49″W", [32_776_667, -96_796_944]],
  ["32°46'36\"N96°47'49\"W", [32_776_667, -96_796_944]],
  ["32° 46.6′ N 96° 47.8' W", [32_776_667, -96_796_667]],
  ["48°51’24”N 2°21’8”E", [48_856_667, 2_352_222]],
  ["33 52 10 S 151 12 30 E", [-33_869_444, 151_208_333]],
  ["55°45.3' с.ш. 37°34.2' в.д.", [55_755_000, 37_570_000]],
  ["12,5 7,5", [12_500_000, 7_500_000]],
  ["-33.87 151.21", [-33_870_000, 151_210_000]],
];
for (const [typed, [latitude, longitude]] of PAIRS) assert.deepEqual(
  coordinatesIn(typed),
  { latitude, longitude },
  typed,
);
for (const typed of [
  "",
  "Dallas",
  "32",
  "91, 0",
  "0, 181",
  "32°61'N 5°E",
  "N 32 S 5",
  "E 5 W 6",
  "1, 2, 3",
  "-32 N 5 E",
  "1.5° 30' N 2 E",
])
  assert.equal(coordinatesIn(typed), null, typed);

// ---- languages: the same names, of the same kind
function same(a, b, path) {
  assert.equal(typeof b, typeof a, path);
  if (Array.isArray(a)) assert.equal(b.length, a.length, path);
  else if (typeof a === "object") {
    if (path.endsWith(".cities")) return;
    assert.deepEqual(Object.keys(b).sort(), Object.keys(a).sort(), path);
    for (const name of Object.keys(a)) same(a[name], b[name], `${path}.${name}`);
  } else if (typeof a === "function") assert.equal(b.length, a.length, path);
}
same(ENGLISH, RUSSIAN_TEXTS, "texts");

// ---- cities
const cities = readCities(read("web/data/cities.txt"), read("web/data/more_cities.txt"));
const names = new Set(cities.map(({ name }) => name));
assert.ok(cities.length >= 418 + 10);
assert.equal(names.size, cities.length, "no two cities have one name");
for (const name of Object.keys(RUSSIAN_CITIES)) assert.ok(names.has(name), name);
for (const { zone, name } of cities) assert.doesNotThrow(() => new Intl.DateTimeFormat("en", { timeZone: zone }), name);
const found = matching(cities.map(({ name }) => plainName(name)), "A CORUÑA").map((at) => cities[at].name);
assert.deepEqual(found, ["A Coruña"]);

// ---- catalogue: the same numbers as almanac/catalogue/reader.py has for the eclipse of 28 May 1900
const eclipses = readCatalogue(read("almanac/catalogue/eclipses.txt"));
assert.equal(eclipses.length, 454);
assert.deepEqual(
  [eclipses[0].date, eclipses[0].kind, eclipses[0].deltaT, eclipses[0].source],
  ["1900-05-28", "T", -151, "O"],
);
const { rows, sidereal } = tablesAround(eclipses[0], -1);
assert.equal(rows.length, 42);
assert.deepEqual(rows.slice(0, 6), [942478609737, 2001053635197, 868064964184, 2520235176, 4839889689, 2165267411]);
assert.equal(sidereal[1], 65_570_773);
assert.ok(tablesAround(eclipses.at(-1), 1).sidereal.every((angle) => angle >= 0 && angle < 360_000_000));
assert.deepEqual(
  instantOf(eclipses.find(({ date }) => date === "2012-05-20"), 0),
  { year: 2012, month: 5, day: 21, hundredths: 0, scale: "ET" },
);

// ---- clocks
const leapSeconds = readLeapSeconds(read("almanac/leap_seconds.txt"));
assert.deepEqual(taiLessUtc(leapSeconds, "2024-04-08"), { seconds: 37, presumed: false });
assert.deepEqual(taiLessUtc(leapSeconds, "1999-08-11"), { seconds: 32, presumed: false });
assert.deepEqual(taiLessUtc(leapSeconds, "2060-01-01"), { seconds: 37, presumed: true });
assert.equal(taiLessUtc(leapSeconds, "1971-12-31"), null);
const instant = { year: 2024, month: 4, day: 8, hundredths: 6_840_000, scale: "ET" }; // 19h
const clocks = clocksOf(instant, 6907, "America/Chicago", leapSeconds);
assert.deepEqual(clocks.names, ["local", "UTC", "UT", "ET"]);
const day = clocks.at("local", 0);
// 19:00:00.00 ET is 18:58:50.816 UTC and 18:58:50.93 UT; five hours less in Chicago, each rounded outward
assert.deepEqual(between(clocks, "UTC", [0, 3], day), ["18:58:50.81", "18:58:50.85", ""]);
assert.deepEqual(between(clocks, "UT", [0, 3], day), ["18:58:50.93", "18:58:50.96", ""]);
assert.deepEqual(between(clocks, "local", [0, 3], day), ["13:58:50.81", "13:58:50.85", ""]);
assert.deepEqual(between(clocks, "ET", [-6_840_001, 0], day), ["23:59:59.99", "19:00:00.00", "−1d"]);
assert.deepEqual(nearestTime(clocks, "UTC", 0, day), ["18:58:51", ""]);
assert.equal(shortened("13:40:43.21", "13:40:43.24"), "43.24");
assert.equal(shortened("13:40:59.99", "13:41:00.02"), "13:41:00.02");
const old = clocksOf({ ...instant, year: 1954, month: 6, day: 30, scale: "UT" }, 0, "Europe/Moscow", leapSeconds);
assert.deepEqual([old.names, old.civil, old.offset], [["local", "UT"], "UT", 3 * 3_600_000]);
console.log("coordinates, languages, cities, catalogue and clocks: no difference");
