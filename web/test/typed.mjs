// Checks of the page with typed texts: the examples, faults and refusals, grazes and open ends, stars.
import assert from "node:assert/strict";
import { readFileSync } from "node:fs";
import { join } from "node:path";
import {
  check, enter,
  example,
  keep,
  onePage,
  overflow,
  page,
  set,
  settled,
  text,
  texts,
  top,
  url,
  value,
} from "./harness.mjs";

// The listing in the page without what clock times add to it.
const plain = (listing) =>
  listing
    .split("\n")
    .filter((line) => !line.startsWith("instant "))
    .map((line) => line.replace(/ (ET|UT) .*$/, ""))
    .join("\n");
const instants = readFileSync(join(top, "examples/instants.txt"), "utf8").split("\n");
const names = instants.filter((line) => line && !line.startsWith("#")).map((line) => line.split(" ")[0]);
const scale = (name, on) =>
  page.run(
    `(() => { const box = document.getElementById("scale-${name}"); if (box.checked !== ${on}) box.click(); })()`,
  );

for (const name of names) {
  await check(`${name}: the listing, a row for each entry, a picture, one sheet of paper`, async () => {
    await example(name);
    await page.run(`document.querySelector("#sheet details").open = true`);
    const wanted = readFileSync(join(top, `examples/${name}.listing`), "utf8");
    assert.equal(plain(await text("#sheet pre")).trimEnd(), wanted.trimEnd());
    const rows = await page.run(
      `[...document.querySelectorAll(".contacts tbody tr")].filter((row) => !row.matches(".rises, .sets")).length`,
    );
    assert.equal(rows, wanted.trimEnd().split("\n").length - 1);
    assert.ok((await texts("#sheet figure")).length >= 2);
    assert.ok(await onePage());
    await page.run(`document.querySelector("#sheet details").open = false`);
  });
}

await check("Hopkinsville's contacts in UT to hundredths, and the Moon where the sheet has it", async () => {
  await example("hopkinsville2017");
  await scale("UT", true);
  const shown = (await texts("td.UT")).map((cell) => cell.trim());
  // the two times of the listing between which each lies
  const listed = [
    ["16:56:31.2", "16:56:32.2"],
    ["18:24:41.2", "18:24:42.2"],
    null,
    ["18:27:21.2", "18:27:22.2"],
    ["19:51:42.2", "19:51:43.2"],
  ];
  assert.equal(shown.length, listed.length);
  assert.equal(shown[2], "18:26:01");
  shown.forEach((cell, k) => {
    if (!listed[k]) return;
    const [, minutes, from, to] = /^(\d\d:\d\d):(\d\d\.\d\d)–(\d\d\.\d\d)$/.exec(cell);
    assert.ok(listed[k][0] <= `${minutes}:${from}` && from < to && `${minutes}:${to}` <= `${listed[k][1]}0`, cell);
  });
  const moons = await page.run(`[...document.querySelectorAll(".pictures .moon")].map((moon) => {
    return [Number(moon.getAttribute("cx")) - 100, Number(moon.getAttribute("cy")) - 100]; })`);
  assert.ok(
    moons[0][0] > 60 && moons.at(-1)[0] < -60,
    "the Moon comes from the west, on the right, and leaves to the east",
  );
  // first and last contact: the point of contact is where the Moon's centre is, from north (up) through east (left)
  const points = (await texts("td.point")).map((words) => parseFloat(words));
  for (const k of [0, 4]) {
    const [x, y] = moons[k];
    const turned = ((Math.atan2(-x, -y) * 180) / Math.PI + 360) % 360;
    assert.ok(Math.abs(turned - points[k]) < 0.2, `${turned} for ${points[k]}`);
  }
  // second and third contact of a total eclipse: both points are said, and they are opposite
  const cells = await texts("td.point");
  for (const k of [1, 3]) {
    const [point, , moon] = cells[k].match(/\d+\.\d/g).map(Number);
    assert.equal(((moon - point + 360) % 360).toFixed(1), "180.0");
  }
});

await check("zenith up turns the pictures by the library's angle", async () => {
  await example("hopkinsville2017");
  const moon = () => page.run(
    `["cx", "cy"].map((name) => Number(document.querySelector(".pictures .moon").getAttribute(name)) - 100)`,
  );
  await page.run(`document.getElementById("up-zenith").click()`);
  const [x, y] = await moon();
  const turned = ((Math.atan2(-x, -y) * 180) / Math.PI + 360) % 360;
  const [, zenith] = (await texts("td.point"))[0].match(/\d+\.\d/g).map(Number);
  assert.ok(Math.abs(turned - zenith) < 0.2, `${turned} for ${zenith}`);
  assert.equal(await page.run("document.activeElement.id"), "up-zenith");
  await page.run(`document.getElementById("up-north").click()`);
});

await check("a link brings the same text back", async () => {
  await example("hopkinsville2017");
  await set(
    "place-title",
    "Camp A: the north field, which has a title so long that it must wrap on every screen that there is: two",
  );
  await settled();
  const before = await value("text");
  await page.open(await page.run("location.href"));
  assert.equal(await value("text"), before);
  assert.match(await text("#sheet h2"), /^Camp A: the north field.*: two$/);
  await page.size(320, 800, true);
  assert.ok((await overflow()) <= 0);
  await page.size(1280, 900);
});

await check("an address with a place of one's own", async () => {
  await page.open(`${url}#example=hopkinsville2017&title=New+York&latitude=40.7128&longitude=-74.006&height=10`);
  assert.equal(await text("#sheet h2"), "New York");
  assert.match(await text(".facts"), /40\.712800° N · 74\.006000° W · 10 m/);
});

await check("an example is chosen by hand", async () => {
  await example("hopkinsville2017");
  await enter("example", "moscow1954", "change");
  assert.match(await text("#sheet h2"), /Moscow/);
  assert.match(await page.run("location.hash"), /moscow1954/);
});

// what is typed in place of a line, what is said, which line is marked (or none), which field
const FAULTS = [
  [
    "latitude 95",
    /latitude is outside its range, −90\.000000 to 90\.000000 \(refusal 3, place 1\)/,
    "latitude",
    "latitude",
  ],
  ["longitude 180.000001", /longitude is outside its range/, "longitude", "longitude"],
  ["x1 1.5", /X1 is outside its range, −1\.00000000 to 1\.00000000 \(refusal 2, place 1\)/, "x1", null],
  ["guard 15", /guard is outside its range, 16 to 1000 \(refusal 1, place 1\)/, "guard", null],
  ["first 10801", /window must have/, "first", null],
  ["height 1e3", /height is not a number/, "height", "height"],
  ["height 165.5", /height has more decimals/, "height", "height"],
  ["height 99999999999", /height is far too large/, "height", "height"],
  ["bogus 5", /no such name: “bogus”/, "bogus", null],
  ["x0 0", /X0 is given twice/, "x0 0", null],
  ["instant 2017-02-30 18:00:00 ET", /instant is not a date and time/, "instant", "instant"],
  ["instant 2017-08-21 18:00:00 ET\ninstant 2017-08-21 18:00:00 ET", /given twice/, "instant", "instant"],
];
for (const [typed, said, marked, field] of FAULTS) {
  await check(`refused: ${typed.replace("\n", ", ")}`, async () => {
    await example("hopkinsville2017");
    const name = typed.split(" ")[0];
    const lines = (await value("text")).split("\n");
    const at = name === "x0" ? -1 : lines.findIndex((line) => line.startsWith(`${name} `));
    if (at < 0) lines.push(typed);
    else lines[at] = typed;
    await set("text", lines.join("\n"));
    await settled();
    assert.match(await text(".refusal"), said);
    const bands = await page.run(`(() => { const text = document.getElementById("text");
      const top = (each) => each.getBoundingClientRect().top;
      return [...document.querySelectorAll(".band")].map((band) => top(band) - top(text) + text.scrollTop); })()`);
    const height = await page.run(`parseFloat(getComputedStyle(document.getElementById("text")).lineHeight)`);
    const all = lines.join("\n").split("\n");
    const rows = bands.map((top) => Math.floor(top / height));
    assert.ok(rows.some((row) => all[row]?.startsWith(marked)), `${rows} ${rows.map((row) => all[row])}`);
    if (field) assert.equal(
      await page.run(`document.getElementById("place-${field}").getAttribute("aria-invalid")`),
      "true",
    );
  });
}
await keep("refused");
await check("refused: a line is missing", async () => {
  await example("hopkinsville2017");
  await set("text", (await value("text")).replace(/^delta t.*\n/m, ""));
  await settled();
  assert.match(await text(".refusal"), /ΔT is missing: a line “delta t …” is needed/);
  assert.equal(await page.run(`document.getElementById("place-delta t").getAttribute("aria-invalid")`), "true");
});

await check("a graze is told as one, and hatched", async () => {
  await example("edge2017");
  assert.match(await text("tr.graze"), /For 10 s the central shadow's edge is too near/);
  assert.equal(await page.run(`document.querySelectorAll(".unsure").length`), 1);
  assert.ok(await onePage());
});
await check("an annular eclipse: a ring at its greatest", async () => {
  await example("albuquerque2023");
  const rows = await texts("td.what strong");
  const [begins, ends] = ["Partial eclipse begins", "Partial eclipse ends"];
  assert.deepEqual(rows, [begins, "Annularity begins", "Axis closest", "Annularity ends", ends]);
  const [sun, moon] = await page.run(`["sun", "moon"].map((name) => {
    const disc = document.querySelectorAll(".pictures svg")[2].querySelector("." + name);
    return ["cx", "cy", "r"].map((key) => Number(disc.getAttribute(key))); })`);
  assert.ok(Math.hypot(sun[0] - moon[0], sun[1] - moon[1]) + moon[2] < sun[2], "the Moon lies wholly in the Sun");
});
await check("an open end of the window is told as one", async () => {
  await example("edge2017");
  const value0 = await value("text");
  await set("text", value0.replace(/^first .*/m, "first 1583"));
  await settled();
  assert.match(await text("tr.open"), /Open at the window's start\s+For 6 s the central shadow's edge is too near/);
  assert.match(await text("#sheet header"), /under way when the window began/);
  await set("text", value0.replace(/^first .*/m, "first 1583").replace(/^last .*/m, "last 1585"));
  await settled();
  assert.match(await text("tr.open"), /Open\s+For 3 s/);
});
await check("Hopkinsville's example at Salem: the first contact; under way where the window begins later", async () => {
  await page.open(`${url}#example=hopkinsville2017&latitude=44.9429&longitude=-123.0351`);
  assert.ok((await text(".contacts")).includes("Partial eclipse begins"));
  await set("text", (await value("text")).replace(/^first .*/m, "first -5400"));
  await settled();
  assert.match(await text("#sheet header"), /under way when the window began/);
  assert.ok(!(await text(".contacts")).includes("Partial eclipse begins"));
});
await check("a place that the shadow misses: no contact, and nothing is covered", async () => {
  await page.open(`${url}#example=hopkinsville2017&latitude=-60&longitude=30`);
  assert.match(await text("#sheet"), /there is no contact/);
  assert.match(await text("#sheet tbody"), /nothing of the Sun is covered/);
});
await check("stars: no curve, no map, and a picture of each row, beyond 25° of declination too", async () => {
  for (const name of ["potsdam1956", "kansas1949"]) {
    await example(name);
    assert.ok((await texts("#sheet figure")).length >= 3);
    assert.equal(await page.run(`document.querySelector(".graph")`), null);
    assert.equal(await page.run(`document.getElementById("map-none").hidden`), false);
  }
});
await check("without an instant there are seconds alone", async () => {
  await example("hopkinsville2017");
  await set("text", (await value("text")).replace(/^instant .*\n/m, ""));
  await settled();
  assert.equal(await page.run(`document.querySelectorAll("td.local, td.UTC, td.UT, td.ET").length`), 0);
  assert.match(await text("td.seconds"), /−3740 to −3739/);
});
await check("a phone's width: nothing is wider than the window", async () => {
  for (const width of [320, 390]) {
    await page.size(width, 800, true);
    for (const name of [...names, "edge2017", "albuquerque2023"]) {
      await example(name);
      assert.ok((await overflow()) <= 0, `${name} at ${width}`);
    }
  }
  await page.size(1280, 900);
});
