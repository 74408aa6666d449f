// Checks of the page with eclipses of the catalogue: choosing, places, map, list, what one takes along.
import assert from "node:assert/strict";
import {
  check,
  click,
  enter,
  hereDone,
  keep,
  keepPaper,
  mapDone,
  onePage,
  overflow,
  page,
  pick,
  settled,
  sheetOf,
  sizeOfFile,
  text,
  texts,
  url,
  value,
} from "./harness.mjs";

// Seconds of totality at Dallas on 8 April 2024 by Swiss Ephemeris 2.10.03 with document 02's radii:
// almanac/when_loc.c, its contacts by bisection, with SUN 695989.245, MOON 1736.600874 and INNER 1.
const SWISS_DALLAS = 231.17;
const DURATION = /^(?:(\d+) h )?(?:(\d+) min )?(\d+\.\d+) to (\d+\.\d+) s$/;
const seconds = (words) => {
  const [hours, minutes, low, high] = DURATION.exec(words).slice(1).map((each) => Number(each ?? 0));
  return [low, high].map((each) => 3600 * hours + 60 * minutes + each);
};
const durations = () =>
  page.run(`Object.fromEntries([...document.querySelectorAll(".durations div")]
    .map(({ children: [what, long] }) => [what.innerText, long.innerText]))`);

await check("without an address: the next eclipse first, at a city of the browser's zone", async () => {
  await page.open(url);
  await click("eclipse");
  const [first, second] = await texts("#eclipse-list [role=option] .date");
  assert.ok(Date.parse(`${first} UTC`) >= Date.now() - 86_400_000, first);
  assert.ok(Date.parse(`${second} UTC`) > Date.parse(`${first} UTC`));
  assert.equal((await value("eclipse")).replace(/,.*/, ""), first);
  assert.equal(await page.run(`document.querySelectorAll("#eclipse-list [role=option]").length`), 454);
  await page.until(`document.querySelector("#eclipse-list .goes").textContent !== "…"`);
  assert.equal(await value("place"), "Berlin");
  await page.run("document.activeElement.blur()");
});

await check("London, 8 April 2024: the Sun is down", async () => {
  await sheetOf("2024-04-08", 51.5083, -0.1253, { name: "London", zone: "Europe/London" });
  assert.match(await text(".verdict"), /Nothing is seen here: the Sun is below the horizon during the whole eclipse/);
  const rows = await page.run(
    `[...document.querySelectorAll(".contacts tbody tr")]
      .map((row) => [row.classList.contains("down"), row.innerText])`,
  );
  assert.equal(rows.length, 3);
  for (const [down, words] of rows) assert.ok(down && words.includes("below the horizon"), words);
  assert.equal(await page.run(`document.querySelectorAll(".picture.night").length`), 3);
  assert.equal(await page.run(`document.querySelectorAll(".night-band").length`), 1);
  await keep("london2024");
});

await check("Salem, 21 August 2017: it has its first contact", async () => {
  await sheetOf("2017-08-21", 44.9429, -123.0351, { name: "Salem", zone: "America/Los_Angeles", height: 47 });
  const first = await page.run(`document.querySelector(".contacts tbody tr").innerText`);
  assert.match(first, /Partial eclipse begins/);
  assert.match(first, /09:05:\d\d\.\d\d/);
  assert.ok(!(await text("#sheet header")).includes("under way"));
});

await check("Dallas, 8 April 2024: local time, and totality within a second of Swiss Ephemeris", async () => {
  await sheetOf("2024-04-08", 32.7767, -96.797, { name: "Dallas", zone: "America/Chicago", height: 131 });
  assert.match(await text(".contact-sheet .date"), /8 April 2024 · America\/Chicago \(UTC−5\)/);
  const local = await texts("td.local");
  const begins = ["12:23:2", "13:40:4", "13:42:3", "13:44:3", "15:02:3"];
  local.forEach((time, k) => assert.ok(time.startsWith(begins[k]), `${time} ${begins[k]}`));
  const [low, high] = seconds((await durations()).Totality);
  assert.ok(low <= high && high - low <= 0.12, `${low} ${high}`);
  assert.ok(Math.abs(low - SWISS_DALLAS) < 1 && Math.abs(high - SWISS_DALLAS) < 1, `${low} ${high}`);
  // every contact between two hundredths that lie at most 0.06 s apart
  for (const time of local.filter((_, k) => k !== 2)) {
    const [, from, to] = /:(\d\d\.\d\d)–(\d\d\.\d\d)$/.exec(time);
    assert.ok(Number(to) - Number(from) <= 0.06, time);
  }
  assert.ok(await onePage());
  await keepPaper("dallas2024");
});

await check("12 August 2026 and A Coruña, picked by name and by the keyboard", async () => {
  await page.open(url);
  await pick("eclipse", "2026-08");
  await pick("place", "a coru");
  assert.equal(await text("#sheet h2"), "Solar eclipse of 12 August 2026: A Coruña");
  assert.equal(await value("place"), "A Coruña");
  assert.equal(await value("zone"), "Europe/Madrid");
  assert.match(
    await text(".verdict"),
    /Total eclipse: totality lasts 1 min 16\.\d s, at 20:28:\d\d with the Sun 1[12]\.\d° high/,
  );
  assert.equal(await page.run("document.title"), "Solar eclipse of 12 August 2026: A Coruña");
});

await check("coordinates as people paste them", async () => {
  for (const typed of ["32.7767, -96.7970", "32°46'36\"N 96°47'49\"W", "32,7767; −96,7970"]) {
    await pick("place", typed);
    assert.match(await text("#where"), /^32\.7766?6?7?\d*° N\s+96\.79\d+° W$/);
  }
});

await check("a year narrows the list; the last one opens", async () => {
  await page.run(`document.getElementById("eclipse").focus()`);
  await page.type("2099");
  await page.until(`document.querySelectorAll("#eclipse-list [role=option]").length === 2`);
  assert.deepEqual(await texts("#eclipse-list .date"), ["21 March 2099", "14 September 2099"]);
  await page.key("ArrowDown", "ArrowDown", 40);
  await page.key("Enter", "Enter", 13);
  await settled();
  assert.match(await text("#sheet h2"), /14 September 2099/);
  assert.match(await text("#sheet header"), /UTC is presumed/);
  assert.match(await text("#sheet header"), /ΔT of this date is a forecast/);
});

await check("radii, ΔT and guard by hand", async () => {
  await sheetOf("2024-04-08", 32.7767, -96.797, { name: "Dallas", zone: "America/Chicago", height: 131 });
  const begins = async () => page.run(`document.querySelector("td.local").innerText`);
  const plain = await begins();
  await enter("radii", "iau", "change");
  const earlier = await begins();
  assert.ok(earlier < plain, `${earlier} ${plain}`); // the larger Moon touches earlier
  assert.match(await page.run("location.hash"), /radii=iau/);
  await enter("delta-t", "80");
  assert.match(await value("text"), /^delta t 80$/m);
  await click("delta-t-reset");
  assert.match(await value("text"), /^delta t 69\.07$/m);
  await enter("guard", "16");
  assert.match(await text("#sheet header"), /With a guard below 32/);
  await enter("guard", "15");
  assert.equal(await page.run(`document.getElementById("guard").hasAttribute("aria-invalid")`), true);
});

await check("the device's location", async () => {
  await page.send("Browser.grantPermissions", { permissions: ["geolocation"] });
  await page.send("Emulation.setGeolocationOverride", { latitude: 43.37, longitude: -8.4, accuracy: 10 });
  await sheetOf("2026-08-12", 0, 0, { name: "zero" });
  await click("device");
  await page.until(`document.getElementById("place").value === "My location"`);
  assert.match(await text("#where"), /43\.370000° N\s+8\.400000° W/);
  await page.send("Emulation.clearGeolocationOverride");
});

await check("all eclipses at Moscow: 1954 and 2061 are there, in under a second; sorting; a click opens", async () => {
  // beside a star's sheet no map is computed; on a busy machine the processor's time counts
  let best = Infinity;
  for (let tries = 0; tries < 4 && best >= 1000; tries++) {
    await page.open(`${url}#example=potsdam1956`);
    await hereDone();
    const took = Number(await page.run(`document.querySelector(".here").dataset.took`));
    const spent = await page.spent();
    console.log(`    ${took} ms by the clock, at most ${Math.round(spent)} ms of processor time with the page's start`);
    best = Math.min(best, took, spent);
  }
  assert.ok(best < 1000, `${best} ms`);
  await sheetOf("2026-08-12", 55.7558, 37.6173, { name: "Moscow", zone: "Europe/Moscow" });
  await hereDone();
  const rows = await page.run(
    `[...document.querySelectorAll(".here-table tbody tr")].map((row) => [row.dataset.date, row.innerText])`,
  );
  const of = (date) => rows.find(([each]) => each === date)?.[1] ?? "";
  assert.match(of("1954-06-30"), /partial\s+0\.87\d/);
  assert.match(of("2061-04-20"), /partial\s+0\.96\d/);
  assert.ok(rows.length > 60 && rows.length < 120, String(rows.length));
  await click("here-magnitude");
  const magnitudes = (await texts(".here-table tbody td.magnitude")).map(Number);
  assert.deepEqual(magnitudes, [...magnitudes].sort((a, b) => b - a));
  assert.equal(
    await page.run(`document.querySelector("#here-magnitude").closest("th").getAttribute("aria-sort")`),
    "descending",
  );
  await page.run(`document.querySelector('tr[data-date="1954-06-30"] .open').click()`);
  await settled();
  assert.match(await text("#sheet h2"), /30 June 1954/);
  assert.match(await text(".contacts"), /magnitude 0\.87/);
});

await check("the map: two degrees in under a second, a real sheet in each cell, a click takes the place", async () => {
  // on a busy machine the processor's time counts, which is what an idle one would take
  let best = Infinity;
  for (let tries = 0; tries < 4 && best >= 1000; tries++) {
    await sheetOf("2017-08-21", 32.7767, -96.797, { name: "Dallas", zone: "America/Chicago" });
    await mapDone();
    await hereDone();
    const before = await page.spent();
    await pick("eclipse", "2024-04-08");
    await mapDone();
    const spent = (await page.spent()) - before;
    const [grid, took] = await page.run(`["grid", "took"].map((name) => Number(document.querySelector(".map").dataset[name]))`);
    console.log(`    ${grid} ms by the clock, at most ${Math.round((spent * grid) / took)} ms of processor time`);
    best = Math.min(best, grid, (spent * grid) / took);
  }
  assert.ok(best < 1000, `${best} ms`);
  const seen = await page.run(`(() => {
    const cells = document.querySelector(".cells");
    const style = getComputedStyle(cells);
    const colour = (name) => {
      const [, ...parts] = /#(..)(..)(..)/.exec(style.getPropertyValue("--map-" + name));
      return parts.map((part) => parseInt(part, 16)).join();
    };
    const at = (latitude, longitude) => {
      const [x, y] = [((longitude + 180) / 360) * cells.width, ((90 - latitude) / 180) * cells.height];
      return [...cells.getContext("2d").getImageData(x, y, 1, 1).data.slice(0, 3)].join();
    };
    const sea = colour("sea");
    const total = at(32.9, -96.9) === colour("total");
    return { total, sea: at(0, 100) === sea, partial: at(45, -110) !== sea };
  })()`);
  assert.deepEqual(seen, { total: true, sea: true, partial: true });
  const box = await page.run(
    `(() => { const { left, top, width, height } = document.getElementById("map").getBoundingClientRect();
      return { left, top, width, height }; })()`,
  );
  const [x, y] = [box.left + (box.width * (180 + 20)) / 360, box.top + (box.height * (90 - 50)) / 180];
  for (const type of ["mousePressed", "mouseReleased"]) await page.send(
    "Input.dispatchMouseEvent",
    { type, x, y, button: "left", clickCount: 1 },
  );
  const [, latitude, longitude] = /([\d.]+)° N\s+([\d.]+)° E/.exec(await text("#where")).map(Number);
  assert.ok(Math.abs(latitude - 50) < 0.6 && Math.abs(longitude - 20) < 0.6, `${latitude} ${longitude}`);
  assert.equal(await value("place"), "Place on the map");
});

await check("the map zooms, and computes finer cells; by the keyboard too", async () => {
  await sheetOf("2026-08-12", 43.37, -8.4, { name: "A Coruña", zone: "Europe/Madrid" });
  await mapDone();
  await page.run(`document.getElementById("map").focus()`);
  await page.key("+", "Equal", 187);
  await page.until(
    `/working/.test(document.querySelector(".map").dataset.state) ||
      /1\\.5/.test(document.getElementById("map-said").textContent)`,
  );
  await mapDone();
  assert.match(await text("#map-said"), /cells of 1\.5°/);
  await page.key("ArrowUp", "ArrowUp", 38);
  assert.match(await text("#map-said"), /Cross at 45\.87/);
  await page.key("Enter", "Enter", 13);
  assert.match(await text("#where"), /^45\.87/);
});

await check("the cursor of the curve reads time, magnitude, share and altitude", async () => {
  await sheetOf("2026-08-12", 43.37, -8.4, { name: "A Coruña", zone: "Europe/Madrid" });
  assert.match(await text(".reading"), /^20:28:\d\d · magnitude 1\.03\d · 100\.0 % covered · Sun 1[12]\.\d°$/);
  await page.run(`document.querySelector(".graph").focus()`);
  await page.key("Home", "Home", 36);
  assert.match(await text(".reading"), /magnitude 0\.000 · 0\.0 % covered/);
  assert.equal(
    await page.run(`document.querySelector(".graph").getAttribute("aria-valuetext")`),
    await text(".reading"),
  );
});

await check("taken along: contacts and curve as CSV, a calendar, the text", async () => {
  await sheetOf("2026-08-12", 43.37, -8.4, { name: "A Coruña", zone: "Europe/Madrid" });
  await page.run(`(() => { window.saved = [];
    const old = URL.createObjectURL;
    URL.createObjectURL = (blob) => { saved.push(blob); return old(blob); };
    HTMLAnchorElement.prototype.click = function () { saved.push(this.download); }; })()`);
  for (const name of ["contacts", "curve", "calendar", "text"]) await click(`take-${name}`);
  const [contacts, , curve, , calendar, , typed, name] = await page.run(
    `Promise.all(saved.map((each) => (typeof each === "string" ? each : each.text())))`,
  );
  assert.equal(contacts.trim().split("\r\n").length, 6);
  assert.match(
    contacts,
    /^number,what,from_second,to_second,from_hundredth,to_hundredth,date_local,from_local,to_local,date_utc/,
  );
  assert.match(curve, /\r\n\d+,2026-08-12,20:2\d:\d\d,2026-08-12,18:2\d:\d\d.*,1\.03\d+,1\.000000,1[12]\.\d\r\n/);
  assert.equal(calendar.match(/BEGIN:VEVENT/g).length, 5);
  assert.match(calendar, /DTSTART:20260812T1730\d\dZ/);
  assert.ok(calendar.split("\r\n").every((line) => Buffer.byteLength(line) <= 75));
  assert.equal(typed, await value("text"));
  assert.equal(name, "solar-eclipse-of-12-august-2026-a-coruña.txt");
});

await check("copied is said only when it was", async () => {
  await page.send("Browser.grantPermissions", { permissions: ["clipboardReadWrite", "clipboardSanitizedWrite"] });
  await page.run(`navigator.clipboard.writeText = async (words) => { window.board = words; }`);
  await click("take-link");
  await page.until(`document.getElementById("said").textContent !== ""`);
  assert.match(await text("#said"), /^Copied/);
  assert.equal(await page.run("board"), await page.run("location.href"));
  await page.run(
    `navigator.clipboard.writeText = async () => { throw new Error("no"); }; document.execCommand = () => false`,
  );
  await click("take-link");
  await page.until(`!/^Copied/.test(document.getElementById("said").textContent)`);
  assert.match(await text("#said"), /^Nothing was copied/);
});

await check("the keyboard path: from the top to the sheet, each field with a name", async () => {
  await page.open(url);
  await page.run("document.body.focus()");
  const order = [];
  for (let k = 0; k < 24; k++) {
    await page.key("Tab", "Tab", 9);
    order.push(
      await page.run("document.activeElement.id || document.activeElement.className || document.activeElement.tagName"),
    );
  }
  const wanted = [
    "skip",
    "language",
    "eclipse",
    "place",
    "device",
    "height",
    "zone",
    "SUMMARY",
    "map",
    "map-closer",
    "map-farther",
    "map-whole",
  ];
  assert.deepEqual(order.slice(0, wanted.length), wanted);
  assert.deepEqual(order.slice(12, 16), ["SUMMARY", "take-print", "take-link", "take-calendar"]);
  const { nodes } = await page.send("Accessibility.getFullAXTree");
  const roles = ["button", "textbox", "combobox", "checkbox", "radio", "slider", "application", "listbox", "link"];
  const nameless = nodes.filter(({ ignored, role, name }) => !ignored && roles.includes(role?.value) && !name?.value);
  assert.deepEqual(nameless.map(({ role, properties }) => [role.value, properties]), []);
});

await check("Russian: words, dates, cities", async () => {
  await page.open(`${url}#lang=ru`);
  await pick("eclipse", "2061");
  await pick("place", "москва");
  assert.equal(await text("#sheet h2"), "Солнечное затмение 20 апреля 2061: Москва");
  assert.match(await text(".verdict"), /^Частное затмение/);
  assert.match(await page.run("location.hash"), /lang=ru/);
  const latin = (await text("#sheet")).match(/\b(?!UTC?\b|ET\b|GPS\b|Europe\b|Moscow\b|UT\b)[A-Za-z]{3,}\b/g);
  assert.deepEqual(latin ?? [], []);
  await keep("russian");
  await page.run(`localStorage.clear()`);
});

// The least contrast of the texts that are shown, by WCAG's formula: [ratio, words, class].
const LEAST = `(() => {
  const parts = (colour) => {
    const numbers = colour.match(/[\\d.]+/g).map(Number);
    const scale = colour.startsWith("color(") ? 255 : 1;
    return [...numbers.slice(0, 3).map((number) => number * scale), numbers[3] ?? 1];
  };
  const over = ([r, g, b, share], under) => [r, g, b].map((part, k) => part * share + under[k] * (1 - share));
  const ground = (element) => {
    const colours = [];
    for (let each = element; each; each = each.parentElement) colours.push(parts(getComputedStyle(each).backgroundColor));
    return colours.reverse().reduce((under, colour) => over(colour, under), [255, 255, 255]);
  };
  const linear = (part) => (part / 255 <= 0.03928 ? part / 255 / 12.92 : ((part / 255 + 0.055) / 1.055) ** 2.4);
  const light = ([r, g, b]) => 0.2126 * linear(r) + 0.7152 * linear(g) + 0.0722 * linear(b);
  const isText = (node) => node.nodeType === 3 && node.textContent.trim();
  let least = [99, "", ""];
  for (const element of document.querySelectorAll("body *")) {
    if (![...element.childNodes].some(isText) || !element.checkVisibility()) continue;
    if (element.closest("svg, :disabled, noscript, .skip, option, script, style")) continue;
    const under = ground(element);
    const [a, b] = [light(over(parts(getComputedStyle(element).color), under)), light(under)];
    const ratio = (Math.max(a, b) + 0.05) / (Math.min(a, b) + 0.05);
    if (ratio < least[0]) least = [ratio, element.textContent.trim().slice(0, 40), element.className];
  }
  return least;
})()`;
await check("contrast of WCAG AA, light and dark", async () => {
  for (const colours of ["light", "dark"]) {
    await page.colours(colours);
    await sheetOf("2061-04-20", 55.7558, 37.6173, { name: "Moscow", zone: "Europe/Moscow" });
    await hereDone();
    await page.run(
      `document.getElementById("options").open = true; document.getElementById("own-details").open = true`,
    );
    await click("eclipse");
    const [ratio, words, name] = await page.run(LEAST);
    assert.ok(ratio >= 4.5, `${colours}: ${ratio.toFixed(2)} of “${words}” ${name}`);
    await keep(`moscow2061-${colours}`);
  }
  await page.colours("light");
});

await check("phones: nothing is wider than the window", async () => {
  for (const [width, colours] of [[320, "light"], [390, "dark"]]) {
    await page.size(width, 800, true);
    await page.colours(colours);
    await sheetOf("2024-04-08", 32.7767, -96.797, { name: "Dallas", zone: "America/Chicago", height: 131 });
    await hereDone();
    assert.ok((await overflow()) <= 0, String(width));
    await keep(`phone-${colours}`);
  }
  await page.size(1280, 900);
  await page.colours("light");
});

await check("the file is under 900 KB", async () => {
  assert.ok(sizeOfFile() < 900_000, String(sizeOfFile()));
});
