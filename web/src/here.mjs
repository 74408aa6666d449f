// Every eclipse of the catalogue at the chosen place: kind seen, largest magnitude with the Sun up, when, and the Sun's
// altitude then.
import { html } from "./svg.mjs";
import { TEXTS, dateWords } from "./texts.mjs";
import { requestAt } from "./making.mjs";
import { seenOf } from "./seen.mjs";
import { clocksOf, nearestTime } from "./scales.mjs";
import { degreesText } from "./angles.mjs";

const LIST_SLICE = 30; // milliseconds
const COLUMNS = ["date", "kind", "magnitude", "time", "altitude", "world"];
const KIND_ORDER = { down: 0, partial: 1, annular: 2, total: 3 };

// One line of the list, or null where the shadow passes by.
export function lineOf(library, eclipse, at, place, options, zone, leapSeconds) {
  const request = requestAt(library, eclipse, place, { ...options, deltaT: null });
  const seen = seenOf(library, request.bytes, request.entries, 1);
  if (!seen) return null;
  const clocks = clocksOf(request.instant, eclipse.deltaT, zone, leapSeconds);
  const clock = clocks.names[0];
  const [time] = nearestTime(clocks, clock, seen.second, 0);
  const day = new Date(clocks.at(clock, 100 * seen.second)).toISOString().slice(0, 10);
  const { kind, magnitude, altitude, down } = { kind: "down", ...seen };
  return {
    at,
    eclipse,
    day,
    time,
    kind,
    magnitude,
    altitude,
    world: eclipse.kind,
    atHorizon: !down && !seen.atClosest,
  };
}

const compared = {
  date: (a, b) => a.at - b.at,
  kind: (a, b) => KIND_ORDER[a.kind] - KIND_ORDER[b.kind] || a.magnitude - b.magnitude,
  magnitude: (a, b) => a.magnitude - b.magnitude,
  time: (a, b) => (a.time < b.time ? -1 : 1),
  altitude: (a, b) => a.altitude - b.altitude,
  world: (a, b) => (a.world < b.world ? -1 : a.world > b.world ? 1 : a.at - b.at),
};

// `open(at)` opens the eclipse at a place of the catalogue. `today` is the day from which on eclipses are coming.
export function makeHere(library, eclipses, { open, today }) {
  const said = TEXTS.here;
  const title = html("h2", { id: "here-title" });
  const status = html("p", { class: "hint", role: "status", id: "here-said" });
  const option = (name) => html("option", { value: name }, said[name]);
  const filter = html("select", { id: "here-filter" }, ...["all", "coming", "central", "everything"].map(option));
  const body = html("tbody");
  let sorted = { by: "date", turn: 1 };
  const heads = COLUMNS.map((name) => {
    const button = html("button", { type: "button", id: `here-${name}` }, said.columns[name]);
    button.addEventListener("click", () => {
      sorted = {
        by: name,
        turn: sorted.by === name ? -sorted.turn : ["magnitude", "kind", "altitude"].includes(name) ? -1 : 1,
      };
      show();
    });
    return html("th", { scope: "col", class: name }, button);
  });
  const table = html(
    "table",
    { class: "here-table", "aria-labelledby": "here-title" },
    html("thead", {}, html("tr", {}, ...heads)),
    body,
  );
  const scroll = html(
    "div",
    { class: "scroll", tabindex: "0", role: "region", "aria-labelledby": "here-title" },
    table,
  );
  const bar = html(
    "div",
    { class: "bar" },
    title,
    html("label", { class: "row" }, html("span", {}, said.show), filter),
  );
  const element = html("div", { class: "here" }, bar, html("p", { class: "hint" }, said.caption), scroll, status);
  let lines = [];
  let run = 0;
  let current = null;

  const wanted = {
    all: (line) => line.kind !== "down",
    coming: (line) => line.kind !== "down" && line.eclipse.date >= today,
    central: (line) => line.kind === "total" || line.kind === "annular",
    everything: () => true,
  };
  function rowOf(line) {
    const { eclipse, kind } = line;
    const words = dateWords(line.day, "short");
    const go = html("button", { type: "button", class: "open", "aria-label": said.open(dateWords(line.day)) }, words);
    const cell = (name, ...children) => html("td", { class: name }, ...children);
    const row = html(
      "tr",
      { class: `${kind}${eclipse.date === current ? " current" : ""}`, "data-date": eclipse.date },
      cell("date", go),
      cell("kind", html("span", { class: `chip ${kind}` }, said.kinds[kind])),
      cell("magnitude", (line.magnitude / 1e6).toFixed(3)),
      cell("time", html("span", { class: "time" }, line.time)),
      cell(
        "altitude",
        `${degreesText(line.altitude)}\u00b0`,
        ...(line.atHorizon ? [html("small", {}, ` ${said.atHorizon}`)] : []),
      ),
      cell("world", TEXTS.kinds[line.world]),
    );
    row.addEventListener("click", () => open(line.at));
    return row;
  }
  function show() {
    const kept = lines.filter(wanted[filter.value]).sort((a, b) => sorted.turn * compared[sorted.by](a, b));
    COLUMNS.forEach((name, k) => {
      if (name === sorted.by) heads[k].setAttribute("aria-sort", sorted.turn > 0 ? "ascending" : "descending");
      else heads[k].removeAttribute("aria-sort");
    });
    body.replaceChildren(...kept.map(rowOf));
    if (element.dataset.state !== "done") return;
    status.textContent = said.count(kept.length, eclipses.length, (element.dataset.took / 1000).toFixed(2));
  }
  filter.addEventListener("change", show);

  // Computes the list of a place, in slices of time so that the page stays quick.
  async function compute(place, options, zone, leapSeconds, name) {
    const own = ++run;
    title.textContent = said.title(name);
    status.textContent = said.working;
    element.dataset.state = "working";
    const made = [];
    const start = performance.now();
    let spent = start;
    for (const [at, eclipse] of eclipses.entries()) {
      const line = lineOf(library, eclipse, at, place, options, zone, leapSeconds);
      if (line) made.push(line);
      if (performance.now() - spent < LIST_SLICE) continue;
      await new Promise((resolve) => setTimeout(resolve));
      if (own !== run) return;
      spent = performance.now();
    }
    lines = made;
    element.dataset.took = String(Math.round(performance.now() - start));
    element.dataset.state = "done";
    show();
  }
  return {
    element,
    compute,
    // Marks the eclipse of a date, null for none, as the one that is open.
    mark(date) {
      current = date;
      for (const row of body.children) row.classList.toggle("current", row.dataset.date === date);
    },
  };
}
