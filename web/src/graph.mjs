// Magnitude and covered share over time, with the rows of the sheet marked, unsure spells hatched and the night shaded.
import { svg, rounded } from "./svg.mjs";
import { TEXTS } from "./texts.mjs";
import { UP } from "./seen.mjs";

const HEIGHT = 230;
export const MARGINS = { left: 40, right: 10, top: 20, bottom: 36 };
const STEPS = [1, 5, 10, 30, 60, 120, 300, 600, 900, 1800, 3600];

// Ticks of the time axis: a second and what is written below it. Whole minutes of the day where a clock is known, else
// seconds.
function ticks(clocks, [first, last], most) {
  const scale = clocks?.names[0];
  const start = clocks ? clocks.at(scale, 100 * first) / 1000 : first; // seconds by the clock
  const end = start + (last - first);
  const step = STEPS.find((each) => (last - first) / each <= most) ?? 3600;
  const made = [];
  for (let at = Math.ceil(start / step) * step; at <= end; at += step) {
    const second = first + (at - start);
    const ofDay = ((at % 86_400) + 86_400) % 86_400;
    const two = (n) => String(Math.floor(n)).padStart(2, "0");
    const time = `${two(ofDay / 3600)}:${two((ofDay / 60) % 60)}${step < 60 ? `:${two(ofDay % 60)}` : ""}`;
    made.push([second, clocks ? time : String(at).replace("-", "\u2212")]);
  }
  return made;
}

// Numbers of rows that would stand on each other, as one: [[x, words], ..]
function groups(marks) {
  const made = [];
  for (const [at, number] of marks.sort(([a], [b]) => a - b)) {
    const group = made.at(-1);
    if (group && at - group.at(-1)[0] < 16) group.push([at, number]);
    else made.push([[at, number]]);
  }
  return made.map((group) => {
    const numbers = group.map(([, number]) => number).sort((a, b) => a - b);
    const words = numbers.length === 1 ? String(numbers[0]) : `${numbers[0]}\u2013${numbers.at(-1)}`;
    return [(group[0][0] + group.at(-1)[0]) / 2, words];
  });
}

// The stretches of the curve with the Sun down: [[first, last], ..] in seconds.
function nights(curve) {
  const made = [];
  for (const { second, altitude } of curve) {
    if (altitude >= UP) made.push(null);
    else if (made.at(-1)) made.at(-1)[1] = second;
    else made.push([second, second]);
  }
  return made.filter(Boolean);
}

// The drawing, and where a second is in it.
export function graph(sheet, clocks, width) {
  const { rows, curve } = sheet;
  const [first, last] = [curve[0].second, curve.at(-1).second];
  const highest = Math.max(1_000_000, ...curve.map((point) => point.magnitude));
  const right = width - MARGINS.right;
  const bottom = HEIGHT - MARGINS.bottom;
  const span = Math.max(1, last - first);
  const x = (second) => MARGINS.left + ((second - first) * (right - MARGINS.left)) / span;
  const y = (millionths) => bottom - (millionths * (bottom - MARGINS.top)) / highest;
  const path = (name) => curve.map((point) => `${rounded(x(point.second))},${rounded(y(point[name]))}`).join(" ");
  const scale = clocks?.names[0] ?? "seconds";
  const tall = { y: MARGINS.top, height: bottom - MARGINS.top };

  const dark = nights(curve).map(([from, to]) =>
    svg(
      "rect",
      { class: "night-band", x: rounded(x(from)), width: rounded(Math.max(1, x(to) - x(from))), ...tall },
      svg("title", {}, TEXTS.sheet.legend.night),
    ),
  );
  const grid = [0, 0.25, 0.5, 0.75, 1].flatMap((level) => [
    svg("line", { class: "grid", x1: MARGINS.left, x2: right, y1: y(level * 1e6), y2: y(level * 1e6) }),
    svg("text", { class: "tick", x: MARGINS.left - 6, y: y(level * 1e6) + 4, "text-anchor": "end" }, String(level)),
  ]);
  const along = ticks(clocks, [first, last], width < 480 ? 5 : 9).flatMap(([second, words]) => [
    svg("line", { class: "axis", x1: rounded(x(second)), x2: rounded(x(second)), y1: bottom, y2: bottom + 4 }),
    svg(
      "text",
      { class: "tick", x: rounded(Math.min(x(second), width - 16)), y: bottom + 17, "text-anchor": "middle" },
      words,
    ),
  ]);
  const shown = rows.filter(({ second }) => first <= second && second <= last);
  const spells = shown
    .filter((row) => row.unsure)
    .map((row) => {
      const [from, to] = row.unsure.map(x);
      const wide = Math.max(6, to - from); // so that a short one is seen
      const attributes = { class: "unsure", x: rounded((from + to - wide) / 2), width: rounded(wide), ...tall };
      return svg("rect", attributes, svg("title", {}, TEXTS.graph.unsure));
    });
  const marks = shown.map((row) =>
    svg("line", { class: "mark", x1: rounded(x(row.second)), x2: rounded(x(row.second)), y1: MARGINS.top, y2: bottom }),
  );
  const names = groups(shown.map((row) => [x(row.second), row.number])).map(([at, words]) =>
    svg("text", { class: "mark-number", x: rounded(at), y: MARGINS.top - 6, "text-anchor": "middle" }, words),
  );
  const drawing = svg(
    "svg",
    { viewBox: `0 0 ${width} ${HEIGHT}`, class: "graph" },
    svg(
      "pattern",
      { id: "hatch", width: 6, height: 6, patternUnits: "userSpaceOnUse", patternTransform: "rotate(45)" },
      svg("line", { class: "hatch", x1: 0, x2: 0, y1: 0, y2: 6 }),
    ),
    dark,
    grid,
    svg("line", { class: "axis", x1: MARGINS.left, x2: right, y1: bottom, y2: bottom }),
    along,
    svg("text", { class: "tick", x: right, y: HEIGHT - 2, "text-anchor": "end" }, TEXTS.scaleNames[scale]),
    spells,
    marks,
    names,
    svg("polyline", { class: "share", points: path("share") }),
    svg("polyline", { class: "magnitude", points: path("magnitude") }),
    svg("line", { class: "cursor", x1: 0, x2: 0, y1: MARGINS.top, y2: bottom, visibility: "hidden" }),
  );
  return { drawing, x, first, last, left: MARGINS.left, right };
}
