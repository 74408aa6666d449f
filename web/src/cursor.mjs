// A cursor on the curve that reads off time, magnitude, share and altitude at a second: by the pointer or by the
// keyboard.
import { TEXTS } from "./texts.mjs";
import { html } from "./svg.mjs";
import { degreesText } from "./angles.mjs";
import { nearestTime } from "./scales.mjs";

const KEYS = { ArrowLeft: -10, ArrowRight: 10, ArrowDown: -60, ArrowUp: 60, PageDown: -600, PageUp: 600 };

// The drawing of a curve made a slider over its seconds, and the line of text that it writes to.
export function withCursor({ drawing, x, first, last, left, right }, sheet, clocks, width) {
  const said = html("output", { class: "reading", "aria-live": "off" });
  const line = drawing.querySelector(".cursor");
  const words = (second) => {
    const { magnitude, share, altitude } = sheet.sky.reading(second);
    const [time] = clocks ? nearestTime(clocks, clocks.names[0], second, 0) : [`${second} s`.replace("-", "\u2212")];
    return TEXTS.graph.reading(time, (magnitude / 1e6).toFixed(3), (share / 1e4).toFixed(1), degreesText(altitude));
  };
  let at = sheet.rows.find(({ entry }) => entry.name === "closest").second;
  function move(second) {
    at = Math.max(first, Math.min(last, Math.round(second)));
    line.setAttribute("x1", x(at));
    line.setAttribute("x2", x(at));
    line.setAttribute("visibility", "visible");
    said.textContent = words(at);
    drawing.setAttribute("aria-valuenow", String(at));
    drawing.setAttribute("aria-valuetext", said.textContent);
  }
  const attributes = {
    role: "slider",
    tabindex: "0",
    "aria-label": TEXTS.graph.label,
    "aria-valuemin": first,
    "aria-valuemax": last,
  };
  for (const [name, value] of Object.entries(attributes)) drawing.setAttribute(name, value);
  const point = (event) => {
    const box = drawing.getBoundingClientRect();
    const place = ((event.clientX - box.left) * width) / box.width;
    move(first + ((place - left) * (last - first)) / (right - left));
  };
  drawing.addEventListener("pointermove", point);
  drawing.addEventListener("pointerdown", point);
  drawing.addEventListener("keydown", (event) => {
    const to = { Home: first, End: last }[event.key] ?? at + KEYS[event.key];
    if (Number.isNaN(to)) return;
    event.preventDefault();
    move(to);
  });
  move(at);
  return said;
}
