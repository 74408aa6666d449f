// The map of the page: it computes cells in slices of time, and lets one zoom, move and take a place by pointer or
// keyboard.
import { html } from "./svg.mjs";
import { TEXTS } from "./texts.mjs";
import { cellsOf } from "./grid.mjs";
import { drawCell, drawOver, mapColours } from "./mapdrawing.mjs";

const CELL = 2; // degrees of a cell of the whole world
const CLOSER_CELL = 3; // of one twice as near, and so on in halves
const CLOSEST = 64; // times
const SLICE = 24; // milliseconds
const STILL = 5; // pixels that a click may move

const pause = () =>
  new Promise((resolve) => {
    const channel = new MessageChannel();
    channel.port1.onmessage = resolve;
    channel.port2.postMessage(0);
  });
const within = (low, number, high) => Math.max(low, Math.min(high, number));

// `pick(latitude, longitude)` takes a place in degrees; `words(latitude, longitude)` says one.
export function makeMap(library, outline, { pick, words }) {
  const { map } = TEXTS;
  const cells = html("canvas", { class: "cells", "aria-hidden": "true" });
  const over = html(
    "canvas",
    { class: "over", id: "map", tabindex: "0", role: "application", "aria-label": map.label },
  );
  const said = html("output", { class: "hint", id: "map-said" });
  const button = (id, sign, label) => html("button", { type: "button", id, "aria-label": label, title: label }, sign);
  const [closer, farther, whole] = [
    button("map-closer", "+", map.closer),
    button("map-farther", "\u2212", map.farther),
    button("map-whole", "\u2922", map.whole),
  ];
  const frame = html("div", { class: "frame" }, cells, over);
  const element = html("div", { class: "map" }, frame, html("div", { class: "zoom" }, closer, farther, whole), said);

  let view = { x: 0, y: 0, zoom: 1 }; // the middle in degrees
  let bytes = null;
  let place = null;
  let cross = null;
  let world = []; // cells of the whole world, and those of the view
  let fine = [];
  let run = 0;

  const ratio = () => Math.min(2, devicePixelRatio || 1);
  const shownView = () => {
    const scale = (over.width / 360) * view.zoom;
    return { scale, west: view.x - over.width / scale / 2, north: view.y + over.height / scale / 2 };
  };
  function clamp() {
    view.zoom = within(1, view.zoom, CLOSEST);
    const half = 180 / view.zoom;
    view.x = within(-180 + half, view.x, 180 - half);
    view.y = within(-90 + half / 2, view.y, 90 - half / 2);
    over.style.touchAction = view.zoom > 1 ? "none" : "pan-y";
  }
  function drawLines() {
    drawOver(over, shownView(), outline, place, cross, ratio(), mapColours(over));
  }
  function drawAll() {
    const colours = mapColours(cells);
    const context = cells.getContext("2d");
    const at = shownView();
    context.fillStyle = colours.sea;
    context.fillRect(0, 0, cells.width, cells.height);
    for (const cell of world) drawCell(context, cell, at, colours);
    for (const cell of fine) drawCell(context, cell, at, colours);
    drawLines();
  }
  // The part of the Earth that is shown, out to whole cells of the coarsest size.
  function bounds(size) {
    const step = 4 * size;
    const half = 180 / view.zoom;
    const out = (low, high, limit) => {
      const end = Math.ceil(limit / step) * step;
      return [within(-end, Math.floor(low / step) * step, end), within(-end, Math.ceil(high / step) * step, end)];
    };
    const [west, east] = out(view.x - half, view.x + half, 180);
    const [south, north] = out(view.y - half / 2, view.y + half / 2, 90);
    return { west, east, south, north };
  }

  async function compute() {
    const own = ++run;
    said.textContent = "";
    element.dataset.state = "none";
    if (!bytes) return;
    const times = 2 ** Math.ceil(Math.log2(view.zoom));
    const isWorld = times === 1;
    const size = isWorld ? CELL : CLOSER_CELL / times;
    fine = [];
    if (isWorld) world = [];
    drawAll();
    const kept = isWorld ? world : fine;
    const around = isWorld ? { west: -180, east: 180, south: -92, north: 92 } : bounds(size);
    const start = performance.now();
    let spent = start;
    let gridTime = null;
    said.textContent = map.working;
    element.dataset.state = "working";
    const colours = mapColours(cells);
    const context = cells.getContext("2d");
    for (const cell of cellsOf(library, bytes, around, size)) {
      kept.push(cell);
      if (cell.size < size && gridTime === null) gridTime = performance.now() - start;
      drawCell(context, cell, shownView(), colours);
      if (performance.now() - spent < SLICE) continue;
      await pause();
      if (own !== run) return;
      spent = performance.now();
    }
    const took = performance.now() - start;
    element.dataset.grid = String(Math.round(gridTime ?? took)); // milliseconds until every cell of the size was there
    element.dataset.took = String(Math.round(took));
    element.dataset.state = "done";
    said.textContent = map.done(kept.length.toLocaleString(TEXTS.locale), (took / 1000).toFixed(2), size);
  }
  let waiting = 0;
  function later() {
    clearTimeout(waiting);
    waiting = setTimeout(compute, 150);
  }

  function resize() {
    const width = frame.clientWidth;
    if (width === 0) return;
    for (const canvas of [cells, over]) {
      canvas.width = Math.round(width * ratio());
      canvas.height = Math.round((width / 2) * ratio());
    }
    drawAll();
  }
  // Degrees of a point of the window.
  function degreesAt({ clientX, clientY }) {
    const box = over.getBoundingClientRect();
    const { west, north, scale } = shownView();
    const pixels = over.width / box.width / scale;
    return [
      within(-90, north - (clientY - box.top) * pixels, 90),
      within(-180, west + (clientX - box.left) * pixels, 180),
    ];
  }
  // Zooms so that a point stays where it is.
  function zoomAt(times, latitude, longitude) {
    const before = view.zoom;
    view.zoom = within(1, view.zoom * times, CLOSEST);
    const share = before / view.zoom;
    view.x = longitude + (view.x - longitude) * share;
    view.y = latitude + (view.y - latitude) * share;
    clamp();
    drawAll();
    later();
  }
  const middle = () => (
    cross ? [cross.latitude, cross.longitude] : place ? [place.latitude, place.longitude] : [view.y, view.x]
  );

  // pointer: one drags or picks, two zoom
  const held = new Map();
  let moved = 0;
  over.addEventListener("pointerdown", (event) => {
    held.set(event.pointerId, event);
    over.setPointerCapture(event.pointerId);
    if (held.size === 1) moved = 0;
  });
  over.addEventListener("pointermove", (event) => {
    const before = held.get(event.pointerId);
    if (!before) return;
    held.set(event.pointerId, event);
    moved += Math.hypot(event.clientX - before.clientX, event.clientY - before.clientY);
    if (moved < STILL) return;
    if (held.size === 2) {
      const other = [...held].find(([id]) => id !== event.pointerId)[1];
      const apart = (one) => Math.hypot(one.clientX - other.clientX, one.clientY - other.clientY);
      return zoomAt(apart(event) / (apart(before) || 1), ...degreesAt(other));
    }
    const [[latitude, longitude], [toLatitude, toLongitude]] = [degreesAt(before), degreesAt(event)];
    view.x -= toLongitude - longitude;
    view.y -= toLatitude - latitude;
    clamp();
    drawAll();
    if (view.zoom > 1) later();
  });
  over.addEventListener("pointerup", (event) => {
    const isClick = held.delete(event.pointerId) && held.size === 0 && moved < STILL;
    if (isClick) pick(...degreesAt(event));
  });
  over.addEventListener("pointercancel", (event) => held.delete(event.pointerId));
  over.addEventListener("wheel", (event) => {
    if (!event.ctrlKey && document.activeElement !== over) return;
    event.preventDefault();
    zoomAt(event.deltaY < 0 ? 1.5 : 1 / 1.5, ...degreesAt(event));
  }, { passive: false });
  over.addEventListener("keydown", (event) => {
    const [latitude, longitude] = middle();
    const step = 360 / view.zoom / (event.shiftKey ? 360 : 72);
    const move = { ArrowLeft: [0, -step], ArrowRight: [0, step], ArrowUp: [step, 0], ArrowDown: [-step, 0] }[event.key];
    if (move) {
      cross = { latitude: within(-90, latitude + move[0], 90), longitude: within(-180, longitude + move[1], 180) };
      drawLines();
      said.textContent = map.cross(...words(cross.latitude, cross.longitude));
    } else if (event.key === "Enter" || event.key === " ") pick(latitude, longitude);
    else if (event.key === "+" || event.key === "=") zoomAt(2, latitude, longitude);
    else if (event.key === "-") zoomAt(1 / 2, latitude, longitude);
    else if (event.key === "0") zoomAt(1 / CLOSEST, latitude, longitude);
    else return;
    event.preventDefault();
  });
  closer.addEventListener("click", () => zoomAt(2, ...middle()));
  farther.addEventListener("click", () => zoomAt(1 / 2, ...middle()));
  whole.addEventListener("click", () => zoomAt(1 / CLOSEST, 0, 0));
  new ResizeObserver(resize).observe(frame);
  matchMedia("(prefers-color-scheme: dark)").addEventListener("change", drawAll);

  return {
    element,
    // Shows a request's eclipse, null for none, and a place in degrees.
    show(newBytes, newPlace) {
      place = newPlace;
      cross = null;
      const same = bytes && newBytes && bytes.every((byte, k) => byte === newBytes[k]);
      bytes = newBytes;
      if (same) return drawLines();
      fine = [];
      world = [];
      drawAll();
      compute();
    },
  };
}
