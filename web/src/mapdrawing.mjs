// What a map looks like: cells, coasts, the place and the cross, in a view { west, north, scale } with so many pixels a
// degree.

const BANDS = 10; // colours of partial magnitudes, a tenth each

// The colours of the page's style, read from the canvas.
export function mapColours(canvas) {
  const style = getComputedStyle(canvas);
  const of = (name) => style.getPropertyValue(`--map-${name}`).trim();
  const bands = Array.from({ length: BANDS }, (_, k) => of(k));
  return {
    sea: of("sea"),
    coast: of("coast"),
    halo: of("halo"),
    grid: of("grid"),
    place: of("place"),
    annular: of("annular"),
    total: of("total"),
    bands,
  };
}

const colourOf = ({ magnitude, kind }, colours) => {
  if (kind === 0) return colours.sea;
  if (kind === 3) return colours.total;
  if (kind === 2) return colours.annular;
  return colours.bands[Math.min(BANDS - 1, Math.floor(magnitude / 100_000))];
};

export function drawCell(context, cell, { west, north, scale }, colours) {
  const left = Math.round((cell.west - west) * scale);
  const right = Math.round((cell.west + cell.size - west) * scale);
  const top = Math.round((north - cell.south - cell.size) * scale);
  const bottom = Math.round((north - cell.south) * scale);
  context.fillStyle = colourOf(cell, colours);
  context.fillRect(left, top, Math.max(1, right - left), Math.max(1, bottom - top));
}

function drawGrid(context, { west, north, scale }, { width, height }, colours) {
  const step = [30, 10, 5, 2, 1, 0.5].find((each) => each * scale < width / 5) ?? 0.5;
  context.strokeStyle = colours.grid;
  context.lineWidth = 1;
  context.beginPath();
  for (let x = Math.ceil(west / step) * step; (x - west) * scale < width; x += step) {
    context.moveTo((x - west) * scale, 0);
    context.lineTo((x - west) * scale, height);
  }
  for (let y = Math.floor(north / step) * step; (north - y) * scale < height; y -= step) {
    context.moveTo(0, (north - y) * scale);
    context.lineTo(width, (north - y) * scale);
  }
  context.stroke();
}

function drawCoasts(context, outline, { west, north, scale }, ratio, colours) {
  context.lineJoin = "round";
  context.beginPath();
  for (const line of outline)
    line.forEach(([x, y], k) => context[k === 0 ? "moveTo" : "lineTo"]((x - west) * scale, (north - y) * scale));
  for (const [colour, wide] of [[colours.halo, 2.4], [colours.coast, 0.9]]) {
    context.strokeStyle = colour;
    context.lineWidth = wide * ratio;
    context.stroke();
  }
}

// A ring with a dot, light around dark so that it shows on every colour.
function drawPlace(context, x, y, ratio, colours) {
  for (const [colour, wide] of [["#ffffff", 5], [colours.place, 2.5]]) {
    context.strokeStyle = colour;
    context.lineWidth = wide * ratio;
    context.beginPath();
    context.arc(x, y, 6 * ratio, 0, 2 * Math.PI);
    context.stroke();
  }
  context.fillStyle = colours.place;
  context.beginPath();
  context.arc(x, y, 1.8 * ratio, 0, 2 * Math.PI);
  context.fill();
}

function drawCross(context, x, y, ratio, colours) {
  for (const [colour, wide] of [["#ffffff", 4], [colours.place, 1.5]]) {
    context.strokeStyle = colour;
    context.lineWidth = wide * ratio;
    context.beginPath();
    for (const [dx, dy] of [[1, 0], [-1, 0], [0, 1], [0, -1]]) {
      context.moveTo(x + 3 * dx * ratio, y + 3 * dy * ratio);
      context.lineTo(x + 12 * dx * ratio, y + 12 * dy * ratio);
    }
    context.stroke();
  }
}

// Everything but the cells. `place` and `cross` are { latitude, longitude } in degrees, or null.
export function drawOver(canvas, view, outline, place, cross, ratio, colours) {
  const context = canvas.getContext("2d");
  context.clearRect(0, 0, canvas.width, canvas.height);
  drawGrid(context, view, canvas, colours);
  drawCoasts(context, outline, view, ratio, colours);
  const at = ({ longitude, latitude }) => [(longitude - view.west) * view.scale, (view.north - latitude) * view.scale];
  if (place) drawPlace(context, ...at(place), ratio, colours);
  if (cross) drawCross(context, ...at(cross), ratio, colours);
}
