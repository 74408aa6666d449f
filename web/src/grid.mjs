// The cells of a map: for each the largest magnitude that is seen from its middle with the Sun up, by a sheet of the
// library. A view is made from coarse to fine. A finer cell is computed where the coarser one around it, or a neighbour
// of that, sees something of the eclipse; elsewhere it is left empty, for what is seen reaches over many cells. Where
// the middle of a cell is near the central path the cell is divided further, so that a narrow path is not missed.
import { movedTo } from "./making.mjs";
import { seenOf } from "./seen.mjs";

export const KINDS = ["none", "partial", "annular", "total"];
const COARSER = [4, 2, 1]; // times the size of a cell of the view
const FINER = [1 / 2, 1 / 4]; // of a cell near the central path
const SLOPE = 36_000; // millionths of magnitude that may be lost within a degree of arc
const DOWN = -460; // tenths of a degree: the Sun stays down for three hours, in which the Earth turns by 45 degrees
const FEW = 60; // cells of a small eclipse, around which finer ones are computed three cells far
const FEW_REACH = 3;
const CELL_CLOSE = 16; // seconds that a cell's sunrise or sunset may be off

// Largest magnitude in millionths and kind (a place of KINDS) at a point, in degrees.
function cellAt(library, bytes, latitude, longitude, isCoarse) {
  const moved = movedTo(bytes, Math.round(latitude * 1e6), Math.round(longitude * 1e6), 0);
  const empty = { magnitude: 0, kind: 0 };
  if (isCoarse && library.horizon(moved, 0).altitude < DOWN) return empty;
  const seen = seenOf(library, moved, library.read(library.sheet(moved)), CELL_CLOSE);
  return !seen || seen.down ? empty : { magnitude: seen.magnitude, kind: KINDS.indexOf(seen.kind) };
}

// Whether a cell may have in it what its middle has not: as much as `top`, its magnitude and a slope away.
const isNear = ({ magnitude, south, size }, top) => {
  const half = Math.hypot(size / 2, (size / 2) * Math.cos(radians(south + size / 2)));
  return magnitude > top - SLOPE * half;
};

// Of a latitude within 89 degrees, as there the meridians are near enough.
const radians = (latitude) => (Math.max(-89, Math.min(89, latitude)) * Math.PI) / 180;

const across = (longitude) => ((((longitude + 180) % 360) + 360) % 360) - 180;

// The cells of bounds { west, east, south, north } in degrees, which lie a multiple of four times the size apart:
// { west, south, size, magnitude, kind } one after the other.
export function* cellsOf(library, bytes, bounds, size) {
  const { west, east, south, north } = bounds;
  const whole = east - west >= 360;
  const point = (x, y, isCoarse) => cellAt(library, bytes, Math.max(-90, Math.min(90, y)), across(x), isCoarse);
  let coarse = null;
  let last = [];
  let top = 0;
  for (const times of COARSER) {
    const side = size * times;
    const [columns, rows] = [Math.round((east - west) / side), Math.round((north - south) / side)];
    const some = new Uint8Array(columns * rows);
    last = [];
    for (let row = 0; row < rows; row++) {
      for (let column = 0; column < columns; column++) {
        if (coarse && !coarse.around(column >> 1, row >> 1)) continue;
        const cell = { west: west + column * side, south: south + row * side, size: side };
        Object.assign(cell, point(cell.west + side / 2, cell.south + side / 2, !coarse));
        if (cell.magnitude > 0) some[row * columns + column] = 1;
        top = Math.max(top, Math.min(cell.magnitude, 1_000_000));
        last.push(cell);
        yield cell;
      }
    }
    const reach = some.reduce((sum, each) => sum + each, 0) < FEW ? FEW_REACH : 1;
    const around = (column, row) => {
      for (let r = Math.max(0, row - reach); r <= Math.min(rows - 1, row + reach); r++) {
        const wide = Math.min(columns >> 1, Math.ceil(reach / Math.cos(radians(south + (r + 0.5) * side))));
        for (let k = -wide; k <= wide; k++) {
          const at = whole ? (column + k + columns) % columns : column + k;
          if (at >= 0 && at < columns && some[r * columns + at]) return true;
        }
      }
      return false;
    };
    coarse = { around };
  }
  yield* divided(point, last, size, top);
}

// The parts of cells near the central path, or near the greatest of a partial eclipse.
function* divided(point, cells, size, top) {
  let current = cells;
  for (const part of FINER) {
    current = current.filter((cell) => cell.magnitude > 0 && isNear(cell, top));
    const side = size * part;
    const next = [];
    for (const { west, south } of current)
      for (const [column, row] of [[0, 0], [1, 0], [0, 1], [1, 1]]) {
        const cell = { west: west + column * side, south: south + row * side, size: side };
        Object.assign(cell, point(cell.west + side / 2, cell.south + side / 2));
        next.push(cell);
        yield cell;
      }
    current = next;
  }
}
