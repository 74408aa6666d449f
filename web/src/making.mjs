// From an eclipse of the catalogue, a place and the options to a request: its bytes, and the text that a person would
// type. The library makes the elements; here numbers are only put in their order.
import { REFERENCE_HOURS, instantOf, tablesAround } from "./catalogue.mjs";
import { fieldTables } from "./fields.mjs";
import { instantText } from "./clock.mjs";

// The Sun's radius, the Moon's for the penumbra and for the central cone, in 10^-8 of the Earth's: document 02's, and
// the IAU's as docs/ALMANAC.md has them.
export const RADII = {
  document02: [10_904_847_000, 27_227_400, 27_227_400],
  iau: [10_904_847_028, 27_250_760, 27_228_100],
};
export const GUARD = 32; // from which on a sheet is true by Bessel's formulas with nothing rounded
export const WIDEST = [-10_800, 10_800];
const TOLERANCE = 1_000; // units that a fit may miss an hourly value by
const FITS = ["x", "y", "d", "l1", "l2", "mu"];
const OWN_NUMBER = 1;
const made = new Map(); // elements by eclipse, hour and radii

export function elementsOf(library, eclipse, hour, radii) {
  const key = `${eclipse.date} ${hour} ${radii}`;
  if (!made.has(key)) {
    const { rows, sidereal } = tablesAround(eclipse, hour);
    made.set(key, library.elements(rows, sidereal, RADII[radii], TOLERANCE));
  }
  return made.get(key);
}

// The bytes of a request: elements, the five numbers of the station, window and guard.
export function requestBytes(elements, { latitude, longitude, height }, deltaT, guard) {
  const view = new DataView(new ArrayBuffer(115));
  const records = [elements, [OWN_NUMBER, latitude, longitude, height, deltaT], [...WIDEST, guard]];
  let at = 0;
  fieldTables(false).forEach((fields, k) => {
    view.setUint8(at++, k + 2);
    fields.forEach(([, , width], n) => {
      if (width === 4) view.setInt32(at, records[k][n]);
      else view.setUint16(at, records[k][n] & 0xffff);
      at += width;
    });
  });
  return new Uint8Array(view.buffer);
}

// The same request at another place.
export function movedTo(bytes, latitude, longitude, height) {
  const moved = bytes.slice();
  const view = new DataView(moved.buffer);
  const at = bytes.length - 23; // the station's latitude: four numbers of 4 bytes, a kind and three of 2 bytes follow
  [latitude, longitude, height].forEach((number, k) => view.setInt32(at + 4 * k, number));
  return moved;
}

// The same request with the widest window.
export function widened(bytes) {
  const wide = bytes.slice();
  const view = new DataView(wide.buffer);
  WIDEST.forEach((second, k) => view.setInt16(bytes.length - 6 + 2 * k, second));
  return wide;
}

const closestIn = (entries) => entries.find((entry) => entry.name === "closest");

// The request of an eclipse at a place, by the reference hour that is nearest to the place's closest second.
export function requestAt(library, eclipse, place, { radii, guard, deltaT }) {
  const delta = deltaT ?? eclipse.deltaT;
  const at = (hour) => requestBytes(elementsOf(library, eclipse, hour, radii).elements, place, delta, guard);
  let hour = 0;
  let bytes = at(hour);
  let entries = library.read(library.sheet(bytes));
  const nearest = Math.round(closestIn(entries).second / 3600);
  if (nearest !== 0) {
    hour = Math.max(REFERENCE_HOURS[0], Math.min(REFERENCE_HOURS.at(-1), nearest));
    bytes = at(hour);
    entries = library.read(library.sheet(bytes));
  }
  return { hour, bytes, entries, instant: instantOf(eclipse, hour), ...elementsOf(library, eclipse, hour, radii) };
}

// The request of an eclipse by its own hour, at no place yet: what a map is made from.
export function mapRequest(library, eclipse, { radii, guard, deltaT }) {
  const nowhere = { latitude: 0, longitude: 0, height: 0 };
  return requestBytes(elementsOf(library, eclipse, 0, radii).elements, nowhere, deltaT ?? eclipse.deltaT, guard);
}

// A whole number of units as it is typed: with its decimals, without zeros at the end.
export function typedDecimal(units, decimals) {
  const digits = String(Math.abs(units)).padStart(decimals + 1, "0");
  const whole = digits.slice(0, digits.length - decimals);
  const part = digits.slice(digits.length - decimals).replace(/0+$/, "");
  return (units < 0 ? "-" : "") + whole + (part === "" ? "" : `.${part}`);
}

// The typed text of a request. `remarks` are lines of comment below the title.
export function requestText(title, remarks, request, place, { guard, deltaT, taiLessUtc }) {
  const [elements, station, window] = fieldTables(false);
  const line = (numbers) => ([name, decimals], k) => `${name} ${typedDecimal(numbers[k], decimals)}`;
  const fits = FITS.map((name, k) => `${name} ${request.misfits[k]}`).join(", ");
  const numbers = [OWN_NUMBER, place.latitude, place.longitude, place.height, deltaT];
  return [
    `# ${title.replace(/\s+/g, " ").trim()}`,
    ...remarks.map((remark) => `# ${remark}`),
    `# fits within so many units of the hourly values: ${fits}`,
    "",
    `instant ${instantText(request.instant)}`,
    ...(taiLessUtc ? [`tai-utc ${taiLessUtc}`] : []),
    "",
    ...elements.map(line(request.elements)),
    "",
    ...station.map(line(numbers)),
    "",
    ...window.map(line([...WIDEST, guard])),
    "",
  ].join("\n");
}
