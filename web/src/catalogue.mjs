// The eclipses of almanac/catalogue/eclipses.txt; its header has the format and the units.
const LINES = 8; // of a record
const ORDER = 4; // of the differences
const HOURS = 7; // rows that the elements are made from
const TURN = 360_000_000; // 10^-6 degree
const FACTS = ["saros", "gamma", "magnitude", "latitude", "longitude", "greatest"];

// The reference hours of a record, from its own: each has seven of the nine rows around it.
export const REFERENCE_HOURS = [-1, 0, 1];

export function readCatalogue(text) {
  const lines = text.split("\n").filter((line) => line && line[0] !== "#");
  return Array.from({ length: lines.length / LINES }, (_, n) => {
    const [date, hour, kind, deltaT, source, ...facts] = lines[n * LINES].split(" ");
    const eclipse = { date, hour: Number(hour), kind, deltaT: Number(deltaT), source };
    FACTS.forEach((name, k) => (eclipse[name] = Number(facts[k])));
    return Object.assign(eclipse, { lines: lines.slice(n * LINES + 1, (n + 1) * LINES) });
  });
}

// The values of a line: running sums of its differences, the highest order first.
function summed(line) {
  const values = line.split(" ").map(Number);
  for (let order = ORDER; order > 0; order--) for (let k = order; k < values.length; k++) values[k] += values[k - 1];
  return values;
}

// Seven rows of Sun and Moon, 42 numbers, and seven sidereal angles around a reference hour, as ukhtvaresh_elements
// takes them.
export function tablesAround(eclipse, hour) {
  const columns = eclipse.lines.map(summed);
  const rows = Array.from({ length: HOURS }, (_, k) => columns.map((column) => column[k + hour + 1]));
  return { rows: rows.flatMap((row) => row.slice(0, 6)), sidereal: rows.map((row) => row[6] % TURN) };
}

// The instant of a reference hour, in ephemeris time.
export function instantOf(eclipse, hour) {
  const at = new Date(Date.parse(`${eclipse.date}T00:00:00Z`) + (eclipse.hour + hour) * 3_600_000);
  const [year, month, day] = [at.getUTCFullYear(), at.getUTCMonth() + 1, at.getUTCDate()];
  return { year, month, day, hundredths: at.getUTCHours() * 360_000, scale: "ET" };
}

// The place of the first eclipse of a day or later; that of the last one where there is none.
export function nextAfter(eclipses, date) {
  const at = eclipses.findIndex((eclipse) => eclipse.date >= date);
  return at < 0 ? eclipses.length - 1 : at;
}
