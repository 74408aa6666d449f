// What one takes along: files of contacts, of the curve and for a calendar, the clipboard.
import { html } from "./svg.mjs";
import { TEXTS } from "./texts.mjs";
import { between, nearestTime } from "./scales.mjs";
import { contactAngles } from "./angles.mjs";
import { wordsOf } from "./table.mjs";

export function saveFile(name, content, type) {
  const link = html("a", { href: URL.createObjectURL(new Blob([content], { type })), download: name });
  link.click();
  URL.revokeObjectURL(link.href);
  return name;
}

// Whether the words are on the clipboard now: by the browser's own way, else by the old one.
export async function copied(words) {
  try {
    await navigator.clipboard.writeText(words);
    return true;
  } catch {
    const field = html("textarea", { style: "position:fixed;opacity:0" }, words);
    document.body.append(field);
    field.select();
    const done = document.execCommand("copy");
    field.remove();
    return done;
  }
}

const quoted = (value) => (/[",\n]/.test(String(value)) ? `"${String(value).replaceAll('"', '""')}"` : String(value));
const lines = (rows) => rows.map((row) => row.map(quoted).join(",") + "\r\n").join("");
const tenths = (number) => (number === null || number === undefined ? "" : (number / 10).toFixed(1));
const dateAt = (clocks, scale, hundredths) => new Date(clocks.at(scale, hundredths)).toISOString().slice(0, 10);

// The rows of the sheet: two times of each clock, between which the contact lies.
export function contactsCsv(sheet, clocks) {
  const scales = clocks?.names ?? [];
  const head = ["number", "what", "from_second", "to_second", "from_hundredth", "to_hundredth"];
  const columns = scales.flatMap((scale) => ["date", "from", "to"].map((each) => `${each}_${scale.toLowerCase()}`));
  const rest = ["altitude", "azimuth", "point_from_north", "point_from_zenith", "moon_from_north", "magnitude"];
  const rows = sheet.rows.map((row) => {
    const { entry, bracket, horizon } = row;
    const times = scales.flatMap(
      (scale) => [dateAt(clocks, scale, bracket.between[0]), ...between(clocks, scale, bracket.between, 0).slice(0, 2)],
    );
    const angles = entry.direction === undefined ? null : contactAngles(row);
    const seconds = [entry.second ?? entry.from, entry.second ?? entry.to];
    const magnitude = entry.magnitude === undefined ? "" : (entry.magnitude / 1e6).toFixed(6);
    const sky = [horizon.altitude, horizon.azimuth, angles?.north, angles?.zenith, entry.direction].map(tenths);
    return [row.number, wordsOf(row, sheet)[0], ...seconds, ...bracket.between, ...times, ...sky, magnitude];
  });
  return lines([[...head, ...columns, ...rest], ...rows]);
}

// Magnitude, share and altitude every so many seconds, from the curve's first to its last.
export function curveCsv(sheet, clocks, step) {
  const [first, last] = [sheet.curve[0].second, sheet.curve.at(-1).second];
  const scales = clocks?.names ?? [];
  const head = [
    "second",
    ...scales.flatMap((scale) => [`date_${scale.toLowerCase()}`, `time_${scale.toLowerCase()}`]),
    "magnitude",
    "share",
    "altitude",
  ];
  const rows = [];
  for (let second = Math.ceil(first / step) * step; second <= last; second += step) {
    const { magnitude, share, altitude } = sheet.sky.reading(second);
    const times = scales.flatMap(
      (scale) => [dateAt(clocks, scale, 100 * second + 50), nearestTime(clocks, scale, second, 0)[0]],
    );
    rows.push([second, ...times, (magnitude / 1e6).toFixed(6), (share / 1e6).toFixed(6), tenths(altitude)]);
  }
  return lines([head, ...rows]);
}

const stamp = (milliseconds) => new Date(milliseconds).toISOString().replace(/[-:]|\.\d+/g, "");
const escaped = (words) => words.replace(/[\\;,]/g, (sign) => `\\${sign}`).replaceAll("\n", "\\n");
// lines of a calendar file have at most 75 bytes; the rest follows after a blank
const folded = (line) => {
  const parts = [];
  let part = "";
  for (const sign of line) {
    if (new TextEncoder().encode(part + sign).length > 74) {
      parts.push(part);
      part = "";
    }
    part += sign;
  }
  return [...parts, part].join("\r\n ");
};

// A calendar file with an event for each row, at its second rounded down, by UTC (before 1972 by universal time).
export function calendarFile(sheet, clocks, title, now) {
  const { latitude, longitude } = sheet.numbers;
  const events = sheet.rows.flatMap((row) => {
    const [what, meaning] = wordsOf(row, sheet);
    const at = clocks.at(clocks.civil, row.bracket.between[0]);
    const uid = `${stamp(at)}-${row.number}-${latitude}-${longitude}@ukhtvaresh`;
    const note = [meaning, title, TEXTS.take.calendarNote].filter(Boolean).join("\n");
    return [
      "BEGIN:VEVENT",
      `UID:${uid}`,
      `DTSTAMP:${stamp(now)}`,
      `DTSTART:${stamp(at)}`,
      `DTEND:${stamp(at + 60_000)}`,
      `SUMMARY:${escaped(what)}`,
      `DESCRIPTION:${escaped(note)}`,
      `GEO:${latitude / 1e6};${longitude / 1e6}`,
      "END:VEVENT",
    ];
  });
  const all = ["BEGIN:VCALENDAR", "VERSION:2.0", "PRODID:-//Ukhtvaresh//Contacts//EN", ...events, "END:VCALENDAR"];
  return all.map(folded).join("\r\n") + "\r\n";
}
