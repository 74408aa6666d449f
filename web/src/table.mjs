// The table of contacts: what, when by each clock that is wanted, where the Sun is, where the limbs touch.
import { TEXTS } from "./texts.mjs";
import { html } from "./svg.mjs";
import { decimal } from "./fields.mjs";
import { contactAngles, degreesText, sideOf } from "./angles.mjs";
import { between, nearestTime, shortened } from "./scales.mjs";
import { UP } from "./seen.mjs";

export const wordsOf = (row, sheet) =>
  TEXTS.row(row.entry, {
    star: sheet.numbers.star,
    total: row.place?.total,
    share: sheet.share,
    unsure: row.unsure,
    head: sheet.head,
  });

export const isDown = (row) => row.horizon.altitude < UP;

// A day's start by a clock, as the sheet's own day: that of the closest second.
export const dayOf = (sheet, clocks, name) =>
  clocks.at(name, 100 * sheet.rows.find(({ entry }) => entry.name === "closest").second);

const mark = (words) => (words ? [html("span", { class: "day" }, words)] : []);

// The time of a row by a clock: of a contact the two hundredths between which it lies, of a second the nearest second.
export function timesOf(row, clocks, name, day) {
  if (row.entry.second !== undefined) {
    const [time, days] = nearestTime(clocks, name, row.second, day);
    return [html("span", { class: "time" }, time), ...mark(days)];
  }
  const [earlier, later, days] = between(clocks, name, row.bracket.between, day);
  // a line may break behind the dash where a column is narrow
  const pair = html("span", { class: "time pair" }, `${earlier}\u2013`, html("wbr"), shortened(earlier, later));
  return [pair, ...mark(days)];
}

function sunCell(row) {
  const { altitude, azimuth } = row.horizon;
  const words = degreesText(altitude);
  const up = html("span", { class: "time" }, altitude < 0 ? `${words}\u00b0` : TEXTS.high(words));
  const side = azimuth === null ? "" : TEXTS.azimuth(degreesText(azimuth), sideOf(azimuth, TEXTS.sides));
  const said = isDown(row) ? TEXTS.down : altitude < 0 ? TEXTS.edge : "";
  return [up, ...(said ? [html("strong", { class: "below" }, said)] : []), html("small", { class: "time" }, side)];
}

function pointCell(row) {
  if (row.entry.direction === undefined) return [];
  const angles = contactAngles(row);
  if (!angles) return [TEXTS.point.none];
  const zenith = (tenths) => (tenths === null ? "\u2013" : degreesText(tenths));
  const { point } = TEXTS;
  return [
    html("span", { class: "time" }, point.north(degreesText(angles.north))),
    html("span", { class: "time" }, point.zenith(zenith(angles.zenith))),
    ...(angles.moon ? [html("small", {}, point.moon(degreesText(angles.moon.north), zenith(angles.moon.zenith)))] : []),
  ];
}

function secondsCell({ entry }) {
  if (entry.second !== undefined) return [html("span", { class: "time" }, decimal(entry.second, 0))];
  const time = (second) => html("span", { class: "time" }, decimal(second, 0));
  return [time(entry.from), " ", html("span", { class: "to" }, TEXTS.to), " ", time(entry.to)];
}

// `scales` are the names of the clocks that are wanted, "seconds" among them.
export function contactsTable(sheet, clocks, scales) {
  const { columns } = TEXTS;
  const { star } = sheet.numbers;
  const days = Object.fromEntries(
    scales.filter((name) => name !== "seconds").map((name) => [name, dayOf(sheet, clocks, name)]),
  );
  const names = ["number", "what", ...scales, star ? "star" : "sun", "point"];
  const cell = (name, ...children) => html(
    "td",
    { role: "cell", class: name, "data-label": columns[name] },
    ...children,
  );
  const rowOf = (row) => {
    const [title, meaning] = wordsOf(row, sheet);
    return html(
      "tr",
      { role: "row", class: isDown(row) ? `${row.entry.name} down` : row.entry.name },
      cell("number", String(row.number)),
      cell("what", html("strong", {}, title), ...(meaning ? [html("small", {}, meaning)] : [])),
      ...scales.map(
        (name) => (
          name === "seconds" ? cell(name, ...secondsCell(row)) : cell(name, ...timesOf(row, clocks, name, days[name]))
        ),
      ),
      cell(star ? "star" : "sun", ...sunCell(row)),
      cell("point", ...pointCell(row)),
    );
  };
  // the roles stay where a narrow window lays the table out in blocks
  const labels = names.map((name) => html("th", { role: "columnheader", scope: "col", class: name }, columns[name]));
  const head = html("thead", { role: "rowgroup" }, html("tr", { role: "row" }, ...labels));
  return html(
    "table",
    { role: "table", class: "contacts" },
    head,
    html("tbody", { role: "rowgroup" }, ...sheet.rows.map(rowOf)),
  );
}
