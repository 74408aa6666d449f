// The sheet as it is shown and printed: head, table, durations, pictures, curve, listing.
import { TEXTS } from "./texts.mjs";
import { html } from "./svg.mjs";
import { decimal, titleIn } from "./fields.mjs";
import { instantText, listingWithTimes } from "./clock.mjs";
import { nearestTime } from "./scales.mjs";
import { picture } from "./picture.mjs";
import { graph } from "./graph.mjs";
import { withCursor } from "./cursor.mjs";
import { contactsTable, dayOf, wordsOf } from "./table.mjs";
import { durationsIn, notesOf, verdictOf } from "./saying.mjs";

const PICTURES = 8; // at most
const METRES = 6_378_245 / 1e8; // of a unit, on the spheroid of document 01

function factsOf(sheet, { radii }) {
  const { head, numbers, instant } = sheet;
  const said = TEXTS.sheet;
  const { latitude, longitude } = numbers;
  const facts = [
    said.latitude(decimal(Math.abs(latitude), 6), latitude < 0),
    said.longitude(decimal(Math.abs(longitude), 6), longitude < 0),
    said.height(decimal(numbers.height, 0)),
    said.deltaT(decimal(numbers["delta t"], 2)),
    ...(radii ? [said.radii[radii]] : []),
    said.guard(head.guard, (head.guard * METRES).toFixed(1)),
    said.station(head.station),
    instant ? said.instant(instantText(instant)) : said.noInstant,
    said.window(decimal(head.first, 0), decimal(head.last, 0)),
  ];
  return html(
    "p",
    { class: "facts" },
    ...facts.flatMap((fact, k) => [k > 0 ? " \u00b7 " : "", html("span", {}, fact)]),
  );
}

const dateIn = (milliseconds) => {
  const words = { weekday: "long", day: "numeric", month: "long", year: "numeric", timeZone: "UTC" };
  return new Intl.DateTimeFormat(TEXTS.locale, words).format(milliseconds);
};

const ahead = (offset) => {
  const minutes = Math.round(Math.abs(offset) / 60_000);
  const rest = minutes % 60 ? `:${String(minutes % 60).padStart(2, "0")}` : "";
  return `${offset < 0 ? "\u2212" : "+"}${Math.floor(minutes / 60)}${rest}`;
};

function headOf(sheet, text, shown) {
  const { clocks } = shown;
  const day = clocks ? dateIn(dayOf(sheet, clocks, clocks.names[0])) : "";
  const zone = clocks?.names[0] === "local" ? ` \u00b7 ${TEXTS.zone(clocks.zone, ahead(clocks.offset))}` : "";
  const isDown = sheet.seen?.down || (sheet.spell === null && !sheet.numbers.star);
  return html(
    "header",
    {},
    html("h2", { id: "sheet-title" }, titleIn(text) || TEXTS.sheet.untitled(sheet.head.station)),
    html("p", { class: isDown ? "verdict none" : "verdict" }, verdictOf(sheet, clocks)),
    ...(day ? [html("p", { class: "date" }, day + zone)] : []),
    ...notesOf(sheet, clocks, shown).map((note) => html("p", { class: "note" }, note)),
  );
}

// Boxes for the clocks that are wanted.
function scaleBoxes({ known, scales, wantScale }) {
  const box = (name) => {
    const input = html(
      "input",
      { type: "checkbox", id: `scale-${name}`, ...(scales.includes(name) ? { checked: "" } : {}) },
    );
    input.addEventListener("change", () => wantScale(name, input.checked));
    return html("label", { class: "box" }, input, ` ${TEXTS.scaleNames[name]}`);
  };
  return html("fieldset", { class: "boxes" }, html("legend", {}, TEXTS.sheet.scales), ...known.map(box));
}

function contactsOf(sheet, shown) {
  const long = durationsIn(sheet);
  return html(
    "section",
    {},
    html("div", { class: "bar" }, html("h3", {}, TEXTS.sheet.rows), ...(shown.clocks ? [scaleBoxes(shown)] : [])),
    contactsTable(sheet, shown.clocks, shown.scales),
    ...(long.length > 0
      ? [
        html(
          "dl",
          { class: "durations" },
          ...long.map(([what, words]) => html("div", {}, html("dt", {}, what), html("dd", { class: "time" }, words))),
        ),
      ]
      : []),
  );
}

// The time under a picture: that of its row, to the second; the picture is drawn at a whole second next to it.
function captionOf(row, clocks) {
  if (!clocks) return `${decimal(row.second, 0)} s`;
  const [from, to] = row.bracket.between;
  return nearestTime(clocks, clocks.names[0], (from + to) / 200, 0)[0];
}

function picturesOf(sheet, { clocks, zenithUp, turnPictures }) {
  const said = TEXTS.sheet;
  const { star } = sheet.numbers;
  const figures = sheet.rows.slice(0, PICTURES).map((row) => {
    const [title] = wordsOf(row, sheet);
    const time = captionOf(row, clocks);
    return html(
      "figure",
      {},
      picture(row, star, TEXTS.picture.label(title, time), zenithUp),
      html("figcaption", {}, html("b", {}, String(row.number)), ` ${title}`, html("span", { class: "time" }, time)),
    );
  });
  const notes = [star ? said.picturesHintStar(zenithUp) : said.picturesHint(zenithUp)];
  const more = sheet.rows.length - PICTURES;
  if (more > 0) notes.push(said.morePictures(more));
  const choice = (value, words) => {
    const input = html(
      "input",
      {
        type: "radio",
        name: "up",
        id: value ? "up-zenith" : "up-north",
        ...(value === zenithUp ? { checked: "" } : {}),
      },
    );
    input.addEventListener("change", () => turnPictures(value));
    return html("label", { class: "box" }, input, ` ${words}`);
  };
  const choices = html(
    "fieldset",
    { class: "boxes" },
    html("legend", {}, said.up),
    choice(false, said.northUp),
    choice(true, said.zenithUp),
  );
  return html(
    "section",
    {},
    html("div", { class: "bar" }, html("h3", {}, said.pictures), choices),
    html("div", { class: "pictures" }, ...figures),
    html("p", { class: "hint" }, notes.join(" ")),
  );
}

function curveOf(sheet, { clocks }, width) {
  const { curve, legend } = TEXTS.sheet;
  const key = (name) => html("span", { class: `key ${name}` }, legend[name]);
  const made = graph(sheet, clocks, width);
  const said = withCursor(made, sheet, clocks, width);
  const keys = ["magnitude", "share", ...(sheet.curve.some(({ altitude }) => altitude < -8) ? ["night"] : [])];
  return html(
    "section",
    {},
    html("div", { class: "bar" }, html("h3", {}, curve), html("span", { class: "legend" }, ...keys.map(key))),
    said,
    made.drawing,
  );
}

// Shows a sheet in a place of the page. `shown`: clocks, scales and known ones, zenithUp, radii, source, expires, and
// what to call.
export function showSheet(place, sheet, text, shown, width) {
  const { instant, numbers, listing, entries } = sheet;
  const words = instant ? listingWithTimes(listing, entries, instant, numbers["delta t"]) : listing;
  const open = place.querySelector("details")?.open ?? false;
  const style = getComputedStyle(place);
  const inner = place.clientWidth - parseFloat(style.paddingLeft) - parseFloat(style.paddingRight);
  const wide = width ?? Math.max(300, Math.min(1080, inner));
  place.replaceChildren(
    html(
      "article",
      { class: "contact-sheet", "aria-labelledby": "sheet-title" },
      headOf(sheet, text, shown),
      contactsOf(sheet, shown),
      picturesOf(sheet, shown),
      ...(sheet.curve ? [curveOf(sheet, shown, wide)] : []),
      html("footer", {}, factsOf(sheet, shown), html("p", {}, TEXTS.sheet.foot(numbers.star, Boolean(instant)))),
      html("details", open ? { open: "" } : {}, html("summary", {}, TEXTS.sheet.listing), html("pre", {}, words)),
    ),
  );
}
