// The panel where one chooses: the eclipse, the place, and the options below them.
import { html } from "./svg.mjs";
import { TEXTS, cityName, countryName, dateWords } from "./texts.mjs";
import { makePicker } from "./picker.mjs";
import { matching, plainName } from "./cities.mjs";
import { coordinatesIn } from "./coordinates.mjs";
import { decimal, rangeOf } from "./fields.mjs";
import { nextAfter } from "./catalogue.mjs";

export const placeWords = ({ latitude, longitude }) => [
  TEXTS.sheet.latitude(decimal(Math.abs(latitude), 6), latitude < 0),
  TEXTS.sheet.longitude(decimal(Math.abs(longitude), 6), longitude < 0),
];

// Eclipses in the order of the list: from the next one on, then the past ones backwards.
function listed(eclipses, today) {
  const next = nextAfter(eclipses, today);
  const all = eclipses.map((eclipse, at) => ({ eclipse, at }));
  return { coming: all.slice(next), past: all.slice(0, next).reverse() };
}

// `goes(eclipse)` says where an eclipse goes; `pick(at)` takes one.
export function eclipsePicker(eclipses, today, { pick, chosen, goes }) {
  const { coming, past } = listed(eclipses, today);
  const names = (eclipse) => plainName(`${eclipse.date} ${dateWords(eclipse.date)} ${TEXTS.kinds[eclipse.kind]}`);
  const known = new Map();
  const fits = ({ eclipse }, asked) => {
    if (!known.has(eclipse)) known.set(eclipse, names(eclipse));
    return asked.split(" ").every((word) => known.get(eclipse).split(" ").some((each) => each.startsWith(word)));
  };
  const option = ({ eclipse, at }) => ({
    key: at,
    eclipse,
    content: [
      html("span", { class: "date" }, dateWords(eclipse.date)),
      html("span", { class: `chip ${eclipse.kind}` }, TEXTS.kinds[eclipse.kind]),
      html("small", { class: "goes" }, "\u2026"),
    ],
  });
  return makePicker({
    id: "eclipse",
    label: TEXTS.choose.eclipse,
    hint: TEXTS.choose.eclipseHint,
    shown: () => (
      chosen() ? `${dateWords(chosen().date)}, ${TEXTS.kinds[chosen().kind].toLowerCase()}` : TEXTS.choose.ownText
    ),
    options(typed) {
      const asked = plainName(typed);
      const kept = [coming, past].map((list) => list.filter((each) => asked === "" || fits(each, asked)).map(option));
      if (kept[0].length > 0) kept[0][0].heading = TEXTS.choose.coming;
      if (kept[1].length > 0) kept[1][0].heading = TEXTS.choose.past;
      return kept.flat();
    },
    pick: ({ key }) => pick(key),
    visible: (element, { eclipse }) => {
      // one after the other, so that the list stays quick
      setTimeout(() => element.isConnected && (element.querySelector(".goes").textContent = goes(eclipse)));
    },
  });
}

export function placePicker(cities, { pick, chosen }) {
  const names = cities.map((city) => plainName(`${cityName(city)} ${city.name} ${countryName(city.country)}`));
  const option = (at) => ({
    place: { ...cities[at], name: cityName(cities[at]) },
    content: [html("span", {}, cityName(cities[at])), html("small", {}, countryName(cities[at].country))],
  });
  return makePicker({
    id: "place",
    label: TEXTS.choose.place,
    hint: TEXTS.choose.placeHint,
    shown: () => chosen().name,
    options(typed) {
      const at = coordinatesIn(typed);
      if (at) {
        const words = placeWords(at).join(" ");
        const place = { ...at, name: words, height: 0, zone: null };
        return [{ place, content: [html("span", {}, words), html("small", {}, TEXTS.choose.pasted)] }];
      }
      return matching(names, typed).map(option);
    },
    pick: ({ place }) => pick(place),
  });
}

// Asks the device where it is; `said(words)` tells how it goes.
export function deviceButton({ pick, said }) {
  const button = html("button", { type: "button", id: "device" }, TEXTS.choose.device);
  if (!navigator.geolocation) button.disabled = true;
  button.addEventListener("click", () => {
    said(TEXTS.choose.deviceWait);
    navigator.geolocation.getCurrentPosition(
      ({ coords }) => {
        said("");
        const [low, high] = rangeOf("height");
        const height = Math.max(low, Math.min(high, Math.round(coords.altitude ?? 0)));
        const [latitude, longitude] = [coords.latitude, coords.longitude].map((degrees) => Math.round(degrees * 1e6));
        pick({ latitude, longitude, height, name: TEXTS.choose.deviceName, zone: null });
      },
      () => said(TEXTS.choose.deviceFailed),
      { enableHighAccuracy: true, timeout: 15_000 },
    );
  });
  return button;
}

// Height and time zone of the place.
export function placeFields(zones, own, { chosen, change }) {
  const height = html("input", { id: "height", inputmode: "numeric", autocomplete: "off" });
  const option = (zone) => html("option", { value: zone }, zone.replaceAll("_", " "));
  const zone = html(
    "select",
    { id: "zone" },
    html("option", { value: "" }, TEXTS.choose.zoneOfBrowser(own)),
    ...zones.map(option),
  );
  height.addEventListener("input", () => {
    const metres = Number(height.value.replace(/[\u2212\u2013]/g, "-").trim());
    const [low, high] = rangeOf("height");
    const good = height.value.trim() !== "" && Number.isInteger(metres) && low <= metres && metres <= high;
    height.toggleAttribute("aria-invalid", !good);
    if (good) change({ height: metres });
  });
  zone.addEventListener("change", () => change({ zone: zone.value || null }));
  const label = (words, input) => html("label", {}, html("span", {}, words), input);
  const where = html("p", { class: "where", id: "where" });
  return {
    element: html(
      "div",
      {},
      where,
      html("div", { class: "fields" }, label(TEXTS.choose.height, height), label(TEXTS.choose.zone, zone)),
    ),
    show() {
      const place = chosen();
      where.textContent = placeWords(place).join("  ");
      if (height !== document.activeElement) height.value = String(place.height);
      zone.value = place.zone ?? "";
    },
  };
}
