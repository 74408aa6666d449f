// The page: an eclipse and a place, or a text of one's own, to a sheet, a map and a list.
import { LANGUAGES, TEXTS, cityName, dateWords, language, speak } from "./texts.mjs";
import { html } from "./svg.mjs";
import { loadLibrary } from "./library.mjs";
import { loadRequest } from "./program.mjs";
import { readCatalogue, nextAfter } from "./catalogue.mjs";
import { cityNear, readCities } from "./cities.mjs";
import { readOutline } from "./outline.mjs";
import { clocksOf, readLeapSeconds } from "./scales.mjs";
import { GUARD, mapRequest, movedTo, typedDecimal, widened } from "./making.mjs";
import { composedText } from "./composing.mjs";
import { refusalIn } from "./refusing.mjs";
import { answerTo } from "./answer.mjs";
import { addressOf, askedBy } from "./address.mjs";
import { titleIn, typedValue } from "./fields.mjs";
import { deviceButton, eclipsePicker, placeFields, placePicker, placeWords } from "./choosing.mjs";
import { makeOptions } from "./options.mjs";
import { makeMap } from "./mapview.mjs";
import { mapLegend } from "./legend.mjs";
import { makeHere } from "./here.mjs";
import { makeTaking } from "./taking.mjs";
import { makeTyped, withField, isField } from "./typed.mjs";
import { whereItGoes } from "./goes.mjs";
import { showSheet } from "./sheet.mjs";
import { CATALOGUE, CITIES, EXAMPLES, LEAP_SECONDS, LIBRARY, MORE_CITIES, OUTLINE, REQUEST } from "./made.mjs";

const $ = (id) => document.getElementById(id);
const PAPER = 780; // pixels of the curve on paper
const bytesOf = (base64) => Uint8Array.from(atob(base64), (letter) => letter.charCodeAt(0));
const browserZone = () => Intl.DateTimeFormat().resolvedOptions().timeZone || "UTC";
const degrees = (units) => units / 1e6;

// TAI - UTC as a text has it in a line of its own, or null.
function taiIn(text) {
  const words = typedValue(text, "tai-utc");
  return /^\d+$/.test(words) ? { seconds: Number(words), presumed: false } : null;
}

// Texts into the elements that name them.
function fillTexts() {
  document.title = TEXTS.title;
  document.documentElement.lang = language();
  const said = (path) => path.split(".").reduce((texts, name) => texts[name], TEXTS);
  for (const element of document.querySelectorAll("[data-text]")) element.textContent = said(element.dataset.text);
  $("language").replaceChildren(
    ...Object.entries(LANGUAGES).map(([code, { language: name }]) => html("option", { value: code }, name)),
  );
  $("language").value = language();
}

function start(library, request) {
  const eclipses = readCatalogue(CATALOGUE);
  const cities = readCities(CITIES, MORE_CITIES);
  const leapSeconds = readLeapSeconds(LEAP_SECONDS);
  const today = new Date().toISOString().slice(0, 10);
  const ofBrowser = cities.find(({ zone, name }) => zone === browserZone() && zone.endsWith(name.replaceAll(" ", "_")));
  const city = ofBrowser ?? cities.find(({ name }) => name === "London");
  const home = { ...city, name: cityName(city) };
  // eclipse null: the text is one's own, or an example's
  const state = {
    eclipse: null,
    place: home,
    options: { radii: "document02", deltaT: null, guard: GUARD },
    example: "",
    text: "",
  };
  const looks = { scales: new Set(["local", "UTC"]), zenithUp: false };
  let shown = { sheet: null, clocks: null, lines: [], names: [] };

  const zone = () => state.place.zone ?? browserZone();
  const now = () => ({ ...shown, text: state.text, address: addressOf(state, language()) });

  // ---- what changes the state
  function pickEclipse(at) {
    state.eclipse = eclipses[at];
    state.options = { ...state.options, deltaT: null };
    update();
  }
  function pickPlace(place) {
    state.place = place;
    if (!state.eclipse) {
      const values = {
        latitude: typedDecimal(place.latitude, 6),
        longitude: typedDecimal(place.longitude, 6),
        height: String(place.height),
      };
      state.text = Object.entries(values).reduce((text, [name, value]) => withField(text, name, value), state.text);
      state.example = "";
    }
    update();
  }
  function pointAt(latitude, longitude) {
    const at = { latitude: Math.round(latitude * 1e4) * 100, longitude: Math.round(longitude * 1e4) * 100 };
    pickPlace({ ...at, height: 0, name: TEXTS.choose.pointed, zone: state.place.zone });
  }
  function ownText(text, example = "") {
    Object.assign(state, { eclipse: null, text, example });
    update();
  }

  // ---- what is shown
  const chosenEclipse = () => state.eclipse;
  const chosenPlace = () => state.place;
  const goes = (eclipse) => whereItGoes(library, eclipse, cities, "document02");
  const eclipseField = eclipsePicker(eclipses, today, { pick: pickEclipse, chosen: chosenEclipse, goes });
  const placeField = placePicker(cities, { pick: pickPlace, chosen: chosenPlace });
  const zones = [...new Set(cities.map((city) => city.zone))].sort();
  const fields = placeFields(
    zones,
    browserZone(),
    { chosen: chosenPlace, change: (part) => pickPlace({ ...state.place, ...part }) },
  );
  const deviceSaid = html("p", { class: "hint", role: "status", id: "device-said" });
  const device = deviceButton({ pick: pickPlace, said: (words) => (deviceSaid.textContent = words) });
  const changeOptions = (part) => {
    state.options = { ...state.options, ...part };
    update();
  };
  const options = makeOptions({ chosen: () => state.options, change: changeOptions, eclipse: chosenEclipse });
  const map = makeMap(library, readOutline(OUTLINE), {
    pick: pointAt,
    words: (latitude, longitude) => placeWords(
      { latitude: Math.round(latitude * 1e6), longitude: Math.round(longitude * 1e6) },
    ),
  });
  const here = makeHere(library, eclipses, { open: openFromList, today });
  const taking = makeTaking({ now });
  const typed = makeTyped(
    EXAMPLES,
    { changed: (text) => later(text), chosen: (name) => ownText(EXAMPLES[name], name) },
  );
  $("choose").append(eclipseField.element, placeField.element, device, deviceSaid, fields.element, options.element);
  $("map-place").append(map.element);
  $("map-legend").append(...mapLegend());
  $("take").append(taking.element);
  $("here").append(here.element);
  $("own").append(typed.element);

  function openFromList(at) {
    pickEclipse(at);
    $("sheet").scrollIntoView({ block: "start" });
    $("sheet").focus({ preventScroll: true });
  }
  let waiting = 0;
  function later(text) {
    Object.assign(state, { eclipse: null, text, example: "" });
    clearTimeout(waiting);
    waiting = setTimeout(update, 120);
  }

  function refuse(line, words) {
    const go = html("button", { type: "button", class: "goto" }, TEXTS.atLine(line));
    go.addEventListener("click", () => typed.select(line));
    if (line) $("own-details").open = true;
    $("sheet").replaceChildren(
      html(
        "div",
        { class: "refusal", role: "alert" },
        html("h2", {}, TEXTS.refused),
        html("p", {}, ...(line ? [go, ": "] : []), words),
      ),
    );
  }

  function look() {
    const { clocks, sheet } = shown;
    const known = [...(clocks?.names ?? []), "seconds"];
    const wanted = known.filter((name) => looks.scales.has(name));
    const scales = wanted.length > 0 ? wanted : [known[0]];
    return {
      clocks,
      known,
      scales,
      zenithUp: looks.zenithUp,
      radii: state.eclipse ? state.options.radii : null,
      source: state.eclipse && state.options.deltaT === null && !sheet.numbers.star ? state.eclipse.source : null,
      expires: dateWords(leapSeconds.expires),
      wantScale(name, on) {
        if (on) looks.scales.add(name);
        else looks.scales.delete(name);
        draw(`scale-${name}`);
      },
      turnPictures(zenithUp) {
        looks.zenithUp = zenithUp;
        draw(zenithUp ? "up-zenith" : "up-north");
      },
    };
  }
  // Draws the sheet again; the focus stays on the element of that name.
  function draw(focus, width) {
    if (!shown.sheet) return;
    showSheet($("sheet"), shown.sheet, state.text, look(), width);
    if (focus) $(focus)?.focus();
  }

  // The place of a text, so that map and list follow it: by the name and zone of a city that is there, else by its
  // coordinates.
  function followText({ numbers }) {
    const { latitude, longitude, height } = numbers;
    const same = state.place.latitude === latitude && state.place.longitude === longitude;
    const city = same ? state.place : cityNear(cities, latitude, longitude);
    state.place = { ...(city ?? { zone: null }), latitude, longitude, height };
    if (!same) state.place.name = city ? cityName(city) : placeWords(state.place).join(" ");
  }

  let listed = "";
  function showAround() {
    const { sheet } = shown;
    const star = sheet?.numbers.star;
    $("map-none").hidden = !star;
    const own = sheet && !star ? movedTo(widened(sheet.bytes), 0, 0, 0) : null;
    const bytes = state.eclipse ? mapRequest(library, state.eclipse, state.options) : own;
    const { latitude, longitude } = state.place;
    map.show(bytes, { latitude: degrees(latitude), longitude: degrees(longitude) });
    here.mark(state.eclipse?.date ?? null);
    const key = JSON.stringify([state.place, state.options.radii, state.options.guard]);
    if (key === listed) return;
    listed = key;
    here.compute(state.place, state.options, zone(), leapSeconds, state.place.name);
  }
  function update() {
    clearTimeout(waiting);
    if (state.eclipse) Object.assign(state, { text: composedText(library, state, leapSeconds), example: "" });
    const answer = answerTo(library, request, state.text);
    const { sheet } = answer;
    shown = { sheet: sheet ?? null, clocks: null, lines: [], names: [] };
    if (!sheet) {
      const { line, words, lines, names } = refusalIn(answer, state.text);
      Object.assign(shown, { lines, names });
      refuse(line, words);
    } else {
      if (!state.eclipse) followText(sheet);
      shown.clocks = clocksOf(sheet.instant, sheet.numbers["delta t"], zone(), leapSeconds, taiIn(state.text));
      draw();
    }
    document.title = sheet ? titleIn(state.text) || TEXTS.title : TEXTS.title;
    for (const part of [eclipseField, placeField, fields, options, taking]) part.show();
    typed.show(state.text, state.example, shown.lines, shown.names);
    document.body.dataset.state = sheet ? "sheet" : "refused";
    history.replaceState(null, "", `#${addressOf(state, language())}`);
    showAround();
  }

  // ---- what the address asks for
  function open() {
    const asked = askedBy(location.hash);
    if (asked.example !== undefined) {
      const example = Object.hasOwn(EXAMPLES, asked.example ?? "") ? asked.example : Object.keys(EXAMPLES)[0];
      const own = asked.fields.filter(([name]) => isField(name));
      const text = own.reduce((each, [name, value]) => withField(each, name, value), asked.text ?? EXAMPLES[example]);
      return ownText(text, asked.text || own.length > 0 ? "" : example);
    }
    const at = eclipses.findIndex(({ date }) => date === asked.eclipse);
    state.eclipse = eclipses[at < 0 ? nextAfter(eclipses, today) : at];
    const place = asked.place ?? home;
    state.place = { ...place, name: place.name || placeWords(place).join(" ") };
    state.options = asked.options;
    update();
  }
  // the curve is drawn for the width that it has: again where that changes, and for paper
  let width = innerWidth;
  addEventListener("resize", () => {
    if (innerWidth === width) return;
    width = innerWidth;
    draw();
    typed.mark();
  });
  addEventListener("beforeprint", () => draw(null, PAPER));
  addEventListener("afterprint", () => draw());
  addEventListener("hashchange", open);
  $("own-details").addEventListener("toggle", typed.mark);
  open();
}

function chosenLanguage() {
  const asked = askedBy(location.hash).language;
  try {
    return asked ?? localStorage.getItem("language") ?? navigator.language;
  } catch {
    return asked ?? navigator.language;
  }
}
speak(chosenLanguage());
fillTexts();
$("language").addEventListener("change", () => {
  try {
    localStorage.setItem("language", $("language").value);
  } catch {
    // a browser that keeps nothing still has the language in the address
  }
  const asked = new URLSearchParams(location.hash.slice(1));
  asked.set("lang", $("language").value);
  history.replaceState(null, "", `#${asked}`);
  location.reload();
});
Promise.all([loadLibrary(bytesOf(LIBRARY)), loadRequest(bytesOf(REQUEST))])
  .then(([library, request]) => start(library, request))
  .catch((error) => {
    $("sheet").textContent = TEXTS.failed + error;
    throw error;
  });
