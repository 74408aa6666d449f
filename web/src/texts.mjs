// The words of the page, in the language that is chosen.
import { ENGLISH } from "./english.mjs";
import { RUSSIAN_TEXTS } from "./russian.mjs";

export const LANGUAGES = { en: ENGLISH, ru: RUSSIAN_TEXTS };
export let TEXTS = ENGLISH;
let spoken = "en";

export const language = () => spoken;

// Takes a language by its code, "ru" or "ru-RU"; English for one that is not there.
export function speak(code) {
  spoken = Object.hasOwn(LANGUAGES, code.slice(0, 2)) ? code.slice(0, 2) : "en";
  TEXTS = LANGUAGES[spoken];
  return spoken;
}

// A day, YYYY-MM-DD, in words.
export function dateWords(day, month = "long") {
  const words = { day: "numeric", month, year: "numeric", timeZone: "UTC" };
  return new Intl.DateTimeFormat(TEXTS.locale, words).format(Date.parse(`${day}T00:00:00Z`)).replace(/\s*г\.$/, "");
}

// The name of a country by its code.
export function countryName(code) {
  try {
    return new Intl.DisplayNames([TEXTS.locale], { type: "region" }).of(code);
  } catch {
    return code;
  }
}

export const cityName = ({ name }) => TEXTS.cities[name] ?? name;
