// Where an eclipse goes, for the list of eclipses: countries of the cities that see the most of it, in the order of
// time. Each city has a sheet of the library.
import { GUARD, elementsOf, requestBytes } from "./making.mjs";
import { seenOf } from "./seen.mjs";
import { TEXTS, countryName } from "./texts.mjs";

const CITY_CLOSE = 60; // seconds that a sunrise may be off
const LESS = 40_000; // millionths that a city may see less than the best one
const FAR = 800_000; // magnitude below which the best city is far from the path
const MOST = 5; // countries
const known = new Map();

function bestCities(library, eclipse, cities, radii) {
  const { elements } = elementsOf(library, eclipse, 0, radii);
  const seen = [];
  for (const city of cities) {
    const bytes = requestBytes(elements, city, eclipse.deltaT, GUARD);
    const view = seenOf(library, bytes, library.read(library.sheet(bytes)), CITY_CLOSE);
    if (view && !view.down) seen.push(
      { country: city.country, magnitude: Math.min(view.magnitude, 1_000_000), second: view.second },
    );
  }
  const top = Math.max(0, ...seen.map(({ magnitude }) => magnitude));
  const best = seen.filter(({ magnitude }) => magnitude > 0 && magnitude >= top - LESS);
  return { top, countries: [...new Set(best.sort((a, b) => a.second - b.second).map(({ country }) => country))] };
}

// The words for a list; computed once an eclipse.
export function whereItGoes(library, eclipse, cities, radii) {
  if (!known.has(eclipse.date)) known.set(eclipse.date, bestCities(library, eclipse, cities, radii));
  const { top, countries } = known.get(eclipse.date);
  if (countries.length === 0) return "";
  if (top < FAR && eclipse.kind !== "P") return TEXTS.goesNowhere(countryName(countries[0]));
  return TEXTS.goes(countries.slice(0, MOST).map(countryName), countries.length > MOST);
}
