// Cities with their time zones: web/data/cities.txt and web/data/more_cities.txt, whose headers have the formats.

const dataLines = (text) => text.split("\n").filter((line) => line && line[0] !== "#");

function ofZone(line) {
  const [latitude, longitude, country, zone] = line.split(" ");
  return cityOf(zone.split("/").pop().replaceAll("_", " "), latitude, longitude, 0, country, zone);
}

function byHand(line) {
  const [latitude, longitude, height, country, zone, ...name] = line.split(" ");
  return cityOf(name.join(" "), latitude, longitude, Number(height), country, zone);
}

// Latitude and longitude in 10^-6 degree, as a request has them.
function cityOf(name, latitude, longitude, height, country, zone) {
  return { name, latitude: 100 * latitude, longitude: 100 * longitude, height, country, zone };
}

export function readCities(text, more) {
  const all = [...dataLines(more).map(byHand), ...dataLines(text).map(ofZone)];
  return all.sort((a, b) => (a.name < b.name ? -1 : 1));
}

// A name without accents, case and punctuation, for comparing with what is typed.
export const plainName = (words) =>
  words
    .normalize("NFD")
    .replace(/\p{M}/gu, "")
    .toLowerCase()
    .replace(/[^\p{L}\p{N}]+/gu, " ")
    .trim();

// The places of the names that have what is typed in them, at their start first; `names` are plain.
export function matching(names, typed) {
  const asked = plainName(typed);
  if (asked === "") return names.map((_, at) => at);
  const rank = (name) => (name.startsWith(asked) ? 0 : name.includes(` ${asked}`) ? 1 : name.includes(asked) ? 2 : 3);
  const ranked = names.map((name, at) => [rank(name), at]).filter(([order]) => order < 3);
  return ranked.sort(([a, m], [b, n]) => a - b || m - n).map(([, at]) => at);
}

const NEAR = 60_000; // 10^-6 degree

// A city at a place, give or take some kilometres, or undefined.
export const cityNear = (cities, latitude, longitude) =>
  cities.find((city) => Math.abs(city.latitude - latitude) <= NEAR && Math.abs(city.longitude - longitude) <= NEAR);
