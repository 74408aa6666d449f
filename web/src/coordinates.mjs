// A latitude and a longitude as people paste them, to 10^-6 degree: "32.7767, -96.7970", 32°46'36"N 96°47'49"W, 32°
// 46.6′ N, decimal commas ("32,7767 -96,7970"), the minus sign −, "N 32.7767 W 96.7970", "lat 32.8 lon -96.8".

const MINUS = /[\u2212\u2013\u2012\ufe63\uff0d]/g; // minus signs and dashes that stand for -
const MARKS = [
  [/[\u00b0\u00ba\u02da]|deg(?:rees)?\b/gi, "\u00b0 "],
  [/["\u2033\u201d\u201c]|''|\u2032\u2032|\u2019\u2019/g, "\u2033 "],
  [/['\u2032\u2019\u2018\u00b4`]/g, "\u2032 "],
];
const NUMBER = String.raw`\d+(?:\.\d+)?`;
const PARTS = String.raw`(${NUMBER})\s*\u00b0?\s*(?:(${NUMBER})\s*\u2032?\s*(?:(${NUMBER})\s*\u2033?\s*)?)?`;
const ANGLE = new RegExp(String.raw`^([NSEW])?\s*([+-]?)\s*${PARTS}([NSEW])?$`, "i");
const SIDES = { N: [0, 1], S: [0, -1], E: [1, 1], W: [1, -1] };
const RUSSIAN = [[/с\.?\s*ш\.?/gi, "N"], [/ю\.?\s*ш\.?/gi, "S"], [/в\.?\s*д\.?/gi, "E"], [/з\.?\s*д\.?/gi, "W"]];
export const LIMITS = [90_000_000, 180_000_000];

// One angle: { axis: 0 latitude, 1 longitude or null where no letter says it, units: 10^-6 degree }, or null.
function angleIn(words) {
  const form = ANGLE.exec(words.trim());
  if (!form) return null;
  const [, before, sign, degrees, minutes, seconds, after] = form;
  if (before && after) return null;
  const letter = (before ?? after)?.toUpperCase();
  if (minutes !== undefined && (degrees.includes(".") || Number(minutes) >= 60)) return null;
  if (seconds !== undefined && (minutes.includes(".") || Number(seconds) >= 60)) return null;
  if (sign === "-" && letter) return null; // said twice, and perhaps against each other
  const size = Number(degrees) + Number(minutes ?? 0) / 60 + Number(seconds ?? 0) / 3600;
  const [axis, side] = letter ? SIDES[letter] : [null, sign === "-" ? -1 : 1];
  return { axis, units: side * Math.round(size * 1e6) || 0 };
}

// Decimal commas become points: where no point is there and a comma lies between two digits with no blank after it,
// unless it is the only comma and nothing else parts the two numbers ("32,-96").
function withPoints(words) {
  if (words.includes(".")) return words;
  const commas = words.match(/\d,\d/g)?.length ?? 0;
  return commas >= 2 || /\d,\d+[\s;\u00b0NSEW]/i.test(words) ? words.replace(/(\d),(?=\d)/g, "$1.") : words;
}

// The two parts of a pair: at a comma, a semicolon or a slash, behind a letter of the first side, or at the blanks in
// the middle.
function partsOf(words) {
  const parted = words.split(/[,;/]/).map((part) => part.trim());
  if (parted.length === 2) return [parted];
  if (parted.length > 2) return [];
  const found = [];
  const letters = /^(.*?[NSEW])\s*(.+)$/i.exec(words.replace(/^([NSEW])\s*/i, ""));
  if (letters && !/^[NSEW]/i.test(words)) found.push([letters[1], letters[2]]);
  const first = /^([NSEW].*?)\s*([NSEW].*)$/i.exec(words);
  if (first) found.push([first[1], first[2]]);
  const blanks = [...words.matchAll(/\s+/g)].map(({ index }) => index);
  for (const at of [...blanks].sort((a, b) => Math.abs(a - words.length / 2) - Math.abs(b - words.length / 2)))
    found.push([words.slice(0, at), words.slice(at)]);
  return found;
}

// { latitude, longitude } in 10^-6 degree, or null where the words are no pair of coordinates within their ranges.
export function coordinatesIn(typed) {
  let words = typed.replace(MINUS, "-").replace(/\u00a0|\u202f|\u2009/g, " ");
  for (const [russian, letter] of RUSSIAN) words = words.replace(russian, letter);
  words = words.replace(/\b(?:lat(?:itude)?|lon(?:g(?:itude)?)?|lng)\b\.?\s*[:=]?/gi, " ").replace(/[()[\]]/g, " ");
  for (const [mark, plain] of MARKS) words = words.replace(mark, plain);
  words = withPoints(words).replace(/\s+([\u00b0\u2032\u2033])/g, "$1").replace(/\s+/g, " ").trim();
  for (const parts of partsOf(words)) {
    const pair = parts.map(angleIn);
    if (pair.includes(null)) continue;
    let [one, other] = pair;
    if (one.axis === 1 || other.axis === 0) [one, other] = [other, one];
    if (one.axis === 1 || other.axis === 0) continue;
    if (Math.abs(one.units) > LIMITS[0] || Math.abs(other.units) > LIMITS[1]) continue;
    return { latitude: one.units, longitude: other.units };
  }
  return null;
}
