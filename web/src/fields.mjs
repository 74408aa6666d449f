// The numbers of a request in their order: name as typed, decimals of a unit, bytes, ends of the range in units.
// The library alone judges a request; this table puts its bytes and refusals into words.
import { saidIn, isNamed } from "./clock.mjs";

const coefficients = (name, ends) => ends.map((end, k) => [`${name}${k}`, 8, 4, -end, end]);
const lengths = (name) => coefficients(name, [200_000_000, 100_000_000, 100_000, 10_000]);
const MU = [
  ["mu0", 6, 4, 0, 359_999_999],
  ["mu1", 6, 4, 14_900_000, 15_100_000],
  ["mu2", 6, 4, -100, 100],
];
const ECLIPSE = [
  ...lengths("x"),
  ...lengths("y"),
  ["d0", 6, 4, -25_000_000, 25_000_000],
  ["d1", 6, 4, -20_000, 20_000],
  ["d2", 6, 4, -100, 100],
  ["l10", 8, 4, 50_000_000, 60_000_000],
  ["l11", 8, 4, -100_000, 100_000],
  ["l12", 8, 4, -10_000, 10_000],
  ["l20", 8, 4, -5_000_000, 5_000_000],
  ["l21", 8, 4, -100_000, 100_000],
  ["l22", 8, 4, -10_000, 10_000],
  ...MU,
  ["tan f1", 8, 4, 400_000, 500_000],
  ["tan f2", 8, 4, 400_000, 500_000],
];
const STAR = [...lengths("x"), ...lengths("y"), ["d0", 6, 4, -30_000_000, 30_000_000], ...MU];
const RADIUS = ["radius", 8, 4, 27_200_000, 27_300_000];
const STATION = [
  ["station", 0, 2, 1, 999],
  ["latitude", 6, 4, -90_000_000, 90_000_000],
  ["longitude", 6, 4, -180_000_000, 180_000_000],
  ["height", 0, 4, -500, 9_000],
  ["delta t", 2, 4, -10_000, 20_000],
];
const WINDOW = [
  ["first", 0, 2, -10_800, 10_800],
  ["last", 0, 2, -10_800, 10_800],
  ["guard", 0, 2, 16, 1_000],
];
const UNSIGNED = new Set(["station", "guard"]);

export const STAR_KIND = 5;

// The records of a request, each a list of [name, decimals, bytes, least, greatest].
export const fieldTables = (star) => [star ? [...STAR, RADIUS] : ECLIPSE, STATION, WINDOW];

// The ends of the range of a number of the station or the window, in units.
export function rangeOf(name) {
  const [, , , low, high] = [...STATION, ...WINDOW].find(([each]) => each === name);
  return [low, high];
}

// Units as a decimal number, for reading.
export function decimal(units, decimals) {
  const digits = String(Math.abs(units)).padStart(decimals + 1, "0");
  const whole = digits.slice(0, digits.length - decimals);
  const sign = units < 0 ? "\u2212" : "";
  return decimals === 0 ? sign + whole : `${sign}${whole}.${digits.slice(digits.length - decimals)}`;
}

// The numbers of a request's bytes by their names, in units.
export function numbersOf(bytes) {
  const view = new DataView(bytes.buffer, bytes.byteOffset, bytes.length);
  const star = bytes[0] === STAR_KIND;
  const numbers = { star };
  let at = 0;
  for (const record of fieldTables(star)) {
    at += 1; // its kind
    for (const [name, , width] of record) {
      const get = width === 4 ? "getInt32" : UNSIGNED.has(name) ? "getUint16" : "getInt16";
      numbers[name] = view[get](at);
      at += width;
    }
  }
  return numbers;
}

// The fields that a refusal of a request is about.
export function fieldsOf({ number, place }, star) {
  if (number === 1) return place === 1 ? [WINDOW[2]] : WINDOW.slice(0, 2);
  if (number === 2) return [(star ? STAR : ECLIPSE)[place]];
  if (number === 3) return [STATION[place]];
  if (number === 13) return [RADIUS];
  return [];
}

// The line of a text that has a name, counted from 1, or 0.
export function lineNaming(text, name) {
  return text.split("\n").findIndex((line) => isNamed(saidIn(line), name)) + 1;
}

// What stands after a name in a text, as it is typed; "" where no line has it.
export function typedValue(text, name) {
  const line = text.split("\n").find((each) => isNamed(saidIn(each), name));
  return line === undefined ? "" : saidIn(line).slice(name.length).trim();
}

// The text with another value after a name: in its line, comment and all, or in a new last line; without the line where
// it is "".
export function withValue(text, name, value) {
  const lines = text.split("\n");
  const at = lineNaming(text, name) - 1;
  if (at < 0) {
    if (value === "") return text;
    return `${text.replace(/\n*$/, "\n")}${name} ${value}\n`;
  }
  const [, comment = ""] = /^[^#]*?([ \t]*#.*)?$/.exec(lines[at]);
  if (value === "" && comment === "") lines.splice(at, 1);
  else lines[at] = (value === "" ? "" : `${name} ${value}`) + comment;
  return lines.join("\n");
}

const COMMENT = /^[ \t]*#+[ \t]*([^\r]*)/;

// The title of a text, its first comment; "" where it has none.
export function titleIn(text) {
  const comment = text.split("\n").find((line) => COMMENT.test(line));
  return comment === undefined ? "" : COMMENT.exec(comment)[1].trim();
}

// The text with another title.
export function withTitle(text, title) {
  const lines = text.split("\n");
  const at = lines.findIndex((line) => COMMENT.test(line));
  if (at < 0) return `# ${title}\n${text}`;
  lines[at] = `# ${title}`;
  return lines.join("\n");
}
