// Seconds of a sheet as times of day, by the rules of docs/CLOCK.md. Whole numbers throughout: thousandths of a second, printed as tenths.

const DAY = 864_000; // tenths
const FIRST_YEAR = 1583;
const ATOMIC = 32_184; // thousandths of a second that ephemeris time is ahead of TAI
const FORM = /^(\d{4})-(\d{2})-(\d{2})[ \t\r]+(\d{2}):(\d{2}):(\d{2})(?:\.(\d{1,2}))?[ \t\r]+(ET|UT)$/;

function daysIn(year, month) {
  const leap = year % 4 === 0 && (year % 100 !== 0 || year % 400 === 0);
  return [31, leap ? 29 : 28, 31, 30, 31, 30, 31, 31, 30, 31, 30, 31][month - 1];
}

// The instant that the words are, `2017-08-21 18:00:00 ET`, or null. `hundredths` counts from 0h of its day; `offset` is TAI less UTC in
// seconds, or 0 where it is not known.
export function readInstant(words) {
  const form = FORM.exec(words);
  if (!form) return null;
  const [year, month, day, hours, minutes, seconds] = form.slice(1, 7).map(Number);
  if (year < FIRST_YEAR || month < 1 || month > 12 || day < 1 || day > daysIn(year, month)) return null;
  if (hours > 23 || minutes > 59 || seconds > 59) return null;
  const decimals = Number((form[7] ?? "").padEnd(2, "0"));
  return { year, month, day, hundredths: ((hours * 60 + minutes) * 60 + seconds) * 100 + decimals, scale: form[8], offset: 0 };
}

export const dateOf = (instant) => `${digits(instant.year, 4)}-${digits(instant.month)}-${digits(instant.day)}`;

export function instantText(instant) {
  const seconds = Math.floor(instant.hundredths / 100);
  const time = `${timeOf(seconds)}.${digits(instant.hundredths % 100)}`;
  return `${dateOf(instant)} ${time} ${instant.scale}`;
}

const digits = (number, count = 2) => String(number).padStart(count, "0");
const timeOf = (seconds) =>
  `${digits(Math.floor(seconds / 3600))}:${digits(Math.floor(seconds / 60) % 60)}:${digits(seconds % 60)}`;

// What a line says without its comment and the blanks around it.
export const saidIn = (line) => line.split("#")[0].replace(/^[ \t\r]+|[ \t\r]+$/g, "");

// Whether what is said begins with the name, and a blank or nothing follows.
export const isNamed = (said, name) => said.startsWith(name) && /^([ \t\r]|$)/.test(said.slice(name.length));

// What the line of that name in a typed text says behind the name, or undefined.
function wordsAfter(text, name) {
  const said = text.split("\n").map(saidIn).find((line) => isNamed(line, name));
  return said?.slice(name.length).replace(/^[ \t\r]+/, "");
}

// The instant of a typed text that `request` takes, with TAI less UTC, or null: what the lines of these names say.
export function instantIn(text) {
  const words = wordsAfter(text, "instant");
  const instant = words === undefined ? null : readInstant(words);
  return instant && { ...instant, offset: Number(wordsAfter(text, "tai-utc") ?? 0) };
}

// Ephemeris and universal time of a second, where they are known.
function ownAt(instant, deltaT, second) {
  const own = 10 * instant.hundredths + 1000 * second;
  if (deltaT === 0) return { [instant.scale]: own };
  if (instant.scale === "ET") return { ET: own, UT: own - 10 * deltaT };
  return { ET: own + 10 * deltaT, UT: own };
}

// The time of a second in each scale that is known: ephemeris time first, UTC last.
function thousandthsAt(instant, deltaT, second) {
  const known = ownAt(instant, deltaT, second);
  if (!instant.offset || known.ET === undefined) return known;
  return { ...known, UTC: known.ET - ATOMIC - 1000 * instant.offset };
}

export function printed(tenths) {
  const days = Math.floor(tenths / DAY);
  const rest = tenths - days * DAY;
  const day = days === 0 ? "" : days > 0 ? `+${days}d` : `${days}d`;
  return `${timeOf(Math.floor(rest / 10))}.${rest % 10}${day}`;
}

const inEach = (thousandths, print) =>
  Object.fromEntries(Object.entries(thousandths).map(([scale, n]) => [scale, print(n, scale)]));

// Two times of day in each scale, rounded outward: what lies between the seconds lies between the times.
export function times(instant, deltaT, from, to) {
  const later = thousandthsAt(instant, deltaT, to);
  return inEach(thousandthsAt(instant, deltaT, from), (n, scale) => [
    printed(Math.floor(n / 100)),
    printed(Math.ceil(later[scale] / 100)),
  ]);
}

// The time of day of a second in each scale, to the nearest tenth, halves up.
export function nearest(instant, deltaT, second) {
  return inEach(thousandthsAt(instant, deltaT, second), (n) => printed(Math.floor((n + 50) / 100)));
}

// Hundredths from 0h of the instant's day, in universal time where it is known: what the curve's axis counts.
export function axisTime(instant, deltaT, second) {
  const known = ownAt(instant, deltaT, second);
  return (known.UT ?? known.ET) / 10;
}

// The listing of a sheet with clock times. `entries` are those of the sheet, `listing` its own text.
export function listingWithTimes(listing, entries, instant, deltaT) {
  const added = (known) =>
    Object.entries(known)
      .map(([scale, time]) => ` ${scale} ${[time].flat().join(" ")}`)
      .join("");
  const lines = listing.trimEnd().split("\n");
  const shown = lines.map((line, at) => {
    const entry = entries[at];
    if (entry.name === "head") return `${line}\ninstant ${instantText(instant)}`;
    if (entry.name === "closest") return line + added(nearest(instant, deltaT, entry.second));
    if (entry.name === "share") return line;
    return line + added(times(instant, deltaT, entry.from, entry.to));
  });
  return shown.map((line) => `${line}\n`).join("");
}
