// Seconds of a sheet as times of day: local time, UTC, UT and ET, as docs/CLOCK.md has them. Everything is counted in
// whole thousandths of a second from 0h of the instant's day.

const TT_LESS_TAI = 32_184; // thousandths
const SECOND = 1_000;
const DAY_LENGTH = 86_400 * SECOND;
const FIRST_UTC = "1972-01-01";

// almanac/leap_seconds.txt: { expires, steps: [[day, TAI - UTC], ..] }
export function readLeapSeconds(text) {
  const lines = text.split("\n").filter((line) => line && line[0] !== "#").map((line) => line.split(" "));
  const expires = lines.find(([name]) => name === "expires")[1];
  return { expires, steps: lines.filter(([name]) => name !== "expires").map(([day, number]) => [day, Number(number)]) };
}

const startOf = ({ year, month, day }) => Date.UTC(year, month - 1, day);
const dayText = (milliseconds) => new Date(milliseconds).toISOString().slice(0, 10);

// TAI - UTC on a day, and whether it is presumed; null before 1972.
export function taiLessUtc({ steps, expires }, day) {
  if (day < FIRST_UTC) return null;
  return { seconds: steps.filter(([from]) => from <= day).at(-1)[1], presumed: day >= expires };
}

// How far a zone is ahead of UTC at a moment, in thousandths; null where the browser does not know the zone.
export function zoneOffset(zone, milliseconds) {
  try {
    const words = {
      timeZone: zone,
      hourCycle: "h23",
      year: "numeric",
      month: "numeric",
      day: "numeric",
      hour: "numeric",
      minute: "numeric",
      second: "numeric",
    };
    const parts = new Intl.DateTimeFormat("en-US", words).formatToParts(milliseconds);
    const { year, month, day, hour, minute, second } = Object.fromEntries(
      parts.map(({ type, value }) => [type, Number(value)]),
    );
    const whole = Math.floor(milliseconds / SECOND) * SECOND;
    return Date.UTC(year, month - 1, day, hour, minute, second) - whole;
  } catch {
    return null;
  }
}

// The clocks of a sheet: { names, at(name, hundredths): thousandths since 1970 by that clock, zone, offset, utc }.
// `hundredths` count from the reference instant. A clock that is not known is not among the names.
export function clocksOf(instant, deltaT, zone, leapSeconds, typed = null) {
  if (!instant) return null;
  const own = startOf(instant) + 10 * instant.hundredths;
  const ahead = { [instant.scale]: 0 }; // of the instant's own scale
  if (deltaT !== 0) ahead[instant.scale === "ET" ? "UT" : "ET"] = (instant.scale === "ET" ? -10 : 10) * deltaT;
  const listed = taiLessUtc(leapSeconds, dayText(own));
  // a typed number that is the list's past its end is as presumed as the list's
  const given = typed && { seconds: typed.seconds, presumed: Boolean(listed?.presumed && listed.seconds === typed.seconds) };
  const utc = ahead.ET === undefined ? null : (given ?? listed);
  if (utc) ahead.UTC = ahead.ET - TT_LESS_TAI - SECOND * utc.seconds;
  const civil = utc ? "UTC" : ahead.UT === undefined ? null : "UT";
  const offset = civil === null ? null : zoneOffset(zone, own + ahead[civil]);
  if (offset !== null) ahead.local = ahead[civil] + offset;
  const names = ["local", "UTC", "UT", "ET"].filter((name) => ahead[name] !== undefined);
  return { names, civil, utc, zone, offset, at: (name, hundredths) => own + 10 * hundredths + ahead[name] };
}

const two = (number) => String(number).padStart(2, "0");

// Thousandths since 1970 as HH:MM:SS with so many decimals, rounded down or up to them.
function timeText(thousandths, decimals, up) {
  const unit = 10 ** (3 - decimals);
  const units = (up ? Math.ceil : Math.floor)(thousandths / unit);
  const ofDay = ((units * unit) % DAY_LENGTH + DAY_LENGTH) % DAY_LENGTH;
  const seconds = Math.floor(ofDay / SECOND);
  const part = decimals === 0 ? "" : `.${String((ofDay % SECOND) / unit).padStart(decimals, "0")}`;
  return `${two(Math.floor(seconds / 3600))}:${two(Math.floor(seconds / 60) % 60)}:${two(seconds % 60)}${part}`;
}

// A mark for a day other than the sheet's.
function dayMark(thousandths, day) {
  const days = Math.floor(thousandths / DAY_LENGTH) - Math.floor(day / DAY_LENGTH);
  return days === 0 ? "" : days > 0 ? `+${days}d` : `\u2212${-days}d`;
}

// Two hundredths as times of a clock, rounded outward: [earlier, later, mark].
export function between(clocks, name, [from, to], day, decimals = 2) {
  const [a, b] = [clocks.at(name, from), clocks.at(name, to)];
  return [timeText(a, decimals, false), timeText(b, decimals, true), dayMark(a, day)];
}

// A whole second to the nearest second of a clock: [time, mark].
export function nearestTime(clocks, name, second, day) {
  const at = clocks.at(name, 100 * second) + SECOND / 2;
  return [timeText(at, 0, false), dayMark(at, day)];
}

// The later of two times without what it shares with the earlier: "13:40:43.21", "13:40:43.24" give "43.24".
export function shortened(earlier, later) {
  if (earlier.slice(0, 5) === later.slice(0, 5)) return later.slice(6);
  return later;
}

// Hundredths as a duration: 1 min 23.45 s. Rounded down or up to the given decimals.
export function durationParts(hundredths) {
  const minutes = Math.floor(hundredths / 6_000);
  return { hours: Math.floor(minutes / 60), minutes: minutes % 60, seconds: (hundredths % 6_000) / 100 };
}
