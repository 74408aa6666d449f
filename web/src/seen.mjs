// What of an eclipse is seen from a place: the library's sheet, and its altitude at some seconds of it.

// Tenths of a degree from which on the Sun counts as up: the usual altitude of sunrise and sunset, for refraction of
// 34' and a semidiameter of 16', rounded as the library rounds.
export const UP = -8;
const LOOKS = 4; // seconds on either side of the closest at which the altitude is looked at

const isContact = (entry) => entry.name === "enter" || entry.name === "leave";

// The first and the last second of the eclipse at the place, within the window; null where there is none.
export function spellOf(entries, phase) {
  const own = entries.filter((entry) => entry.phase === phase);
  if (own.length === 0) return null;
  const [first, last] = [own[0], own.at(-1)];
  const { first: start, last: end } = entries[0];
  return [first.name === "leave" ? start : (first.to ?? first.from), last.name === "enter" ? end : last.from];
}

// The second nearest to `down`, at which the Sun is down, towards `end` at which it is up, or null; by halving, to
// `close` seconds.
function nearestUp(isUp, down, end, close) {
  for (let k = 1; k <= LOOKS; k++) {
    let up = Math.round(down + ((end - down) * k) / LOOKS);
    if (!isUp(up)) continue;
    let below = Math.round(down + ((end - down) * (k - 1)) / LOOKS);
    while (Math.abs(up - below) > close) {
      const middle = Math.trunc((up + below) / 2);
      if (isUp(middle)) up = middle;
      else below = middle;
    }
    return up;
  }
  return null;
}

// The largest magnitude with the Sun up, its second and altitude, and the kind of eclipse then: partial, annular or
// total. null where no eclipse is there; { down: true } with the altitude at the closest second where the Sun is down
// throughout.
export function seenOf(library, bytes, entries, close = 1) {
  const closest = entries.find((entry) => entry.name === "closest");
  if (closest.magnitude === 0) return null;
  // without a contact, and with the Sun covered, the whole window lies in the eclipse
  const spell = spellOf(entries, "penumbra") ?? [entries[0].first, entries[0].last];
  const altitude = (second) => library.horizon(bytes, second).altitude;
  const atClosest = altitude(closest.second);
  if (atClosest >= UP) {
    const isTotal = closest.magnitude >= 1_000_000;
    const central = isTotal || entries.some((entry) => entry.phase === "central" && isContact(entry));
    const kind = !central ? "partial" : isTotal ? "total" : "annular";
    return { kind, second: closest.second, magnitude: closest.magnitude, altitude: atClosest, spell, atClosest: true };
  }
  const isUp = (second) => altitude(second) >= UP;
  const found = spell
    .map((end) => nearestUp(isUp, closest.second, end, close))
    .filter((second) => second !== null)
    .map((second) => library.second(bytes, second))
    .sort((a, b) => b.magnitude - a.magnitude)[0];
  if (!found || found.magnitude === 0) return {
    down: true,
    second: closest.second,
    magnitude: closest.magnitude,
    altitude: atClosest,
  };
  const kind = found.central !== "inside" ? "partial" : found.l2 < 0 ? "total" : "annular";
  const { second, magnitude } = found;
  return { kind, second, magnitude, altitude: altitude(second), spell, atClosest: false };
}

// The seconds of a spell at which the Sun passes the altitude from which on it counts as up: [{ second, rises }]
export function risings(library, bytes, [first, last], horizonAt = library.horizon) {
  const isUp = (second) => horizonAt(bytes, second).altitude >= UP;
  const step = 300;
  const found = [];
  for (let from = first; from < last; from += step) {
    let [low, high] = [from, Math.min(from + step, last)];
    const before = isUp(low);
    if (isUp(high) === before) continue;
    while (high - low > 1) {
      const middle = Math.floor((low + high) / 2);
      if (isUp(middle) === before) low = middle;
      else high = middle;
    }
    found.push({ second: high, rises: !before });
  }
  return found;
}
