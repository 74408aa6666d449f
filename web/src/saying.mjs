// What the head of a sheet says in words: what is seen, what to beware of, how long it lasts.
import { TEXTS } from "./texts.mjs";
import { degreesText } from "./angles.mjs";
import { durationParts, nearestTime } from "./scales.mjs";
import { isDown } from "./table.mjs";
import { GUARD } from "./making.mjs";

// The hours and minutes of a duration, with a blank behind them, or "".
const wholes = ({ hours, minutes }) => {
  const said = TEXTS.durations;
  return (hours ? `${hours} ${said.hours} ` : "") + (hours || minutes ? `${minutes} ${said.minutes} ` : "");
};

// A duration between two, in hundredths: 1 min 16.12 to 16.18 s.
function longWords([low, high]) {
  const { seconds: unit, to } = TEXTS.durations;
  const [a, b] = [durationParts(low), durationParts(high)];
  const later = wholes(a) === wholes(b) ? "" : wholes(b);
  const own = later ? ` ${unit}` : "";
  return `${wholes(a)}${a.seconds.toFixed(2)}${own} ${to} ${later}${b.seconds.toFixed(2)} ${unit}`;
}
const briefly = ([low, high]) => {
  const parts = durationParts(Math.round((low + high) / 2));
  return `${wholes(parts)}${parts.seconds.toFixed(1)} ${TEXTS.durations.seconds}`;
};

function starVerdict(sheet) {
  const { star, noStar, starDown } = TEXTS.verdict;
  if (!sheet.spell) return noStar;
  return sheet.rows.every(isDown) ? starDown : star;
}

// One sentence: what will be seen from the place.
export function verdictOf(sheet, clocks) {
  const said = TEXTS.verdict;
  if (sheet.numbers.star) return starVerdict(sheet);
  const { seen } = sheet;
  if (!seen) return said.none;
  if (seen.down) return said.down;
  const percent = `${(Math.floor(seen.magnitude / 1000) / 10).toFixed(1)} %`;
  const time = clocks ? said.at(
    nearestTime(clocks, clocks.names[0], seen.second, 0)[0],
    `${degreesText(seen.altitude)}\u00b0`,
  ) : "";
  if (seen.kind === "partial") {
    const rising = sheet.rows.find(
      ({ second, entry }) => (entry.name === "rises" || entry.name === "sets") && Math.abs(second - seen.second) <= 1,
    );
    return rising && !seen.atClosest ? said.partialAtHorizon(
      percent,
      said[rising.entry.name],
    ) : said.partial(percent, time);
  }
  const [duration] = sheet.durations.central;
  return said[seen.kind](duration ? said.lasts(briefly(duration)) : "", time);
}

// Sentences of warning, each only where it holds.
export function notesOf(sheet, clocks, { source, expires }) {
  const said = TEXTS.notes;
  const downs = sheet.rows.filter(isDown).length;
  return [
    [sheet.rows.length === 1, said.noContact],
    [sheet.begun, said.begun],
    [sheet.goesOn, said.goesOn],
    [downs > 0 && sheet.seen && !sheet.seen.down, said.someDown],
    [clocks?.utc?.presumed, said.presumed(expires)],
    [clocks && !clocks.utc && clocks.civil === "UT" && sheet.instant.year < 1972, said.noUtc],
    [source === "X", said.extrapolated],
    [source === "F", said.forecast],
    [sheet.numbers.guard < GUARD, said.guard],
  ]
    .filter(([holds]) => holds)
    .map(([, words]) => words);
}

// [[what, how long], ..]
export function durationsIn(sheet) {
  const said = TEXTS.durations;
  return Object.entries(sheet.durations).flatMap(([phase, spells]) => {
    const kind = phase === "central" ? (
      sheet.rows.some(({ place, entry }) => entry.phase === "central" && place.total) ? "total" : "annular"
    ) : phase;
    return spells.map((spell) => [said[kind], longWords(spell)]);
  });
}
