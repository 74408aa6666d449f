// From a typed text to what the page shows: the rows of the sheet with brackets and places in the sky, or what is wrong
// and where. The proved program `request` reads the text, the proved library does the rest.
import { instantIn } from "./clock.mjs";
import { Refused } from "./library.mjs";
import { STAR_KIND, numbersOf, fieldsOf, lineNaming } from "./fields.mjs";
import { risings, seenOf, spellOf } from "./seen.mjs";

const SAMPLES = 400; // seconds of the curve at most
const MARGIN = 600; // seconds of the curve before first and after last contact

// A fault of a text: { line, name, wrong }, name and wrong as `request` words them.
function typedFault(error) {
  const told = /^line (\d+): ([^]*)\n$/.exec(error);
  if (!told) return { line: 0, name: "", wrong: error.trim() };
  const words = /^(tan f1|tan f2|delta t|\S+) ((?:is|has) [^]*)$/.exec(told[2]);
  if (told[2].startsWith("unknown name") || !words) return { line: Number(told[1]), name: "", wrong: told[2] };
  return { line: Number(told[1]), name: words[1], wrong: words[2] };
}

// The bytes of a typed text and its instant, or its first fault: both as `request` tells.
function encoded(request, text) {
  const { output, error } = request(new TextEncoder().encode(text));
  return error === "" ? { bytes: output, instant: instantIn(text) } : { fault: typedFault(error) };
}

// The second of an entry at which its picture is drawn: where its direction is taken, the middle of a spell that has
// none.
function pictureSecond(entry) {
  if (entry.second !== undefined) return entry.second;
  if (entry.name === "enter") return entry.to;
  if (entry.name === "leave") return entry.from;
  return Math.floor((entry.from + entry.to) / 2);
}

// The unsure seconds of an entry, first and last, or null. An open entry ends at a sure second where there is one.
function unsureIn(entry, { first, last }, isSure) {
  if (entry.second !== undefined) return null;
  if (entry.name !== "open") return entry.to - entry.from >= 2 ? [entry.from + 1, entry.to - 1] : null;
  const start = entry.from !== first || isSure(entry.from) ? entry.from + 1 : entry.from;
  const end = entry.to !== last || isSure(entry.to) ? entry.to - 1 : entry.to;
  return [start, end];
}

// What is asked of the library about a second: of an eclipse or of a star by the same names.
export function skyOf(library, bytes, star) {
  if (star)
    return {
      // the numbers that a picture is drawn from: the Moon's centre from the star, u to the east and v to the north
      place(second) {
        const { u, v, radius } = library.starSecond(bytes, second);
        return { u, v, sun: 0, moon: radius, total: false };
      },
      state: (phase, second) => library.starSecond(bytes, second).state,
      horizon: (second) => library.starHorizon(bytes, second),
      contact: ({ from, to }) => library.starContact(bytes, from, to),
    };
  return {
    place(second) {
      const { u, v, l1, l2 } = library.second(bytes, second);
      return { u, v, sun: (l1 + l2) / 2, moon: (l1 - l2) / 2, total: l2 < 0 };
    },
    state: (phase, second) => library.second(bytes, second)[phase],
    horizon: (second) => library.horizon(bytes, second),
    contact: ({ phase, from, to }) => library.contact(bytes, phase, from, to),
    // magnitude, share and altitude of a second, for the curve and its cursor
    reading: (second) => ({
      second,
      magnitude: library.second(bytes, second).magnitude,
      share: library.share(bytes, second),
      altitude: library.horizon(bytes, second).altitude,
    }),
  };
}

// The hundredths between which an entry lies: of a contact the library's bracket, where it has one; else its seconds.
function bracketOf(sky, entry) {
  const whole = [100 * (entry.second ?? entry.from), 100 * (entry.second ?? entry.to)];
  if (entry.name !== "enter" && entry.name !== "leave") return { between: whole, fine: false };
  try {
    return { between: sky.contact(entry), fine: true };
  } catch (refused) {
    if (!(refused instanceof Refused)) throw refused;
    return { between: whole, fine: false };
  }
}

// The readings along the eclipse, or along the window where there is none.
function readingsAlong(sky, { first, last }, spell, seconds) {
  const [start, end] = spell ? [Math.max(first, spell[0] - MARGIN), Math.min(last, spell[1] + MARGIN)] : [first, last];
  const steps = Math.max(1, Math.min(SAMPLES, end - start));
  const all = new Set(seconds.filter((second) => start <= second && second <= end));
  for (let k = 0; k <= steps; k++) all.add(Math.round(start + ((end - start) * k) / steps));
  return [...all].sort((a, b) => a - b).map(sky.reading);
}

// The spells of a phase from contact to contact, in hundredths: [[shortest, longest], ..]
function durationsOf(rows, phase) {
  const made = [];
  let began = null;
  for (const { entry, bracket } of rows) {
    if (entry.phase !== phase) continue;
    if (entry.name === "enter") began = bracket.between;
    else if (entry.name === "leave" && began) {
      made.push([bracket.between[0] - began[1], bracket.between[1] - began[0]]);
      began = null;
    }
  }
  return made;
}

// Rows for the seconds at which the Sun or the star rises or sets during the eclipse.
function horizonEntries(library, bytes, star, sky, spell) {
  if (!spell) return [];
  return risings(library, bytes, spell, star ? library.starHorizon : library.horizon).map(({ second, rises }) => ({
    name: rises ? "rises" : "sets",
    second,
    ...(star ? {} : { magnitude: sky.reading(second).magnitude, share: sky.reading(second).share }),
  }));
}

function sheetOf(library, bytes, instant) {
  const numbers = numbersOf(bytes);
  const { star } = numbers;
  const sheet = star ? library.star(bytes) : library.sheetAndShare(bytes);
  // the listing is that of the sheet as the programs make it, without the share
  const plain = star ? sheet : library.sheet(bytes);
  const entries = library.read(sheet);
  const head = entries[0];
  const sky = skyOf(library, bytes, star);
  const phases = star ? ["star"] : ["penumbra", "central"];
  const begun = sky.state(phases[0], head.first) === "inside";
  const spell = spellOf(entries, phases[0]) ?? (begun ? [head.first, head.last] : null);
  const share = entries.find((entry) => entry.name === "share")?.share ?? null;
  const timed = entries.filter((entry) => !["head", "share", "end"].includes(entry.name));
  timed.push(...horizonEntries(library, bytes, star, sky, spell));
  const from = (entry) => entry.second ?? entry.from;
  const to = (entry) => entry.second ?? entry.to;
  timed.sort((a, b) => from(a) - from(b) || to(a) - to(b));
  const rows = timed.map((entry, at) => {
    const second = pictureSecond(entry);
    return {
      number: at + 1,
      entry,
      second,
      bracket: bracketOf(sky, entry),
      horizon: sky.horizon(second),
      unsure: unsureIn(entry, head, (at) => sky.state(entry.phase, at) !== "unsure"),
      place: sky.place(second),
    };
  });
  return {
    bytes,
    instant,
    numbers,
    head,
    rows,
    share,
    sky,
    spell,
    stored: plain,
    entries: library.read(plain),
    listing: library.listing(plain),
    seen: star ? null : seenOf(library, bytes, entries),
    begun,
    goesOn: sky.state(phases[0], head.last) === "inside",
    durations: Object.fromEntries(phases.map((phase) => [phase, durationsOf(rows, phase)])),
    curve: star ? null : readingsAlong(sky, head, spell, rows.map((row) => row.second)),
  };
}

// { sheet } or { fault: { line, name, wrong } } or { refusal: { number, place, fields, lines } }
export function answerTo(library, request, text) {
  const { bytes, instant, fault } = encoded(request, text);
  if (fault) return { fault };
  try {
    return { sheet: sheetOf(library, bytes, instant) };
  } catch (refused) {
    if (!(refused instanceof Refused)) throw refused;
    const fields = fieldsOf(refused, bytes[0] === STAR_KIND);
    const lines = fields.map(([name]) => lineNaming(text, name)).filter((line) => line > 0);
    return { refusal: { number: refused.number, place: refused.place, fields, lines } };
  }
}
