// Answers questions about clock times, one JSON list a line, by web/src/clock.mjs: `tests/clock_times.py` compares with Python's.
import { readFileSync } from "node:fs";
import { instantIn, instantText, listingWithTimes, nearest, readInstant, times } from "../src/clock.mjs";

const shown = (instant) => (instant === null ? null : instantText(instant));
const withOffset = (words, offset) => ({ ...readInstant(words), offset });
const ANSWERS = {
  instant: (words) => shown(readInstant(words)),
  text: (text) => instantIn(text) && `${shown(instantIn(text))} ${instantIn(text).offset}`,
  times: (words, offset, deltaT, from, to) => times(withOffset(words, offset), deltaT, from, to),
  nearest: (words, offset, deltaT, second) => nearest(withOffset(words, offset), deltaT, second),
  listing: (words, deltaT, listing, entries) => listingWithTimes(listing, entries, readInstant(words), deltaT),
};
for (const line of readFileSync(0, "utf8").trimEnd().split("\n")) {
  const [name, ...given] = JSON.parse(line);
  console.log(JSON.stringify(ANSWERS[name](...given)));
}
