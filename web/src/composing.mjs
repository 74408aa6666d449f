// The text of an eclipse of the catalogue at a place, as a person would type it.
import { TEXTS, dateWords } from "./texts.mjs";
import { requestAt, requestText } from "./making.mjs";
import { taiLessUtc } from "./scales.mjs";

export function composedText(library, { eclipse, place, options }, leapSeconds) {
  const request = requestAt(library, eclipse, place, options);
  const utc = taiLessUtc(leapSeconds, eclipse.date);
  const remarks = [
    `eclipse of ${eclipse.date} by the catalogue of 1900 to 2100, elements by ephemeris time, radii ${options.radii}`,
    ...(utc?.presumed ? [`TAI - UTC is presumed: leap seconds are known up to ${leapSeconds.expires} only`] : []),
  ];
  const title = TEXTS.sheetTitle(dateWords(eclipse.date), place.name);
  const given = { ...options, deltaT: options.deltaT ?? eclipse.deltaT, taiLessUtc: utc?.seconds };
  return requestText(title, remarks, request, place, given);
}
