// The address of what is shown, behind the # of the page's own: an eclipse of the catalogue at a place, an example, or
// a text.
import { GUARD, RADII, typedDecimal } from "./making.mjs";
import { rangeOf } from "./fields.mjs";
import { coordinatesIn } from "./coordinates.mjs";

const DATE = /^\d{4}-\d\d-\d\d$/;
const whole = (words, [low, high]) => {
  const number = Number(words);
  return words !== null && words !== "" && Number.isInteger(number) && low <= number && number <= high ? number : null;
};

// The words after the #.
export function addressOf({ eclipse, place, options, example, text }, language) {
  const asked = new URLSearchParams();
  if (eclipse) {
    asked.set("eclipse", eclipse.date);
    asked.set("at", `${typedDecimal(place.latitude, 6)},${typedDecimal(place.longitude, 6)}`);
    if (place.height !== 0) asked.set("height", place.height);
    asked.set("name", place.name);
    if (place.zone) asked.set("zone", place.zone);
    if (options.radii !== "document02") asked.set("radii", options.radii);
    if (options.deltaT !== null) asked.set("deltat", typedDecimal(options.deltaT, 2));
    if (options.guard !== GUARD) asked.set("guard", options.guard);
  } else if (example) asked.set("example", example);
  else asked.set("text", text);
  if (language !== "en") asked.set("lang", language);
  return asked.toString();
}

// What an address asks for: { eclipse: a date, place, options } as far as it says so, { example } or { text }, and own
// fields.
export function askedBy(hash) {
  const asked = new URLSearchParams(hash.replace(/^#/, ""));
  const made = { language: asked.get("lang"), fields: [...asked] };
  if (asked.has("text") || asked.has("example")) return {
    ...made,
    text: asked.get("text"),
    example: asked.get("example"),
  };
  if (DATE.test(asked.get("eclipse") ?? "")) made.eclipse = asked.get("eclipse");
  const at = coordinatesIn(asked.get("at") ?? "");
  if (at) {
    const height = whole(asked.get("height"), rangeOf("height")) ?? 0;
    made.place = { ...at, height, name: asked.get("name") || "", zone: asked.get("zone") };
  }
  const seconds = asked.has("deltat") ? String(Math.round(Number(asked.get("deltat")) * 100)) : null;
  const deltaT = whole(seconds, rangeOf("delta t"));
  const radii = Object.hasOwn(RADII, asked.get("radii") ?? "") ? asked.get("radii") : "document02";
  return { ...made, options: { radii, deltaT, guard: whole(asked.get("guard"), rangeOf("guard")) ?? GUARD } };
}
