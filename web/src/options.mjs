// Radii, ΔT and guard of the requests that the page makes from the catalogue.
import { html } from "./svg.mjs";
import { TEXTS } from "./texts.mjs";
import { RADII } from "./making.mjs";
import { decimal, rangeOf } from "./fields.mjs";

// A decimal number with at most so many decimals within a range, in units; null for anything else.
function unitsIn(words, decimals, [low, high]) {
  const plain = words.trim().replace(/[\u2212\u2013]/g, "-").replace(",", ".");
  if (!/^[+-]?\d+(\.\d+)?$/.test(plain)) return null;
  const units = Math.round(Number(plain) * 10 ** decimals);
  return Math.abs(Number(plain) * 10 ** decimals - units) < 1e-6 && low <= units && units <= high ? units : null;
}

// `change(options)` takes what has changed; `eclipse()` is the one that is chosen, or null.
export function makeOptions({ chosen, change, eclipse }) {
  const said = TEXTS.options;
  const radii = html(
    "select",
    { id: "radii" },
    ...Object.keys(RADII).map((name) => html("option", { value: name }, said[name])),
  );
  const deltaT = html(
    "input",
    { id: "delta-t", inputmode: "decimal", autocomplete: "off", "aria-describedby": "delta-t-hint" },
  );
  const guard = html(
    "input",
    { id: "guard", inputmode: "numeric", autocomplete: "off", "aria-describedby": "guard-hint" },
  );
  const hint = html("p", { class: "hint", id: "delta-t-hint" });
  const reset = html("button", { type: "button", class: "plain", id: "delta-t-reset" }, said.reset);
  radii.addEventListener("change", () => change({ radii: radii.value }));
  const typed = (input, decimals, range, name) =>
    input.addEventListener("input", () => {
      const units = unitsIn(input.value, decimals, range);
      input.toggleAttribute("aria-invalid", units === null);
      if (units !== null) change({ [name]: units });
    });
  typed(deltaT, 2, rangeOf("delta t"), "deltaT");
  typed(guard, 0, rangeOf("guard"), "guard");
  reset.addEventListener("click", () => change({ deltaT: null }));
  const label = (words, input) => html("label", {}, html("span", {}, words), input);
  const set = html(
    "fieldset",
    { class: "plain" },
    label(said.radii, radii),
    html("p", { class: "hint" }, said.radiiHint),
    label(said.deltaT, deltaT),
    hint,
    reset,
    label(said.guard, guard),
    html("p", { class: "hint", id: "guard-hint" }, said.guardHint),
  );
  return {
    element: html("details", { id: "options" }, html("summary", {}, said.title), set),
    show() {
      const now = chosen();
      const of = eclipse();
      set.disabled = !of;
      radii.value = now.radii;
      reset.hidden = now.deltaT === null;
      hint.textContent = of ? said.deltaTHint(decimal(of.deltaT, 2), said.sources[of.source]) : "";
      if (deltaT !== document.activeElement) deltaT.value = of ? decimal(now.deltaT ?? of.deltaT, 2) : "";
      if (guard !== document.activeElement) guard.value = String(now.guard);
    },
  };
}
