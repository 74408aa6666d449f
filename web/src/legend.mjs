// What the colours of the map mean.
import { html } from "./svg.mjs";
import { TEXTS } from "./texts.mjs";

export function mapLegend() {
  const { map } = TEXTS;
  const band = (k) => html("i", { style: `background: var(--map-${k})` });
  const bands = html("span", { class: "bands" }, ...Array.from({ length: 10 }, (_, k) => band(k)));
  const spot = (name) => html(
    "span",
    {},
    html("span", { class: "spot", style: `background: var(--map-${name})` }),
    map[name],
  );
  const scale = html("span", { class: "scale" }, "0", bands, "1");
  return [html("span", {}, map.legend), scale, spot("annular"), spot("total")];
}
