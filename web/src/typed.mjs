// The typed text, with fields that edit a line of it, and marks on the lines that are wrong.
import { html } from "./svg.mjs";
import { TEXTS } from "./texts.mjs";
import { titleIn, typedValue, withTitle, withValue } from "./fields.mjs";

const FIELDS = ["title", "instant", "latitude", "longitude", "height", "delta t", "station"];

// The text with another value of a field.
export const withField = (text, name, value) => (
  name === "title" ? withTitle(text, value) : withValue(text, name, value)
);
export const isField = (name) => FIELDS.includes(name);

// `changed(text)` is called when someone edits, `chosen(name)` when an example is picked.
export function makeTyped(examples, { changed, chosen }) {
  const said = TEXTS.own;
  const text = html(
    "textarea",
    {
      id: "text",
      rows: 24,
      spellcheck: "false",
      autocomplete: "off",
      autocapitalize: "off",
      wrap: "off",
      "aria-labelledby": "typed-label",
      "aria-describedby": "typed-hint",
    },
  );
  const marks = html("div", { id: "marks", "aria-hidden": "true" });
  const options = Object.entries(examples).map(([name, each]) => html("option", { value: name }, titleIn(each)));
  const example = html("select", { id: "example" }, html("option", { value: "" }, said.ownText), ...options);
  const inputs = Object.fromEntries(
    FIELDS.map((name) => {
      const wide = name === "title" || name === "instant";
      const input = html(
        "input",
        { id: `place-${name}`, autocomplete: "off", spellcheck: "false", ...(wide ? {} : { inputmode: "decimal" }) },
      );
      if (name === "instant") input.placeholder = said.instantHint;
      input.addEventListener("input", () => {
        text.value = withField(text.value, name, input.value.trim());
        example.value = "";
        changed(text.value);
      });
      return [name, input];
    }),
  );
  const labels = FIELDS.map((name) =>
    html(
      "label",
      { class: name === "title" || name === "instant" ? "wide" : "" },
      html("span", {}, said.fields[name]),
      inputs[name],
    ),
  );
  const element = html(
    "div",
    { class: "own" },
    html(
      "div",
      {},
      html("label", { class: "row" }, html("span", {}, said.example), example),
      html("div", { class: "fields" }, ...labels),
    ),
    html(
      "div",
      {},
      html("div", { class: "label", id: "typed-label" }, said.typed),
      html("div", { class: "typed" }, marks, text),
      html("p", { class: "hint", id: "typed-hint" }, said.typedHint),
    ),
  );
  let wrong = { lines: [], names: [] };

  function mark() {
    const style = getComputedStyle(text);
    const height = parseFloat(style.lineHeight);
    const top = parseFloat(style.paddingTop) + parseFloat(style.borderTopWidth);
    marks.replaceChildren(
      ...wrong.lines.map((line) => {
        const band = html("div", { class: "band" });
        band.style.top = `${top + (line - 1) * height - text.scrollTop}px`;
        band.style.height = `${height}px`;
        return band;
      }),
    );
    text.setAttribute("aria-invalid", String(wrong.lines.length > 0 || wrong.names.length > 0));
    for (const name of FIELDS) {
      if (wrong.names.includes(name)) inputs[name].setAttribute("aria-invalid", "true");
      else inputs[name].removeAttribute("aria-invalid");
    }
  }
  // Scrolls the text so that a line is seen, unless someone is writing in it.
  function reveal(line) {
    if (!line || text === document.activeElement) return;
    const height = parseFloat(getComputedStyle(text).lineHeight);
    const at = (line - 1) * height;
    const isSeen = text.scrollTop <= at && at <= text.scrollTop + text.clientHeight - 2 * height;
    if (!isSeen) text.scrollTop = at - text.clientHeight / 2;
  }

  text.addEventListener("input", () => {
    example.value = "";
    changed(text.value);
  });
  text.addEventListener("scroll", mark);
  example.addEventListener("change", () => example.value && chosen(example.value));

  return {
    element,
    mark,
    // Shows a text, with lines and fields that are wrong in it; `name` is its example, "" for none.
    show(value, name, lines = [], names = []) {
      if (text.value !== value) {
        text.value = value;
        text.scrollTop = 0;
      }
      example.value = name;
      for (const field of FIELDS)
        if (inputs[field] !== document.activeElement)
          inputs[field].value = field === "title" ? titleIn(value) : typedValue(value, field);
      wrong = { lines, names };
      reveal(lines[0]);
      mark();
    },
    // Selects a line of the text.
    select(line) {
      const all = text.value.split("\n");
      const start = all.slice(0, line - 1).reduce((sum, each) => sum + each.length + 1, 0);
      text.focus();
      text.setSelectionRange(start, start + (all[line - 1] ?? "").length);
    },
  };
}
