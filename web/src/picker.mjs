// A field with a list below it, after the pattern of a combobox: type to narrow the list, arrow keys and Enter or a
// click to pick.
import { html } from "./svg.mjs";
import { TEXTS } from "./texts.mjs";

// `options(typed)` gives [{ key, content: elements, heading? }], `pick(option)` takes one. `shown()` is what the field
// has while nobody types in it. `visible(element, option)` is called for an option when it comes into view.
export function makePicker({ id, label, hint, options, pick, shown, visible }) {
  const input = html("input", {
    id,
    role: "combobox",
    "aria-expanded": "false",
    "aria-controls": `${id}-list`,
    "aria-autocomplete": "list",
    "aria-describedby": `${id}-hint`,
    autocomplete: "off",
    autocapitalize: "off",
    spellcheck: "false",
  });
  const list = html("ul", { id: `${id}-list`, role: "listbox", hidden: "", "aria-label": label });
  const help = html("p", { class: "hint", id: `${id}-hint` }, hint);
  const element = html(
    "div",
    { class: "picker" },
    html("label", { for: id }, label),
    html("div", { class: "over" }, input, list),
    help,
  );
  let now = []; // the options that are shown
  let at = -1; // the one that Enter picks
  let typed = false;

  const watch = visible
    ? new IntersectionObserver((seen) => {
        for (const { isIntersecting, target } of seen)
          if (isIntersecting) {
            watch.unobserve(target);
            visible(target, now[Number(target.dataset.at)]);
          }
      }, { root: list })
    : null;

  function mark(place) {
    list.querySelector("[aria-selected=true]")?.setAttribute("aria-selected", "false");
    at = place;
    const marked = list.querySelector(`[data-at="${place}"]`);
    if (!marked) return input.removeAttribute("aria-activedescendant");
    marked.setAttribute("aria-selected", "true");
    marked.scrollIntoView({ block: "nearest" });
    input.setAttribute("aria-activedescendant", marked.id);
  }

  function open() {
    now = options(typed ? input.value : "");
    watch?.disconnect();
    const items = now.flatMap((option, k) => {
      const item = html(
        "li",
        { id: `${id}-${k}`, role: "option", "data-at": k, "aria-selected": "false" },
        ...option.content,
      );
      return option.heading ? [html("li", { class: "heading", role: "presentation" }, option.heading), item] : [item];
    });
    if (items.length === 0) items.push(html("li", { class: "heading", role: "presentation" }, TEXTS.choose.nothing));
    list.replaceChildren(...items);
    list.hidden = false;
    list.scrollTop = 0;
    input.setAttribute("aria-expanded", "true");
    if (watch) for (const item of list.querySelectorAll("[data-at]")) watch.observe(item);
    mark(typed && now.length > 0 ? 0 : -1);
  }
  function close() {
    list.hidden = true;
    input.setAttribute("aria-expanded", "false");
    input.removeAttribute("aria-activedescendant");
    typed = false;
    input.value = shown();
  }
  function take(place) {
    const option = now[place];
    close();
    if (option) pick(option);
  }

  input.addEventListener("focus", () => input.select());
  input.addEventListener("click", () => list.hidden && open());
  input.addEventListener("input", () => {
    typed = true;
    open();
  });
  input.addEventListener("blur", close);
  input.addEventListener("keydown", (event) => {
    if (event.key === "ArrowDown" || event.key === "ArrowUp") {
      event.preventDefault();
      if (list.hidden) return open();
      const step = event.key === "ArrowDown" ? 1 : -1;
      mark(Math.max(0, Math.min(now.length - 1, at + step)));
    } else if (event.key === "Enter") {
      event.preventDefault();
      if (!list.hidden) take(at);
    } else if (event.key === "Escape" && !list.hidden) {
      event.preventDefault();
      close();
      input.select();
    }
  });
  list.addEventListener("pointerdown", (event) => event.preventDefault()); // the field keeps the focus
  list.addEventListener("click", (event) => {
    const item = event.target.closest("[data-at]");
    if (item) take(Number(item.dataset.at));
  });
  // What the field has while nobody types in it, selected where the focus is, so that typing begins anew.
  function show() {
    if (typed) return;
    input.value = shown();
    if (input === document.activeElement) input.select();
  }
  return { element, show };
}
