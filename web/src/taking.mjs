// The buttons that take a sheet along.
import { html } from "./svg.mjs";
import { TEXTS } from "./texts.mjs";
import { titleIn } from "./fields.mjs";
import { calendarFile, contactsCsv, copied, curveCsv, saveFile } from "./take.mjs";

const NARROW = "(max-width: 44rem)"; // where the buttons are folded at first

// A name for files: letters and digits of the title.
const plainTitle = (title) => title.replace(/[^\p{L}\p{N}]+/gu, "-").replace(/^-|-$/g, "").toLowerCase();
const fileName = (title, end) => (plainTitle(title) || "sheet") + end;

// `now()` is { sheet, text, clocks, address } of what is shown.
export function makeTaking({ now }) {
  const said = TEXTS.take;
  const status = html("p", { class: "hint", id: "said", role: "status" });
  const step = html(
    "select",
    { id: "curve-step", "aria-label": said.curve },
    html("option", { value: "60" }, said.minutes),
    html("option", { value: "1" }, said.seconds),
  );
  const saying = (name) => (status.textContent = said.saved(name));
  const save = (end, made, type) => () => {
    const { sheet, clocks, text } = now();
    const title = titleIn(text);
    saying(saveFile(fileName(title, end), made(sheet, clocks, text, title), type));
  };
  const work = {
    print: () => print(),
    async link() {
      const { address } = now();
      history.replaceState(null, "", `#${address}`);
      status.textContent = (await copied(location.href)) ? said.linked : said.notCopied;
    },
    contacts: save("-contacts.csv", contactsCsv, "text/csv"),
    curve: save("-curve.csv", (sheet, clocks) => curveCsv(sheet, clocks, Number(step.value)), "text/csv"),
    calendar: save(
      ".ics",
      (sheet, clocks, text, title) => calendarFile(sheet, clocks, title, Date.now()),
      "text/calendar",
    ),
    text: save(".txt", (sheet, clocks, text) => text, "text/plain"),
    bytes: save("-request.bin", (sheet) => sheet.bytes, "application/octet-stream"),
    sheetBytes: save("-sheet.bin", (sheet) => sheet.stored, "application/octet-stream"),
  };
  const buttons = Object.fromEntries(
    Object.entries(work).map(([name, act]) => {
      const button = html("button", { type: "button", id: `take-${name}` }, said[name]);
      button.addEventListener("click", act);
      return [name, button];
    }),
  );
  const curve = html("span", { class: "joined" }, buttons.curve, step);
  const { print: onPaper, link, contacts, calendar, text, bytes, sheetBytes } = buttons;
  const all = [onPaper, link, calendar, contacts, curve, text, bytes, sheetBytes];
  const folded = matchMedia(NARROW).matches ? {} : { open: "" };
  return {
    element: html("details", { class: "taking", ...folded }, html("summary", {}, said.more), html("div", {}, ...all), status),
    show() {
      const { sheet, clocks } = now();
      for (const [name, button] of Object.entries(buttons)) button.disabled = !sheet && name !== "link";
      if (sheet) {
        buttons.curve.disabled = step.disabled = !sheet.curve;
        buttons.calendar.disabled = !clocks?.civil;
      }
      status.textContent = "";
    },
  };
}
