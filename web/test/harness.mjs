// A page in a real browser, and what its checks need. PAGE=FILE in the environment opens another file than `web/build`
// makes.
import { mkdirSync, readFileSync, writeFileSync } from "node:fs";
import { dirname, join } from "node:path";
import { fileURLToPath, pathToFileURL } from "node:url";
import { chromium } from "./chromium.mjs";

export const top = join(dirname(fileURLToPath(import.meta.url)), "../..");
export const file = process.env.PAGE ?? join(top, "target/web/ukhtvaresh.html");
export const url = pathToFileURL(file).href;
const folder = process.argv[2] ?? join(top, "target/web/pictures");
mkdirSync(folder, { recursive: true });

export const page = await chromium();
process.on("exit", () => page.close());
let done = 0;
export async function check(name, test) {
  const start = Date.now();
  await test();
  done += 1;
  console.log(`ok  ${name} (${Date.now() - start} ms)`);
}
export const count = () => done;

export const keep = async (name, whole = true) => writeFileSync(join(folder, `${name}.png`), await page.picture(whole));
export const keepPaper = async (name) => writeFileSync(join(folder, `${name}.pdf`), await page.paper());
export const text = (selector) => page.run(`document.querySelector(${JSON.stringify(selector)})?.innerText ?? null`);
export const texts = (selector) => page.run(
  `[...document.querySelectorAll(${JSON.stringify(selector)})].map((each) => each.innerText)`,
);
export const value = (id) => page.run(`document.getElementById(${JSON.stringify(id)}).value`);
export const click = (id) => page.run(`document.getElementById(${JSON.stringify(id)}).click()`);
export const example = (name) => page.open(`${url}#example=${name}`);
// Puts a value into a field and says so to the page, which makes its sheet anew a little later.
export const enter = (id, to, event = "input") =>
  page.run(`(() => { const field = document.getElementById(${JSON.stringify(id)});
    field.value = ${JSON.stringify(to)};
    field.dispatchEvent(new Event("${event}")); })()`);
export const set = async (id, to) => {
  await page.run(`document.body.dataset.state = "waiting"`);
  await enter(id, to);
};
export const settled = () => page.until(
  `document.body.dataset.state === "sheet" || document.body.dataset.state === "refused"`,
);
export const overflow = () => page.run("document.documentElement.scrollWidth - document.documentElement.clientWidth");
export const onePage = async () => /\/Count 1\b/.test((await page.paper()).toString("latin1"));
export const sizeOfFile = () => readFileSync(file).length;

// The sheet of an eclipse at a place, by the address alone.
export const sheetOf = (date, latitude, longitude, words = {}) =>
  page.open(`${url}#${new URLSearchParams({ eclipse: date, at: `${latitude},${longitude}`, ...words })}`);

// Types into a field as a person does, and picks what comes first.
export async function pick(id, typed) {
  await page.run(`document.getElementById(${JSON.stringify(id)}).focus()`);
  await page.type(typed);
  await page.until(`document.querySelector("#${id}-list [aria-selected=true]") !== null`);
  await page.key("Enter", "Enter", 13);
  await settled();
}
export const mapDone = () => page.until(`document.querySelector(".map").dataset.state === "done"`);
export const hereDone = () => page.until(`document.querySelector(".here").dataset.state === "done"`);
