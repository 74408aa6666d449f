// Makes the pictures of the page that docs/ has: node web/test/picture.mjs [FOLDER]
// After `web/build`; needs chromium.
// PAGE=FILE in the environment opens another file than `web/build` makes.
import { writeFileSync } from "node:fs";
import { dirname, join } from "node:path";
import { fileURLToPath, pathToFileURL } from "node:url";
import { chromium } from "./chromium.mjs";

const top = join(dirname(fileURLToPath(import.meta.url)), "../..");
const folder = process.argv[2] ?? join(top, "docs");
const url = pathToFileURL(process.env.PAGE ?? join(top, "target/web/ukhtvaresh.html")).href;
const AT_CORUNA = "eclipse=2026-08-12&at=43.37,-8.4&height=10&name=A+Coru%C3%B1a&zone=Europe/Madrid";
const AT_MOSCOW = "eclipse=2061-04-20&at=55.7558,37.6178&name=Moscow&zone=Europe/Moscow";
const AT_DALLAS = "eclipse=2024-04-08&at=32.7767,-96.797&height=131&name=Dallas&zone=America/Chicago";
// name, address, width, colours
const PICTURES = [
  ["page-desktop-light", AT_CORUNA, 1280, "light"],
  ["page-desktop-dark", AT_MOSCOW, 1280, "dark"],
  ["page-phone-light", AT_DALLAS, 390, "light"],
  ["page-phone-dark", AT_MOSCOW, 390, "dark"],
];

const page = await chromium();
process.on("exit", () => page.close());
await page.send("Emulation.setTimezoneOverride", { timezoneId: "Europe/Berlin" });
await page.send("Emulation.setLocaleOverride", { locale: "en-GB" });
for (const [name, address, width, colours] of PICTURES) {
  await page.size(width, 900, width < 600);
  await page.colours(colours);
  await page.open(`${url}#${address}`);
  for (const part of [".map", ".here"]) await page.until(`document.querySelector("${part}").dataset.state === "done"`);
  writeFileSync(join(folder, `${name}.png`), await page.picture());
}

// README's picture: the sheet alone, without the listing below it
await page.size(1120, 900);
await page.colours("light");
await page.open(`${url}#example=hopkinsville2017`);
await page.run(`document.querySelector("#sheet details").remove()`);
const clip = await page.run(`(() => {
  const { x, y, width, height } = document.getElementById("sheet").getBoundingClientRect();
  return { x, y, width, height, scale: 1 };
})()`);
const { data } = await page.send("Page.captureScreenshot", { captureBeyondViewport: true, clip });
writeFileSync(join(folder, "sheet.png"), Buffer.from(data, "base64"));
process.exit(0);
