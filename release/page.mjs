// Opens the page of a release from the disk in chromium: it shows itself without a fault and asks no network.
//   node release/page.mjs FILE
import assert from "node:assert/strict";
import { pathToFileURL } from "node:url";
import { chromium } from "../web/test/chromium.mjs";

const url = pathToFileURL(process.argv[2]).href;
const page = await chromium();
try {
  await page.send("Page.navigate", { url });
  await page.until(`document.readyState === "complete" && document.body.innerText.length > 200`);
  assert.deepEqual(page.faults(), []);
  assert.deepEqual(page.asked().filter((asked) => !/^(file|data|blob|about):/.test(asked)), []);
  console.log(await page.run("document.title"));
} finally {
  page.close();
}
