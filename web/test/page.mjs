// The page in a real browser, opened from the disk: node web/test/page.mjs [FOLDER FOR PICTURES]      after
// `web/build`; needs chromium
import assert from "node:assert/strict";
import { check, count, page } from "./harness.mjs";

await page.send("Emulation.setTimezoneOverride", { timezoneId: "Europe/Berlin" });
await page.send("Emulation.setLocaleOverride", { locale: "en-GB" });
await page.size(1280, 900);
await page.colours("light");
await import("./chosen.mjs");
await import("./typed.mjs");
await check("nothing was asked of the network, and nothing failed", async () => {
  assert.deepEqual(page.faults(), []);
  assert.ok(page.asked().every((each) => /^(file|data|blob):/.test(each)));
  assert.ok(page.asked().length > 0);
});
console.log(`${count()} checks`);
process.exit(0);
