// A headless chromium, driven over a pipe by its own protocol: no package is needed, only Debian's `chromium`.
import { spawn } from "node:child_process";
import { mkdtempSync, rmSync } from "node:fs";
import { tmpdir } from "node:os";
import { join } from "node:path";

export async function chromium() {
  const profile = mkdtempSync(join(tmpdir(), "page-"));
  const words = [
    "--headless=new",
    "--no-sandbox",
    "--disable-gpu",
    "--hide-scrollbars",
    "--remote-debugging-pipe",
    `--user-data-dir=${profile}`,
  ];
  const browser = spawn(process.env.CHROMIUM ?? "chromium", [...words, "about:blank"], {
    stdio: ["ignore", "ignore", "ignore", "pipe", "pipe"],
  });
  const [, , , to, from] = browser.stdio;
  const waiting = new Map();
  const heard = [];
  let count = 0;
  let rest = "";
  from.on("data", (data) => {
    const parts = (rest + data).split("\0");
    rest = parts.pop();
    for (const message of parts.map((part) => JSON.parse(part))) {
      const answer = waiting.get(message.id);
      if (!answer) heard.push(message);
      else if (message.error) answer.reject(new Error(message.error.message));
      else answer.resolve(message.result);
      waiting.delete(message.id);
    }
  });
  let sessionId;
  const send = (method, params = {}) =>
    new Promise((resolve, reject) => {
      const id = ++count;
      waiting.set(id, { resolve, reject });
      to.write(JSON.stringify({ id, method, params, ...(sessionId ? { sessionId } : {}) }) + "\0");
    });
  const { targetInfos } = await send("Target.getTargets");
  const { targetId } = targetInfos.find((target) => target.type === "page");
  ({ sessionId } = await send("Target.attachToTarget", { targetId, flatten: true }));
  await send("Page.enable");
  await send("Runtime.enable");
  await send("Log.enable");
  await send("Network.enable");
  await send("Performance.enable", { timeDomain: "threadTicks" });

  const page = {
    send,
    // what the page threw or logged as an error, and what it asked the network for
    faults: () => heard.filter(
      (m) => m.method === "Runtime.exceptionThrown" || (
        m.method === "Log.entryAdded" && m.params.entry.level === "error"
      ),
    ),
    asked: () => heard.filter((m) => m.method === "Network.requestWillBeSent").map((m) => m.params.request.url),
    async run(expression) {
      const { result, exceptionDetails } = await send(
        "Runtime.evaluate",
        { expression, awaitPromise: true, returnByValue: true },
      );
      if (exceptionDetails) throw new Error(exceptionDetails.exception?.description ?? exceptionDetails.text);
      return result.value;
    },
    async until(expression) {
      for (let tries = 0; tries < 200; tries++) {
        if (await page.run(expression)) return;
        await new Promise((resolve) => setTimeout(resolve, 25));
      }
      throw new Error(`never: ${expression}`);
    },
    async open(url) {
      await send("Page.navigate", { url: "about:blank" });
      await send("Page.navigate", { url });
      await page.until(`document.body?.dataset.state === "sheet" || document.body?.dataset.state === "refused"`);
    },
    size: (width, height, mobile = false) =>
      send("Emulation.setDeviceMetricsOverride", { width, height, deviceScaleFactor: 1, mobile }),
    colours: (value) => send("Emulation.setEmulatedMedia", { features: [{ name: "prefers-color-scheme", value }] }),
    async picture(whole = true) {
      const { cssContentSize } = await send("Page.getLayoutMetrics");
      const clip = { x: 0, y: 0, width: cssContentSize.width, height: cssContentSize.height, scale: 1 };
      const { data } = await send("Page.captureScreenshot", whole ? { captureBeyondViewport: true, clip } : {});
      return Buffer.from(data, "base64");
    },
    async paper() {
      const { data } = await send("Page.printToPDF", { preferCSSPageSize: true, printBackground: true });
      return Buffer.from(data, "base64");
    },
    async key(key, code = key, keyCode = 0) {
      for (const type of ["keyDown", "keyUp"]) await send(
        "Input.dispatchKeyEvent",
        { type, key, code, windowsVirtualKeyCode: keyCode },
      );
    },
    type: (text) => send("Input.insertText", { text }),
    // milliseconds of processor time that the page's own thread has spent
    async spent() {
      const { metrics } = await send("Performance.getMetrics");
      return 1000 * metrics.find(({ name }) => name === "TaskDuration").value;
    },
    close() {
      browser.kill();
      browser.on("exit", () => rmSync(profile, { recursive: true, force: true, maxRetries: 5 }));
    },
  };
  return page;
}
