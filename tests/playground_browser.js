// Chromium without a window, driven over its pipe for debuggers: commands go to descriptor 3, answers come from 4, each
// with a zero byte after it.
"use strict";
const fs = require("fs"), os = require("os"), path = require("path");
const { spawn } = require("child_process");

const WORDS = ["--headless", "--no-sandbox", "--disable-gpu", "--hide-scrollbars", "--remote-debugging-pipe"];

class Browser {
  /// A browser that shows nothing yet. `begin` has to be called.
  constructor() {
    this.profile = fs.mkdtempSync(path.join(os.tmpdir(), "playground-"));
    const stdio = ["ignore", "ignore", "ignore", "pipe", "pipe"];
    this.process = spawn("chromium", [...WORDS, `--user-data-dir=${this.profile}`, "about:blank"], { stdio });
    this.calls = new Map();
    /// Errors that pages have reported.
    this.complaints = [];
    this.count = 0;
    let rest = "";
    this.process.stdio[4].on("data", (data) => {
      const messages = (rest + data).split("\0");
      rest = messages.pop();
      messages.forEach((it) => this.take(JSON.parse(it)));
    });
  }

  /// What a call returned, or an event.
  take({ id, method, params, result, error }) {
    const call = this.calls.get(id);
    this.calls.delete(id);
    if (call && error) call.refuse(new Error(error.message));
    else call?.resolve(result);
    if (method === "Runtime.exceptionThrown") this.complaints.push(params.exceptionDetails.exception?.description);
    if (method === "Log.entryAdded" && params.entry.level === "error") this.complaints.push(params.entry.text);
  }

  call(method, params = {}) {
    const id = ++this.count;
    this.process.stdio[3].write(`${JSON.stringify({ id, method, params, sessionId: this.session })}\0`);
    return new Promise((resolve, refuse) => this.calls.set(id, { resolve, refuse }));
  }

  async begin() {
    const { targetId } = await this.call("Target.createTarget", { url: "about:blank" });
    this.session = (await this.call("Target.attachToTarget", { targetId, flatten: true })).sessionId;
    for (const domain of ["Page", "Runtime", "Log"]) await this.call(`${domain}.enable`);
  }

  /// What a function returns in the page, with these arguments.
  async value(what, ...given) {
    const expression = `(${what})(${given.map((it) => JSON.stringify(it)).join(", ")})`;
    const asked = { expression, returnByValue: true, awaitPromise: true };
    const { result, exceptionDetails } = await this.call("Runtime.evaluate", asked);
    if (exceptionDetails) throw new Error(`${exceptionDetails.exception.description}, of ${expression}`);
    return result.value;
  }

  /// Opens a page from nothing, and waits until this holds in it.
  async open(url, isReady) {
    await this.call("Page.navigate", { url: "about:blank" });
    await this.call("Page.navigate", { url });
    while (!(await this.value(isReady))) await new Promise((resolve) => setTimeout(resolve, 50));
  }

  async press(key) {
    for (const type of ["keyDown", "keyUp"]) await this.call("Input.dispatchKeyEvent", { type, key });
  }

  /// A picture of the whole page, or of this part of it, in PNG.
  async photograph(clip) {
    const { data } = await this.call("Page.captureScreenshot", { captureBeyondViewport: true, ...(clip && { clip }) });
    return Buffer.from(data, "base64");
  }

  async end() {
    const ended = new Promise((resolve) => this.process.once("exit", resolve));
    this.process.kill();
    await ended;
    // Processes of its own end after it.
    fs.rmSync(this.profile, { recursive: true, force: true, maxRetries: 20, retryDelay: 100 });
  }
}

module.exports = { Browser };
