#!/usr/bin/env node
// Uses docs/playground in chromium as a reader does, and compares what is shown with what krl-simulator prints.
//
//     playground_page.js KRL_SIMULATOR [FOLDER]     # FOLDER gets pictures of the page: wide, narrow, light, dark
//
// It steps through each example line by line, loses, repeats, reorders and crashes by clicks and keys, opens each link
// of the pages to a state, and fails on any complaint of the page. The last line on standard error reports how many
// states were compared.
"use strict";
const fs = require("fs"), path = require("path");
const { spawnSync } = require("child_process");
const { Browser } = require("./playground_browser.js");

const TOP = path.join(__dirname, ".."), PAGE = `file://${path.join(TOP, "docs/playground/index.html")}`;
const [program, folder] = process.argv.slice(2);
const PATIENCE = 900000, NARROW = 380, WIDE = 1400;

// What runs in the page.

const isShown = () => document.getElementById("place")?.textContent.startsWith("line") ?? false;

function click(selector) {
  const button = document.querySelector(selector);
  if (!button || button.disabled) throw new Error(`there is no button ${selector}`);
  button.click();
}

function choose(id, value) {
  const field = document.getElementById(id);
  field.value = value;
  field.dispatchEvent(new Event("change"));
}

/// What the page shows, read off what it has drawn.
function shownNow() {
  const texts = (selector) => [...document.querySelectorAll(selector)].map((it) => it.textContent);
  const drawn = (selector) => [...document.querySelectorAll(`#number-line ${selector}`)];
  const number = (it, name) => Number(it.getAttribute(name));
  const middle = (it) => number(it, "x") + number(it, "width") / 2;
  const points = drawn("rect.point").map((it) => ({ name: it.dataset.point, at: middle(it) }));
  const nameOf = (it) => it.textContent.replace("client ", "");
  const rows = drawn("text[x='0']").map((it) => ({ name: nameOf(it), at: number(it, "y") - 10 }));
  const isNearer = (it, other, at) => Math.abs(it.at - at) < Math.abs(other.at - at);
  const nearest = (all, at) => all.reduce((best, it) => (isNearer(it, best, at) ? it : best)).name;
  const partOf = (it) => {
    const what = number(it, "height") < 10 ? "gap" : "entry";
    return [nearest(rows, number(it, "y")), nearest(points, middle(it)), what, it.getAttribute("class")].join(" ");
  };
  return {
    script: lines, place, points: points.map((it) => it.name), fault: texts("#fault")[0], verdict: texts("#verdict")[0],
    parts: drawn("rect").filter((it) => /^[SUIX]$/.test(it.getAttribute("class"))).map(partOf).sort(),
    printed: texts("#lines .out").map((it) => it.replace("→ ", "")), entries: texts("#number-line text.entry"),
    waiting: texts("#waiting .what").map((it) => parseInt(it, 10)), ways: texts("#waiting .way"),
    nodes: [...document.querySelectorAll("#nodes li b")].map((it) => [it.textContent, it.nextSibling.textContent]),
  };
}

function isPicture(text) {
  const wanted = new DOMParser().parseFromString(text, "image/svg+xml").documentElement;
  return wanted.isEqualNode(document.getElementById("picture").shadowRoot.firstChild);
}

/// Controls that a screen reader has no name for.
function unnamed() {
  const controls = [...document.querySelectorAll("button, select, input, textarea")];
  const textOf = (it) => (it.matches("button") ? it.textContent.trim() : "");
  const hasName = (it) => it.getAttribute("aria-label") || it.labels?.length || textOf(it);
  return controls.filter((it) => !hasName(it)).map((it) => it.outerHTML);
}

// What krl-simulator prints.

const linesOf = (text) => text.split("\n").filter((it) => it !== "");
const output = (words, lines) => spawnSync(program, words, { input: lines.join("\n"), encoding: "utf8" }).stdout;

/// What the lines of questions print after the script.
function answers(lines, questions) {
  return linesOf(output(["script"], [...lines, ...questions])).slice(linesOf(output(["script"], lines)).length);
}

/// The messages that wait: those that a picture shows as lost by a further `drop`.
function waitingAfter(lines) {
  const picture = linesOf(output(["script", "--picture"], [...lines, "drop"]));
  const last = picture.map((it) => /^drop\b/.test(it)).lastIndexOf(true);
  return picture.slice(last + 1).map((it) => parseInt(it, 10));
}

/// What these clients hold at these points, as the page's parts.
function partsOf(clients, points, lines) {
  const places = clients.flatMap((client) => points.map((point) => `${client} ${point}`)), found = [];
  answers(lines, places.map((it) => `hold ${it}`)).forEach((held, at) => {
    const [, gap, entry] = held.split(" ");
    if (gap !== "N") found.push(`${places[at]} gap ${gap}`);
    if (entry !== "N") found.push(`${places[at]} entry ${entry}`);
  });
  return found.sort();
}

/// The row of a node, by what `status` prints.
function rowOf(status) {
  const [, epoch, seen, lock, ...write] = status.split(" ");
  return epoch === "down" ? "down" : `epoch ${epoch} · push ${seen} · lock ${lock} · write ${write.join(" ")}`;
}

// The comparison.

let browser, compared = 0;

function same(what, given, wanted) {
  const [give, want] = [given, wanted].map((it) => JSON.stringify(it));
  if (give !== want) throw new Error(`${what}: ${give}\n    in place of ${want}`);
}

const shown = () => browser.value(shownNow);
const open = (hash = "") => browser.open(PAGE + hash, isShown);
const press = (selector) => browser.value(click, selector);
/// Puts a line after those that ran, by the button that does.
const add = (line) => press(`[data-line="${line}"]`);

/// Compares what is shown with what krl-simulator prints for the lines so far. Returns what is shown.
async function compare(label) {
  const now = await shown(), lines = now.script.slice(0, now.place), nodes = new Map(now.nodes);
  const is = (what, given, wanted) => same(`${label}, line ${now.place}: ${what}`, given, wanted);
  const [index, missing, check] = answers(lines, ["index", "missing", "check"]);
  const clients = [...nodes.keys()].filter((it) => it.startsWith("client ")).map((it) => it.slice("client ".length));
  is("a fault", now.fault, "");
  is("what is printed", now.printed, linesOf(output(["script"], lines)));
  is("the entries", now.entries, index.split(" ").slice(1));
  is("the verdict", now.verdict.split(":")[0], check);
  is("the messages in flight", now.waiting, waitingAfter(lines));
  is("what clients hold", now.parts, partsOf(clients, now.points, lines));
  is("whether the server is down", nodes.get("server") === "down", missing === "down");
  const rows = answers(lines, clients.map((it) => `status ${it}`)).map(rowOf);
  is("the states of clients", clients.map((it) => nodes.get(`client ${it}`)), rows);
  is("whether the picture is the same", await browser.value(isPicture, output(["script", "--svg"], lines)), true);
  compared++;
  return now;
}

/// Steps through each example, from before its first line to its end.
async function stepThroughExamples() {
  await open();
  for (const name of await browser.value(() => Object.keys(EXAMPLES))) {
    await browser.value(choose, "example", name);
    const { length } = (await shown()).script;
    while ((await compare(name)).place < length) await press("#step");
    const transcript = linesOf(fs.readFileSync(path.join(TOP, "examples", `${name}.txt`), "utf8"));
    same(`${name}: its transcript`, (await shown()).printed, transcript);
    await press("#back");
    await compare(`${name}, one back`);
  }
}

/// Loses a callback, as the first lines of the page ask for.
async function loseACallback() {
  await open();
  await press("header a");
  same("the way of a callback", (await shown()).ways, ["server → client 0"]);
  await press("#waiting [aria-label^='lose message']");
  await press("#ask button");
  same("the scan after a lost callback", (await compare("a lost callback")).printed.at(-1), "rows 10=1");
  for (const line of ["tick 1", "settle"]) await add(line);
  const now = await compare("a callback again");
  same("what client 1 holds then", now.parts.filter((it) => it.startsWith("1 ")).length > 0, true);
}

/// Reorders, repeats and loses messages, and crashes and starts all nodes.
async function misuse() {
  await open("#1;seed+10=1");
  for (const line of ["client 0", "client 1"]) await add(line);
  await press("#waiting li:nth-child(2) button");
  await compare("the second message first");
  await add("settle");
  await press("#past button");
  await compare("a message again");
  const crashes = ["crash server", "drop", "start server", "crash 0", "client 0", "tick 1", "next 1", "settle"];
  for (const line of [...crashes, "nudge 0", "leave 1", "settle", "client 1", "client 2", "settle"]) {
    await add(line);
    await compare(`after ${line}`);
  }
}

/// Asks by the form.
async function ask() {
  await open("#5;seed+10=1;client+0;client+1;client+2;settle");
  const asked = [
    ["lock range", { point: 0, below: 21, mode: "RangeX-X" }], ["take insert", { who: 1, point: 5, value: 9 }],
    ["delete", { who: 0, point: 10 }], ["pin", { who: 2, point: 0, below: 3 }],
  ];
  for (const [what, fields] of asked) {
    await browser.value(choose, "what", what);
    for (const [id, value] of Object.entries(fields)) await browser.value(choose, id, `${value}`);
    await press("#ask button");
    await add("settle");
    await compare(`after ${what}`);
  }
  const before = await shown();
  await open(await browser.value(() => location.hash));
  same("a state by its link", await shown(), before);
}

/// Keys step; a faulty script stops before its fault.
async function keysAndFaults() {
  await open("#5;two_clients");
  const count = (await shown()).script.length;
  for (const [key, place] of [["ArrowRight", 6], ["ArrowLeft", 5], ["Home", 0], ["ArrowRight", 3], ["End", count]]) {
    await browser.press(key);
    same(`the line after ${key}`, (await shown()).place, place);
  }
  await press("#edit");
  await browser.value(choose, "text", "seed 10=1\nclient 0\nbogus 1\nclient 1");
  await press("#edit");
  await press("#last");
  const { place, fault } = await shown();
  same("the place before a fault", place, 2);
  same("a fault", fault.slice(0, "line 3: unknown word".length), "line 3: unknown word");
}

/// A screen reader has a name for each control and words for the number line; a narrow page does not scroll aside.
async function reading() {
  await open("#10;lost_callback");
  same("controls without a name", await browser.value(unnamed), []);
  const words = await browser.value(() => document.getElementById("number-line").getAttribute("aria-label"));
  same("the number line in words", words, [
    "Entries: 10=1, 20=2.",
    "The server's table: slot of 10: held by client 0, and a lock waits; slot of 20: free; slot of END: free.",
    "Client 0 reads the gaps from 0 to 10; reads the entry 10.", "Client 1 holds nothing.",
  ].join(" "));
  await resize(NARROW, "light");
  same("the width of a narrow page", await browser.value(() => document.documentElement.scrollWidth), NARROW);
}

/// The links of the pages to states of this one.
async function links() {
  const names = fs.readdirSync(path.join(TOP, "docs")).filter((it) => it.endsWith(".md")).map((it) => `docs/${it}`);
  for (const page of ["README.md", ...names]) {
    const text = fs.readFileSync(path.join(TOP, page), "utf8");
    for (const [, hash] of text.matchAll(/playground\/index\.html(#[^)\s]+)/g)) {
      await open(hash);
      same(`${page}: the place of ${hash}`, (await compare(`${page}: ${hash}`)).place, parseInt(hash.slice(1), 10));
    }
  }
}

async function resize(width, scheme) {
  const window = { width, height: 1000, deviceScaleFactor: 1, mobile: width === NARROW };
  await browser.call("Emulation.setDeviceMetricsOverride", window);
  await browser.call("Emulation.setEmulatedMedia", { features: [{ name: "prefers-color-scheme", value: scheme }] });
}

async function photograph() {
  for (const [width, scheme] of [[WIDE, "light"], [WIDE, "dark"], [NARROW, "light"], [NARROW, "dark"]]) {
    await resize(width, scheme);
    await open("#10;lost_callback");
    fs.writeFileSync(path.join(folder, `playground-${width}-${scheme}.png`), await browser.photograph());
  }
}

async function main() {
  browser = new Browser();
  const late = setTimeout(() => {
    console.error("playground: the browser took too long");
    browser.end().then(() => process.exit(1));
  }, PATIENCE);
  const parts = [stepThroughExamples, loseACallback, misuse, ask, keysAndFaults, links, reading];
  try {
    await browser.begin();
    for (const part of [...parts, ...(folder ? [photograph] : [])]) await part();
    same("complaints of the page", browser.complaints, []);
    console.error(`playground: ${compared} states of the page as by krl-simulator`);
  } catch (why) {
    console.error(`playground: ${why.message}`);
    process.exitCode = 1;
  } finally {
    clearTimeout(late);
    await browser.end();
  }
}

main();
