#!/usr/bin/env node
// Compares the simulator of docs/playground with krl-simulator, byte for byte: output, reports and status.
//
//     playground_runs.js KRL_SIMULATOR
//
// It takes the examples and the rows, each as transcript, picture and drawing; 500 scripts that are drawn by fixed
// seeds; 50 random runs, every other one busy and to rest; and help texts. The page has the present examples, and is
// below 700 kB when compressed. The last line on standard error reports how many runs were the same.
"use strict";
const fs = require("fs"), path = require("path"), vm = require("vm"), zlib = require("zlib");
const { spawnSync } = require("child_process");

const TOP = path.join(__dirname, ".."), PAGE = path.join(TOP, "docs/playground");
const MADE = 500, MADE_LINES = 60, RANDOM = 50, MOST_BYTES = 700000;
const FORMS = [[], ["--picture"], ["--svg"]];
const MODES = "S U X RangeS-S RangeS-U RangeI-N RangeI-S RangeI-U RangeI-X RangeX-X RangeS-N N".split(" ");
const HELP = ["--help", "script --help", "random --help", "--version", "bogus", "script --bogus", ""];
const program = process.argv[2];

/// Draws numbers below n, by the generator mulberry32.
function drawerOf(seed) {
  let state = seed >>> 0;
  return (n) => {
    state = (state + 0x6d2b79f5) >>> 0;
    let t = Math.imul(state ^ (state >>> 15), state | 1);
    t = (t + Math.imul(t ^ (t >>> 7), t | 61)) ^ t;
    return ((t ^ (t >>> 14)) >>> 0) % n;
  };
}

/// A line of a script, one of these.
function lineOf(draw) {
  const c = draw(3), point = draw(24), low = draw(24), high = low + 1 + draw(8), mode = MODES[draw(MODES.length)];
  const lines = [
    `lock ${c} ${point} ${mode}`, `lock ${c} ${low} ${mode} ${high}`, `insert ${c} ${point} ${draw(99)}`,
    `put ${c} ${point} x${"ab".repeat(draw(33))}`, `delete ${c} ${point}`, `take insert ${c} ${point} 5`,
    `scan ${c} ${low} ${high}`, `forget ${c} ${low} ${high}`, `lower ${c} ${low} ${high} S`, `pin ${c} ${low} ${high}`,
    `unpin ${c} ${draw(3)}`, `hold ${c} ${point}`, `status ${c}`, `tick ${c}`, `nudge ${c}`, `client ${c}`,
    `next ${1 + draw(4)}`, `deliver ${1 + draw(60)}`, "settle", "drop", "index", "writes", "missing", "check",
    "start server", draw(4) ? "next 2" : `crash ${c}`, draw(4) ? "next 3" : "crash server",
    draw(30) ? "settle" : "bogus line",
  ];
  return lines[draw(lines.length)];
}

function scriptOf(seed) {
  const draw = drawerOf(seed), lines = [draw(2) ? "seed 3=1 10=x0102 17=3" : `fill ${draw(20)}`];
  lines.push("client 0", "client 1", "client 2", "settle");
  for (let i = 0; i < MADE_LINES; i++) lines.push(lineOf(draw));
  return lines.join("\n") + "\n";
}

function fail(why) {
  console.error(`playground: ${why}`);
  process.exit(1);
}

const namesIn = (place) => fs.readdirSync(path.join(TOP, place)).filter((it) => it.endsWith(".krl"));
const textOf = (name) => fs.readFileSync(path.join(TOP, name), "utf8");

/// Each script to be compared, with its label.
function* scripts() {
  for (const place of ["examples", "examples/rows"]) {
    for (const name of namesIn(place)) yield [`${place}/${name}`, textOf(`${place}/${name}`)];
  }
  for (let seed = 1; seed <= MADE; seed++) yield [`drawn script ${seed}`, scriptOf(seed)];
}

/// Each run to be compared: a label, words and a script.
function* cases() {
  for (const [label, text] of scripts()) for (const form of FORMS) yield [label, ["script", ...form], text];
  for (let seed = 1; seed <= RANDOM; seed++) {
    const more = seed % 2 ? [] : ["--busy", "--rest"];
    yield [`random run ${seed}`, ["random", "--seed", `${seed}`, "--steps", "300", ...more], ""];
  }
  for (const words of HELP) yield ["help", words.split(" ").filter(Boolean), ""];
}

/// The page has the present examples, and is not large. Returns its bytes when compressed.
function checkFiles(examples) {
  const wanted = namesIn("examples").map((it) => [it.replace(".krl", ""), textOf(`examples/${it}`)]);
  if (JSON.stringify(Object.entries(examples)) !== JSON.stringify(wanted)) fail("the page has other examples");
  const files = fs.readdirSync(PAGE).filter((it) => /\.(html|css|js)$/.test(it));
  const sizes = files.map((it) => zlib.gzipSync(fs.readFileSync(path.join(PAGE, it)), { level: 9 }).length);
  const bytes = sizes.reduce((sum, it) => sum + it, 0);
  if (bytes >= MOST_BYTES) fail(`the page has ${bytes} bytes when compressed, and less than ${MOST_BYTES} are wanted`);
  return bytes;
}

/// Compares one run with that of krl-simulator.
function compare(label, words, text, given) {
  const how = { input: text, encoding: "utf8", maxBuffer: 1 << 28 };
  const { stdout: out, stderr: err, status } = spawnSync(program, words, how);
  for (const [name, wanted] of Object.entries({ out, err, status })) {
    if (given[name] === wanted) continue;
    fail(`${label}: \`krl ${words.join(" ")}\`: another ${name}:\n${given[name]}\n--- in place of\n${wanted}`);
  }
}

async function main() {
  for (const name of ["krl_simulator.js", "engine.js"]) vm.runInThisContext(textOf(`docs/playground/${name}`));
  const bytes = checkFiles(vm.runInThisContext("EXAMPLES"));
  const run = await vm.runInThisContext("moduleOf(MODULE).then(engineOf)");
  let count = 0;
  for (const [label, words, text] of cases()) {
    compare(label, words, text, run(words, text));
    count++;
  }
  console.error(`playground: ${count} runs as by krl-simulator; ${bytes} bytes when compressed`);
}

main().catch((why) => fail(why.stack));
