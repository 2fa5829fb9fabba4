// The page: a script, a place in it, and what the simulator has led to there.
"use strict";

const $ = (id) => document.getElementById(id);
const MODES = ["RangeS-S", "RangeS-U", "RangeI-N", "RangeI-S", "RangeI-U", "RangeI-X", "RangeX-X", "S", "U", "X"];
const DOES = { S: "reads", U: "reads, and may write next,", I: "may insert into", X: "may write" };
/// What a client asks, with the fields of the form that it takes.
const ASKS = {
  scan: ["point", "below"], lock: ["point", "mode"], "lock range": ["point", "mode", "below"],
  insert: ["point", "value"], put: ["point", "value"], delete: ["point"], "take insert": ["point", "value"],
  "take put": ["point", "value"], "take delete": ["point"], forget: ["point", "below"], pin: ["point", "below"],
};
const FIELDS = ["point", "below", "value", "mode"];
const FIRST_EXAMPLE = "lost_callback";

let run, lines = [], place = 0;

// What is made of HTML and SVG.

function make(name, text, attributes = {}) {
  const made = document.createElement(name);
  made.append(text);
  Object.entries(attributes).forEach(([key, value]) => made.setAttribute(key, value));
  return made;
}

function draw(parent, name, attributes, text) {
  const made = document.createElementNS("http://www.w3.org/2000/svg", name);
  Object.entries(attributes).forEach(([key, value]) => made.setAttribute(key, value));
  if (text !== undefined) made.textContent = text;
  return parent.appendChild(made);
}

/// A button that adds this line.
const adds = (line, text, label) => make("button", text, { "data-line": line, ...(label && { "aria-label": label }) });
const listOf = (numbers) => numbers.join(", ");

// The script.

function lineItem(line, number, printed) {
  const item = make("li", line, { "data-place": number });
  item.classList.toggle("done", number <= place);
  item.classList.toggle("remark", !isRun(line));
  if (number === place) {
    item.classList.add("now");
    item.setAttribute("aria-current", "step");
  }
  for (const it of printed) {
    item.append(make("span", `→ ${it}`, { class: it.startsWith("refused") ? "out refused" : "out" }));
  }
  return item;
}

function showScript(printed) {
  $("lines").replaceChildren(...lines.map((line, at) => lineItem(line, at + 1, printed[at] ?? [])));
  const now = $("lines").querySelector(".now");
  $("lines").scrollTop = now ? now.offsetTop - $("lines").clientHeight / 2 : 0;
  for (const id of ["first", "back"]) $(id).disabled = place === 0;
  for (const id of ["step", "last"]) $(id).disabled = place === lines.length;
}

// The number line. The first row has the entries, the second one the server's table, and then each client has one.

const LEFT = 74, TOP = 6, HIGH = 30, BELOW = 20, LEAST_WIDTH = 560;

function frameOf(world) {
  const width = Math.max(LEAST_WIDTH, $("number-line").parentElement.clientWidth), rows = 2 + world.clients.length;
  const across = width - LEFT - 8, cell = across / world.points.length, bottom = TOP + rows * HIGH;
  return { width, across, rows, cell, bottom, left: (at) => LEFT + at * cell, top: (row) => TOP + row * HIGH };
}

function drawAxis(svg, world, frame) {
  for (let row = 0; row < frame.rows; row++) {
    draw(svg, "rect", { class: "row", x: LEFT, y: frame.top(row) + 2, width: frame.across, height: HIGH - 4 });
  }
  const y = frame.bottom + BELOW - 6;
  world.points.forEach((point, at) => {
    const middle = frame.left(at) + frame.cell / 2, isNamed = frame.cell >= 17 || point % 5 === 0 || point === "END";
    if (isNamed) draw(svg, "text", { x: middle, y, class: "middle note" }, point);
    draw(svg, "line", { class: "axis", x1: frame.left(at), x2: frame.left(at), y1: TOP, y2: frame.bottom });
  });
}

function drawEntries(svg, world, frame) {
  draw(svg, "text", { x: 0, y: TOP + 19 }, "entries");
  for (const [key, value] of world.entries) {
    const at = world.points.indexOf(Number(key));
    if (at < 0) continue;
    const middle = frame.left(at) + frame.cell / 2;
    draw(svg, "line", { class: "axis dashed", x1: middle, x2: middle, y1: TOP + 24, y2: frame.bottom });
    draw(svg, "text", { x: middle, y: TOP + 19, class: "middle entry" }, `${key}=${value}`);
  }
}

function slotText({ key, holders, isAwaited }) {
  const held = holders.length ? `held by client ${listOf(holders)}` : "free";
  return `slot of ${key}: ${held}${isAwaited ? ", and a lock waits" : ""}`;
}

/// What the server's row has in place of its table.
function serverNote(world) {
  if (!world.isUp) return "down";
  return world.isRecovered ? "" : `recovers: waits for the report of client ${listOf(world.missing)}`;
}

function drawSlot(svg, slot, left, right) {
  const group = draw(svg, "g", { class: slot.holders.length ? "slot held" : "slot" }), top = TOP + HIGH;
  draw(group, "title", {}, slotText(slot));
  draw(group, "rect", { x: left + 1, y: top + 7, width: right - left - 2, height: 17, rx: 4 });
  const text = slot.holders.length ? listOf(slot.holders) + (slot.isAwaited ? " …" : "") : "–";
  draw(group, "text", { x: (left + right) / 2, y: top + 20, class: "middle" }, text);
}

function drawTable(svg, world, frame) {
  draw(svg, "text", { x: 0, y: TOP + HIGH + 19 }, SERVER);
  draw(svg, "text", { x: LEFT + 8, y: TOP + HIGH + 19, class: "note" }, serverNote(world));
  let begin = 0;
  for (const slot of world.table ?? []) {
    const end = world.points.indexOf(slot.key) + 1;
    drawSlot(svg, slot, frame.left(begin), frame.left(end));
    begin = end;
  }
}

function drawClient(svg, client, row, frame) {
  const top = frame.top(row), width = Math.min(frame.cell, 16), aside = (frame.cell - width) / 2;
  draw(svg, "text", { x: 0, y: top + 19 }, `client ${client.number}`);
  if (client.isDown) draw(svg, "text", { x: LEFT + 8, y: top + 19, class: "note" }, "down");
  client.held.forEach(([gap, entry], at) => {
    if (gap !== "N") draw(svg, "rect", { class: gap, x: frame.left(at), y: top + 18, width: frame.cell, height: 6 });
    if (entry === "N") return;
    draw(svg, "rect", { class: entry, x: frame.left(at) + aside, y: top + 5, width, height: 19, rx: 2 });
  });
}

/// What a client holds, in words: the gaps by their spans, and then the entries.
function heldText(client, points) {
  const spans = [], entries = [];
  client.held.forEach(([gap, entry], at) => {
    if (spans.at(-1)?.gap === gap) spans.at(-1).to = points[at];
    else spans.push({ gap, from: points[at], to: points[at] });
    if (entry !== "N") entries.push(`${DOES[entry]} the entry ${points[at]}`);
  });
  const gaps = spans.filter((it) => it.gap !== "N").map((it) => `${DOES[it.gap]} the gaps from ${it.from} to ${it.to}`);
  return `Client ${client.number} ${client.isDown ? "is down" : [...gaps, ...entries].join("; ") || "holds nothing"}.`;
}

function worldText(world) {
  const entries = `Entries: ${world.entries.map((it) => it.join("=")).join(", ") || "none"}.`;
  const table = world.table ? `The server's table: ${world.table.map(slotText).join("; ")}.` : "";
  const note = serverNote(world) && `The server: ${serverNote(world)}.`;
  return [entries, table || note, ...world.clients.map((it) => heldText(it, world.points))].filter(Boolean).join(" ");
}

function showNumberLine(world) {
  const svg = $("number-line"), frame = frameOf(world);
  svg.setAttribute("viewBox", `0 0 ${frame.width} ${frame.bottom + BELOW}`);
  svg.setAttribute("aria-label", worldText(world));
  svg.replaceChildren();
  drawAxis(svg, world, frame);
  drawEntries(svg, world, frame);
  drawTable(svg, world, frame);
  world.clients.forEach((it, row) => drawClient(svg, it, row + 2, frame));
  const size = { y: TOP, width: frame.cell, height: frame.bottom - TOP };
  world.points.forEach((it, at) => draw(svg, "rect", { class: "point", "data-point": it, x: frame.left(at), ...size }));
}

// The nodes and their messages.

function nodeItem(name, text, isDown, buttons) {
  const item = make("li", make("b", name));
  item.append(make("span", text, { class: isDown ? "down" : "" }), ...buttons);
  return item;
}

function serverItem(world) {
  const queue = world.queue.map((it) => `client ${it.client} for ${it.text}`).join("; ") || "none";
  const writes = world.writes.join(" ") || "none", word = world.isUp ? "crash" : "start";
  const text = [serverNote(world), `waiting locks: ${queue}`, `applied writes: ${writes}`].filter(Boolean).join(" · ");
  const button = adds(`${word} server`, word, `${word} the server`);
  return nodeItem(SERVER, world.isUp ? text : "down", !world.isUp, [button]);
}

function clientItem({ number, isDown, epoch, seen, lock, write }) {
  const name = `client ${number}`;
  if (isDown) return nodeItem(name, "down", true, [adds(name, "start", `start ${name}`)]);
  const buttons = ["tick", "nudge", "crash", "leave"].map((word) => adds(`${word} ${number}`, word, `${word} ${name}`));
  return nodeItem(name, `epoch ${epoch} · push ${seen} · lock ${lock} · write ${write}`, false, buttons);
}

function showNodes(world) {
  const next = [...Array(MOST_CLIENTS).keys()].find((number) => !world.clients.some((it) => it.number === number));
  const more = next === undefined ? [] : [make("li", adds(`client ${next}`, `start client ${next}`))];
  $("nodes").replaceChildren(serverItem(world), ...world.clients.map(clientItem), ...more);
}

function messageItem(message, buttons) {
  const item = make("li", make("span", `${message.sender} → ${message.receiver}`, { class: "way" }));
  item.append(make("span", `${message.number} ${message.text}`, { class: "what" }), ...buttons);
  return item;
}

function waitingItem(message, isOnly) {
  const deliver = adds(`deliver ${message.number}`, "deliver", `deliver message ${message.number}`);
  const lose = adds("drop", "lose", `lose message ${message.number}`);
  lose.disabled = !isOnly;
  if (!isOnly) lose.title = "Lose all, and then deliver the others from the list below.";
  return messageItem(message, [deliver, lose]);
}

/// Each message that was delivered or lost, the last one first.
function pastOf(world) {
  const waits = new Set(world.waiting.map((it) => it.number)), past = new Map();
  for (const it of world.sent) {
    const isLost = it.isLost && (past.get(it.number)?.isLost ?? true);
    if (!waits.has(it.number)) past.set(it.number, { ...it, isLost });
  }
  return [...past.values()].sort((a, b) => b.number - a.number);
}

function showMessages(world) {
  const isOnly = world.waiting.length === 1, past = pastOf(world);
  $("waiting").replaceChildren(...world.waiting.map((it) => waitingItem(it, isOnly)));
  if (!world.waiting.length) $("waiting").append(make("li", "none", { class: "quiet" }));
  $("sent").hidden = past.length === 0;
  $("sent").querySelector("summary").textContent = `delivered or lost before: ${past.length}`;
  $("past").replaceChildren(...past.map((it) => {
    const word = it.isLost ? "deliver after all" : "again";
    return messageItem(it, [adds(`deliver ${it.number}`, word, `${word}: message ${it.number}`)]);
  }));
}

function showVerdict(world) {
  const isSound = world.check === "sound";
  $("verdict").textContent = isSound ? "sound: what the clients hold is compatible" : world.check;
  $("verdict").className = isSound ? "good" : "bad";
}

/// The drawing has a style of its own, which is for nothing else of the page.
function showPicture(world) {
  const root = $("picture").shadowRoot ?? $("picture").attachShadow({ mode: "open" });
  root.replaceChildren(document.importNode(world.drawing, true));
  $("picture").scrollTop = $("picture").scrollHeight;
}

function showChoices(world) {
  const chosen = $("who").value, numbers = world.clients.length ? world.clients.map((it) => it.number) : [0];
  $("who").replaceChildren(...numbers.map((it) => make("option", `client ${it}`, { value: it })));
  if (numbers.includes(Number(chosen)) && chosen !== "") $("who").value = chosen;
  $("example").value = exampleNow() ?? "";
}

/// What a list's button had the focus for may be gone. The list keeps it.
function keepingFocus(change) {
  const list = document.activeElement?.closest("li")?.parentElement;
  change();
  if (list && document.activeElement === document.body) (list.querySelector("button") ?? $("step")).focus();
}

function show() {
  const fault = faultOf(run, lines.slice(0, place));
  $("fault").textContent = fault ? `${fault}.`.replace(/\.\.$/, ".") : "";
  if (fault) place = Math.max(0, Math.min(place, Number(fault.match(/^line (\d+)/)?.[1] ?? place)) - 1);
  const world = worldOf(run, lines.slice(0, place), lines);
  keepingFocus(() => {
    showScript(world.printed);
    showNumberLine(world);
    showNodes(world);
    showMessages(world);
    showVerdict(world);
    showPicture(world);
    showChoices(world);
  });
  const printed = world.printed[place - 1];
  $("place").textContent = `line ${place} of ${lines.length}${printed ? `: ${printed.join(", ")}` : ""}`;
  history.replaceState(null, "", `#${stateName()}`);
}

// The state as a link: the place and the lines, or the name of an example that has them.

const linesOfExample = (name) => EXAMPLES[name].trimEnd().split("\n");
const exampleNow = () => Object.keys(EXAMPLES).find((name) => EXAMPLES[name].trimEnd() === lines.join("\n"));
const written = (line) => encodeURIComponent(line).replaceAll("%20", "+").replaceAll("%3D", "=");
const read = (text) => decodeURIComponent(text.replaceAll("+", " "));
const stateName = () => [place, exampleNow() ?? lines.map(written).join(";")].join(";");

/// Takes the state that the address names. Returns whether it names one.
function takeLink() {
  const [at, ...rest] = location.hash.slice(1).split(";");
  if (rest.length === 0) return false;
  const isName = rest.length === 1 && Object.hasOwn(EXAMPLES, rest[0]);
  take(isName ? linesOfExample(rest[0]) : rest.map(read), Number(at));
  return true;
}

// What the reader does.

function take(newLines, at) {
  lines = newLines;
  while (lines.at(-1) === "") lines.pop();
  go(at);
}

function go(at) {
  place = Math.max(0, Math.min(lines.length, at || 0));
  show();
}

/// One line on or back; remarks are passed over.
function move(by) {
  let at = place + by;
  while (at > 0 && at < lines.length && !isRun(lines[at - 1])) at += by;
  go(at);
}

/// Puts a line after those that have run, and runs it.
function add(line) {
  lines.splice(place, 0, line);
  go(place + 1);
}

function toggleEdit() {
  const wasEdited = $("edit").getAttribute("aria-pressed") === "true";
  $("edit").setAttribute("aria-pressed", String(!wasEdited));
  $("edit").textContent = wasEdited ? "edit" : "done";
  [$("lines").hidden, $("text").hidden] = [!wasEdited, wasEdited];
  if (wasEdited) take($("text").value.replaceAll("\r", "").split("\n"), 0);
  else $("text").value = lines.join("\n");
}

function showFields() {
  for (const id of FIELDS) $(id).parentElement.hidden = !ASKS[$("what").value].includes(id);
}

function addAsked(event) {
  event.preventDefault();
  const what = $("what").value;
  add([what.replace(" range", ""), $("who").value, ...ASKS[what].map((id) => $(id).value.trim())].join(" "));
}

function onClick(event) {
  const [button, point, item] = ["line", "point", "place"].map((name) => event.target.closest(`[data-${name}]`));
  if (button) add(button.dataset.line);
  if (point) $("point").value = point.dataset.point;
  if (item) go(Number(item.dataset.place));
}

function onKey(event) {
  const acts = { ArrowLeft: () => move(-1), ArrowRight: () => move(1), Home: () => go(0), End: () => go(lines.length) };
  const isOther = event.target.closest("input, select, textarea, [tabindex]");
  if (isOther || event.ctrlKey || event.altKey || event.metaKey || !acts[event.key]) return;
  event.preventDefault();
  acts[event.key]();
}

function listen() {
  $("first").onclick = () => go(0);
  $("back").onclick = () => move(-1);
  $("step").onclick = () => move(1);
  $("last").onclick = () => go(lines.length);
  $("example").onchange = () => take(linesOfExample($("example").value), 0);
  $("edit").onclick = toggleEdit;
  $("what").onchange = showFields;
  $("ask").onsubmit = addAsked;
  document.addEventListener("click", onClick);
  document.addEventListener("keydown", onKey);
  window.addEventListener("hashchange", takeLink);
  window.addEventListener("resize", show);
}

async function begin() {
  const examples = Object.keys(EXAMPLES).map((it) => make("option", it.replaceAll("_", " "), { value: it }));
  $("example").replaceChildren(make("option", "your own", { value: "", hidden: "" }), ...examples);
  $("what").replaceChildren(...Object.keys(ASKS).map((it) => make("option", it)));
  $("mode").replaceChildren(...MODES.map((it) => make("option", it)));
  try {
    run = await engineOf(await moduleOf(MODULE));
  } catch (why) {
    $("fault").textContent = `The simulator can't be loaded: ${why.message}.`;
    return;
  }
  listen();
  showFields();
  if (!takeLink()) take(linesOfExample(FIRST_EXAMPLE), 0);
}

begin();
