// What a script has led to. The simulator is asked by further lines, in runs that are thrown away.
"use strict";

const SERVER = "server";
const MOST_CLIENTS = 6, MOST_POINT = 40, MOST_SLOTS = 10;
/// A client that asks in runs that are thrown away.
const PROBE = 62;
const LINE_WITH_POINTS = /^(lock|scan|insert|put|delete|take|forget|lower|hold|pin)\b/;

const linesOf = (text) => text.split("\n").filter((line) => line !== "");
const isRun = (line) => line.trim() !== "" && !line.startsWith("#");

/// The simulator's drawing of these lines.
function drawingOf(run, lines) {
  const text = run(["script", "--svg"], lines.join("\n")).out;
  return new DOMParser().parseFromString(text, "image/svg+xml").documentElement;
}

/// What these questions print after the script.
function answersOf(run, lines, questions) {
  const before = linesOf(run(["script"], lines.join("\n")).out).length;
  return linesOf(run(["script"], [...lines, ...questions].join("\n")).out).slice(before);
}

/// The nodes of a drawing, each with the place of its column.
function columnsOf(drawing) {
  const names = [...drawing.querySelectorAll("text.name")];
  return names.map((it) => ({ node: it.textContent, x: Number(it.getAttribute("x")) + 20 }));
}

/// An arrow of a drawing as a message.
function messageOf(arrow, columns) {
  const line = arrow.querySelector("line"), [from, to] = ["x1", "x2"].map((name) => Number(line.getAttribute(name)));
  const nodeAt = (x) => columns.reduce((best, it) => (Math.abs(it.x - x) < Math.abs(best.x - x) ? it : best)).node;
  const isLost = arrow.matches(".lost"), sender = nodeAt(from);
  // The arrow of a message that is lost ends half way.
  const receiver = sender !== SERVER ? SERVER : nodeAt(isLost ? 2 * to - from : to);
  const number = parseInt(arrow.querySelector(".label").textContent, 10);
  return { number, sender, receiver, isLost, text: arrow.querySelector("title").textContent };
}

/// The messages of a drawing, or those after the last line of its script.
function messagesOf(drawing, isOfLastLine) {
  const columns = columnsOf(drawing), found = [];
  for (const it of drawing.children) {
    if (isOfLastLine && it.matches("text.script")) found.length = 0;
    if (it.matches("g.arrow")) found.push(messageOf(it, columns));
  }
  return found;
}

/// What each line of the script printed, by its place.
function printedOf(drawing, lines) {
  const places = [...lines.keys()].filter((place) => isRun(lines[place])), printed = {};
  let count = -1;
  for (const it of drawing.children) {
    if (it.matches("text.script")) count++;
    else if (it.matches("text.note[x='24']") && count >= 0) (printed[places[count]] ??= []).push(it.textContent);
  }
  return printed;
}

/// The points of the number line: those up to the greatest that the script or an entry names, and END.
function pointsOf(lines, keys) {
  const numbersOf = (line) => (line.match(/\b\d+\b/g) ?? []).slice(1).map(Number);
  const named = lines.filter((it) => LINE_WITH_POINTS.test(it)).flatMap(numbersOf);
  const most = Math.max(12, ...[...keys, ...named].filter((it) => it <= MOST_POINT)) + 3;
  return [...Array(Math.min(MOST_POINT, most) + 1).keys(), "END"];
}

/// A client by what its `status` and its `hold` at each point print.
function clientOf(number, status, held) {
  const [, epoch, seen, ...rest] = status.split(" "), [, lock, write] = rest.join(" ").match(/^(\S+) (.*)$/) ?? [];
  return { number, isDown: epoch === "down", epoch, seen, lock, write, held: held.map((it) => it.split(" ").slice(1)) };
}

/// Whether a callback is of the slot of this key.
function isOfSlot(text, key) {
  const limitOf = (word) => (word === "END" ? 2n ** 63n - 1n : word === "TOP" ? 2n ** 63n : BigInt(word));
  const span = text.match(/(\w+)\.\.(\w+)$/);
  return span !== null && limitOf(span[1]) <= limitOf(key) && limitOf(key) < limitOf(span[2]);
}

/// A slot of the server's table by the callbacks that a lock of all of it causes.
function slotOf(key, callbacks) {
  const holders = callbacks.map((it) => Number(it.receiver.split(" ")[1]));
  // A callback that leaves something is for a lock that waits before this one.
  return { key, holders, isAwaited: callbacks.some((it) => !/^Callback \w+: N /.test(it.text)) };
}

/// The server's table, as far as it shows: whom the server calls back for each slot if a client that holds nothing asks
/// for all of it. None if that client can't join.
function tableOf(run, lines, keys) {
  const join = [...lines, "drop", `client ${PROBE}`, "next 2"];
  const answers = messagesOf(drawingOf(run, [...join, "drop"]), true);
  const report = answers.find((it) => it.sender === `client ${PROBE}`);
  if (!report) return null;
  return [...keys.slice(0, MOST_SLOTS - 1), "END"].map((key) => {
    const asked = [...join, `deliver ${report.number}`, "drop", `lock ${PROBE} ${key} RangeX-X`, "next 1", "drop"];
    const sent = messagesOf(drawingOf(run, asked), true);
    return slotOf(key, sent.filter((it) => it.text.startsWith("Callback") && isOfSlot(it.text, key)));
  });
}

/// The locks for which clients wait, as they asked and in this order, but for those whose messages did not arrive.
function queueOf(clients, sent) {
  const asked = clients.filter((it) => it.lock === "waiting").map(({ number }) => {
    const isOwn = (it) => it.sender === `client ${number}` && it.text.startsWith("Lock") && !it.isLost;
    return { client: number, message: sent.filter(isOwn).at(-1) };
  });
  const arrived = asked.filter((it) => it.message).sort((a, b) => a.message.number - b.message.number);
  return arrived.map((it) => ({ client: it.client, text: it.message.text.replace(/^Lock \d+: /, "") }));
}

/// The sentence of a script's fault, or undefined.
function faultOf(run, lines) {
  for (const words of [["script"], ["script", "--svg"]]) {
    const ended = run(words, lines.join("\n"));
    if (ended.status !== 0) return ended.err.trim().replace(/^krl: /, "");
  }
  return undefined;
}

/// The clients of these numbers, with what they hold at these points.
function clientsOf(run, lines, numbers, points) {
  const questions = numbers.flatMap((it) => [`status ${it}`, ...points.map((point) => `hold ${it} ${point}`)]);
  const answers = answersOf(run, lines, questions), each = points.length + 1;
  return numbers.map((it, at) => clientOf(it, answers[at * each], answers.slice(at * each + 1, (at + 1) * each)));
}

/// All that the page shows after the first lines of a script, of which none has a fault.
function worldOf(run, lines, allLines) {
  const drawing = drawingOf(run, lines), sent = messagesOf(drawing);
  const nodes = columnsOf(drawing).map((it) => it.node).filter((it) => it !== SERVER);
  const numbers = nodes.map((it) => Number(it.split(" ")[1]));
  const [index, missing, check, writes] = answersOf(run, lines, ["index", "missing", "check", "writes"]);
  const entries = index.split(" ").slice(1).map((pair) => pair.split("="));
  const keys = entries.map(([key]) => Number(key)).filter((key) => key <= MOST_POINT);
  const points = pointsOf(allLines, keys), clients = clientsOf(run, lines, numbers, points);
  const isRecovered = missing === "missing";
  const hasTable = isRecovered && numbers.length > 0 && numbers.length <= MOST_CLIENTS;
  return {
    drawing, sent, entries, points, clients, check, isRecovered, isUp: missing !== "down",
    missing: missing.split(" ").slice(1), writes: writes.split(" ").slice(1), printed: printedOf(drawing, lines),
    table: hasTable ? tableOf(run, lines, keys) : null, queue: queueOf(clients, sent),
    waiting: messagesOf(drawingOf(run, [...lines, "drop"]), true),
  };
}
