// krl's simulator as a module of WebAssembly: run(words, text) returns what `krl` with these words prints for a script.
"use strict";

const FIRST_OUTPUT = 1 << 20, MOST_OUTPUT = 1 << 28, REPORTS = 1 << 16, ENDING = 24;

/// The bytes of a module that is compressed by gzip and written in base64.
async function moduleOf(text) {
  const compressed = Uint8Array.from(atob(text), (it) => it.charCodeAt(0));
  const stream = new Blob([compressed]).stream().pipeThrough(new DecompressionStream("gzip"));
  return new Response(stream).arrayBuffer();
}

/// Makes run() of a module's bytes.
async function engineOf(bytes) {
  const { memory, clear, room, run } = (await WebAssembly.instantiate(bytes, {})).instance.exports;
  const put = (text) => {
    const written = new TextEncoder().encode(text), at = room(written.length);
    new Uint8Array(memory.buffer).set(written, at);
    return [at, written.length];
  };
  const runInto = (words, text, most) => {
    clear();
    const ending = room(ENDING), given = [...put(["krl", ...words].join("\0")), ...put(text)];
    const output = room(most), reports = room(REPORTS);
    run(ending, ...given, output, most, reports, REPORTS);
    const view = new DataView(memory.buffer, ending, ENDING);
    const read = (at, length) => new TextDecoder().decode(new Uint8Array(memory.buffer, at, length));
    const [printed, reported] = [8, 16].map((at) => Number(view.getBigUint64(at, true)));
    const status = view.getUint8(0), isCut = printed === most;
    return { isCut, status, out: read(output, printed), err: read(reports, reported) };
  };
  return (words, text) => {
    for (let most = FIRST_OUTPUT; ; most *= 2) {
      const ended = runInto(words, text, most);
      if (!ended.isCut || most >= MOST_OUTPUT) return ended;
    }
  };
}
