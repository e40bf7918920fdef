"use strict";
/* The worker of the page in one file, in Node: node web_session.js PAGE, with a task in JSON in each line of standard input, and its result in each line of
 * standard output.
 *
 * { file, states, lines, out, save }   answers request lines as vp8serve does: replies, and the bytes of the module's memory; the samples of the frames go to `out`, the
 *                                      packets to `save`. Without `states` the limit is that of the page
 * { file, out }                        the page's frames in order and backwards: the MD5 of each, or the refusal
 * { files, asks, saves }               calls of the worker, pairs of a name and what is given: the result of each, or its refusal; files that calls make go to `saves`, in order.
 *                                      `fault` and `full` are planted, and `events` are what the worker said by itself
 * { files, asks, act, refused }       `act` is made after `asks`, each time in a new worker: the first time the first request for memory is refused (`refused` is "room"), or
 *                                      the first answer is lost ("checked"), then the second one, until there are no more. How many there are, and what was changed
 *
 * With `pages` the module's memory has at most so many pages of 64 KiB. */
const crypto = require("node:crypto");
const fs = require("node:fs");
const path = require("node:path");
const readline = require("node:readline");
const vm = require("node:vm");
const zlib = require("node:zlib");

const page = fs.readFileSync(process.argv[2], "utf-8");
const textOf = (name) => new RegExp(`<script type="text/plain" id="${name}">([^]*?)</script>`).exec(page)[1];
const given = zlib.gunzipSync(Buffer.from(textOf("module-text"), "base64"));

/** A number as WebAssembly has it, and back: how many bytes it has, and the number. */
function leb(number) {
  const found = [];
  for (let left = number; ; left >>>= 7) {
    found.push(left > 127 ? (left & 127) | 128 : left);
    if (left <= 127) return found;
  }
}

function lebAt(bytes, at) {
  let [number, size] = [0, 0];
  do number |= (bytes[at + size] & 127) << (7 * size);
  while (bytes[at + size++] & 128);
  return { number, size };
}

/** The section of the memory in a module: where it begins and ends, and the least number of pages. */
function memoryOf(bytes) {
  for (let at = 8; at < bytes.length; ) {
    const { number, size } = lebAt(bytes, at + 1);
    const first = at + 1 + size;
    if (bytes[at] === 5) return { first: at, end: first + number, least: lebAt(bytes, first + 2).number };
    at = first + number;
  }
  throw new Error("the module has no memory");
}

/** The module with a memory of at most so many pages. */
function limited(pages) {
  const { first, end, least } = memoryOf(given);
  const inside = [1, 1, ...leb(least), ...leb(Math.max(least, pages))];
  return WebAssembly.compile(Buffer.concat([given.subarray(0, first), Buffer.from([5, ...leb(inside.length), ...inside]), given.subarray(end)]));
}

/** A worker: its answers come at once. */
function worker(compiled) {
  const self = { events: [], postMessage: (message) => (message.id === undefined ? self.events.push(message) : (self.said = message)) };
  const context = vm.createContext({ self, performance, setTimeout: () => 0, TextEncoder, TextDecoder, WebAssembly, console });
  vm.runInContext(textOf("worker-text"), context, { filename: "worker.js" });
  const call = (name, ...list) => {
    self.onmessage({ data: { id: 1, name, given: list } });
    if (self.said.refused) throw Object.assign(new Error(JSON.stringify(self.said.refused.members)), { refused: self.said.refused.members });
    return self.said.result;
  };
  call("start", compiled);
  return { call, events: self.events, parts: vm.runInContext("({ Calls: $engines_calls.Calls, Session: $engines_session.Session, full: $engines_calls.full })", context) };
}

function source(file) {
  return Object.assign(new Uint8Array(fs.readFileSync(file)), { name: path.basename(file) });
}

function answer(compiled, { file, states, lines, out, save }) {
  const { Calls, Session } = worker(compiled).parts;
  const session = new Session(compiled, [source(file)], 2 ** 29);
  const { calls } = session;
  if (states) {
    const bytes = fs.readFileSync(file);
    calls.with(bytes, (at, size) => calls.with(new Uint8Array(BigUint64Array.of(size).buffer), (ends) => calls.calls.wk_open(calls.handle, at, size, ends, 1n, states, 0, 0n, calls.fault)));
  }
  const [replies, frames] = [[], []];
  for (const line of lines) {
    const reply = calls.request(line);
    if (reply) replies.push(reply);
    if (out && reply.startsWith("served ")) frames.push(calls.frame(Number(reply.slice(7))).samples);
  }
  if (out) fs.writeFileSync(out, Buffer.concat(frames));
  fs.writeFileSync(save, Buffer.concat(calls.save(0, false, false)));
  return { replies, memory: calls.calls.memory.buffer.byteLength };
}

function frames(compiled, { file }) {
  const { call } = worker(compiled);
  call("open", [source(file)], 0);
  const sum = (n) => {
    try {
      return crypto.createHash("md5").update(call("frames", [n])[0].samples).digest("hex");
    } catch (error) {
      if (!error.refused) throw error;
      return error.refused.reason.replace(/^frame: /, "");
    }
  };
  const numbers = [...Array(call("state").frames).keys()];
  const found = numbers.map(sum);
  return { found, again: numbers.reverse().map(sum).reverse() };
}

function asks(compiled, { files, asks, saves = [] }) {
  const { call, parts, events } = worker(compiled);
  const left = [...saves];
  // The next frame is a fault of the module; so many requests for memory are refused.
  const plants = {
    events: () => events.splice(0),
    fault() {
      const { frame } = parts.Calls.prototype;
      parts.Calls.prototype.frame = function () {
        parts.Calls.prototype.frame = frame;
        throw new WebAssembly.RuntimeError("unreachable");
      };
    },
    full(count) {
      const { room } = parts.Calls.prototype;
      let turns = 0;
      parts.Calls.prototype.room = function (size) {
        if (turns++ < count) throw parts.full();
        parts.Calls.prototype.room = room;
        return room.call(this, size);
      };
    },
  };
  const sources = files.map(source);
  const results = [];
  for (const [name, list] of [["open", [sources, 0]], ["beside", [sources]], ...asks]) {
    try {
      if (plants[name]) {
        results.push(plants[name](...list) ?? null);
        continue;
      }
      const result = call(name, ...list.map((one) => (one?.file ? source(one.file) : one)));
      const pieces = result?.pieces ?? (name === "beside.export" ? result : null);
      if (pieces) fs.writeFileSync(left.shift(), Buffer.concat(pieces));
      // As it goes to the page: what the worker changes later stays as it was.
      results.push(pieces ? {} : name === "frames" || name.startsWith("beside.") && name !== "beside.findings" ? result.map?.(({ samples }) => crypto.createHash("md5").update(samples).digest("hex")) ?? result : structuredClone(result ?? null));
    } catch (error) {
      if (!error.refused) throw error;
      results.push({ refused: error.refused });
    }
  }
  return { results };
}

/** What a worker has: edits, what redo makes again, packets, and a frame. */
function looked(call) {
  const { edits, undone, packets, frames: count, sources, script, revision } = call("state");
  const [frame] = call("frames", [4]);
  return JSON.stringify([edits, undone, packets, count, sources, script, revision, call("lines"), call("text"), call("answer", "list 0 5", 0), crypto.createHash("md5").update(frame.samples).digest("hex")]);
}

function refusals(compiled, { files, asks, act: [name, list], refused }) {
  const wrong = [];
  for (let turn = 0; ; turn++) {
    const { call, parts } = worker(compiled);
    call("open", files.map(source), 0);
    for (const [one, given] of asks) call(one, ...given);
    const before = looked(call);
    const calls = parts.Calls.prototype;
    const plain = calls[refused];
    let [left, said] = [turn, null];
    calls[refused] = function (number) {
      if (left-- !== 0) return plain.call(this, number);
      // The number is WK_LOST: the line was answered.
      if (refused === "checked") return plain.call(this, 7);
      throw parts.full();
    };
    try {
      call(name, ...list.map((one) => (one?.file ? source(one.file) : one)));
    } catch (error) {
      if (!error.refused) throw error;
      said = error.refused.error;
    }
    calls[refused] = plain;
    if (left >= 0) return { turns: turn, wrong };
    const after = looked(call);
    if (!said?.includes("memory") || after !== before) wrong.push([turn, said, before, after]);
  }
}

async function main() {
  const compiled = await WebAssembly.compile(given);
  for await (const line of readline.createInterface({ input: process.stdin })) {
    const task = JSON.parse(line);
    let result;
    try {
      const module = task.pages ? await limited(task.pages) : compiled;
      result = task.lines ? answer(module, task) : task.act ? refusals(module, task) : task.asks ? asks(module, task) : frames(module, task);
    } catch (error) {
      result = { error: error.stack };
    }
    console.log(JSON.stringify(result));
  }
}

main();
