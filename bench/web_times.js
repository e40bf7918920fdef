"use strict";
/* How long the page's module takes for all frames of a stream: node web_times.js PAGE CLIP TURNS prints the seconds of compiling it, of the first session, and of the
 * fastest session after it, in processor time, and the number of frames. Each session decodes every packet. */
const fs = require("node:fs");
const vm = require("node:vm");
const zlib = require("node:zlib");

const [file, clip, turns] = process.argv.slice(2);
const page = fs.readFileSync(file, "utf-8");
const textOf = (name) => new RegExp(`<script type="text/plain" id="${name}">([^]*?)</script>`).exec(page)[1];
const context = vm.createContext({ self: {}, performance, setTimeout, TextEncoder, TextDecoder, WebAssembly });
vm.runInContext(textOf("worker-text"), context, { filename: "worker.js" });
const { Session } = vm.runInContext("$engines_session", context);
// Bytes of cached pictures: those of the newest state are always cached.
const LEAST = 1;

/** The processor time of a call in seconds. */
async function timed(call) {
  const start = process.cpuUsage();
  const result = await call();
  const { user, system } = process.cpuUsage(start);
  return [(user + system) / 1e6, result];
}

function decode(compiled) {
  const session = new Session(compiled, [new Uint8Array(fs.readFileSync(clip))], LEAST);
  const count = session.count();
  for (let n = 0; n < count; n++) session.frame(n);
  return count;
}

async function main() {
  const [compiling, compiled] = await timed(() => WebAssembly.compile(zlib.gunzipSync(Buffer.from(textOf("module-text"), "base64"))));
  const [first, count] = await timed(() => decode(compiled));
  let best = Infinity;
  for (let turn = 1; turn < Number(turns); turn++) best = Math.min(best, (await timed(() => decode(compiled)))[0]);
  console.log(compiling.toFixed(3), first.toFixed(3), best.toFixed(3), count);
}

main();
