// Runs a program for WASI in Node, as if it were a native one: node run_wasi.mjs PROGRAM.wasm ARGUMENTS..
import { readFileSync } from "node:fs";
import { basename } from "node:path";
import { WASI } from "node:wasi";

process.removeAllListeners("warning");
const [path, ...given] = process.argv.slice(2);
// Debian's wasi-libc looks for a relative path below the first folder that it is given, so this is the only one; the program itself goes to PWD.
const wasi = new WASI({
  version: "preview1",
  args: [basename(path, ".wasm"), ...given],
  env: { ...process.env, PWD: process.cwd() },
  preopens: { "/": "/" },
  returnOnExit: true,
});
const instance = new WebAssembly.Instance(new WebAssembly.Module(readFileSync(path)), wasi.getImportObject());
process.exitCode = wasi.start(instance);
