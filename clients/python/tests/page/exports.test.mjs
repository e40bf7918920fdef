// What is kept and what is exported: the list of edits and its digest, sessions that follow it, and frames that are coded again.

import assert from "node:assert/strict";
import { createHash } from "node:crypto";
import test from "node:test";
import { Refused } from "../../wokureti/page/engines/calls.js";
import * as coding from "../../wokureti/page/engines/coding.js";
import { Contents, readIvf } from "../../wokureti/page/engines/contents.js";
import { canEncode, check, encoded } from "../../wokureti/page/engines/encoding.js";
import { isEdit, plain } from "../../wokureti/page/engines/lines.js";
import { stepsOf, textOf, titled } from "../../wokureti/page/engines/lists.js";
import { Session } from "../../wokureti/page/engines/session.js";
import { Sha256 } from "../../wokureti/page/engines/sha256.js";
import { Timeline } from "../../wokureti/page/engines/views.js";
import { HIDDEN, INTER, KEY, ivf } from "./files.mjs";
import { chances, framesOf } from "./scripts.mjs";

test("SHA-256 of bytes that come in parts", () => {
  const hex = (...parts) => parts.reduce((sum, part) => sum.add(part), new Sha256()).hex();
  const bytes = (text) => new TextEncoder().encode(text);
  // The examples of FIPS 180-4.
  assert.equal(hex(bytes("abc")), "ba7816bf8f01cfea414140de5dae2223b00361a396177a9cb410ff61f20015ad");
  assert.equal(hex(bytes("abcdbcdecdefdefgefghfghighijhijkijkljklmklmnlmnomnopnopq")), "248d6a61d20638b8e5c026930c3e6039a33ce45964ff2167f6ecedd419db06c1");
  const below = chances(5);
  for (const length of [0, 1, 55, 56, 63, 64, 65, 119, 120, 1000]) {
    const data = Uint8Array.from({ length }, () => below(256));
    const cut = below(length + 1);
    assert.equal(hex(data.subarray(0, cut), data.subarray(cut)), createHash("sha256").update(data).digest("hex"), `${length} bytes`);
  }
});

test("lines that are edits", () => {
  for (const line of ["delete 3", "  use  1", "script -", "insert 0 7 11000a", "script trim 0 0 5; fade 1 0 5 0 256"]) assert.ok(isEdit(line), line);
  for (const line of ["", "script", "undo", "packet 3", "deleted 3", "delete 3\ndelete 3", "# delete 3"]) assert.ok(!isEdit(line), line);
  assert.equal(plain("  delete   3 "), "delete 3");
});

const DIGEST = "5b".repeat(32);
const FILE = { count: 300, bytes: 1204332, digest: DIGEST, name: "a.ivf" };
const OTHER = { count: 48, bytes: 48898, digest: "1f".repeat(32), name: "b.ivf" };
// As docs/reference/edits.md has it.
const LIST = `# wokureti: edits of 300 packets, 1204332 bytes, sha256 ${DIGEST}
# source 1: 48 packets, 48898 bytes, sha256 ${OTHER.digest}, "b.ivf"
delete 3
# step 3 Repair all
delete 7
copy 1 60 60
delete 61
`;
const STEPS = [
  { title: "", lines: ["delete 3"] },
  { title: "Repair all", lines: ["delete 7", "copy 1 60 60", "delete 61"] },
];

test("the list of edits", () => {
  assert.equal(textOf(STEPS, [FILE, OTHER]), LIST);
  assert.deepEqual(stepsOf(LIST, FILE), { steps: STEPS, others: [{ source: 1, ...OTHER }] });
  assert.deepEqual(stepsOf(LIST.replace("delete 3", "# a comment\n\n  delete   3"), FILE).steps, STEPS);
  assert.equal(titled(` a\n b ${"c".repeat(200)}`), `a b ${"c".repeat(96)}`);
});

test("a list of anybody's is refused if it is none of this stream", () => {
  for (const [text, why] of [
    [null, "no text"],
    ["", "another stream"],
    [LIST.slice(0, -1), "cut off"],
    [LIST.replace("300", "299"), "another stream"],
    [LIST.replace(DIGEST, OTHER.digest), "another stream"],
    [LIST.replace("delete 3\n", "undo\n"), "line 3 is no edit"],
    [LIST.replace("delete 61", "<b>"), "line 7 is no edit"],
  ]) {
    assert.throws(() => stepsOf(text, FILE), new RegExp(why));
  }
});

/** A session whose library is a list of the lines that it was given. */
function session(refuses = () => null) {
  const log = [];
  const found = Object.create(Session.prototype);
  const calls = {
    open: () => log.push("open"),
    answered(line) {
      const why = refuses(line);
      if (why) throw why;
      log.push(line);
      return `ok ${line}`;
    },
  };
  Object.assign(found, { calls, module: null, sources: [], most: 0, isLost: false });
  found.open();
  log.length = 0;
  return [found, log];
}

test("a session follows edits, and is opened again only where an edit cannot be reverted", () => {
  const [one, log] = session();
  assert.equal(one.run(["delete 3", "use 1", "script  trim 0 0 5"]), "ok script trim 0 0 5");
  assert.deepEqual([one.lines, one.current], [["delete 3", "use 1", "script trim 0 0 5"], 1]);
  log.length = 0;
  one.follow(["delete 3", "hold 2"]);
  assert.deepEqual(log, ["script -", "use 0", "hold 2"], "a script and a source are set back");
  log.length = 0;
  one.follow(["delete 3", "hold 1"]);
  assert.deepEqual(log, ["open", "delete 3", "hold 1"]);
  log.length = 0;
  one.ask("list 0 1", 1);
  assert.deepEqual([log, one.current], [["use 1", "list 0 1", "use 0"], 0]);
});

test("after a refusal in a step none of it is made", () => {
  const refused = new Refused(409, { reply: "refused Size" });
  const [one, log] = session((line) => (line === "hold 9" ? refused : null));
  one.run(["delete 3"]);
  assert.throws(() => one.run(["delete 4", "hold 9"]), refused);
  assert.deepEqual([one.lines, one.isLost], [["delete 3"], true]);
  log.length = 0;
  one.whole();
  assert.deepEqual([log, one.isLost], [["open", "delete 3"], false]);
});

// Packets 0, 1, 3, 4, 5 are shown, 2 is hidden; 0 and 4 are key packets.
const contents = () => new Contents([readIvf(ivf([KEY, INTER, HIDDEN, INTER, KEY, INTER].map((data, at) => [at, data]), { rate: 25 }), () => {})], () => "");

test("what an export codes again", () => {
  const facts = contents();
  const line = Array.from({ length: 5 }, (_, frame) => JSON.stringify({ source: 0, source_frame: frame, changed: frame === 2 ? [1] : [] }));
  const runs = coding.runsOf(() => `origins\n${line.join("\n")}`, 5);
  assert.deepEqual(runs.map(({ first, count, changed }) => [first, count, changed.length]), [[0, 2, 0], [2, 1, 1], [3, 2, 0]]);
  const own = { contents: facts, timeline: () => new Timeline(facts, 0, []) };
  // Frame 3 is packet 4, a key packet: after the coded frame nothing hidden comes.
  assert.deepEqual(coding.leadsOf(own, runs), []);
  const pieces = coding.piecesOf(runs, []);
  assert.deepEqual(pieces.map(({ first, count, isCoded }) => [first, count, isCoded]), [[0, 2, false], [2, 1, true], [3, 2, false]]);
  assert.equal(coding.scriptOf(pieces, 1), "source 1; parts 0 0 2 1 0 1 0 3 2");
  const counts = [5, 1];
  assert.deepEqual(framesOf(coding.scriptOf(pieces, 1), counts).map(([source, frame]) => `${source}:${frame}`), ["0:0", "0:1", "1:0", "0:3", "0:4"]);
  assert.deepEqual(coding.stampsOf(own, runs, pieces), [0, 1]);
});

test("a part that begins between key packets", () => {
  const facts = contents();
  const own = { contents: facts, timeline: () => new Timeline(facts, 0, []) };
  const runs = [{ count: 3, source: 0, first: 2, changed: [] }];
  // Frame 2 is packet 3: packets 0 to 2 come before it, 12 bytes, of which two are shown for a 25th of a second each (packet 1 up to packet 3, the next shown one, for two).
  assert.deepEqual(coding.leadsOf(own, runs), [{ first: 0, end: 1, packets: 3, bytes: 12, length: 120000000, coded_bytes: 4 }]);
  const pieces = coding.piecesOf(runs, coding.leadsOf(own, runs));
  assert.deepEqual(pieces.map(({ first, count, isCoded }) => [first, count, isCoded]), [[0, 1, true], [1, 2, false]]);
});

test("an IVF file and the PSNR of samples", () => {
  const packets = [KEY, INTER].map((data) => Uint8Array.from(data));
  const head = { width: 16, height: 8, rate: 25, scale: 1 };
  assert.deepEqual(coding.ivfOf(head, [0, 7], packets), ivf([[0, KEY], [7, INTER]], head));
  const flat = (value) => new Uint8Array(24).fill(value);
  // ffmpeg's psnr: 10 log10(255^2 / MSE).
  assert.equal(coding.psnrOf(flat(10), flat(10)), 99);
  assert.equal(coding.psnrOf(flat(10), flat(11)).toFixed(2), "48.13");
  assert.equal(coding.psnrOf(flat(0), flat(255)).toFixed(2), "0.00");
});

/** An encoder whose packets have so many bits; `least` are needed. */
function encoder(isSupported = true) {
  const bits = [];
  globalThis.VideoFrame = class {
    close() {}
  };
  globalThis.VideoEncoder = class {
    static isConfigSupported = async () => ({ supported: isSupported });
    constructor({ output }) {
      Object.assign(this, { output, encodeQueueSize: 0, state: "configured" });
    }
    configure({ bitrate }) {
      bits.push(bitrate);
    }
    encode(frame, { keyFrame }) {
      const data = Uint8Array.from(keyFrame ? KEY : INTER);
      this.output({ byteLength: data.length, copyTo: (to) => to.set(data) });
    }
    async flush() {}
    close() {}
  };
  return bits;
}

test("frames are coded with as few bits as are enough", async () => {
  delete globalThis.VideoEncoder;
  assert.equal(await canEncode(640, 360), false, "Node has no encoder");
  const bits = encoder();
  assert.equal(await canEncode(640, 360), true);
  const frame = { width: 15, height: 7, samples: new Uint8Array(15 * 7 + 2 * 8 * 4) };
  const frames = async (at) => [frame, frame, frame].slice(at);
  const given = { least: 45, framerate: 10, samples: 100, told: () => {} };
  // 2,500 bits are enough, and the first try has 1,000.
  const measure = async (packets) => packets.map(() => (bits.at(-1) >= 2500 ? 46 : 44));
  const found = await encoded(frames, 3, measure, given);
  assert.deepEqual([found.packets.length, found.psnr], [3, [46, 46, 46]]);
  assert.deepEqual(bits.slice(0, 3), [1000, 4000, 2000], "four times as many until it is enough, then between");
  assert.ok(Math.min(...bits.filter((one) => one >= 2500)) < 3500);
  await assert.rejects(encoded(frames, 3, async (packets) => packets.map(() => 30), given), /with 30.0 dB at least, and not with 45/);
  const control = new AbortController();
  control.abort();
  assert.throws(() => check(control.signal), { name: "AbortError" });
  await assert.rejects(encoded(frames, 3, measure, { ...given, signal: control.signal }), { name: "AbortError" });
  encoder(false);
  assert.equal(await canEncode(640, 360), false);
});
