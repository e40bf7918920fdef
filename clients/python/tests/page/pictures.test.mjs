// Pictures, lanes, playback, and what the page knows of the session.

import assert from "node:assert/strict";
import test from "node:test";
import * as colours from "../../wokureti/page/colours.js";
import { Refusal, engine, use } from "../../wokureti/page/engine.js";
import { Channel } from "../../wokureti/page/engines/channel.js";
import { firstAt } from "../../wokureti/page/engines/views.js";
import { Frames } from "../../wokureti/page/frames.js";
import { Model } from "../../wokureti/page/model.js";
import { OVERLAYS, heat } from "../../wokureti/page/overlay.js";
import { scaleOf } from "../../wokureti/page/picture.js";
import { frameDue, framesAhead, groupsOf, orderOf } from "../../wokureti/page/player.js";
import { blocksOf, fadeAt, handleAt } from "../../wokureti/page/programme.js";
import { packetsOf, placesOf } from "../../wokureti/page/thumbs.js";
import { Tiles, perOf } from "../../wokureti/page/tiles.js";
import { Window } from "../../wokureti/page/window.js";

const soon = () => new Promise((done) => setTimeout(done, 5));

test("colours of BT.601 in limited range", () => {
  // Black, white, and 75 % of grey; the primaries as ffmpeg's smptebars and colour sources have them (Y, Cb, Cr of full red, green and blue).
  assert.deepEqual([colours.colourOf(16, 128, 128), colours.colourOf(235, 128, 128), colours.colourOf(180, 128, 128)], [[0, 0, 0], [255, 255, 255], [191, 191, 191]]);
  for (const [samples, wanted] of [[[81, 90, 240], [255, 0, 0]], [[145, 54, 34], [0, 255, 0]], [[41, 240, 110], [0, 0, 255]]]) {
    colours.colourOf(...samples).forEach((value, place) => assert.ok(Math.abs(value - wanted[place]) <= 1, `${samples}: ${colours.colourOf(...samples)}`));
  }
  assert.deepEqual([colours.colourOf(0, 128, 128), colours.colourOf(255, 0, 255).every((value) => value >= 0 && value <= 255)], [[0, 0, 0], true]);
});

// 3x2 samples: the chroma planes have 2x1.
const FRAME = { width: 3, height: 2, samples: Uint8Array.from([16, 235, 16, 235, 16, 235, 128, 100, 128, 200]) };
const bytesOf = (pixels) => [...new Uint8Array(pixels.buffer)];

test("the planes of a frame of odd width", () => {
  const { y, u, v } = colours.planes(FRAME);
  assert.deepEqual([[...y.samples], [...u.samples], [...v.samples], u.width, u.height], [[16, 235, 16, 235, 16, 235], [128, 100], [128, 200], 2, 1]);
  assert.deepEqual(bytesOf(colours.toPlane(FRAME, "y")).slice(0, 8), [16, 16, 16, 255, 235, 235, 235, 255]);
  assert.deepEqual(bytesOf(colours.toPlane(FRAME, "u")).filter((_, place) => place % 4 === 0), [128, 128, 100, 128, 128, 100]);
  const pixels = bytesOf(colours.toColour(FRAME));
  assert.deepEqual(pixels.slice(0, 8), [0, 0, 0, 255, 255, 255, 255, 255]);
  assert.deepEqual(pixels.slice(8, 11), colours.colourOf(16, 100, 200), "the third column has the second sample of chroma");
});

test("what differs in two frames", () => {
  const other = { ...FRAME, samples: Uint8Array.from(FRAME.samples) };
  other.samples[0] += 3;
  other.samples[7] -= 5;
  const found = colours.compared(FRAME, other);
  assert.deepEqual([found.differing, found.samples, found.psnr.v], [2, 10, Infinity]);
  // 10 log10(255^2 / (9 / 6)) and 10 log10(255^2 / (25 / 2)).
  assert.deepEqual([found.psnr.y.toFixed(2), found.psnr.u.toFixed(2)], ["46.37", "37.16"]);
  assert.deepEqual(bytesOf(colours.toDifference(FRAME, other, "y", 8)).filter((_, place) => place % 4 === 0), [24, 0, 0, 0, 0, 0]);
  assert.deepEqual(bytesOf(colours.toDifference(FRAME, other, "colour", 100)).filter((_, place) => place % 4 === 0), [255, 0, 255, 0, 0, 255]);
});

test("how large a picture is, and the overlays", () => {
  assert.deepEqual([scaleOf("2", 320, 180, {}), scaleOf("fit", 320, 180, { width: 640, height: 270 })], [2, 1.5]);
  assert.deepEqual([heat(0), heat(1), heat(0.5), heat(9)], ["rgb(24,28,92)", "rgb(252,232,90)", "rgb(190,60,110)", "rgb(252,232,90)"]);
  const records = [{ luma: "B_PRED", quantizer: 10, token_bits: 8 }, { luma: "B_PRED", quantizer: 127, token_bits: 0 }];
  assert.deepEqual(OVERLAYS.luma.legend(records).filter(([, , count]) => count), [["#d55e00", "B_PRED", 2]]);
  assert.deepEqual(OVERLAYS.quantizer.legend(records).map(([, text]) => text), ["10 (least)", "127 (greatest)"]);
  assert.equal(OVERLAYS.bits.colour(records[0], OVERLAYS.bits.limits(records)), heat(1));
});

test("playback", () => {
  const range = { first: 10, end: 14 };
  assert.deepEqual([0, 1, 3, 4].map((passed) => frameDue(11, 1, passed, range, false)), [11, 12, null, null]);
  assert.deepEqual([0, 2, 3, 4].map((passed) => frameDue(11, 1, passed, range, true)), [11, 13, 10, 11]);
  assert.deepEqual([0, 1, 2].map((passed) => frameDue(11, -1, passed, range, false)), [11, 10, null]);
  assert.equal(frameDue(0, 1, 0, { first: 0, end: 0 }, true), null);
  assert.deepEqual(framesAhead(12, 1, 9, range, true), [12, 13, 10, 11]);
  assert.deepEqual(framesAhead(12, -1, 9, range, false), [12, 11, 10]);
  assert.deepEqual(orderOf([9, 8, 7, 6], -1), [8, 9, 6, 7], "groups of eight are decoded forward");
  assert.deepEqual(groupsOf([1, 2, 3, 4, 5, 9]), [[1, 4], [5, 1], [9, 1]]);
});

test("a window of packets", () => {
  const window = new Window();
  Object.assign(window, { width: 100, count: 1000 });
  window.all();
  assert.deepEqual([window.from, window.scale, window.span], [0, 0.1, 1000]);
  window.zoom(10, 50);
  assert.deepEqual([window.scale, window.packetAt(50), window.pixelOf(500)], [1, 500, 50], "what is at the pixel stays there");
  window.pan(-1e6);
  assert.equal(window.from, 0);
  window.reveal(999);
  assert.equal(window.from, 900);
  window.follow(100);
  assert.equal(window.from, 90);
  window.zoom(1e9, 0);
  assert.equal(window.scale, 32);
  assert.deepEqual([2, 1, 0.5, 0.3, 0.001].map(perOf), [1, 1, 2, 4, 1024]);
  assert.deepEqual([0, 3, 4, 99].map((value) => firstAt([1, 3, 7], value)), [0, 1, 2, 3]);
});

test("the blocks of shots and the handles of their fades", () => {
  const window = { pixelOf: (frame) => 10 * frame, packetAt: (pixel) => Math.floor(pixel / 10), width: 200, count: 9 };
  const shots = [{ source: 0, first: 0, count: 5, fadeIn: 2, fadeOut: 0 }, { source: 1, first: 3, count: 4, fadeIn: 0, fadeOut: 1 }];
  const blocks = blocksOf(shots, window);
  assert.deepEqual(blocks.map(({ left, right }) => [left, right]), [[0, 50], [50, 90]]);
  assert.deepEqual([handleAt(blocks, 20), handleAt(blocks, 47), handleAt(blocks, 53), handleAt(blocks, 80), handleAt(blocks, 35)], [
    { block: 0, name: "fadeIn" }, { block: 0, name: "fadeOut" }, { block: 1, name: "fadeIn" }, { block: 1, name: "fadeOut" }, null,
  ]);
  assert.deepEqual([fadeAt(blocks[0], "fadeIn", 33), fadeAt(blocks[0], "fadeIn", 999), fadeAt(blocks[1], "fadeOut", 74), fadeAt(blocks[1], "fadeIn", 95)], [3, 5, 2, 3]);
  assert.equal(handleAt([{ ...blocks[0], right: 20 }], 10), null, "a narrow block has none");
  // Places of 76 pixels, of which at least half is seen.
  assert.deepEqual(placesOf(window), [[0, 7], [7, 9]]);
  assert.equal(packetsOf({ instance: "a", edits: ["delete 3", "script -"], edits_before: 2 }), "a 2 delete 3", "a script changes no packet");
});

/** A state of a session. */
const session = (changes, more = {}) => ({ instance: "i", changes, revision: changes, packets: 5, frames: 4, sources: [5, 2], script: "-", rate: [25, 1], edits: [], ...more });

test("the model takes the newest state, and drops what is not there any more", async () => {
  const model = new Model();
  const heard = [];
  for (const name of ["session", "selection", "range"]) model.addEventListener(name, () => heard.push(name));
  use({ look: async () => ({ frame: null, own: 0, before: null, sources: [], packets: [], before: [] }) });
  model.use(session(2));
  model.select(1, 5);
  model.selectFrames(1, 4);
  model.use(session(1, { frames: 9 }));
  assert.equal(model.frames, 4, "an older state is not taken");
  heard.length = 0;
  model.use(session(3, { packets: 3, sources: [3, 2], frames: 2 }));
  assert.deepEqual([model.selection, model.range, heard], [null, null, ["selection", "range", "session"]]);
  assert.deepEqual([model.rate, model.packets, model.chosen], [25, 3, { first: 0, end: 1 }]);
  model.use(session(1, { instance: "other" }));
  assert.equal(model.revision, 1, "a session that was started again begins at 1");
  await soon();
});

test("the model reads the state once for calls that come together", async () => {
  const model = new Model();
  let [reads, changes] = [0, 1];
  use({ state: async () => (reads++, await soon(), session(changes)), look: async () => ({ sources: [], packets: [], before: [] }) });
  await Promise.all([model.load(), model.load(), model.load()]);
  assert.deepEqual([reads, model.revision], [2, 1], "one, and one for those that came meanwhile");
  await model.load(1);
  assert.equal(reads, 2, "it has these changes already");
  changes = 4;
  // The answer to a change has the state after it, so the event about it asks for nothing.
  const making = model.change(async (page) => (assert.deepEqual(page, { source: 0, packet: 0, tiles: [] }), await soon(), { session: session(4), place: null, tiles: [] }));
  await Promise.all([making, model.load(4)]);
  assert.deepEqual([reads, model.revision], [2, 4]);
});

test("a frame, and the packet that it shows", async () => {
  const model = new Model();
  const places = { 3: { frame: null, own: 2, before: 3 }, 4: { frame: 3 } };
  use({ look: async (what, { packet }) => (what === "place" ? places[packet] : { sources: [0, 0, 1, 0], packets: [0, 1, 0, 4], before: [0, 1, 0, 3] }) });
  model.use(session(1));
  await model.go(99);
  assert.deepEqual([model.frame, model.packet, model.source, model.look], [3, 4, 0, "frame 3"]);
  await model.step(-1);
  assert.deepEqual([model.frame, model.source, model.packet], [2, 1, 0], "the lane shows the source of the frame");
  await model.useSource(0).catch(() => {});
  await model.goPacket(3);
  assert.deepEqual([model.aside, model.look], [{ source: 0, packet: 3, before: 3, own: 2 }, "packet 0 3"], "no frame shows it");
  await model.step(1);
  assert.deepEqual([model.frame, model.packet, model.aside], [3, 4, null]);
  assert.deepEqual([model.known(1), model.known(9)], [{ source: 0, packet: 1, before: 1 }, null]);
});

test("frames are fetched once a revision, and those that are refused too", async () => {
  const model = Object.assign(new EventTarget(), { session: session(1), revision: 1 });
  const frames = new Frames(model);
  const asked = [];
  use({
    frames: async (list) => {
      asked.push(list.join(" "));
      if (list.includes(2)) throw new Refusal(409, { reply: "refused Size" });
      return list.map((number) => ({ number, samples: new Uint8Array(4), revision: 1 }));
    },
  });
  assert.equal((await frames.get(0)).number, 0);
  assert.equal((await frames.get(0)).number, 0);
  await assert.rejects(frames.get(2));
  await assert.rejects(frames.get(2));
  assert.deepEqual(asked, ["0", "2"]);
  assert.deepEqual([frames.here(0).number, frames.here(2), frames.here(9)], [0, null, null]);
  asked.length = 0;
  const found = await Promise.allSettled([frames.getTogether(3, 2), frames.getTogether(1, 2)]);
  assert.deepEqual([found.map(({ status }) => status), asked], [["fulfilled", "rejected"], ["3 4", "1 2", "1"]]);
  assert.equal(frames.here(1).number, 1, "a refusal of several is of one");
  Object.assign(model, { session: session(2), revision: 2 });
  model.dispatchEvent(new Event("session"));
  assert.deepEqual([frames.here(0), frames.bytes], [null, 0]);
});

test("tiles of the timeline are drawn until newer ones are here", async () => {
  let arrived = 0;
  const tiles = new Tiles(() => arrived++);
  const answers = [];
  use({ look: () => new Promise((done) => answers.push(done)) });
  tiles.use(1, 0, "");
  assert.equal(tiles.get(1, 0), null);
  answers.shift()({ kinds: "k", edits: [0] });
  await soon();
  assert.deepEqual([tiles.get(1, 0).kinds, tiles.get(1, 0).marks.has(0), arrived, answers.length], ["k", true, 1, 0]);
  tiles.use(2, 0, "");
  assert.deepEqual([tiles.get(1, 0).kinds, tiles.peek(1, 0), answers.length], ["k", null, 1], "the old one is drawn, and the new one asked for once");
  tiles.put({ source: 0, per: 1, first: 0, kinds: "i", edits: [] });
  assert.equal(tiles.peek(1, 0).kinds, "i");
  tiles.use(3, 1, "");
  assert.equal(tiles.peek(1, 0), null);
});

test("calls of a worker wait in their order, those that nobody waits for last", async () => {
  const made = [];
  globalThis.Worker = class {
    constructor() {
      made.push(this);
      this.sent = [];
    }
    postMessage(message) {
      this.sent.push(message);
    }
    terminate() {
      this.isOver = true;
    }
  };
  const heard = [];
  const channel = new Channel("", (said) => heard.push(said.event));
  const [worker] = made;
  const control = new AbortController();
  const calls = [channel.call("state"), channel.call("frames", [[9]], { low: true }), channel.call("ask", ["x"]), channel.call("frames", [[1]], { signal: control.signal })];
  assert.deepEqual(worker.sent.map(({ name }) => name), ["state"], "one at a time");
  control.abort();
  await assert.rejects(calls[3], { name: "AbortError" });
  worker.onmessage({ data: { event: "check" } });
  worker.onmessage({ data: { id: 1, result: 7 } });
  assert.equal(await calls[0], 7);
  worker.onmessage({ data: { id: 3, refused: { status: 409, members: { reply: "refused Size" } } } });
  await assert.rejects(calls[2], { status: 409, reply: "refused Size" });
  assert.deepEqual([worker.sent.map(({ name }) => name), heard], [["state", "ask", "frames"], ["check"]]);
  channel.end();
  await assert.rejects(calls[1], { name: "AbortError" });
  await assert.rejects(channel.call("state"), { name: "AbortError" });
  assert.ok(worker.isOver);
  assert.ok(engine.look, "the engine of the page is one object");
});
