// Times of frames, rates, lists of cuts, and where sound is.

import assert from "node:assert/strict";
import test from "node:test";
import { Contents, readIvf } from "../../wokureti/page/engines/contents.js";
import { scriptOf, textOf } from "../../wokureti/page/engines/cut_lists.js";
import { runsOf } from "../../wokureti/page/engines/heard.js";
import { baseOf, durationsOf, rateOf, stepOf } from "../../wokureti/page/engines/rates.js";
import { SHOWN } from "../../wokureti/page/engines/tags.js";
import { WebmSound } from "../../wokureti/page/engines/webm_sound.js";
import * as peaks from "../../wokureti/page/peaks.js";
import { secondOf } from "../../wokureti/page/sound.js";
import { frameOf, timeText } from "../../wokureti/page/times.js";
import { INTER, KEY, ivf } from "./files.mjs";

test("a frame as a time, and what is typed for a frame", () => {
  assert.equal(timeText(0, 25), "00:00:00.000");
  assert.equal(timeText(91801, 25), "01:01:12.040");
  // 30000/1001 frames a second: frame 100 is at 3.33666 seconds.
  assert.equal(timeText(100, 30000 / 1001), "00:00:03.337");
  assert.equal(timeText(1, 25, [0, 1234]), "00:00:01.234", "the rate varies");
  assert.deepEqual(["120", "+5", "-5", "−5", "-500", "1:02.5", "12,5", "0:00:01"].map((text) => frameOf(text, 100, 25)), [120, 105, 95, 95, 0, 1562, 312, 25]);
  assert.deepEqual(["", "x", "1:2:3:4", "1e5", "--5", "1."].map((text) => frameOf(text, 100, 25)), Array(6).fill(null));
  assert.deepEqual(["0.5", "1.5", "99.0"].map((text) => frameOf(text, 0, 25, [0, 1000, 1500])), [0, 2, 2]);
  assert.deepEqual([secondOf(50, 25), secondOf(1, 25, [0, 1234])], [2, 1.234]);
});

// A file as the engine has it: all packets are shown.
const file = (rate, scale, stamps) => ({ head: { rate, scale }, stamps, tags: stamps.map(() => SHOWN) });
const spaced = (rate, by, count = 200) => file(rate, 1, Array.from({ length: count }, (_, at) => Math.round(at * by)));

test("the frames a second of a file", () => {
  assert.deepEqual(baseOf({ rate: 0, scale: 0 }), [30, 1], "a header without a rate has 30");
  assert.deepEqual(rateOf(file(25, 1, [0, 1, 2, 3])), [25, 1]);
  assert.deepEqual(rateOf(file(30000, 1001, [0, 1, 2])), [30000, 1001]);
  // A time base of 90,000 a second, as in MPEG, or of milliseconds, as in WebM.
  assert.deepEqual(rateOf(spaced(90000, 3003)), [30000, 1001]);
  assert.deepEqual(rateOf(spaced(1000, 40)), [25, 1]);
  assert.deepEqual(rateOf(spaced(1000, 1001 / 30)), [30000, 1001]);
  assert.deepEqual(rateOf(spaced(1000, 1000 / 30)), [30, 1]);
  assert.deepEqual(rateOf(spaced(1000, 1000 / 60)), [60, 1]);
  assert.deepEqual(rateOf(file(1000, 1, [0])), [30, 1], "a time base is no rate");
  // Every other packet is hidden: two ticks a frame.
  assert.deepEqual(rateOf({ ...file(50, 1, [0, 1, 2, 3, 4]), tags: [SHOWN, 0, SHOWN, 0, SHOWN] }), [25, 1]);
});

test("durations are those up to the next shown packet", () => {
  assert.deepEqual(durationsOf(file(30, 1, [0, 1, 2, 5, 4, 6])), [1, 1, 3, 1, 2, 1]);
  assert.equal(stepOf(file(30, 1, [0, 2, 4, 9])), 2);
  assert.equal(stepOf(file(30, 1, [7])), 1);
});

const shot = (first, count, source = 0) => ({ source, first, count });
const BEGINS = Array.from({ length: 11 }, (_, frame) => frame * 40000);

test("lists of cuts as LosslessCut has them", () => {
  assert.equal(textOf([shot(2, 3), shot(9, 1)], BEGINS), "0.080000,0.200000,\n0.360000,0.400000,\n");
  assert.throws(() => textOf([shot(0, 1, 1)], BEGINS), /frames of source 1/);
  assert.equal(scriptOf('\ufeff,0.08,First\n0.12,"0.2","Second, quoted"\r\n\n0:00:00.36,,Last\n', BEGINS), "parts 0 0 2 0 3 2 0 9 1");
  // The frame that is shown at the beginning is there, and the one that begins at the end is not.
  assert.equal(scriptOf("0.1,0.13,\n", BEGINS), "trim 0 2 2");
  for (const [text, why] of [["", "no line with a part"], ["70.5", "line 1 has no `,`"], ["0,1\nsoon,3,x", "line 2: 'soon' is not a time"], ["9,10,", "no frame from 9 to 10"]]) {
    assert.throws(() => scriptOf(text, BEGINS), new RegExp(why));
  }
  const odd = [0, 33333.333, 66666.667, 100000, 133333.333];
  for (let first = 0; first < 4; first++) for (let count = 1; first + count < 5; count++) assert.equal(scriptOf(textOf([shot(first, count)], odd), odd), count === 4 ? "-" : `trim 0 ${first} ${count}`);
});

test("the peaks of samples", () => {
  // 1,000 samples a second: ten for each peak.
  const samples = new Float32Array(30);
  [samples[3], samples[12], samples[19], samples[25]] = [0.5, -1, 2, -0.25];
  assert.deepEqual([...peaks.peaksOf([samples], 1000)], [0, 64, -127, 127, -32, 0]);
  assert.deepEqual([...peaks.peaksOf([samples, new Float32Array(30).fill(0.25)], 1000)], [0, 64, -127, 127, -32, 32]);
  assert.deepEqual([...peaks.peaksOf([samples], 1000, 10)], [0, 0, 0, 64, -127, 127, -32, 0], "sound that begins after the piece");
  const pieces = new Map([[0, Int8Array.from([-1, 2, -3, 4, -5, 6])]]);
  assert.deepEqual([peaks.loudest(pieces, 0, 10), peaks.loudest(pieces, 5, 15), peaks.loudest(pieces, 0, 1e6), peaks.loudest(pieces, 90, 99)], [[-1, 2], [-3, 4], [-5, 6], [0, 0]]);
  assert.deepEqual(peaks.piecesOf({ from: 59999, end: 120001 }), [0, 1, 2]);
  assert.deepEqual(peaks.piecesOf({ from: 60000, end: 120000 }), [1]);
});

test("when the sound of frames is heard", () => {
  const runs = peaks.numbered([[10, 0, 0, 400], [5, null, 400, 200], [10, 1, 1000, 400]]);
  assert.deepEqual(runs.map(({ first }) => first), [0, 10, 15]);
  assert.deepEqual(peaks.timesOf(runs, 5, 20), [{ of: 0, from: 200, end: 400 }, { of: 1, from: 1000, end: 1200 }]);
  assert.deepEqual(peaks.timesOf(runs, 11, 12), [], "silence");
  // Two pixels for four frames: the second half of the shot, which fades out.
  const blocks = [{ shot: { source: 0, first: 0, count: 4, fadeIn: 0, fadeOut: 2 }, left: 0, right: 2 }];
  assert.deepEqual(peaks.columnsOf(blocks, 10, () => runs), [
    { x: 0, level: 1, times: [{ of: 0, from: 0, end: 80 }] },
    { x: 1, level: 0.5, times: [{ of: 0, from: 80, end: 160 }] },
  ]);
  assert.deepEqual(peaks.columnsOf(blocks, 10, () => undefined), []);
});

test("where the sound of the frames of a source is", () => {
  const packets = Array.from({ length: 6 }, (_, at) => [at * 40, at ? INTER : KEY]);
  const contents = new Contents([readIvf(ivf(packets, { rate: 1000 }), () => {})], () => "");
  assert.deepEqual(runsOf(contents, 0), [[6, 0, 0, 240]]);
  contents.apply(["delete 2"], contents.unused);
  assert.deepEqual(runsOf(contents, 0), [[2, 0, 0, 80], [3, 0, 120, 120]]);
  // A packet that an edit made has the sound of the place that it fills, and else none.
  contents.apply(["insert 2 80 -"], contents.unused);
  contents.tags[6] = SHOWN;
  assert.deepEqual(runsOf(contents, 0), [[6, 0, 0, 240]]);
  contents.apply(["insert 4 0 -"], 7);
  contents.tags[7] = SHOWN;
  assert.deepEqual(runsOf(contents, 0), [[4, 0, 0, 160], [1, null, 160, 40], [2, 0, 160, 80]]);
});

/** An element of EBML: its name, a size of one byte, its content. */
const element = (name, ...content) => [...name, 0x80 | content.flat().length, ...content.flat()];
const TRACK = (number, kind) => element([0xae], element([0xd7], number), element([0x83], kind));
const CLUSTER = (time, ...blocks) => element([0x1f, 0x43, 0xb6, 0x75], element([0xe7], time >> 8, time & 255), ...blocks);
const BLOCK = (track, time, byte) => element([0xa3], 0x80 | track, time >> 8, time & 255, 0x80, byte);

test("the sound of a WebM file, a piece at a time", async () => {
  const tracks = element([0x16, 0x54, 0xae, 0x6b], TRACK(1, 1), TRACK(2, 2));
  const clusters = [...CLUSTER(0, BLOCK(1, 0, 1), BLOCK(2, 0, 7), BLOCK(2, 20, 8)), ...CLUSTER(1000, BLOCK(2, 5, 9))];
  const segment = [0x18, 0x53, 0x80, 0x67, 0x01, 0xff, 0xff, 0xff, 0xff, 0xff, 0xff, 0xff];
  const head = element([0x1a, 0x45, 0xdf, 0xa3], element([0x42, 0x86], 1));
  const sound = await new WebmSound(new Blob([Uint8Array.from([...head, ...segment, ...tracks, ...clusters])])).read();
  assert.equal(sound.hasSound, true);
  assert.deepEqual(sound.blocks.map(([time]) => time), [0, 20, 1005], "milliseconds, since no scale is named");
  const { bytes, begins } = await sound.piece(10, 2000);
  assert.equal(begins, 10);
  const again = await new WebmSound(new Blob([bytes])).read();
  // What is read again has the two blocks with the times after the first cluster's.
  assert.deepEqual([again.hasSound, again.blocks.map(([time]) => time)], [true, [20, 1005]]);
  const last = await sound.piece(1000, 2000);
  assert.deepEqual([last.begins, (await new WebmSound(new Blob([last.bytes])).read()).blocks.map(([time]) => time)], [5, [5]], "a piece begins at 0");
  assert.equal((await sound.piece(5000, 9000)).bytes.byteLength, 0);
  const mute = await new WebmSound(new Blob([Uint8Array.from([...head, ...segment, ...element([0x16, 0x54, 0xae, 0x6b], TRACK(1, 1))])])).read();
  assert.equal(mute.hasSound, false);
  assert.equal((await new WebmSound(new Blob([Uint8Array.from([1, 2, 3])])).read()).hasSound, false);
});
