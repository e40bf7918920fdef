// Scripts: as texts, as shots, and those that a cut, a fade, a still, a join or a crop writes.

import assert from "node:assert/strict";
import test from "node:test";
import { cropped, rectangle } from "../../wokureti/page/cropping.js";
import * as cutting from "../../wokureti/page/cutting.js";
import { spaced } from "../../wokureti/page/engines/lines.js";
import * as script from "../../wokureti/page/script.js";
import * as shots from "../../wokureti/page/shots.js";
import { chances, framesOf, framesOfShots } from "./scripts.mjs";

const COUNTS = [30, 12];
const shot = (source, first, count, fadeIn = 0, fadeOut = 0) => ({ source, first, count, fadeIn, fadeOut });

test("a text is nodes, one a line or separated by `;`", () => {
  assert.deepEqual(script.nodesOf(" trim 0  0 5 \nfade 1 0 5 0 256\n;\n\n"), ["trim 0 0 5", "fade 1 0 5 0 256"]);
  assert.deepEqual(script.nodesOf("trim 0 0 5;;fade 1 0 5 0 256"), ["trim 0 0 5", "", "fade 1 0 5 0 256"], "an empty node in the middle is refused by the engine");
  assert.equal(script.lineOf("trim 0 0 5\nfade 1 0 5 0 256\n"), "script trim 0 0 5; fade 1 0 5 0 256");
  assert.equal(script.lineOf(" \n"), "script -");
  assert.equal(script.textOf("trim 0 0 5; fade 1 0 5 0 256"), "trim 0 0 5\nfade 1 0 5 0 256");
  assert.equal(script.textOf("-"), "");
  assert.equal(spaced("trim 0 0 5;fade 1 0 5 0 256"), "trim 0 0 5; fade 1 0 5 0 256");
});

test("a refusal is shown at the node that it names", () => {
  assert.equal(script.nodeOf("node 2: a number of the script is out of range"), 2);
  assert.equal(script.nodeOf("more than 16 nodes"), null);
  const text = "trim 0 0 5; splice 1 9\ncrop 2 1 0 4 4";
  assert.deepEqual([1, 2, 3].map((node) => text.slice(...script.rangeOf(text, node))), ["trim 0 0 5", " splice 1 9", "crop 2 1 0 4 4"]);
  assert.deepEqual(["crop 0 1 0 4 4", "crop 0 0 3 4 4", "crop 0 2 4 5 5", "trim 0 1 3"].map(script.isOddCrop), [true, true, false, false]);
});

test("the shots of a script", () => {
  assert.deepEqual(shots.shotsOf("-", COUNTS), { shots: [shot(0, 0, 30)], isAll: true });
  assert.deepEqual(shots.shotsOf("source 1; splice 0 1", COUNTS), { shots: [shot(0, 0, 30), shot(1, 0, 12)], isAll: true });
  // The example of docs/reference/requests.md, of a stream of 300 frames.
  assert.deepEqual(shots.shotsOf("parts 0 0 50 0 75 25 0 200 100", [300]).shots, [shot(0, 0, 50), shot(0, 75, 25), shot(0, 200, 100)]);
  assert.deepEqual(shots.shotsOf("trim 0 0 50; fade 1 25 25 256 0", [300]), { shots: [shot(0, 0, 50, 0, 25)], isAll: true });
  // Parts that follow each other in the source are one shot; frames past the end are not there.
  assert.deepEqual(shots.shotsOf("parts 0 0 10 0 10 99", COUNTS).shots, [shot(0, 0, 30)]);
  assert.equal(shots.shotsOf("crop 0 0 0 16 16", COUNTS).isAll, false);
  assert.equal(shots.shotsOf("fade 0 5 5 256 0", COUNTS).isAll, false, "a fade that ends in the middle is of no shot");
});

test("random scripts: shots are their frames, and what is written anew from shots shows the same", () => {
  const below = chances(7);
  let whole = 0;
  for (let turn = 0; turn < 400; turn++) {
    const nodes = [];
    for (let number = 0; number < 1 + below(5); number++) {
      const [a, b] = [below(number + 1), below(number + 1)];
      const length = framesOf(nodes.slice(0, a).join(";") || "-", COUNTS).length;
      const some = Math.max(1, below(length + 1));
      nodes.push([`source ${below(2)}`, `trim ${a} ${below(20)} ${1 + below(20)}`, `splice ${a} ${b}`, `parts ${a} ${below(9)} ${1 + below(9)} ${b} ${below(9)} ${1 + below(9)}`, `fade ${a} 0 ${some} 0 256`, `fade ${a} ${Math.max(0, length - some)} ${some} 256 0`][below(6)]);
    }
    const text = nodes.join(";");
    const frames = framesOf(text, COUNTS);
    const found = shots.shotsOf(text, COUNTS);
    assert.equal(shots.lengthOf(found.shots), frames.length, text);
    assert.deepEqual(framesOfShots(found.shots).map(([source, frame]) => [source, frame]), frames.map(([source, frame]) => [source, frame]), text);
    if (!found.isAll) continue;
    whole++;
    assert.deepEqual(framesOfShots(found.shots), frames, text);
    const anew = shots.nodesFor(found.shots, COUNTS);
    if (anew.length <= shots.MOST_NODES) assert.deepEqual(framesOf(anew.join(";") || "-", COUNTS), frames, `${text}: ${anew.join(";")}`);
  }
  assert.ok(whole > 100, `${whole} scripts were shots`);
});

test("ranges of frames of a script, by shots and by its last node", () => {
  const below = chances(11);
  for (const text of ["-", "source 1; splice 0 1", "parts 0 3 9 0 20 5", "fade 0 3 9 256 128", "crop 0 0 0 8 8; trim 1 4 20", "trim 0 5 40; fade 1 0 5 0 256"]) {
    const frames = framesOf(text, COUNTS);
    for (let turn = 0; turn < 40; turn++) {
      const ranges = Array.from({ length: 1 + below(3) }, () => [below(frames.length), 1 + below(frames.length)]).filter(([first, end]) => first < end);
      const wanted = ranges.flatMap(([first, end]) => frames.slice(first, end));
      assert.deepEqual(framesOf(shots.partsOver(text, ranges, COUNTS).join(";"), COUNTS), wanted, `${text}: ${ranges.join(" ")}`);
      const picked = shots.picked(shots.shotsOf(text, COUNTS).shots, ranges);
      if (picked && shots.shotsOf(text, COUNTS).isAll) assert.deepEqual(framesOfShots(picked), wanted, `${text}: ${ranges.join(" ")}`);
    }
  }
  assert.deepEqual(shots.partsOver("trim 0 5 20", [[0, 3], [10, 12]], COUNTS), ["parts 0 5 3 0 15 2"], "cut after cut adds no node");
  assert.equal(shots.picked([shot(0, 0, 10, 6, 0)], [[3, 10]]), null, "a boundary inside a fade");
});

test("shots that are joined, faded and followed", () => {
  assert.deepEqual(shots.joined([shot(0, 0, 5), shot(0, 5, 3), shot(0, 9, 1)]), [shot(0, 0, 8), shot(0, 9, 1)]);
  assert.deepEqual(shots.joined([shot(0, 0, 5, 0, 2), shot(0, 5, 3)]), [shot(0, 0, 5, 0, 2), shot(0, 5, 3)], "a fade parts them");
  assert.deepEqual(shots.fading([shot(0, 0, 30)], { first: 10, end: 20 }, true), [shot(0, 0, 10), shot(0, 10, 20, 10, 0)]);
  assert.equal(shots.fading([shot(0, 0, 15), shot(1, 0, 12)], { first: 10, end: 20 }, false), null, "frames of two shots");
  assert.deepEqual(shots.followed([shot(1, 0, 12)], 1, COUNTS), [shot(1, 0, 12), shot(1, 0, 12)]);
  assert.deepEqual(shots.unfaded([shot(0, 1, 9, 3, 2)]), [shot(0, 1, 9)]);
  assert.deepEqual(shots.nodesFor([], COUNTS), ["trim 0 0 0"], "no frames");
  assert.deepEqual(shots.nodesFor([shot(0, 0, 30)], COUNTS), [], "all frames of source 0 need no script");
});

test("keep, cut out and move are ranges of frames", () => {
  const range = { first: 3, end: 5 };
  const order = (ranges) => ranges.flatMap(([first, end]) => Array.from({ length: end - first }, (_, at) => first + at)).join("");
  assert.equal(order(cutting.ranges.kept(range)), "34");
  assert.equal(order(cutting.ranges.without(range, 8)), "012567");
  assert.equal(order(cutting.ranges.moved(range, 8, 1)), "03412567");
  assert.equal(order(cutting.ranges.moved(range, 8, 7)), "01256347");
});

test("fades, stills and joins that are more than shots", () => {
  const frames = framesOf("crop 0 0 0 8 8", COUNTS);
  const faded = framesOf(cutting.faded("crop 0 0 0 8 8", 30, { first: 10, end: 14 }, false).join(";"), COUNTS);
  assert.deepEqual(faded.map(([, , weight]) => weight), [...Array(10).fill(1), 1, 0.75, 0.5, 0.25, ...Array(16).fill(1)]);
  const held = framesOf(cutting.still("-", 30, 6, 3, false).join(";"), COUNTS);
  assert.deepEqual(held.map(([, frame]) => frame), [0, 1, 2, 3, 4, 5, 5, 5, 5, ...frames.slice(6).map(([, frame]) => frame)]);
  // The engine refuses a fade of no frames.
  const black = framesOf(cutting.still("-", 30, 0, 1000, true).join(";"), COUNTS);
  assert.equal(black.length, 1030);
  assert.deepEqual([black.filter(([, , weight]) => weight === 0).length, black[999][2], black[1000]], [1000, 0, [0, 0, 1]]);
  assert.deepEqual(framesOf(cutting.followed("trim 0 0 2", 1).join(";"), COUNTS).map(([source]) => source), [0, 0, ...Array(12).fill(1)]);
  assert.deepEqual(framesOf(cutting.followed("trim 0 0 2", 0).join(";"), COUNTS).length, 32);
});

test("a crop begins at an even column and row", () => {
  assert.deepEqual(rectangle({ x: 7.4, y: 3 }, { x: 2.6, y: 9.5 }, { width: 16, height: 8 }), { x: 2, y: 2, width: 5, height: 6 });
  assert.deepEqual(rectangle({ x: -5, y: -5 }, { x: 99, y: 99 }, { width: 35, height: 24 }), { x: 0, y: 0, width: 35, height: 24 });
  assert.deepEqual(rectangle({ x: 20, y: 20 }, { x: 20, y: 20 }, { width: 16, height: 8 }), { x: 14, y: 6, width: 2, height: 2 });
  assert.deepEqual(cropped("trim 0 0 5", { x: 2, y: 4, width: 6, height: 8 }), ["trim 0 0 5", "crop 1 2 4 6 8"]);
});
