// What the page says: findings, macroblocks, costs, keys, the address.

import assert from "node:assert/strict";
import test from "node:test";
import { namedFrom } from "../../wokureti/page/adding.js";
import { csvOf, linesOf, psnrOf, spread } from "../../wokureti/page/curves.js";
import { detailsOf, objectsOf } from "../../wokureti/page/details.js";
import { fileOf, packets, savedText } from "../../wokureti/page/editing.js";
import { Refusal, sizeOf, waited, waiting } from "../../wokureti/page/engine.js";
import { codedText, leadText } from "../../wokureti/page/exporting.js";
import { grouped, hopelessText, ordered } from "../../wokureti/page/findings.js";
import { format, parse } from "../../wokureti/page/fragment.js";
import { extend, nameOf, takes } from "../../wokureti/page/keys.js";
import { textAt } from "../../wokureti/page/loupe.js";
import { rowsOf, valueText } from "../../wokureti/page/macroblock.js";
import { Records, bitsOf, whyNone } from "../../wokureti/page/records.js";
import { jsonOf } from "../../wokureti/page/report.js";
import { placeOf, sentence } from "../../wokureti/page/sentences.js";
import * as steps from "../../wokureti/page/steps.js";
import { comparison } from "../../wokureti/page/viewer.js";
import { bytesText, stepOf } from "../../wokureti/page/window.js";
import { INTER, KEY, ivf } from "./files.mjs";

test("findings in the words of vp8list --check", () => {
  // docs/reference/lists.md has these lines.
  for (const [finding, text] of [
    [{ kind: "breaks_step", stamp: 32, before: 30, step: 1 }, "time stamp 32 follows 30, all other steps are 1"],
    [{ kind: "comes_twice" }, "the next packet has the same bytes and time stamp"],
    [{ kind: "stamp_repeats", stamp: 30 }, "time stamp 30 repeats"],
    [{ kind: "stamp_goes_back", stamp: 29, before: 30 }, "time stamp 29 goes back from 30"],
    [{ kind: "stamp_skips", stamp: 35, before: 33 }, "time stamp 35 skips from 33"],
    [{ kind: "past_end", partition: null, bytes: 3 }, "first partition: 3 bytes read past its end"],
    [{ kind: "unread", partition: 1, bytes: 9, size: 12 }, "token partition 1: 9 of 12 bytes are not read"],
    [{ kind: "cut_record", record: 8, byte: 900, left: 4 }, "record 8 at byte 900 is cut off, 4 bytes are left"],
    [{ kind: "frame_count", claimed: 9, packets: 8 }, "9 frames in the header, 8 packets"],
    [{ kind: "container", text: "a cluster is cut off" }, "a cluster is cut off"],
    [{ kind: "refused", cause: "TokenPartition 2", lost: 1 }, "refused TokenPartition 2: a partition is longer than the rest of the packet; 1 packet is lost with it"],
    [{ kind: "something_new" }, "something new"],
  ]) {
    assert.equal(sentence(finding), text);
  }
  assert.deepEqual([{ packet: 3, frame: 2 }, { packet: 3, frame: null }, { packet: null, kind: "cut_record" }, { packet: null, kind: "container" }, { packet: null, kind: "no_rate" }].map(placeOf), [
    "packet 3, frame 2", "packet 3, hidden", "end of the file", "the file", "header",
  ]);
});

test("damage before notes, up to the next key packet in one group", () => {
  const findings = [["note", 1, 0, "stamp_repeats"], ["damage", 3, 0, "refused"], ["damage", 5, 0, "unread"], ["note", 7, 6, "stamp_repeats"], ["damage", 8, 6, "refused"], ["damage", null, null, "cut_record"]].map(([severity, packet, group, kind]) => ({ severity, packet, group, kind }));
  const groups = grouped(ordered(findings));
  assert.deepEqual(groups.map(({ first, rest }) => [first.severity, first.packet, rest.length]), [["damage", 3, 1], ["damage", 8, 0], ["damage", null, 0], ["note", 1, 1]]);
  assert.match(hopelessText(1), /: 1 packet stays damaged\./);
  assert.match(hopelessText(2000), /: 2,000 packets stay damaged\./);
  assert.deepEqual(JSON.parse(jsonOf("a.ivf", { findings: findings.slice(0, 1), damage: 4, notes: 2 })), { stream: "a.ivf", damage: 4, notes: 2, findings: [{ severity: "note", packet: 1, kind: "stamp_repeats" }] });
});

test("replies of several lines", () => {
  assert.deepEqual(objectsOf('header 1\n{"a": 1}\n{"b": 2}\n'), [{ a: 1 }, { b: 2 }]);
  assert.deepEqual(detailsOf('macroblocks 1\n{"column": 0, "row": 0}\n').objects.length, 1);
  assert.deepEqual(detailsOf('header 1\n{"repeats": true}\n'), { objects: [], repeats: true, refused: null });
  assert.deepEqual(detailsOf('header 1\n{"refused": 3, "cause": "Size"}\n'), { objects: [], repeats: false, refused: { packet: 3, cause: "Size" } });
  assert.deepEqual([whyNone(3, { refused: { packet: 3, cause: "Size" } }), whyNone(4, { refused: { packet: 3, cause: "Size" } }), whyNone(4, { refused: null, repeats: true }), whyNone(4, { refused: null, repeats: false })], [
    "packet 3 is refused: Size", "packet 4 is lost with packet 3: Size", "packet 4 has no bytes: it shows the last frame again", null,
  ]);
});

test("the macroblocks of a packet", () => {
  const objects = Array.from({ length: 6 }, (_, place) => ({ column: place % 3, row: Math.floor(place / 3), token_bits: place }));
  const records = new Records(0, 7, { objects, repeats: false, refused: null });
  assert.deepEqual([records.columns, records.rows, records.at(2, 1).token_bits, records.at(3, 0), records.at(0, 2)], [3, 2, 5, null, null]);
  // 35x24 samples are 3 by 2 macroblocks, of which the last ones are cut off.
  assert.deepEqual([records.fit({ width: 35, height: 24 }), records.fit({ width: 32, height: 32 }), records.fit({ width: 48, height: 33 })], [true, false, false]);
  assert.deepEqual([bitsOf({ token_bits: 5 }), bitsOf({ token_bits: 5, mode_bits: 3 })], [5, 8]);
  assert.equal(valueText("vector", [-6, 9]), "-1.5, 2.25 samples");
  assert.deepEqual([valueText("skip", true), valueText("inner", false), valueText("coefficients", 1234), valueText("luma", "B_PRED")], ["yes", "no", "1,234", "B_PRED"]);
  assert.equal(valueText("blocks", "1100110000000000" + "1000" + "0001" + "1"), "Y 1100 1100 0000 0000\nU 1000  V 0001  Y2 1");
  assert.equal(valueText("parts", ["B_DC_PRED", ...Array(14).fill("B_TM_PRED"), [4, -8]]), "  DC   TM   TM   TM\n  TM   TM   TM   TM\n  TM   TM   TM   TM\n  TM   TM   TM 1:-2");
  assert.deepEqual(rowsOf({ samples: Uint8Array.from([1, 2, 3, 4, 5, 6]), width: 3, height: 2 }, 1, 0, 4), [[2, 3], [5, 6]]);
});

test("edits of several packets, line by line", () => {
  // Packets as letters; a held one is the letter before it in small.
  const made = (lines) => {
    const list = [..."ABCDEF"];
    for (const line of lines) {
      const [word, at] = line.split(" ");
      if (word === "delete") list.splice(Number(at), 1);
      else if (word === "hold") list.splice(Number(at), 0, "h");
      else list[Number(at)] = "-";
    }
    return list.join("");
  };
  assert.deepEqual([made(steps.deleted(1, 4)), made(steps.held(1, 4)), made(steps.heldBefore(1, 4)), made(steps.dropped(1, 4))], ["AEF", "AhhhEF", "AhhhEF", "A---EF"]);
  assert.deepEqual([steps.ofSource(["delete 1"], 1, 0), steps.ofSource(["delete 1"], 1, 1)], [["use 1", "delete 1"], ["delete 1"]]);
  assert.deepEqual([steps.hexadecimal(Uint8Array.from([0, 171])), steps.hexadecimal(new Uint8Array(0))], ["00ab", "-"]);
  assert.deepEqual([...steps.packetOf(ivf([[0, KEY], [1, INTER]]))], KEY);
  assert.deepEqual([...steps.packetOf(Uint8Array.from(INTER))], INTER);
  assert.deepEqual(["delete 3", "move 3 9", "copy 1 4 6", "use 1", "script trim 0 1 2"].map(steps.packetOfLine), [3, 9, 6, null, null]);
});

test("what an export costs", () => {
  assert.equal(codedText({ coded: 48, frames: 3455 }), "48 of 3,455 frames are coded again; all others stay as they are.");
  assert.equal(codedText({ coded: 1, frames: 2 }), "1 of 2 frames is coded again; all others stay as they are.");
  assert.equal(codedText({ coded: 2, frames: 2 }), "The script changes each of the 2 frames: all of them are coded again.");
  const lead = { first: 40, end: 41, packets: 1, bytes: 1200, length: 12.4e9, coded_bytes: 90 };
  assert.equal(leadText([lead]), "Frame 40 is 12 s after a key frame. The packets from there on can come before it, hidden: 1 packet, 1,200 bytes. Or its first 1 frame, 90 bytes now, is coded again, and nothing is hidden.");
  assert.match(leadText([lead, { ...lead, end: 44, length: 3e9 }]), /^2 parts begin between key frames, one of them 12 s after one\. .* 2 packets, 2,400 bytes\. Or their first 5 frames/);
});

test("what is saved, and where", () => {
  assert.deepEqual([packets({ first: 3, end: 4 }), packets({ first: 3, end: 6 }), fileOf("/a/b/c.ivf")], ["packet 3", "packets 3 to 5", "c.ivf"]);
  const state = { saves: [{ edited: true, file: null }], script: "-", names: ["a.ivf", "b.ivf"], edits: ["delete 3"] };
  assert.equal(savedText(state), "not saved");
  assert.equal(savedText({ ...state, saves: [{ edited: true, file: "/x/a-edited.ivf" }, { edited: true, file: null }], script: "trim 0 0 1" }), "saved to a-edited.ivf, without the script · b.ivf: not saved");
  assert.equal(savedText({ ...state, saves: [{ edited: false, file: null }] }), "nothing to save");
  assert.equal(namedFrom("/v/a/b.ivf", ["/v/a/b.ivf", "/v/c.ivf"]), "a/b.ivf");
});

test("the address has what is shown", () => {
  assert.equal(format({ frame: 12, source: 0, from: undefined, scale: 1.5, view: "pair", panel: "findings" }), "#frame=12&scale=1.5&view=pair");
  assert.deepEqual(parse("#frame=12&scale=1.5&view=pair"), { frame: 12, scale: 1.5, view: "pair" });
  assert.deepEqual(parse("#frame=-1&source=x&view=<b>&other=1&from=2.25&frame"), { from: 2.25 });
});

test("keys", () => {
  const event = (key, held = {}) => nameOf({ key, ctrlKey: false, metaKey: false, shiftKey: false, ...held });
  assert.deepEqual([event("a"), event("N", { shiftKey: true }), event("PageUp", { shiftKey: true }), event("z", { metaKey: true }), event("Z", { ctrlKey: true, shiftKey: true })], ["a", "N", "Shift+PageUp", "Ctrl+z", "Ctrl+Shift+Z"]);
  globalThis.document = { body: {} };
  globalThis.getSelection = () => ({ isCollapsed: true });
  const element = (...kinds) => ({ closest: (kind) => kinds.includes(kind), matches: (kind) => kinds.some((one) => kind.startsWith(one)) });
  assert.deepEqual([takes(element("textarea"), "x"), takes(element("textarea"), "Ctrl+s"), takes(element("button"), " "), takes(element("button"), "x"), takes(element("dialog"), "x"), takes(document.body, "x")], [true, false, true, false, true, false]);
  delete globalThis.document;
  const model = { lane: "packets", packet: 5, packets: 10, selection: null, select: (...range) => (model.selection = { first: range[0], end: range[1] }), goPacket: (packet) => (model.packet = packet) };
  const found = [1, 1, -1, -1, -1].map((step) => (extend(model, step), `${model.selection.first} ${model.selection.end}`));
  assert.deepEqual(found, ["5 7", "5 8", "5 7", "5 6", "4 6"]);
});

test("curves", () => {
  assert.equal(csvOf("bytes", [[0, 80], [1, null]]), "packet,bits\n0,80\n1,\n");
  assert.deepEqual(linesOf([10, null, 20, 40], 3, 40), [[[3.5, 0.25]], [[5.5, 0.5], [6.5, 1]]]);
  assert.deepEqual(spread(0, 10, 5), [0, 2, 4, 6, 8, 9]);
  assert.deepEqual(spread(3, 6, 100), [3, 4, 5]);
  const frame = (luma) => ({ width: 2, height: 2, samples: Uint8Array.from([luma, luma, luma, luma, 128, 128]) });
  assert.deepEqual([psnrOf(frame(10), frame(10)), psnrOf(frame(10), frame(11)).toFixed(2), psnrOf(frame(1), { ...frame(1), width: 1 })], [60, "48.13", null]);
});

test("numbers in words", () => {
  assert.deepEqual([999, 1000, 12345, 123456, 1234567].map(bytesText), ["999 B", "1.0 kB", "12.3 kB", "123 kB", "1.2 MB"]);
  assert.deepEqual([0.4, 1, 1.5, 3, 7, 11, 2001].map(stepOf), [1, 1, 2, 5, 10, 20, 5000]);
  assert.equal(comparison({ differing: 0 }), "same as before the edits, sample for sample");
  assert.equal(comparison({ psnr: { y: 30.126, u: Infinity, v: 40 }, differing: 1234, samples: 86400 }, "source 1"), "1,234 of 86,400 samples differ from source 1, PSNR Y 30.13  U ∞  V 40.00 dB");
  assert.equal(textAt({ width: 2, height: 2, samples: Uint8Array.from([16, 235, 81, 16, 128, 128]) }, null, 1, 0), "x 1, y 0\nY 235  U 128  V 128\nRGB 255, 255, 255\nmacroblock 0, 0");
  const tall = { width: 1, height: 4, samples: Uint8Array.from([1, 2, 3, 4, 90, 91, 160, 161]) };
  assert.match(textAt(tall, { ...tall, samples: tall.samples.map((value) => value + 1) }, 0, 3), /^x 0, y 3\nY 4  U 91  V 161\nbefore 5  92  162\n/);
  assert.equal(sizeOf(35, 24), 35 * 24 + 2 * 18 * 12);
});

test("refusals, and what is waited for", async () => {
  const one = new Refusal(409, { reply: "refused Size", reason: "hold: no key packet comes before" });
  assert.deepEqual([one.status, one.reply, one.message], [409, "refused Size", "no key packet comes before"]);
  assert.equal(new Refusal(500, {}).message, "status 500");
  let done;
  const found = waited("frame 3", new Promise((resolve) => (done = resolve)));
  assert.deepEqual([...waiting.values()].map(({ what }) => what), ["frame 3"]);
  done(7);
  assert.deepEqual([await found, waiting.size], [7, 0]);
  await assert.rejects(waited("frame 4", Promise.reject(one)), one);
  assert.equal(waiting.size, 0);
});
