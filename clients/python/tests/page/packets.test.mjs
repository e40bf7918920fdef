// The packets of files and what edits make of them; what the timeline has of them; those that are remembered and inserted.

import assert from "node:assert/strict";
import test from "node:test";
import { Check, atEnd, atHeader } from "../../wokureti/page/engines/checking.js";
import { Clipboard, pasteOf, runsOf } from "../../wokureti/page/engines/clipboard.js";
import { Causes, Contents, readIvf } from "../../wokureti/page/engines/contents.js";
import { Looks } from "../../wokureti/page/engines/looks.js";
import { Mirror } from "../../wokureti/page/engines/mirror.js";
import { Repairs } from "../../wokureti/page/engines/repairs.js";
import { EMPTY, KEY as IS_KEY, SHOWN, tagOf } from "../../wokureti/page/engines/tags.js";
import { Runs, Timeline, original } from "../../wokureti/page/engines/views.js";
import { HIDDEN, INTER, KEY, ivf } from "./files.mjs";
import { chances } from "./scripts.mjs";

const read = (...given) => readIvf(ivf(...given), () => {});
// Two key packets, a hidden one, one that is dropped.
const FIRST = [KEY, INTER, HIDDEN, INTER, [], KEY, INTER].map((data, stamp) => [stamp, data]);
const SECOND = [KEY, INTER, INTER].map((data, place) => [[0, 33, 67][place], data]);
const contentsOf = () => new Contents([read(FIRST), read(SECOND, { rate: 1000 })], () => "");

test("the tags of a packet are those of its first byte", () => {
  assert.deepEqual([tagOf(4, 0x10), tagOf(4, 0x11), tagOf(4, 0x01), tagOf(4, 0x00)], [IS_KEY | SHOWN, SHOWN, 0, IS_KEY]);
  assert.deepEqual([tagOf(0), tagOf(2, 0x10)], [SHOWN | EMPTY, SHOWN], "fewer than three bytes are no header: the picture before is shown");
});

test("an IVF file is read", () => {
  const got = [];
  const file = readIvf(ivf(FIRST, { rate: 30000, scale: 1001, width: 320, height: 180, claimed: 9 }), (bytes) => got.push(...bytes));
  assert.deepEqual(file.head, { width: 320, height: 180, rate: 30000, scale: 1001 });
  assert.deepEqual([file.count, file.bytes, file.claimed, file.cut], [7, 24, 9, null]);
  assert.deepEqual(file.stamps, [0, 1, 2, 3, 4, 5, 6]);
  assert.equal(got.length, 7 * 4 + 24, "the digest of a list is of the sizes and the bytes of the packets");
  assert.equal(file.hashes[0], file.hashes[5], "the same bytes");
  assert.notEqual(file.hashes[0], file.hashes[1]);
  assert.deepEqual(read([[0, KEY]], { more: [9, 0, 0, 0, 1, 0, 0, 0, 0, 0, 0, 0, 7] }).cut, { byte: 48, claimed: 9, left: 13 });
  assert.deepEqual(read([[0, KEY]], { more: [1, 2] }).cut, { byte: 48, claimed: null, left: 2 });
});

test("edits move the numbers of packets", () => {
  const contents = contentsOf();
  assert.deepEqual(contents.streams, [[0, 1, 2, 3, 4, 5, 6], [7, 8, 9]]);
  contents.apply(["delete 1", "delete 1", "move 0 2", "hold 1", "copy 1 2 5", "use 1", "replace 0 -", "insert 3 90 -"], contents.unused);
  assert.deepEqual(contents.streams, [[3, 10, 4, 0, 5, 11, 6], [12, 8, 9, 13]]);
  assert.deepEqual([contents.isForged(10), contents.isForged(11), contents.hashes[11] === contents.hashes[9]], [true, false, true]);
  assert.deepEqual([contents.isEdited(0), contents.isEdited(1), contentsOf().isEdited(0)], [true, true, false]);
  contents.begin();
  contents.apply(["delete 0"], 10);
  assert.deepEqual(contents.streams[0], [1, 2, 3, 4, 5, 6]);
});

test("how long packets are shown", () => {
  const contents = contentsOf();
  contents.apply(["hold 1", "use 1", "copy 0 0 3"], contents.unused);
  // Thirtieths: packet 1 is shown for two, since packet 2 is hidden; milliseconds: 33 and 34, and the last one as the lower step in the middle.
  assert.deepEqual([0, 1, 3, 6].map((number) => contents.duration(number, 0)), [1, 2, 1, 1]);
  assert.deepEqual([7, 8, 9].map((number) => contents.duration(number, 1)), [33, 34, 33]);
  assert.equal(contents.duration(0, 1), 33, "a thirtieth in milliseconds, rounded down");
  assert.equal(contents.duration(7, 0), 1, "33 ms are less than a thirtieth, and at least one tick");
  assert.equal(contents.duration(10, 0), 1, "a packet that an edit made lasts as long as most do");
  assert.equal(contents.duration(11, 1), 33, "a copy lasts as long as its packet");
});

test("what is not known of packets is asked for", () => {
  const asked = [];
  const facts = { bytes: 4, stamp: 2, kind: "key", show: "shown", size: "16x16" };
  const contents = new Contents([read(FIRST)], (line, source) => (asked.push([line, source]), `list\n${JSON.stringify(facts)}`));
  contents.apply(["replace 2 10000001"], contents.unused);
  contents.learn();
  contents.learn();
  assert.deepEqual(asked, [["list 2 1", 0]]);
  assert.deepEqual([contents.sizes[7], contents.tags[7], contents.pictures.get(7)], [4, IS_KEY | SHOWN, "16x16"]);
});

test("causes are asked for again only where edits may have changed them", () => {
  const asked = [];
  // The packet with number 1 is refused, and those after it are lost up to the next key packet, number 5.
  const contents = new Contents([read(FIRST)], () => "");
  contents.list = (source, first, count) => {
    asked.push(first);
    return contents.streams[source].slice(first, first + count).map((number, place) => {
      const before = contents.streams[source].slice(0, first + place);
      const isLost = before.lastIndexOf(1) > before.lastIndexOf(5) && number !== 5;
      return { cause: number === 1 ? "Size" : isLost ? "lost" : null };
    });
  };
  const causes = new Causes(contents);
  assert.equal(causes.goOn(1000), false);
  assert.deepEqual([causes.isWhole, causes.seen[0].causes], [true, [0, 2, 1, 1, 1, 0, 0]]);
  asked.length = 0;
  causes.follow();
  assert.deepEqual(asked, [], "nothing was edited");
  contents.apply(["delete 1"], 7);
  causes.follow();
  assert.deepEqual(causes.seen[0].causes, [0, 0, 0, 0, 0, 0]);
  contents.apply(["delete 5"], 7);
  asked.length = 0;
  causes.follow();
  assert.deepEqual([causes.seen[0].causes, asked], [[0, 0, 0, 0, 0], []], "nothing comes after the last packet");
});

test("a bar a packet, or a column for several", () => {
  const contents = contentsOf();
  contents.apply(["hold 2"], contents.unused);
  contents.tags[10] = SHOWN;
  contents.sizes[10] = 9;
  // Numbers 0 1 10 2 3 4 5 6: key, inter, forged, hidden, inter, dropped, key, refused.
  const timeline = new Timeline(contents, 0, [0, 0, 0, 0, 0, 0, 0, 2]);
  assert.deepEqual(timeline.tile(0, 1, 100), { kinds: "kifhidkr", bytes: [4, 4, 9, 4, 4, 0, 4, 4], frames: [0, 1, 2, 3, 3, 4, 5, 6], edits: [2] });
  assert.deepEqual(timeline.tile(0, 4, 100), { kinds: "fr", bytes: [9, 4], frames: [0, 3], edits: [0] });
  assert.equal(timeline.shown, 7);
  assert.deepEqual([timeline.nextKey(1), timeline.nextKey(7), timeline.keyBefore(5), timeline.keyBefore(-1)], [6, 8, 0, -1]);
  assert.deepEqual([timeline.packetOf(2), timeline.packetOf(3), timeline.packetOf(6), timeline.packetOf(7)], [2, 4, 7, null]);
  assert.deepEqual([timeline.ownFrame(3), timeline.ownFrame(7)], [3, 6], "a hidden packet has the frame of the next shown one");
  assert.deepEqual(timeline.keysOf(1, 1, 100), [0, 6], "the key packet before the columns is among them");
  timeline.damage([0, 7, 99]);
  assert.equal(timeline.tile(0, 1, 100).kinds, "pifhidkr", "what is refused is worse than damage inside");
});

test("packets that edits made are marked, and those that come after a gap", () => {
  const marks = (...lines) => {
    const contents = contentsOf();
    contents.apply(lines, contents.unused);
    contents.tags[10] = SHOWN;
    return new Timeline(contents, 0, []).tile(0, 1, 100).edits;
  };
  assert.deepEqual([marks("replace 1 -"), marks("insert 1 0 -"), marks("delete 1"), marks("delete 1", "replace 1 -")], [[1], [1], [1], [1, 2]]);
});

test("which packets the frames of a script show", () => {
  const contents = contentsOf();
  const timelines = [0, 1].map((source) => new Timeline(contents, source, []));
  // Frames 2 to 4 of source 0, all of source 1, frame 0 of source 0.
  const runs = new Runs([{ source: 0, first: 2, count: 3 }, { source: 1, first: 0, count: 3 }, { source: 0, first: 0, count: 1 }], (source) => timelines[source]);
  assert.deepEqual([0, 1, 2, 3, 6, 7].map((frame) => runs.origin(frame)), [
    { source: 0, packet: 3 }, { source: 0, packet: 4 }, { source: 0, packet: 5 }, { source: 1, packet: 0 }, { source: 0, packet: 0 }, null,
  ]);
  assert.deepEqual([runs.frameOf(0, 3), runs.frameOf(0, 2), runs.frameOf(1, 1), runs.frameOf(0, 1)], [0, 0, 4, null]);
  assert.deepEqual(runs.rangeOf(0, 0, 5), { first: 0, end: 7, places: [[0, 2], [6, 7]] });
  assert.deepEqual([runs.join(0, 1), runs.join(3, 1), runs.join(3, -1), runs.join(0, -1)], [3, 6, 0, null]);
});

test("where a packet was before the edits", () => {
  const contents = contentsOf();
  contents.apply(["delete 0", "hold 2", "hold 0"], contents.unused);
  // Numbers 11 1 2 10 3 4 5 6.
  assert.deepEqual([0, 1, 2, 3, 4].map((packet) => original(contents, 0, packet)), [0, 1, 2, 2, 3]);
  assert.equal(original(new Contents([read([])], () => ""), 0, 0), null);
});

test("numbers as runs", () => {
  assert.deepEqual(runsOf([3, 4, 5, 9, 1, 2]), [[3, 3], [9, 1], [1, 2]]);
  assert.deepEqual(runsOf([]), []);
});

test("random packets are copied and moved to where they are wanted", () => {
  const below = chances(3);
  for (let turn = 0; turn < 300; turn++) {
    const contents = contentsOf();
    const stream = [...contents.streams[0]];
    const first = below(stream.length);
    const chosen = stream.slice(first, first + 1 + below(stream.length - first));
    const at = below(stream.length + 1);
    const isMove = Boolean(below(2));
    const board = new Clipboard(contents.streams, runsOf(chosen), 0, at, () => assert.fail("nothing was deleted"));
    const { lines, first: found } = isMove ? board.moves() : board.copies();
    contents.apply(lines, 10);
    const left = (part) => part.filter((number) => !isMove || !chosen.includes(number));
    const wanted = [left(stream.slice(0, at)), isMove ? chosen : chosen.map((_, place) => 10 + place), left(stream.slice(at))];
    assert.deepEqual(contents.streams[0], wanted.flat(), `${chosen} to ${at}: ${lines}`);
    assert.equal(found, wanted[0].length);
  }
});

test("packets of other sources, and those that were deleted since", () => {
  const contents = contentsOf();
  const given = { numbers: [[7, 2]], source: 0, at: 1, move: true };
  const { lines, title, told } = pasteOf(contents.streams, 1, given, () => assert.fail());
  assert.deepEqual(lines, ["use 0", "copy 1 0 1", "copy 1 1 2", "use 1", "delete 1", "delete 0", "use 0"]);
  assert.deepEqual([title, told], ["Move 2 packets to 1", { first: 1, count: 2, deleted: 0, made: 6 }]);
  contents.apply(["delete 2"], 10);
  const again = pasteOf(contents.streams, 0, { numbers: [[1, 3]], source: 0, at: 0, move: false }, (number, at) => `insert ${at} #${number}`);
  assert.deepEqual(again.lines, ["copy 0 1 0", "insert 1 #2", "copy 0 4 2"]);
  assert.equal(again.told.deleted, 1);
});

test("what the page asks is answered from packets and script", () => {
  const looks = new Looks();
  Object.assign(looks, { contents: contentsOf(), revision: 4, scriptText: "source 1; splice 1 0", frameCount: 9, current: 0, causesOf: () => [], damaged: () => [] });
  looks.contents.name = "n";
  looks.lookAgain();
  assert.deepEqual(looks.look("origins", { from: 2, count: 2 }), { revision: 4, from: 2, sources: [1, 0], packets: [2, 0], before: [2, 0] });
  assert.deepEqual(looks.look("place", { source: 0, packet: 1 }), { revision: 4, source: 0, packet: 1, frame: 4, own: 1, before: 1 });
  assert.deepEqual(looks.look("key", { source: 0, packet: 0, step: 1 }).packet, 5);
  assert.deepEqual(looks.look("key", { source: 0, packet: 0, step: -1 }).packet, null);
  assert.deepEqual(looks.look("cut", { frame: 0, step: 1 }).frame, 3);
  assert.deepEqual(looks.look("range", { source: 0, first: 0, end: 2 }).places, [[3, 5]]);
  assert.deepEqual(looks.look("numbers", { source: 1, first: 1, count: 2 }), { revision: 4, contents: "n", numbers: [[8, 2]] });
  const { kinds, keys, packets } = looks.look("timeline", { source: 0, first: 0, per: 1, count: 1024 });
  assert.deepEqual([kinds, keys, packets], ["kihidki", [[0, 0, 0], [5, 5, 4]], 7]);
});

test("a mirror of the packets of a server follows what is told", () => {
  const text = (array) => Buffer.from(array.buffer, array.byteOffset, array.byteLength).toString("base64");
  const numbers = (...list) => text(Uint32Array.from(list));
  const bytes = (...list) => text(Uint8Array.from(list));
  const state = { instance: "a", changes: 1, revision: 1, script: "-", frames: 3, source: 0, names: ["a.ivf"] };
  const files = { counts: [3], sizes: numbers(9, 8, 7), tags: bytes(IS_KEY | SHOWN, SHOWN, SHOWN) };
  const mirror = new Mirror();
  assert.equal(mirror.take(state, { base: null, name: "1", contents: "c", files, made: [], sources: [{ numbers: [0, 0, ""], refused: [0, 0, bytes(0, 0, 2)] }] }), true);
  assert.equal(mirror.look("timeline", { source: 0, first: 0, per: 1, count: 9 }).kinds, "kir");
  // Packet 1 goes, and a packet that an edit made comes, with the number 3.
  const told = { base: "1", name: "2", contents: "c", files: null, made: [[3, 5, SHOWN, true]], sources: [{ numbers: [1, 1, numbers(3)], refused: [2, 1, bytes(0)] }] };
  assert.equal(mirror.take({ ...state, changes: 2, revision: 2 }, { ...told, base: "0" }), false, "told since packets that are not here");
  assert.equal(mirror.take({ ...state, changes: 2, revision: 2 }, told), true);
  assert.deepEqual([[...mirror.contents.streams[0]], mirror.look("timeline", { source: 0, first: 0, per: 1, count: 9 }).kinds], [[0, 3, 2], "kfi"]);
  assert.equal(mirror.take({ ...state, changes: 1, revision: 1, script: "trim 0 0 1" }, { base: null }), true);
  assert.equal(mirror.revision, 2, "an older state is not taken");
});

test("a check goes on in pieces, and its findings come once", () => {
  const replies = { "check 0 16": ['{"kind": "unread", "packet": 3, "severity": "damage"}', '{"damage": 1, "notes": 0}'], "check 16 4": ['{"kind": "stamp_repeats", "packet": 17, "severity": "note"}', '{"damage": 0, "notes": 1}'] };
  const timeline = { count: 20, keyBefore: (packet) => (packet < 10 ? 0 : 10) };
  const ask = (line) => {
    const [, first, count] = line.split(" ").map(Number);
    return `ok\n${replies[`check ${first} ${Math.min(count, 20 - first)}`].join("\n")}`;
  };
  const header = atHeader({ isIvf: true, claimed: 21, count: 20, head: { width: 16, height: 8, rate: 0, scale: 1 } }, true, "16x16");
  assert.deepEqual(header.map(({ kind, severity }) => `${severity} ${kind}`), ["note frame_count", "note frame_size", "note no_rate"]);
  const end = atEnd({ cut: { byte: 99, claimed: 7, left: 3 }, count: 20 }, true);
  const check = new Check(1, timeline, ask, header, end);
  while (!check.isOver) check.goOn();
  assert.deepEqual([check.damage, check.notes, check.done, check.inside], [2, 4, 20, [3]]);
  const { findings, groups, over } = check.members(3, 2);
  assert.deepEqual([findings.map(({ kind }) => kind), groups, over], [["unread", "stamp_repeats"], [0, 10], false]);
  assert.deepEqual([check.members(5, 9).findings.map(({ kind }) => kind), check.members(5, 9).over], [["cut_record"], true]);
  const broken = new Check(2, timeline, () => assert.fail("no session"), [], []);
  broken.goOn();
  assert.deepEqual([broken.isOver, broken.members(0, 1).failed], [true, "no session"]);
});

test("all certain repairs as one list, from the last packet to the first", () => {
  // Packets 1 and 6 are refused; the others up to the next key packet are lost. tests/repair_cases.json has the repairs of each finding.
  const contents = contentsOf();
  const repairs = new Repairs(contents, new Timeline(contents, 0, [0, 2, 1, 1, 1, 0, 2]), ["a.ivf", "b.ivf"], () => "-");
  const findings = [1, 6].map((packet) => ({ kind: "refused", severity: "damage", packet, lost: packet === 1 ? 3 : 0 }));
  const { lines, said, left } = repairs.all(findings);
  // Packet 2 is hidden: it is only deleted.
  assert.deepEqual(lines, ["hold 7", "delete 6", "hold 2", "delete 1", "delete 2", "hold 3", "delete 2", "hold 4", "delete 3"]);
  assert.deepEqual([said.length, left], [2, 0]);
  const notes = [{ kind: "past_end", severity: "damage", packet: 3 }];
  assert.deepEqual(repairs.all(notes), { lines: [], said: [], left: 1 }, "without a second recording nothing is certain");
});
