// The engine in the browser: the library in WebAssembly, in a worker. A second worker has files as they were opened,
// previews and exports; it is there as long as it is asked.

import { toColour } from "../colours.js";
import { find } from "../elements.js";
import { OPENING, Refusal, offer, use, waited } from "../engine.js";
import { writeRecent } from "../recent.js";
import { PIECE } from "../peaks.js";
import { notice } from "../status.js";
import { Channel } from "./channel.js";
import { NO_ENCODER, canEncode, check, encoded } from "./encoding.js";
import * as kept from "./kept.js";
import { baseOf } from "./rates.js";
import { WebmSound } from "./webm_sound.js";

// Milliseconds after which the second worker ends if it is not asked.
const IDLE = 60000;
// Frames that are coded together, and decibels that each has at least if nothing is said.
const TOGETHER = 8;
const USUAL = 45;
// Bytes of a file above which the page says that it is large: its packets are in the memory, and while it is opened
// twice.
const LARGE = 1 << 29;
// Lists of edits that are offered before a file is open.
const MOST_RECENT = 10;

/** What the engine has: the workers, the files, and the state that was told last. */
const own = {
  module: null,
  main: null,
  beside: null,
  timer: 0,
  sources: [],
  about: null,
  session: null,
  // The sound of each file, once it is asked for.
  sounds: new Map(),
  // The part of a file that is read, or null, how far an export is, and why this page only looks.
  opening: null,
  exporting: null,
  only: "",
  heard: (name, changes) => {},
  found: (members) => {},
  release: async () => {},
};
let isOpen;
const opened = new Promise((resolve) => (isOpen = resolve));

async function compiled() {
  const packed = Uint8Array.from(atob(find("module-text").textContent.trim()), (letter) => letter.charCodeAt(0));
  const bytes = new Response(new Blob([packed]).stream().pipeThrough(new DecompressionStream("gzip"))).arrayBuffer();
  try {
    return await WebAssembly.compile(await bytes);
  } catch (error) {
    throw new Error(
      `The engine does not start: ${error.message}. It needs WebAssembly with vectors, as Chromium 91, Firefox 113 ` +
        "and Safari 16.4 have it.",
    );
  }
}

async function channel(heard) {
  own.module ??= compiled();
  const made = new Channel(find("worker-text").textContent, heard);
  await made.call("start", [await own.module]);
  return made;
}

/** The worker with the sessions beside the stream. */
async function beside() {
  clearTimeout(own.timer);
  own.timer = setTimeout(leave, IDLE);
  own.beside ??= channel().then(async (made) => {
    await made.call("beside", [own.sources]);
    return made;
  });
  return own.beside;
}

function leave() {
  clearTimeout(own.timer);
  own.beside?.then((made) => made.end()).catch(() => {});
  own.beside = null;
}

// Opening, and what is kept

/** Only one tab edits a stream; others look. */
async function lock(digest) {
  await own.release();
  own.only = "";
  own.release = async () => {};
  if (!navigator.locks) return;
  await new Promise((resolve) => {
    const held = navigator.locks.request(`wokureti ${digest}`, { ifAvailable: true }, (found) => {
      if (!found)
        own.only =
          "This stream is open in another tab, which edits it: this one only looks. Close the other one, and open " +
          "the file again.";
      resolve();
      return found ? new Promise((done) => (own.release = () => (done(), held))) : null;
    });
  });
  if (own.only) notice(own.only, { isBad: true, id: "only" });
}

/** Says how much of the files is read, and null at the end. */
function reading(part) {
  own.opening = part;
  find("welcome-text").textContent = part === null ? "" : `reading: ${Math.floor(100 * part)} %`;
}

/** Opens files in the place of those that are open. If one is refused, all is as before. */
async function open(sources) {
  const fresh = await channel((said) => {
    if (said.event === "opening") reading(said.part);
    else if (fresh === own.main) own.found(said.members);
  });
  try {
    const about = await fresh.call("open", [sources, own.session?.revision ?? 0]);
    await lock(about.digest);
    own.main?.end();
    leave();
    Object.assign(own, { main: fresh, sources, about, sounds: new Map() });
    const text = await kept.read(about.digest).catch(() => null);
    // A list that is not taken stays, under another name.
    if (text !== null && !(await fresh.call("take", [text])).isTaken)
      await kept.write(`${about.digest} ${Date.now()}`, text).catch(() => {});
  } catch (error) {
    if (own.main !== fresh) fresh.end();
    throw error;
  } finally {
    reading(null);
  }
  own.session = await fresh.call("state");
  await fresh.call("begin");
  find("welcome").hidden = true;
  document.body.classList.remove("is-empty");
  isOpen();
  own.heard("edit", own.session.changes);
}

/** A sentence about large files, which stays while they are read; or null. */
function warnOf(files) {
  const size = files.reduce((sum, file) => sum + file.size, 0);
  if (size <= LARGE) return null;
  return notice(
    `${(size / 2 ** 30).toFixed(2)} GiB are read into the memory, and twice as much is needed while that goes on. ` +
      `If this tab ends, open the file with \`wokureti open\`.`,
    { id: "large", stays: true },
  );
}

/** Opens files that were dropped or chosen, if none is open. */
async function take(files) {
  if (own.session || !files.length) return false;
  const warning = warnOf(files);
  try {
    await waited(OPENING, open(files));
  } catch (error) {
    notice(error.message, { isBad: true, id: "opened" });
  } finally {
    warning?.remove();
  }
  return true;
}

async function add(file) {
  const warning = warnOf([file]);
  const { about, ...found } = await waited(OPENING, own.main.call("add", [file])).finally(() =>
    (reading(null), warning?.remove()),
  );
  leave();
  own.sources = [...own.sources, file];
  own.about = about;
  return keep({ ...found, text: about.text });
}

/** Keeps the list of edits before a change is shown. */
async function keep({ text, ...found }) {
  try {
    await kept.write(own.about.digest, text, own.about.name, found.session.edits_before + found.session.edits.length);
    if (found.session.unwritten) await own.main.call("unwritten", [0]);
    found.session.unwritten = 0;
  } catch (error) {
    found.session.unwritten = found.session.edits.length;
    await own.main.call("unwritten", [found.session.unwritten]);
    notice(
      `This browser does not keep the edits: ${error.message}. Save before you close this tab.`,
      { isBad: true, id: "kept" },
    );
  }
  own.session = found.session;
  return found;
}

function checkOpen() {
  if (!own.session) throw new Refusal(409, { error: "no file is open: drop one on the page" });
}

async function edited(name, given) {
  checkOpen();
  if (own.only) throw new Refusal(409, { error: own.only });
  return waited("edit", own.main.call(name, given).then(keep));
}

// Pictures

async function linesAfter(lines, revision) {
  if (revision !== undefined && revision !== own.session.revision)
    throw new Refusal(412, { error: "the stream was changed" });
  return [...(await own.main.call("lines")), ...lines];
}

async function asked(list, { of = null, lines = null, revision = undefined, low = false, signal = undefined }) {
  const how = { low, signal };
  if (!of && !lines) return own.main.call("frames", [list], how);
  if (of?.before !== undefined) return (await beside()).call("beside.before", [of.before, list], how);
  if (!of) return (await beside()).call("beside.frames", [await linesAfter(lines, revision), list], how);
  const found = await own.main.call("aside", [of.packets, list[0], lines], how);
  if (found.frame === null) return (await beside()).call("beside.packet", [found.lines, of.packets, list[0]], how);
  return (await beside()).call("beside.frames", [found.lines, [found.frame]], how);
}

async function frames(list, given = {}) {
  await opened;
  return waited(given.low ? "" : `frame ${list[0]}`, asked(list, given));
}

// Long work

/** What an export costs. */
async function costs(signal) {
  checkOpen();
  const { frames: count, coded, leads } = await own.main.call("plan", [], { signal });
  const encoder = (await canEncode(640, 360)) ? "VideoEncoder" : null;
  return { frames: count, coded, leads, sounds: false, encoder, why: encoder ? "" : NO_ENCODER };
}

async function findingsAfter({ lines = [], packet = 0, revision = undefined }, signal) {
  return {
    revision,
    findings: await (await beside()).call("beside.findings", [await linesAfter(lines, revision), packet], { signal }),
  };
}

async function task(kind, query = {}, { waits = "", signal = undefined } = {}) {
  if (kind === "costs") return waited(waits, costs(signal));
  if (kind === "check") return findingsAfter(query, signal);
  await opened;
  return waited(waits, own.main.call("task", [kind, query], { signal }));
}

// Files

/** A file that a person chose to write to, or null: the browser then keeps it as a download. */
async function chosen(name) {
  if (!window.showSaveFilePicker) return null;
  try {
    return await window.showSaveFilePicker({ suggestedName: name });
  } catch (error) {
    if (error.name === "AbortError") throw new Refusal(409, { error: "no file was chosen, so nothing was written" });
    return null;
  }
}

/** Writes pieces to a file, and returns its name. */
async function written(handle, pieces, name) {
  if (!handle) {
    offer(new Blob(pieces, { type: "video/x-ivf" }), name);
    return name;
  }
  const file = await handle.createWritable();
  for (const piece of pieces) await file.write(piece);
  await file.close();
  return handle.name;
}

async function save(source, page) {
  checkOpen();
  const { file, next } = own.session.saves[source];
  const handle = await chosen(file ?? next);
  const { pieces, name, renumbered } = await waited("the packets to be saved", own.main.call("save", [source]));
  const reply = await written(handle, pieces, file ?? name);
  const found = await own.main.call("savedAs", [source, reply, page]);
  own.session = found.session;
  return { reply, renumbered, ...found };
}

/** What an export has, in words. */
function saidOf(pieces) {
  const bytes = new Uint8Array(pieces.reduce((sum, { length }) => sum + length, 0));
  pieces.reduce((at, piece) => (bytes.set(piece, at), at + piece.length), 0);
  const view = new DataView(bytes.buffer);
  const [rate, scale] = [view.getUint32(16, true), view.getUint32(20, true)];
  const stamps = [];
  let [count, hidden] = [0, 0];
  for (let at = 32; at + 12 <= bytes.length; at += 12 + view.getUint32(at, true)) {
    count++;
    const size = view.getUint32(at, true);
    if (size >= 3 && !(bytes[at + 12] & 16)) hidden += size;
    else stamps.push(Number(view.getBigUint64(at + 4, true)));
  }
  const seconds = stamps.length > 1 ? ((2 * stamps.at(-1) - stamps.at(-2)) * scale) / rate : scale / rate;
  const many = (number) => number.toLocaleString("en");
  const without = count - stamps.length;
  return `${seconds.toFixed(3)} s, ${many(stamps.length)} frames, in ${many(count)} packets, ` +
    `${without ? `${many(without)} of them hidden: ${many(hidden)} bytes` : "none of them hidden"}`;
}

/** The frames of a piece that is coded, as packets, and the PSNR of each. */
async function codedPiece({ lines, head }, { first, count }, { psnr, signal }) {
  const ask = async (name, given) => {
    check(signal);
    return (await beside()).call(`beside.${name}`, given, { signal });
  };
  const frames = (from) => ask("frames", [
    lines,
    Array.from({ length: Math.min(TOGETHER, count - from) }, (_, at) => first + from + at),
  ]);
  const measure = async (packets, least, got) => {
    await ask("coded", [head, packets]);
    const found = [];
    for (let from = 0; from < count && found.length === from; from += TOGETHER) {
      found.push(...(await ask("measure", [lines, first, from, Math.min(TOGETHER, count - from), least])));
      got(found.length);
      if (found.at(-1) < least) break;
    }
    return found;
  };
  const since = performance.now();
  const what = (turn) =>
    `coding ${count.toLocaleString("en")} frames from frame ${first.toLocaleString("en")} on, try ${turn}`;
  const told = (turn, done) =>
    (own.exporting = { what: what(turn), done, total: count, seconds: (performance.now() - since) / 1000 });
  const [{ samples }] = await ask("frames", [lines, [first]]);
  const [rate, scale] = baseOf(head);
  return encoded(frames, count, measure, {
    least: psnr,
    framerate: Math.min(120, Math.max(1, rate / scale)),
    samples: samples.length,
    signal,
    told,
  });
}

/** The frames that are shown, of which those that the script changes are coded again, and those of leads if that is
 * wanted. */
async function coded(how, signal) {
  const psnr = Number(how.psnr ?? USUAL);
  if (!(psnr >= 20 && psnr <= 60)) throw new Refusal(400, { error: "the decibels are 20 to 60" });
  const plan = await own.main.call("plan", [how.lead === "coded"]);
  if (plan.isFull)
    throw new Refusal(409, { error: "8 streams are read, and the coded frames are one more: join some first" });
  const found = [];
  for (const piece of plan.pieces.filter(({ isCoded }) => isCoded))
    found.push(await codedPiece(plan, piece, { psnr, signal }));
  own.exporting = null;
  const packets = found.flatMap((one) => one.packets);
  const decibels = found.flatMap((one) => one.psnr);
  const pieces = await (await beside()).call("beside.exportCoded", [plan.lines, plan, packets], { signal });
  const many = (number) => number.toLocaleString("en");
  const size = packets.reduce((sum, { length }) => sum + length, 0);
  const mean = decibels.reduce((sum, one) => sum + one, 0) / decibels.length;
  const quality =
    `PSNR ${decibels.reduce((least, one) => Math.min(least, one)).toFixed(1)} dB at least and ${mean.toFixed(1)} dB ` +
    "in the mean";
  return {
    pieces,
    said:
      `${saidOf(pieces)}; ${many(packets.length)} of ${many(plan.frames)} frames are coded again, in ${many(size)} ` +
      `bytes, ${quality}; all others stay as they are`,
  };
}

async function exported({ signal = undefined, how = null }) {
  const name = `${own.about.name.replace(/\.[^.]*$/, "")}-export.ivf`;
  const handle = await chosen(name);
  // Whoever stops it ends the worker, which hears nothing while it is in a call.
  signal?.addEventListener("abort", leave);
  try {
    if (how) {
      const { pieces, said } = await coded(how, signal);
      return { file: null, name: await written(handle, pieces, name), said };
    }
    const lines = await own.main.call("lines");
    const pieces = await (await beside()).call("beside.export", [lines], { signal });
    return { file: null, name: await written(handle, pieces, name), said: saidOf(pieces) };
  } finally {
    own.exporting = null;
  }
}

async function file(kind, given = {}) {
  checkOpen();
  if (kind === "export") return exported(given);
  return {
    file: new Blob([await own.main.call("cuts")], { type: "text/csv" }),
    name: `${own.about.name.replace(/\.[^.]*$/, "")}-cuts.csv`,
  };
}

/** The sound of a file, of which only the pictures are in the worker. */
async function wave(source, piece) {
  const file = own.sources[source];
  if (!own.sounds.has(file)) own.sounds.set(file, new WebmSound(file).read());
  const sound = await own.sounds.get(file);
  return sound.hasSound ? sound.piece(piece * PIECE, (piece + 1) * PIECE) : null;
}

async function pngOf(number) {
  const [frame] = await frames([number]);
  const canvas = document.createElement("canvas");
  [canvas.width, canvas.height] = [frame.width, frame.height];
  canvas
    .getContext("2d")
    .putImageData(new ImageData(new Uint8ClampedArray(toColour(frame).buffer), frame.width, frame.height), 0, 0);
  return new Promise((resolve) => canvas.toBlob(resolve, "image/png"));
}

async function offered(kind, number) {
  checkOpen();
  const stem = own.about.name.replace(/\.[^.]*$/, "");
  if (kind === "png") return offer(await pngOf(number), `frame-${number}.png`);
  return offer(new Blob([await own.main.call("text")], { type: "text/plain" }), `${stem}.edits`);
}

async function answer(line, source, { waits = "", signal = undefined } = {}) {
  await opened;
  return waited(waits, own.main.call("answer", [line, source], { signal }));
}

async function look(what, query, { waits = "" } = {}) {
  await opened;
  return waited(waits, own.main.call("look", [what, query]));
}

async function state() {
  await opened;
  own.session = await own.main.call("state");
  return own.session;
}

use({
  isOver: "browser",
  answer,
  look,
  state,
  frames,
  task,
  save,
  file,
  take,
  add,
  instead: (sources) => waited(OPENING, open([sources])),
  ask: (lines, given) => edited("ask", [lines, given]),
  paste: (members) => edited("paste", [members]),
  link: () => null,
  offer: offered,
  sound: () => null,
  hasWave: (session, source) => source < own.sources.length,
  wave,
  progress: async () => ({
    doing: null,
    opening: own.opening === null ? null : { what: "reading", done: own.opening, total: 1 },
    exporting: own.exporting ?? undefined,
  }),
  changed(heard, found) {
    Object.assign(own, { heard, found });
  },
});

/** The page before a file is open. */
function welcome() {
  const input = find("welcome-file");
  for (const id of ["welcome", "about", "list-save"]) find(id).hidden = false;
  document.body.classList.add("is-empty");
  find("add-source").title = "Open another stream, as the next source or in the place of this one";
  find("welcome-open").addEventListener("click", () => input.click());
  input.addEventListener("change", () => take([...input.files]));
  const pick = ({ name }) => {
    find("welcome-text").textContent = `Choose ${name} again: its edits are there then.`;
    input.click();
  };
  kept.recent(MOST_RECENT).then((entries) => writeRecent(entries, pick)).catch(() => {});
}

welcome();
