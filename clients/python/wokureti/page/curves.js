// A curve over the timeline: a number of each packet's header, of the packets that are seen, or how much their frames
// differ from those before the edits.

import { compared } from "./colours.js";
import { objectsOf } from "./details.js";
import { find } from "./elements.js";
import { Refusal, engine, offer } from "./engine.js";

// Packets that a curve is drawn for, at most, and milliseconds for which nothing changes before they are asked for.
const MOST_PACKETS = 4000;
const QUIET = 250;
// Packets that are asked for at a time for a file.
const MOST_ASKED = 10000;
// The greatest value of each number; that of others is the greatest one that is seen. Frames that are the same have the
// greatest PSNR.
const MOST = { quantizer: 127, level: 63, psnr: 60 };
// Frames that are compared for a curve, at most, and after how many it is drawn again.
const MOST_FRAMES = 300;
const DRAWN = 10;

/** Rows of a packet and its number as CSV; a packet without a number has none. */
export function csvOf(kind, rows) {
  const name = kind === "bytes" ? "bits" : kind;
  return [
    `packet,${name}`,
    ...rows.map(([packet, value]) => `${packet},${typeof value === "number" ? value : ""}`),
    "",
  ].join("\n");
}

/** The points of a curve: a packet without a value has none, and ends a line. */
export function linesOf(values, first, most) {
  const lines = [];
  let line = null;
  values.forEach((value, place) => {
    if (typeof value !== "number") {
      line = null;
      return;
    }
    if (!line) lines.push((line = []));
    line.push([first + place + 0.5, value / most]);
  });
  return lines;
}

/** Frames of a range, spread evenly, and the last one. */
export function spread(first, end, most) {
  const step = Math.max(1, (end - first) / most);
  const found = [];
  for (let at = first; at < end; at += step) found.push(Math.floor(at));
  if (found.length && found[found.length - 1] < end - 1) found.push(end - 1);
  return found;
}

/** The PSNR of the luma of two frames in decibels, at most 60; null if they have not the same size. */
export function psnrOf(frame, before) {
  if (frame.width !== before.width || frame.height !== before.height) return null;
  return Math.min(MOST.psnr, compared(frame, before).psnr.y);
}

export class Curves {
  constructor(model, timeline, frames, player, status) {
    Object.assign(this, { model, timeline, frames, player, status });
    this.kind = "none";
    this.key = "";
    timeline.curve = null;
    find("curve-save").addEventListener("click", () => this.save().catch((error) => this.status.say(error.message)));
    find("curve").addEventListener("change", () => {
      this.kind = find("curve").value;
      find("curve-save").hidden = this.kind === "none";
      this.key = "";
      timeline.curve = null;
      timeline.redraw();
      this.soon();
    });
    model.addEventListener("session", () => this.soon());
  }

  /** The numbers are asked for once the timeline stays for a moment. */
  soon() {
    if (this.kind === "none" || !this.model.session) return;
    const { from, span, count } = this.timeline.window;
    const first = Math.max(0, Math.floor(from));
    const end = Math.min(count, Math.ceil(from + span));
    const key = `${this.kind} ${this.model.revision} ${this.model.source} ${first} ${end}`;
    if (key === this.key) return;
    this.key = key;
    clearTimeout(this.timer);
    this.timer = setTimeout(() => this.fetch(key, first, end).catch((error) => this.status.say(error.message)), QUIET);
  }

  /** Offers the numbers of the curve as CSV: of all packets, or the PSNR of those that were compared. */
  async save() {
    const { kind } = this;
    const { source, packets, session } = this.model;
    const rows = kind === "psnr"
      ? [...(this.timeline.curve?.values ?? [])].filter(([, value]) => value !== null).sort(([one], [other]) =>
        one - other,
      )
      : [];
    for (let first = 0; kind !== "psnr" && first < packets; first += MOST_ASKED) {
      const found =
        objectsOf(await engine.answer(`list ${first} ${MOST_ASKED}`, source, { waits: "the numbers of the packets" }));
      rows.push(...found.map((facts) => [facts.packet, this.valueIn(facts, kind)]));
    }
    const stem = session.names[source].replace(/\.[^.]*$/, "");
    offer(new Blob([csvOf(kind, rows)], { type: "text/csv" }), `${stem}-${kind}.csv`);
    this.status.say(`${rows.length.toLocaleString("en")} packets are in ${stem}-${kind}.csv`);
  }

  /** The number of a packet that a curve shows. */
  valueIn(facts, kind) {
    return kind === "bytes" ? 8 * facts.bytes : facts[kind];
  }

  async fetch(key, first, end) {
    if (this.kind === "psnr") {
      await this.compare(key, first, end);
      return;
    }
    if (end - first > MOST_PACKETS) {
      this.timeline.curve = null;
      this.status.say(`zoom in: a curve is drawn of ${MOST_PACKETS.toLocaleString("en")} packets at most`);
      return;
    }
    const { kind } = this;
    const found = objectsOf(await engine.answer(`list ${first} ${end - first}`, this.model.source));
    if (key !== this.key) return;
    const values = found.map((facts) => this.valueIn(facts, kind));
    const most = MOST[kind] || values.reduce((one, other) => Math.max(one, other), 1);
    this.timeline.curve = { lines: linesOf(values, first, most), most };
    this.timeline.redraw();
  }

  /** Compares frames that show these packets with those before the edits, while the page has nothing else to do. */
  async compare(key, first, end) {
    const { source } = this.model;
    const range = await engine.look("range", { source, first, end });
    const numbers = range.first === null ? [] : spread(range.first, range.end, MOST_FRAMES);
    const points = [];
    const draw = () => {
      const sorted = [...points].sort(([one], [other]) => one - other);
      const lines = [];
      for (const [packet, value] of sorted) {
        if (value === null) lines.push([]);
        else (lines[lines.length - 1] || lines[lines.push([]) - 1]).push([packet + 0.5, value / MOST.psnr]);
      }
      this.timeline.curve = { lines: lines.filter((line) => line.length), most: MOST.psnr, values: new Map(points) };
      this.timeline.redraw();
    };
    for (const [place, frame] of numbers.entries()) {
      while (this.player.isPlaying && key === this.key) await new Promise((done) => setTimeout(done, QUIET));
      if (key !== this.key) return;
      const origin = await this.model.origin(frame);
      if (!origin || origin.source !== source) continue;
      points.push([origin.packet, await this.valueOf(frame, origin)]);
      if (place % DRAWN === 0 || place === numbers.length - 1) draw();
      if (place && place % (10 * DRAWN) === 0) this.status.say(`PSNR: ${place} of ${numbers.length} frames`);
    }
    draw();
    this.status.say(`PSNR of ${points.length.toLocaleString("en")} frames against those before the edits`);
  }

  /** The PSNR of a frame; null if it, or the frame before, is refused or has none. */
  async valueOf(frame, { source, before }) {
    if (before === null) return null;
    try {
      const [now, then] = await Promise.all([this.frames.get(frame), this.frames.before(source, before)]);
      return psnrOf(now, then);
    } catch (error) {
      if (error instanceof Refusal && error.status < 500) return null;
      throw error;
    }
  }
}
