// Small pictures of the frames that are shown, along the programme. Each is that of a frame in its place: a key frame
// if there is one, since that is decoded by itself.

import { toColour } from "./colours.js";
import { find } from "./elements.js";
import { engine } from "./engine.js";
import { nodesOf } from "./script.js";

// Pixels of a place, and how many pictures are stored.
const WIDE = 76;
const MOST_PICTURES = 300;
// Milliseconds for which nothing changes before pictures are fetched, and before those from before an edit of packets
// are fetched again.
const QUIET = 350;
const RENEW = 5000;
// Frames that are decoded for a picture, at most: else it is that of the key frame before, of which there may be one in
// hours.
const MOST_DECODED = 600;
// Frames of a place of which any picture that is here will do, at most.
const MOST_LOOKED = 256;

/** The frames of the places that the programme has room for: pairs of the first one and the one after the last. */
export function placesOf(window) {
  const found = /** @type {[number, number][]} */ ([]);
  for (let left = 0; left + WIDE / 2 <= window.width; left += WIDE) {
    const [first, end] = [left, left + WIDE].map((pixel) =>
      Math.min(window.count, Math.max(0, window.packetAt(pixel))),
    );
    if (first >= window.count) break;
    found.push([first, Math.max(first + 1, end)]);
  }
  return found;
}

/** What of a session changes the pictures of its packets. */
export function packetsOf({ instance, edits, edits_before: before }) {
  return `${instance} ${before} ${edits.filter((line) => !line.startsWith("script")).join("\n")}`;
}

/** What of a script changes pictures. */
function looksOf(script) {
  return nodesOf(script).filter((node) => /^(crop|fade) /.test(node)).join(";");
}

export class Thumbs {
  constructor(model, programme, timeline) {
    Object.assign(this, { model, programme, timeline });
    // For each name the picture, or null if it is refused, and the packets that it is of.
    this.found = new Map();
    [this.wanted, this.shown] = [[], []];
    // The revision whose frames the wanted pictures are of.
    this.revision = null;
    // The packets that were shown last, and whether a picture from near its place will do: packets were edited, and
    // pictures are fetched again soon.
    this.packets = null;
    this.isLoose = false;
    this.isOn = true;
    programme.thumbs = this;
    find("thumbs-switch").addEventListener("click", () => this.toggle());
    for (const name of ["session", "frame", "packet"]) model.addEventListener(name, () => this.later());
  }

  toggle() {
    this.isOn = !this.isOn;
    find("thumbs-switch").setAttribute("aria-pressed", String(this.isOn));
    this.key = "";
    this.programme.redraw();
  }

  /** Those that are here are shown. Others are fetched once nothing changes for a moment, and not in playback. */
  soon() {
    const { model, programme } = this;
    const { from, scale, width, count } = programme.window;
    const key = `${from} ${scale} ${width} ${count} ${model.session.script}`;
    if (key === this.key || !this.isOn || !programme.box.clientHeight) return;
    const keys = this.timeline.keys();
    // The lanes are drawn again when packets are here, and when playback ends.
    if (keys === undefined || model.isPlaying) return;
    this.key = key;
    // What was refused may be there now.
    if (this.revision !== model.revision)
      for (const [name, { picture }] of this.found) if (!picture) this.found.delete(name);
    this.revision = model.revision;
    const packets = packetsOf(model.session);
    this.isLoose = this.isLoose || (this.packets !== null && packets !== this.packets);
    this.packets = packets;
    const looks = looksOf(model.session.script);
    let last = null;
    this.wanted = placesOf(programme.window).map((place) => (last = this.wantedOf(place, keys, looks, last)));
    this.shown = this.wanted.map((one) => one?.name ?? null);
    programme.redraw();
    clearTimeout(this.timer);
    this.timer = setTimeout(() => this.fetch(key).catch(() => {}), QUIET);
  }

  /** Whether pictures that are shown are still to come, or it is not known yet which ones. */
  get isWanting() {
    return this.isOn && (!this.key || this.wanted.some((one) => one && !this.found.has(one.name)));
  }

  /** Pictures of packets that were edited since are fetched again once nothing is done. */
  later() {
    clearTimeout(this.renewing);
    this.renewing = setTimeout(() => {
      if (!this.isLoose || this.model.isPlaying) return;
      for (const [name, { packets }] of this.found) if (packets !== this.packets) this.found.delete(name);
      this.isLoose = false;
      this.key = "";
      this.soon();
    }, RENEW);
  }

  async fetch(key) {
    const { packets, revision } = this;
    for (const one of this.wanted) {
      if (key !== this.key) return;
      if (!one || this.found.has(one.name)) continue;
      const { picture, of } = await this.small(one.number, one.of);
      // The stream was changed meanwhile, and its frames have other numbers: the answer may be before the news.
      if ((of ?? this.model.revision) !== revision) {
        this.key = "";
        this.programme.redraw();
        return;
      }
      this.found.set(one.name, { picture, packets });
      this.trim();
      this.programme.redraw();
    }
  }

  /** The frame whose picture is shown in a place: its name, and what is asked for. */
  wantedOf([first, end], keys, looks, last) {
    const { model, programme } = this;
    const middle = (first + end) >> 1;
    const shot = programme.at(middle);
    if (!shot) return null;
    const { source, number } = shot;
    const [from, to] = [Math.max(first, shot.from), Math.min(end, shot.end)].map((frame) => frame - middle + number);
    const mine = source === model.source ? keys : [];
    const names = new Map(mine.map((key) => [key.frame, key.name]));
    const nameOf = (frame) => `${names.get(frame) ?? `${source} ${frame}`} ${looks}`;
    const found = (frame) => ({ name: nameOf(frame), number: middle + frame - number, source, frame });
    const within = mine.find(({ frame }) => frame >= from && frame < to);
    if (within) return found(within.frame);
    const slack = this.isLoose ? to - from : 0;
    for (let far = 0; far <= Math.min(MOST_LOOKED, to - from + slack); far++) {
      for (const frame of [number - far, number + far])
        if (frame >= from - slack && frame < to + slack && this.found.has(nameOf(frame))) return found(frame);
    }
    const key = mine.findLast(({ frame }) => frame <= number);
    const before = Math.max(last?.source === source && last.frame <= number ? last.frame : 0, key?.frame ?? 0);
    if (number - before <= MOST_DECODED) return found(number);
    return key ? { name: `${key.name} ${looks}`, number: key.packet, of: { packets: source } } : null;
  }

  /** A small picture, or null if it is refused; and of which revision a frame is, of a packet nothing. */
  async small(number, of) {
    try {
      const [frame] = await engine.frames([number], { of, low: true });
      const { width, height } = frame;
      const data = new ImageData(new Uint8ClampedArray(toColour(frame).buffer), width, height);
      const picture = await createImageBitmap(data, {
        resizeHeight: 64 * Math.ceil(devicePixelRatio || 1),
        resizeQuality: "medium",
      });
      return { picture, of: of ? undefined : frame.revision };
    } catch {
      return { picture: null };
    }
  }

  trim() {
    for (const name of this.found.keys()) {
      if (this.found.size <= MOST_PICTURES) return;
      if (!this.shown.includes(name)) this.found.delete(name);
    }
  }

  /** Draws them from a height on. */
  draw(context, top, tall) {
    const pictures = this.isOn ? this.shown.map((name) => this.found.get(name)?.picture) : [];
    pictures.forEach((picture, place) => {
      if (!picture) return;
      // The middle of a picture that is wider than its place.
      const wide = Math.min(WIDE - 1, (picture.width * tall) / picture.height);
      const part = (wide * picture.height) / tall;
      context.drawImage(
        picture,
        (picture.width - part) / 2,
        0,
        part,
        picture.height,
        place * WIDE + (WIDE - 1 - wide) / 2,
        top,
        wide,
        tall,
      );
    });
    this.programme.canvas.dataset.pictures = pictures.filter(Boolean).length;
  }
}
