// The packets of a source as the timeline draws them, and which packet of which file a frame shows.

import { EMPTY, KEY, SHOWN } from "./tags.js";

// Kinds of packets, each one worse than those before it: a column of several packets has the kind of its worst.
const LETTERS = "ihkfdplr";
const [INTER, HIDDEN, KEY_PACKET, FORGED, DROPPED, DAMAGED, LOST, BROKEN] = [0, 1, 2, 3, 4, 5, 6, 7];
// Of columns of several packets, so many have one of their key packets named.
const KEY_COLUMNS = 16;

/** The place of the first number that is at least a value, in a list that ascends. */
export function firstAt(list, value) {
  let [low, high] = [0, list.length];
  while (low < high) {
    const middle = (low + high) >> 1;
    if (list[middle] < value) low = middle + 1;
    else high = middle;
  }
  return low;
}

function kindOf(tags) {
  if (tags & EMPTY) return DROPPED;
  if (!(tags & SHOWN)) return HIDDEN;
  return tags & KEY ? KEY_PACKET : INTER;
}

export class Timeline {
  /** `causes` are those against the packets as far as they are listed. */
  constructor(contents, source, causes) {
    const stream = contents.streams[source];
    const count = stream.length;
    this.stream = stream.slice();
    this.causes = causes;
    this.kinds = new Uint8Array(count);
    this.sizes = new Uint32Array(count);
    this.keys = new Uint8Array(count);
    this.edited = new Uint8Array(count);
    // For each packet how many shown ones come before it.
    this.frames = new Uint32Array(count + 1);
    let [before, last] = [contents.bases[source] - 1, -1];
    for (let place = 0; place < count; place++) {
      const number = stream[place];
      const tags = contents.tags[number];
      const cause = causes[place];
      this.kinds[place] = cause ? (cause === 1 ? LOST : BROKEN) : contents.isForged(number) ? FORGED : kindOf(tags);
      this.sizes[place] = contents.sizes[number];
      this.keys[place] = tags & KEY;
      this.frames[place + 1] = this.frames[place] + (tags & SHOWN ? 1 : 0);
      if (!contents.isOfFile(source, number)) {
        this.edited[place] = 1;
        continue;
      }
      // After packets that edits made, a packet of the file is marked only if it neither follows the one before them,
      // nor has its number.
      this.edited[place] = number - before === 1 || number - before === place - last ? 0 : 1;
      [before, last] = [number, place];
    }
  }

  get count() {
    return this.stream.length;
  }

  get shown() {
    return this.frames[this.count];
  }

  /** Marks packets that are read past their end, or not to it. */
  damage(packets) {
    for (const place of packets) if (place < this.count) this.kinds[place] = Math.max(this.kinds[place], DAMAGED);
  }

  /** Columns of `per` packets each: the worst kinds, the largest sizes, the frames, and which are edited. */
  tile(first, per, count) {
    const end = Math.min(this.count, first + per * count);
    const found = { kinds: "", bytes: [], frames: [], edits: [] };
    for (let start = first; start < end; start += per) {
      let [kind, size, isEdited] = [0, 0, 0];
      for (let place = start; place < Math.min(end, start + per); place++) {
        if (this.kinds[place] > kind) kind = this.kinds[place];
        if (this.sizes[place] > size) size = this.sizes[place];
        isEdited |= this.edited[place];
      }
      if (isEdited) found.edits.push(found.bytes.length);
      found.kinds += LETTERS[kind];
      found.bytes.push(size);
      found.frames.push(this.frames[start]);
    }
    return found;
  }

  /** The last key packet before columns, and those in them: all, or if a column has several packets the last one of
   * every 16 columns. */
  keysOf(first, per, count) {
    const end = Math.min(this.count, first + per * count);
    const places = [first ? this.keys.lastIndexOf(1, first - 1) : -1];
    if (per === 1) {
      for (let place = first; place < end; place++) if (this.keys[place]) places.push(place);
    } else {
      const step = KEY_COLUMNS * per;
      for (let start = first; start < end; start += step) {
        const place = this.keys.lastIndexOf(1, Math.min(end, start + step) - 1);
        if (place >= start) places.push(place);
      }
    }
    return places.filter((place) => place >= 0);
  }

  /** The next key packet, or the number of packets; the one at or before a packet, or -1. */
  nextKey(index) {
    const found = this.keys.indexOf(1, index);
    return found < 0 ? this.count : found;
  }

  keyBefore(index) {
    return index < 0 ? -1 : this.keys.lastIndexOf(1, index);
  }

  /** The frame of the source that shows a packet, or the next shown one after it, or else its last frame. */
  ownFrame(packet) {
    return Math.max(0, Math.min(this.frames[packet], this.shown - 1));
  }

  /** The packet that is shown as a frame, or null. */
  packetOf(frame) {
    if (frame < 0 || frame >= this.shown) return null;
    return firstAt(this.frames, frame + 1) - 1;
  }
}

/** Where the frames of the script come from: runs of frames that follow each other in a source. */
export class Runs {
  /** `shots` have a source, a first frame and a count. */
  constructor(shots, timelines) {
    this.timelines = timelines;
    this.shots = shots;
    this.ends = [];
    for (const { count } of shots) this.ends.push((this.ends.at(-1) ?? 0) + count);
  }

  /** The source and the packet that a frame shows, or null. */
  origin(frame) {
    const place = this.ends.findIndex((end) => frame < end);
    if (place < 0) return null;
    const { count, source, first } = this.shots[place];
    return { source, packet: this.timelines(source).packetOf(first + frame - (this.ends[place] - count)) };
  }

  /** The first frame that shows a packet, or the next shown one after it; null if the script shows neither. */
  frameOf(source, packet) {
    const timeline = this.timelines(source);
    const shown = timeline.frames[Math.min(packet, timeline.count)];
    for (const [place, shot] of this.shots.entries()) {
      if (shot.source === source && shot.first <= shown && shown < shot.first + shot.count)
        return this.ends[place] - shot.count + shown - shot.first;
    }
    return null;
  }

  /** The frames from the first one that shows one of these packets to the last one, and the places of those that do. */
  rangeOf(source, first, end) {
    const { frames } = this.timelines(source);
    const found = [];
    this.shots.forEach((shot, place) => {
      const low = Math.max(shot.first, frames[first]);
      const high = Math.min(shot.first + shot.count, frames[end]);
      const start = this.ends[place] - shot.count - shot.first;
      if (shot.source === source && low < high) found.push([start + low, start + high]);
    });
    const places = [];
    for (const one of found.sort(([a], [b]) => a - b)) {
      if (places.length && places.at(-1)[1] === one[0]) places.at(-1)[1] = one[1];
      else places.push(one);
    }
    return { first: places[0]?.[0] ?? null, end: places.at(-1)?.[1] ?? null, places };
  }

  /** The next frame that begins a run, or the one before; null if there is none. */
  join(frame, step) {
    const starts = [0, ...this.ends.slice(0, -1)];
    return (step > 0 ? starts.find((start) => start > frame) : starts.findLast((start) => start < frame)) ?? null;
  }
}

/** The index that a packet had in its file, or that of the packet that was there in the place of one that an edit made;
 * null if there is none. */
export function original(contents, source, packet) {
  const stream = contents.streams[source];
  const base = contents.bases[source];
  const { count } = contents.files[source];
  if (!count) return null;
  let place = packet;
  while (place >= 0 && !contents.isOfFile(source, stream[place])) place--;
  let after = packet;
  while (after < stream.length && !contents.isOfFile(source, stream[after])) after++;
  const next = after < stream.length ? stream[after] - base : count;
  if (place < 0) return next ? Math.max(0, Math.min(packet, next - 1)) : 0;
  const last = stream[place] - base;
  if (place === packet || next <= last) return last;
  return Math.min(last + packet - place, next - 1);
}
