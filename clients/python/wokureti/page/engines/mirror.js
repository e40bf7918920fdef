// The packets of a stream that a server has, as it tells them: whole at first, and then what is new.

import { Packets } from "./contents.js";
import { Looks } from "./looks.js";
import { NEAR, Repairs } from "./repairs.js";

/** The bytes of a text in base 64. */
function bytesOf(text) {
  const letters = atob(text);
  const bytes = new Uint8Array(letters.length);
  for (let at = 0; at < bytes.length; at++) bytes[at] = letters.charCodeAt(at);
  return bytes;
}

function numbersOf(text) {
  return new Uint32Array(bytesOf(text).buffer);
}

/** An array of which at an index so many items go, and others come. The same one if nothing does. */
function spliced(old, first, removed, added) {
  if (!removed && !added.length) return old;
  const found = new old.constructor(old.length - removed + added.length);
  found.set(old.subarray(0, first));
  found.set(added, first);
  found.set(old.subarray(first + removed), first + added.length);
  return found;
}

/** The packets of files, and those that edits made. At first the streams are those of the files. */
class Told extends Packets {
  constructor(name, { counts, sizes, tags }) {
    super(counts.map((count) => ({ count })));
    this.name = name;
    this.sizes = Array.from(numbersOf(sizes));
    this.tags = Array.from(bytesOf(tags));
    this.forged = new Set();
    // What repairs need, which is told when they do.
    [this.stamps, this.hashes, this.durations] = [[], [], []];
    this.streams = counts.map((count, source) => new Uint32Array(count).map((_, place) => this.bases[source] + place));
    this.causes = counts.map(() => new Uint8Array(0));
  }

  isForged(number) {
    return this.forged.has(number);
  }

  learn(number, size, tags, isForged) {
    this.sizes[number] = size;
    this.tags[number] = tags;
    if (isForged) this.forged.add(number);
  }

  /** How long a packet is shown, in the time of source 0. */
  duration(number) {
    return this.durations[number];
  }

  /** The numbers of packets of which repairs near one need more than is told: those near it, the first ones, and all of
   * other sources. */
  unknown(packet) {
    const [stream, ...others] = this.streams;
    const at = packet ?? stream.length;
    const near = [...stream.subarray(0, NEAR), ...stream.subarray(Math.max(0, at - NEAR), at + NEAR)];
    const all = others.reduce((found, other) => found.concat(Array.from(other)), near);
    return [...new Set(all)].filter((number) => this.stamps[number] === undefined);
  }

  know(numbers, { stamps, hashes, durations, step }) {
    numbers.forEach((number, place) => {
      [this.stamps[number], this.hashes[number], this.durations[number]] = [
        stamps[place],
        hashes[place],
        durations[place],
      ];
    });
    this.files[0].step = step;
  }
}

export class Mirror extends Looks {
  constructor() {
    super();
    // What is told of: a name of these packets.
    this.known = "";
    [this.instance, this.changes, this.revision] = ["", 0, 0];
    this.contents = null;
    this.timelines = [];
    // Which packets a check found to be damaged inside, the last revision that it is of, and its packets, once they are
    // here.
    this.found = { check: null, revision: 0, stream: null, inside: [] };
  }

  /** Takes a state of the session, unless a newer one is here, and what is told of the packets since those of the name
   * `base`, or all of them if that is null. Whether these are the ones that are here: else `known` says what is. */
  take({ instance, changes, revision, script, frames, source, names }, told) {
    if (instance === this.instance && changes < this.changes) return true;
    if (told.base !== null && told.base !== this.known) return false;
    if (told.sources) this.tell(told);
    Object.assign(this, {
      instance,
      changes,
      revision,
      scriptText: script,
      frameCount: frames,
      current: source,
      names,
      runs: null,
    });
    this.bind();
    return true;
  }

  tell({ name, base, contents, files, made, sources }) {
    if (base === null) {
      this.contents = new Told(contents, files);
      this.timelines = [];
    }
    const { streams, causes } = this.contents;
    for (const facts of made) this.contents.learn(...facts);
    sources.forEach(({ numbers, refused }, source) => {
      const before = [streams[source], causes[source]];
      streams[source] = spliced(streams[source], numbers[0], numbers[1], numbersOf(numbers[2]));
      causes[source] = spliced(causes[source], refused[0], refused[1], bytesOf(refused[2]));
      if (streams[source] !== before[0] || causes[source] !== before[1]) this.timelines[source] = undefined;
    });
    this.known = name;
  }

  /** Takes what a check found. */
  heard({ check, revision, from, inside }) {
    if (check !== this.found.check || !from) this.found = { check, revision, stream: null, inside: [] };
    this.found.revision = revision;
    this.found.inside.push(...inside);
    this.bind();
  }

  /** A check is of the packets of its revision, and of no others. */
  bind() {
    if (this.found.revision === this.revision) [this.found.stream] = this.contents.streams;
  }

  /** The repairs of a finding. The server has the bytes of a packet by its number. */
  repairs(finding) {
    const { streams } = this.contents;
    return new Repairs(this.contents, this.timeline(0), this.names, (packet, source) =>
      `#${streams[source][packet]}`,
    ).of(finding);
  }

  causesOf(source) {
    return this.contents.causes[source];
  }

  damaged() {
    return this.found.stream === this.contents.streams[0] ? this.found.inside : [];
  }
}
