// Which packets there are: each has a number, those of the files first, then each one that an edit made. A stream is a
// list of numbers, so an edit moves numbers, and a number says which packet is meant, wherever that is now.

import { objectsOf } from "../details.js";
import { wordsOf } from "./lines.js";
import { baseOf, durationsOf, stepOf } from "./rates.js";
import { KEY, EMPTY, SHOWN, tagOf } from "./tags.js";

// Packets that are asked for at a time.
const PAGE = 2048;
const { imul } = Math;

/** The packets of a file, and its header. */
export class Index {
  constructor() {
    this.isIvf = false;
    this.head = { width: 0, height: 0, rate: 0, scale: 0 };
    this.claimed = 0;
    [this.sizes, this.stamps, this.tags, this.hashes] = [[], [], [], []];
    // Where the last record is cut off, the size that it claims, and how many of its bytes are there.
    this.cut = null;
    this.digest = "";
    this.bytes = 0;
  }

  add(size, stamp, tag, hash) {
    this.hashes.push(hash);
    this.sizes.push(size);
    this.stamps.push(stamp);
    this.tags.push(tag);
    this.bytes += size;
  }

  get count() {
    return this.sizes.length;
  }

  /** How long each packet is shown, in the file's units of time, and a packet that is in no file. */
  get durations() {
    return (this.lasting ??= durationsOf(this));
  }

  get step() {
    return (this.usual ??= stepOf(this));
  }

  readHead(view) {
    this.head = {
      width: view.getUint16(12, true),
      height: view.getUint16(14, true),
      rate: view.getUint32(16, true),
      scale: view.getUint32(20, true),
    };
  }
}

/** A number that packets with other bytes do not have, but by chance: FNV-1a twice, of which 53 bits are used. */
function hashOf(data) {
  let one = 0x811c9dc5 | 0;
  let other = 0xcbf29ce4 | 0;
  for (let at = 0; at < data.length; at++) {
    one = imul(one ^ data[at], 0x01000193);
    other = imul(other ^ (data[at] + at), 0x01000193);
  }
  return (one >>> 0) * 2 ** 21 + ((other >>> 0) & 0x1fffff);
}

/** The packets of an IVF file; `got` is called with the bytes of each after its size, as the digest of a list has
 * them. */
export function readIvf(bytes, got) {
  const view = new DataView(bytes.buffer, bytes.byteOffset, bytes.byteLength);
  const index = new Index();
  index.isIvf = true;
  index.readHead(view);
  index.claimed = view.getUint32(24, true);
  let at = view.getUint16(6, true);
  for (; at + 12 <= bytes.length; ) {
    const size = view.getUint32(at, true);
    if (at + 12 + size > bytes.length) break;
    const data = bytes.subarray(at + 12, at + 12 + size);
    index.add(size, Number(view.getBigUint64(at + 4, true)), tagOf(size, data[0]), hashOf(data));
    got(bytes.subarray(at, at + 4));
    got(data);
    at += 12 + size;
  }
  if (at < bytes.length)
    index.cut = {
      byte: at,
      claimed: at + 4 <= bytes.length ? view.getUint32(at, true) : null,
      left: bytes.length - at,
    };
  return index;
}

/** The packets of streams, and of each number its size and its tags. `files` have the number of packets of each. */
export class Packets {
  constructor(files) {
    this.files = files;
    this.bases = [];
    this.ofFiles = 0;
    for (const { count } of files) {
      this.bases.push(this.ofFiles);
      this.ofFiles += count;
    }
    this.shown = [];
  }

  isOfFile(source, number) {
    return number >= this.bases[source] && number < this.bases[source] + this.files[source].count;
  }

  /** For each packet of a file how many shown ones come before it. */
  shownInFile(source) {
    if (!this.shown[source]) {
      const { count } = this.files[source];
      const found = new Uint32Array(count + 1);
      for (let place = 0; place < count; place++)
        found[place + 1] = found[place] + (this.tags[this.bases[source] + place] & SHOWN ? 1 : 0);
      this.shown[source] = found;
    }
    return this.shown[source];
  }
}

export class Contents extends Packets {
  /** `ask(line, source)` is the reply to a question about a source. */
  constructor(files, ask) {
    super(files);
    this.ask = ask;
    [this.sizes, this.stamps, this.tags, this.hashes] = ["sizes", "stamps", "tags", "hashes"].map((name) =>
      files.flatMap(
      (file) => file[name],
    ));
    // The sizes of the pictures of key packets, by their numbers.
    this.pictures = new Map();
    // The packets that edits made: the one whose time each has, or null; the source that it was made in; and whether it
    // was forged. A number is that of one packet for ever: edits that are made again make the packets that they made
    // before.
    this.made = [];
    this.begin();
  }

  /** The packets are those of the files again. */
  begin() {
    this.current = 0;
    this.streams = this.files.map(({ count }, source) => Array.from({ length: count }, (_, place) =>
      this.bases[source] + place,
    ));
  }

  isForged(number) {
    return number >= this.ofFiles && this.made[number - this.ofFiles].isForged;
  }

  /** The number of the next packet that an edit makes. */
  get unused() {
    return this.ofFiles + this.made.length;
  }

  make(timed, isForged = false) {
    const number = this.next++;
    this.made[number - this.ofFiles] = { timed, isForged, source: this.current };
    return number;
  }

  copyOf(number) {
    const made = this.make(number, this.isForged(number));
    this.hashes[made] = this.hashes[number];
    return made;
  }

  /** The file whose time a packet has, and its index there; of a packet without a time the source that it was made in,
   * and null. */
  timed(number) {
    let [one, of] = [number, 0];
    while (one !== null && one >= this.ofFiles) ({ source: of, timed: one } = this.made[one - this.ofFiles]);
    if (one === null) return [of, null];
    of = this.bases.findLastIndex((base, place) => base <= one && this.files[place].count);
    return [of, one - this.bases[of]];
  }

  /** How long a packet is shown, in the units of time of a source: as in its file; one that has no time the median step
   * of the source that it was made in. */
  duration(number, source) {
    const [of, place] = this.timed(number);
    const ticks = place === null ? this.files[of].step : this.files[of].durations[place];
    const [[rate, scale], [toRate, toScale]] = [of, source].map((one) => baseOf(this.files[one].head));
    return rate === toRate && scale === toScale
      ? ticks
      : Math.max(1, Math.floor((ticks * scale * toRate) / (rate * toScale)));
  }

  /** Makes accepted edits, whose packets have the numbers from `first` on. Packets that are deleted one after the other
   * go together. */
  apply(lines, first) {
    this.next = first;
    for (let at = 0; at < lines.length; ) {
      let count = 1;
      while (lines[at + count] === lines[at]) count++;
      if (lines[at].startsWith("delete ")) this.streams[this.current].splice(Number(wordsOf(lines[at])[1]), count);
      else for (let turn = 0; turn < count; turn++) this.applyOne(lines[at]);
      at += count;
    }
  }

  applyOne(line) {
    const [word, ...rest] = wordsOf(line);
    const [one, two, three] = rest.map(Number);
    const stream = this.streams[this.current];
    if (word === "use") this.current = one;
    else if (word === "move") stream.splice(two, 0, ...stream.splice(one, 1));
    else if (word === "insert") stream.splice(one, 0, this.make(null));
    else if (word === "blank" || word === "hold") stream.splice(one, 0, this.make(null, true));
    else if (word === "copy") stream.splice(three, 0, this.copyOf(this.streams[one][two]));
    else if (word === "replace" || word === "hide" || word === "show") stream[one] = this.make(stream[one]);
  }

  isEdited(source) {
    const stream = this.streams[source];
    return stream.length !== this.files[source].count ||
      stream.some((number, place) => number !== this.bases[source] + place);
  }

  /** Asks for the facts of packets that are not known. */
  learn() {
    this.streams.forEach((stream, source) => {
      for (let place = 0; place < stream.length; place++) {
        if (this.tags[stream[place]] !== undefined) continue;
        let end = place + 1;
        while (end < stream.length && end - place < PAGE && this.tags[stream[end]] === undefined) end++;
        this.list(source, place, end - place);
        place = end - 1;
      }
    });
  }

  /** The facts of packets as `list` reports them, which are taken. */
  list(source, first, count) {
    const found = objectsOf(this.ask(`list ${first} ${count}`, source));
    found.forEach((facts, turn) => {
      const number = this.streams[source][first + turn];
      this.sizes[number] = facts.bytes;
      this.stamps[number] = facts.stamp;
      this.tags[number] =
        (facts.kind === "key" ? KEY : 0) | (facts.show === "shown" ? SHOWN : 0) | (facts.bytes ? 0 : EMPTY);
      if (facts.size) this.pictures.set(number, facts.size);
    });
    return found;
  }
}

/** The causes against packets, as `list` reports them: 0 if a packet is decoded, 1 if an earlier one is refused, else
 * 2. Whole once all were listed. */
export class Causes {
  constructor(contents) {
    this.contents = contents;
    this.seen = contents.streams.map(() => ({ stream: [], causes: [], isWhole: false }));
  }

  get isWhole() {
    return this.seen.every(({ isWhole }) => isWhole);
  }

  ask(source, first, count) {
    return this.contents.list(source, first, count).map(({ cause }) => (cause === null ? 0 : cause === "lost" ? 1 : 2));
  }

  /** Lists some more packets, for so many milliseconds. Whether there is more to list. */
  goOn(milliseconds) {
    const limit = performance.now() + milliseconds;
    for (const [source, seen] of this.seen.entries()) {
      const stream = this.contents.streams[source];
      while (!seen.isWhole) {
        const place = seen.stream.length;
        if (place < stream.length) {
          const causes = this.ask(source, place, Math.min(PAGE, stream.length - place));
          for (const cause of causes) seen.causes.push(cause);
          for (let turn = 0; turn < causes.length; turn++) seen.stream.push(stream[place + turn]);
        }
        seen.isWhole = seen.stream.length === stream.length;
        if (performance.now() > limit) return !this.isWhole;
      }
    }
    return false;
  }

  /** After edits: those that were listed and are no more there are forgotten, and what changed is listed again. */
  follow() {
    this.seen.forEach((seen, source) => {
      const stream = this.contents.streams[source];
      let first = 0;
      while (first < seen.stream.length && first < stream.length && seen.stream[first] === stream[first]) first++;
      if (first === seen.stream.length && first === stream.length) return;
      if (!seen.isWhole) {
        seen.stream.length = seen.causes.length = first;
        return;
      }
      seen.causes = this.causesNow(source, seen, stream, first);
      seen.stream = stream.slice();
    });
  }

  /** A packet that was there, and has the cause that it had, leaves those after it as they were: what decoding refuses
   * depends on the packets from the last key packet on, and on these only by whether one of them is refused. */
  causesNow(source, old, stream, first) {
    let same = 0;
    while (
      same < Math.min(stream.length, old.stream.length) - first &&
      stream[stream.length - 1 - same] === old.stream[old.stream.length - 1 - same]
    ) same++;
    const rest = stream.length - same;
    const shift = old.stream.length - stream.length;
    const causes = old.causes.slice(0, first);
    for (let after = 1; causes.length < stream.length; after = 256) {
      const place = causes.length;
      const count = Math.min(PAGE, Math.max(rest - place, 0) + after, stream.length - place);
      causes.push(...this.ask(source, place, count));
      for (let at = Math.max(place, rest); at < causes.length; at++) {
        if (causes[at] === old.causes[at + shift]) return [...causes.slice(0, at), ...old.causes.slice(at + shift)];
      }
    }
    return causes;
  }
}
