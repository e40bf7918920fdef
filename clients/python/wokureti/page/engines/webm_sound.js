// The sound of a WebM or Matroska file, a minute at a time: the packets of its first track of sound as they are, as
// files that the browser decodes.

// Names of elements.
const [EBML, SEGMENT, INFO, TRACKS, CLUSTER] = [0x1a45dfa3, 0x18538067, 0x1549a966, 0x1654ae6b, 0x1f43b675];
const [SCALE, ENTRY, NUMBER, KIND, TIME, SIMPLE, GROUP, BLOCK] = [0x2ad7b1, 0xae, 0xd7, 0x83, 0xe7, 0xa3, 0xa0, 0xa1];
const SOUND = 2;
const USUAL = 1000000;
// Bytes that are read at a time, and those that an element begins with, at most; bytes of an element that is kept.
const WINDOW = 1 << 22;
const HEAD = 12;
const MOST_KEPT = 1 << 20;

/** The number at a place, with its marker if it is a name; and how many bytes it has. Null if there is none. A size of
 * all ones is Infinity. */
function numberAt(bytes, at, isName) {
  const length = Math.clz32(bytes[at]) - 23;
  if (at >= bytes.length || length > (isName ? 4 : 8) || at + length > bytes.length) return null;
  let value = isName ? bytes[at] : bytes[at] & (0xff >> length);
  let isOpen = !isName && value === 0xff >> length;
  for (let place = 1; place < length; place++) {
    value = value * 256 + bytes[at + place];
    isOpen = isOpen && bytes[at + place] === 0xff;
  }
  return [isOpen ? Infinity : value, length];
}

/** The elements in some bytes: the name, the content, and all of it. */
function* within(bytes) {
  for (let at = 0; at < bytes.length; ) {
    const name = numberAt(bytes, at, true);
    const size = name && numberAt(bytes, at + name[1], false);
    if (!size || size[0] > bytes.length) return;
    const start = at + name[1] + size[1];
    yield [name[0], bytes.subarray(start, start + size[0]), bytes.subarray(at, start + size[0])];
    at = start + size[0];
  }
}

function valueOf(bytes) {
  return bytes.reduce((value, byte) => value * 256 + byte, 0);
}

/** Bytes of a file, of which a part is in the memory. */
class Reader {
  constructor(file) {
    Object.assign(this, { file, start: 0, bytes: new Uint8Array(0) });
  }

  async at(place, size) {
    if (place < this.start || place + size > this.start + this.bytes.length) {
      this.start = place;
      this.bytes = new Uint8Array(await this.file.slice(place, place + Math.max(size, WINDOW)).arrayBuffer());
    }
    return this.bytes.subarray(place - this.start, place - this.start + size);
  }
}

/** What is known of the sound of a file: how it begins, and of each of its blocks the time in milliseconds, and where
 * it is. */
export class WebmSound {
  constructor(file) {
    Object.assign(this, { file, scale: USUAL, entry: null, number: 0, blocks: [] });
  }

  /** Reads the file. One flat walk: of the elements that have others only segments and clusters are gone into. What
   * follows damage is not read. */
  async read() {
    const reader = new Reader(this.file);
    let time = 0;
    for (let place = 0; place < this.file.size; ) {
      const bytes = await reader.at(place, HEAD);
      const name = numberAt(bytes, 0, true);
      const size = name && numberAt(bytes, name[1], false);
      if (!size) break;
      const start = place + name[1] + size[1];
      if (name[0] === SEGMENT || name[0] === CLUSTER) {
        place = start;
        continue;
      }
      const end = start + size[0];
      if (end > this.file.size) break;
      if (name[0] === TIME) time = valueOf(await reader.at(start, size[0]));
      else if (name[0] === SIMPLE || name[0] === GROUP)
        this.note(place, end, time, await reader.at(start, Math.min(size[0], 64)), name[0] === GROUP);
      else if ([EBML, INFO, TRACKS].includes(name[0]) && end - place <= MOST_KEPT)
        this.keep(name[0], (await reader.at(place, end - place)).slice(), start - place);
      if (this.isMute) break;
      place = end;
    }
    return this;
  }

  keep(name, bytes, start) {
    const content = bytes.subarray(start);
    if (name === EBML) this.head = bytes;
    else if (name === INFO) {
      for (const [inner, value] of within(content)) if (inner === SCALE) this.scale = valueOf(value);
    } else if (!this.entry) {
      const entries = [...within(content)].filter(([inner]) => inner === ENTRY);
      const entry = entries.find(([, inside]) => [...within(inside)].some(([inner, value]) =>
        inner === KIND && valueOf(value) === SOUND,
      ));
      this.isMute = !entry;
      if (entry)
        [this.entry, this.number] = [entry[2], valueOf([...within(entry[1])].find(([inner]) => inner === NUMBER)[1])];
    }
  }

  /** Notes a block, if it is of the track. */
  note(place, end, time, bytes, isGroup) {
    let block = bytes;
    if (isGroup) {
      const name = numberAt(bytes, 0, true);
      const size = name && numberAt(bytes, name[1], false);
      if (!size || name[0] !== BLOCK) return;
      block = bytes.subarray(name[1] + size[1]);
    }
    const track = numberAt(block, 0, false);
    if (!this.entry || track?.[0] !== this.number || block.length < track[1] + 3) return;
    const ticks = time + (((block[track[1]] << 24) >> 16) | block[track[1] + 1]);
    this.blocks.push([(ticks * this.scale) / 1e6, place, end, time]);
  }

  get hasSound() {
    return this.entry !== null && this.head !== undefined;
  }

  /** A file with the blocks from one millisecond to another, without bytes if there is none, and the millisecond after
   * the first one at which its sound begins. */
  async piece(from, end) {
    const blocks = this.blocks.filter(([time]) => time >= from && time < end);
    if (!blocks.length) return { bytes: new ArrayBuffer(0), begins: 0 };
    const starts = blocks.map(([, start]) => start);
    const first = starts.reduce((least, one) => Math.min(least, one));
    const last = blocks.reduce((most, [, , stop]) => Math.max(most, stop), 0);
    const bytes = new Uint8Array(await this.file.slice(first, last).arrayBuffer());
    const base = blocks.reduce((least, [, , , time]) => Math.min(least, time), Infinity);
    const clusters = [];
    for (let at = 0; at < blocks.length; ) {
      const time = blocks[at][3];
      const inside = [];
      for (; at < blocks.length && blocks[at][3] === time; at++)
        inside.push(bytes.subarray(blocks[at][1] - first, blocks[at][2] - first));
      clusters.push(element(CLUSTER, element(TIME, numberOf(time - base)), ...inside));
    }
    const parts = [element(INFO, element(SCALE, numberOf(this.scale))), element(TRACKS, this.entry), ...clusters];
    return {
      bytes: await new Blob([this.head, element(SEGMENT, ...parts)]).arrayBuffer(),
      begins: blocks[0][0] - from,
    };
  }
}

/** A number in eight bytes, as the content of an element. */
function numberOf(value) {
  const found = new Uint8Array(8);
  new DataView(found.buffer).setBigUint64(0, BigInt(value));
  return found;
}

function element(name, ...contents) {
  const length = contents.reduce((sum, one) => sum + one.length, 0);
  const names = name > 0xffffff ? [24, 16, 8, 0] : name > 0xffff ? [16, 8, 0] : [0];
  const size = numberOf(length);
  size[0] = 1;
  const found = new Uint8Array(names.length + 8 + length);
  found.set(names.map((shift) => (name >>> shift) & 0xff));
  found.set(size, names.length);
  let at = names.length + 8;
  for (const one of contents) {
    found.set(one, at);
    at += one.length;
  }
  return found;
}
