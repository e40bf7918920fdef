// The repairs that can work for a finding: each is a list of edits, which a person sees before it is made.
// tests/repair_cases.json has what each engine answers.

import { SHOWN } from "./tags.js";

// The edits of a repair, at most; packets on each side of a finding that are compared with a second recording; how far
// away packets that were moved are.
const MOST_EDITS = 10000;
export const NEAR = 2000;
const NEAR_BY = 64;
// Packets of fewer bytes are written as HEX, also if another source has them.
const LEAST_COPY = 16;
// Findings after which a packet is not shown as it was coded.
const BROKEN = ["refused", "past_end", "unread", "empty", "no_bytes"];

/** The value that occurs most often, the first one of several; null if there is none. */
function commonest(values) {
  const counts = new Map();
  for (const value of values) counts.set(value, (counts.get(value) ?? 0) + 1);
  let best = null;
  for (const [value, count] of counts) if (best === null || count > counts.get(best)) best = value;
  return { best, counts };
}

export class Repairs {
  /** The packets of source 0: `timeline` has their kinds, `contents` the others, `hex(packet, source)` the bytes of one
   * as a line has them. */
  constructor(contents, timeline, names, hex) {
    Object.assign(this, { contents, timeline, names, hex });
    this.stream = contents.streams[0];
  }

  /** The repairs of a finding, the best one first. The last one keeps the packet as it is. */
  of({ kind, packet = null, before = null, stamp = null }) {
    const { count } = this.timeline;
    let [found, at] = [[], packet];
    if (kind === "cut_record" || kind === "container") {
      found = this.ofTail();
      at = Math.max(0, count - 1);
    } else if (packet !== null && packet < count) {
      if (BROKEN.includes(kind))
        found = [...this.seconds(packet), ...this.holds(packet, kind), ...this.drops(packet), ...this.removals(packet)];
      else if (kind === "stamp_skips" || (kind === "breaks_step" && before < stamp))
        found = this.ofHole(packet, before, stamp);
      else if (["stamp_repeats", "stamp_goes_back", "breaks_step"].includes(kind)) found = this.ofDoubles(packet);
      else if (kind === "comes_twice" && packet + 1 < count) found = this.ofDoubles(packet + 1);
    }
    const fits = found.filter(({ lines }) => lines.length <= MOST_EDITS);
    return [...fits, { name: "keep", title: "Keep it as it is", lines: [], packet: at ?? 0 }];
  }

  // A second recording

  stamp(index) {
    return this.contents.stamps[this.stream[index]];
  }

  hash(index) {
    return this.contents.hashes[this.stream[index]];
  }

  /** What to add to the time stamps of a source; null if no packet near an index is one of the source's. */
  shift(source, near) {
    const { sizes, hashes, stamps, streams } = this.contents;
    const mine = new Map();
    for (let index = Math.max(0, near - NEAR); index < Math.min(this.stream.length, near + NEAR); index++) {
      if (sizes[this.stream[index]] > 16 && this.hash(index) !== undefined)
        mine.set(this.hash(index), this.stamp(index));
    }
    const same = streams[source].filter((number) => mine.has(hashes[number])).map((number) =>
      mine.get(hashes[number]) - stamps[number],
    );
    if (!same.length) return null;
    const { best, counts } = commonest(same);
    return counts.get(0) === counts.get(best) ? 0 : best;
  }

  /** The sources that are a second recording: number, shift, and packets by time stamp. */
  others(near) {
    const { streams, stamps } = this.contents;
    const found = [];
    for (let source = 1; source < streams.length; source++) {
      const shift = this.shift(source, near);
      if (shift === null) continue;
      const byStamp = new Map();
      streams[source].forEach((number, index) => byStamp.set(stamps[number], [
        ...(byStamp.get(stamps[number]) ?? []),
        index,
      ]));
      found.push({ source, shift, byStamp });
    }
    return found;
  }

  /** How many packets of the same time stamp come right before a packet. */
  rank(packet) {
    let count = 0;
    while (count < packet && this.stamp(packet - count - 1) === this.stamp(packet)) count++;
    return count;
  }

  /** The packet of a second recording with the same time stamp. */
  seconds(packet) {
    const stamp = this.stamp(packet);
    const found = [];
    for (const { source, shift, byStamp } of this.others(packet)) {
      const index = byStamp.get(stamp - shift)?.[this.rank(packet)];
      if (index === undefined || this.contents.hashes[this.contents.streams[source][index]] === this.hash(packet))
        continue;
      const title = `Take packet ${index} of ${this.names[source]}, which has the time stamp ${stamp - shift}`;
      found.push({
        name: "second",
        title,
        lines: [`copy ${source} ${index} ${packet}`, `delete ${packet + 1}`],
        packet,
      });
    }
    return found;
  }

  /** The packets of a source with time stamps between two, as they are here. */
  between({ shift, byStamp }, low, high) {
    return [...byStamp.keys()]
      .filter((other) => low < other + shift && other + shift < high)
      .sort((one, other) => one - other)
      .flatMap((other) => byStamp.get(other));
  }

  /** Packets for those that the time stamps say are missing before a packet: they may come later. */
  ofHole(packet, before, stamp) {
    const late = [];
    for (let index = packet + 1; index < Math.min(this.stream.length, packet + NEAR_BY); index++)
      if (before < this.stamp(index) && this.stamp(index) < stamp) late.push(index);
    if (late.length) {
      const names = late.length === 1 ? `packet ${late[0]}` : `${late.length} packets that come later`;
      const lines = [
        ...late.map((index, turn) => `move ${index} ${packet + turn}`),
        ...this.renewed(packet, late.map((index) => this.here(index))),
      ];
      return [{ name: "move", title: `Move ${names} to ${packet}, where the time stamps belong`, lines, packet }];
    }
    const found = [];
    for (const other of this.others(packet)) {
      const group = this.between(other, before, stamp);
      if (!group.length) continue;
      const numbers = this.contents.streams[other.source];
      const filling = group.map((index) => ({
        stamp: this.contents.stamps[numbers[index]] + other.shift,
        isShown: this.isShown(numbers[index]),
        duration: this.contents.duration(numbers[index], 0),
        hex: () => this.hex(index, other.source),
      }));
      const lines = [
        ...group.map((index, turn) => `copy ${other.source} ${index} ${packet + turn}`),
        ...this.renewed(packet, filling, other),
      ];
      found.push({
        name: "second",
        title: `Insert the ${group.length} missing packets of ${this.names[other.source]}`,
        lines,
        packet,
      });
    }
    const step = this.step();
    const missing = [];
    for (let value = before + step; step && value < stamp && missing.length <= MOST_EDITS; value += step)
      missing.push(value);
    if (missing.length) {
      const filling = missing.map((value) => ({ stamp: value, isShown: true, duration: this.contents.files[0].step }));
      const lines = [
        ...missing.map((value, turn) => `insert ${packet + turn} ${value} -`),
        ...this.renewed(packet, filling),
      ];
      found.push({
        name: "drop",
        title: `Insert ${missing.length} dropped frames: the picture before is shown`,
        lines,
        packet,
      });
    }
    return found;
  }

  isShown(number) {
    return (this.contents.tags[number] & SHOWN) !== 0;
  }

  /** A packet of source 0 with its time. */
  here(index) {
    const number = this.stream[index];
    return {
      index,
      stamp: this.stamp(index),
      isShown: this.isShown(number),
      duration: this.contents.duration(number, 0),
    };
  }

  /** The lines that insert packets next to a hole again, which is filled: the one before a hole lasts as long as the
   * hole. They are copied from a second recording, if that has them with the right duration. Packets of `filling` that
   * have an index were after the hole. */
  renewed(packet, filling, other = null) {
    let first = packet - 1;
    while (first > 0 && !this.isShown(this.stream[first])) first--;
    const near = Array.from(
      { length: Math.max(0, Math.min(this.stream.length, packet + NEAR_BY) - first) },
      (_, turn) => this.here(first + turn),
    );
    const moved = new Set(filling.map(({ index }) => index));
    const found = [
      ...near.slice(0, packet - first),
      ...filling,
      ...near.slice(packet - first).filter(({ index }) => !moved.has(index)),
    ];
    const usual = this.contents.files[0].step;
    const isWrong = (duration, wanted) =>
      Math.abs(duration - wanted) > Math.abs(usual - wanted) + Math.floor(usual / 2);
    const lines = [];
    let after = null;
    for (let at = found.length - 1; at >= 0; at--) {
      const one = found[at];
      if (!one.isShown) continue;
      const { stamp, duration } = one;
      if (after !== null && stamp < after && isWrong(duration, after - stamp))
        lines.push(
          this.again(first + at, one, other, (lasts) => isWrong(lasts, after - stamp)),
          `delete ${first + at + 1}`,
        );
      after = stamp;
    }
    return lines;
  }

  /** The line that inserts a packet again. */
  again(at, { index, stamp, hex }, other, isWrong) {
    if (index === undefined) return `insert ${at} ${stamp} ${hex?.() ?? "-"}`;
    if (other && this.timeline.sizes[index] >= LEAST_COPY) {
      const numbers = this.contents.streams[other.source];
      const twin = other.byStamp.get(stamp - other.shift)?.findLast((place) =>
        this.contents.hashes[numbers[place]] === this.hash(index),
      );
      if (twin !== undefined && !isWrong(this.contents.duration(numbers[twin], 0)))
        return `copy ${other.source} ${twin} ${at}`;
    }
    return `insert ${at} ${stamp} ${this.hex(index, 0)}`;
  }

  /** The packets of a second recording after the last one. */
  ofTail() {
    const last = this.stream.length - 1;
    const found = [];
    for (const other of this.others(Math.max(0, last))) {
      const group = this.between(other, last < 0 ? -Infinity : this.stamp(last), Infinity);
      if (!group.length) continue;
      const lines = group.map((index, turn) => `copy ${other.source} ${index} ${last + 1 + turn}`);
      found.push({
        name: "second",
        title: `Append the last ${group.length} packets of ${this.names[other.source]}`,
        lines,
        packet: last + 1,
      });
    }
    return found;
  }

  /** The step between time stamps that most packets have, or 0. */
  step() {
    const steps = [];
    for (let index = 1; index < Math.min(this.stream.length, NEAR); index++)
      steps.push(this.stamp(index) - this.stamp(index - 1));
    return Math.max(0, commonest(steps).best ?? 0);
  }

  // Without one

  /** Whether no key packet that can be decoded comes before a packet. */
  isLostFromStart(packet) {
    for (let index = 0; index < packet; index++)
      if (this.timeline.keys[index] && !this.timeline.causes[index]) return false;
    return true;
  }

  /** The edits that hold the last picture for the shown packets of a range, and remove the hidden ones. */
  held(first, end) {
    const lines = [];
    let at = first;
    for (let index = first; index < end; index++) {
      if (this.timeline.frames[index] === this.timeline.frames[index + 1]) {
        lines.push(`delete ${at}`);
        continue;
      }
      // A held packet has the time stamp of the packet before it, and the size of the last key packet before it.
      lines.push(
        ...(this.timeline.keys[index] ? [`hold ${at}`, `delete ${at + 1}`] : [`hold ${at + 1}`, `delete ${at}`]),
      );
      at++;
    }
    return lines;
  }

  holds(packet, kind) {
    if (this.isLostFromStart(packet)) return [];
    const end = this.timeline.nextKey(packet + 1);
    const one = {
      name: "hold",
      title: `Hold the picture before, for packet ${packet} only`,
      lines: this.held(packet, packet + 1),
      packet,
    };
    const title = `Hold the picture before up to the next key frame, packets ${packet} to ${end - 1}`;
    const all = end > packet + 1 ? [{ name: "hold_all", title, lines: this.held(packet, end), packet }] : [];
    if (kind === "refused" || !all.length) return [one, ...all];
    return kind === "no_bytes" ? all : [...all, one];
  }

  drops(packet) {
    if (!this.timeline.sizes[packet] || this.isLostFromStart(packet)) return [];
    return [{
      name: "drop",
      title: "Drop the frame: an empty packet shows the picture before",
      lines: [`replace ${packet} -`],
      packet,
    }];
  }

  /** Packets before the first key frame cannot be decoded. */
  removals(packet) {
    const end = this.timeline.nextKey(packet + 1);
    if (!this.isLostFromStart(packet) || end >= this.stream.length) return [];
    const names = end === packet + 1 ? `packet ${packet}` : `packets ${packet} to ${end - 1}`;
    return [{
      name: "remove",
      title: `Remove ${names}: no key frame comes before`,
      lines: Array(end - packet).fill(`delete ${packet}`),
      packet,
    }];
  }

  /** A packet that is there twice, or that was moved. */
  ofDoubles(packet) {
    const found = [];
    const before = Array.from({ length: Math.min(NEAR_BY, packet) }, (_, turn) => Math.max(0, packet - NEAR_BY) + turn);
    const stamp = this.stamp(packet);
    const twin = before.find((index) =>
      this.stamp(index) === stamp && this.hash(index) !== undefined && this.hash(index) === this.hash(packet),
    );
    if (twin !== undefined && this.timeline.sizes[packet]) {
      found.push({
        name: "remove",
        title: `Remove packet ${packet}: it is packet ${twin} again`,
        lines: [`delete ${packet}`],
        packet: Math.max(0, packet - 1),
      });
    }
    const place = before.find((index) => this.stamp(index) > stamp);
    if (place !== undefined)
      found.push({
        name: "move",
        title: `Move packet ${packet} to ${place}, where its time stamp belongs`,
        lines: [`move ${packet} ${place}`],
        packet: place,
      });
    return found;
  }

  // All findings

  /** The certain repairs of all findings as one list of edits, what each does, and how many packets stay damaged. A
   * repair up to the next key packet is that of all that is found there. The edits are made from the last one to the
   * first, so each finds its packets where the check found them. */
  all(findings) {
    const found = [];
    let [left, reach] = [0, 0];
    const rank = ({ kind }) => (kind === "refused" ? 0 : 1);
    for (const finding of findings.filter(({ packet }) => packet !== null).sort((one, other) =>
      one.packet - other.packet || rank(one) - rank(other),
    )) {
      const { best, from, end } = this.certain(finding);
      if (best && from >= reach) {
        found.push(best);
        reach = end;
      } else if (finding.severity === "damage" && finding.packet >= reach) left += 1 + (finding.lost ?? 0);
    }
    return {
      lines: found.reverse().flatMap(({ lines }) => lines),
      said: found.map(({ title }) => title).reverse(),
      left,
    };
  }

  /** The repair of a finding that is certain, with the first packet that it touches, and the one after the last. */
  certain({ kind, packet, before = null, stamp = null }) {
    const repairs = this.of({ kind, packet, before, stamp });
    const byName = (name) => repairs.find((one) => one.name === name);
    const end = this.timeline.nextKey(packet + 1);
    const sure = (best, from, stop) => (best ? { best, from, end: stop } : {});
    if (byName("second") && BROKEN.includes(kind)) return sure(byName("second"), packet, packet + 1);
    if (kind === "refused") return sure(byName("remove") ?? byName("hold_all") ?? byName("hold"), packet, end);
    if (kind === "comes_twice") return sure(byName("remove"), packet + 1, packet + 2);
    if (kind === "stamp_goes_back") return sure(byName("move"), byName("move")?.packet, packet + 1);
    return {};
  }
}
