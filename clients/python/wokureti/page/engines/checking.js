// A check of the packets of source 0, some at a time: whoever waits for the session comes first.

import { objectsOf } from "../details.js";

// The packets of the first question, and the milliseconds that one may take.
const FIRST = 16;
const SHORT = 50;
// Findings that are stored, at most; those that follow are only counted.
const MOST_FINDINGS = 20000;
const INSIDE = ["past_end", "unread"];

/** The findings at some packets of source 0, and their numbers. */
export function answer(ask, first, count) {
  const objects = objectsOf(ask(`check ${first} ${count}`, 0));
  return { numbers: objects.pop(), findings: objects };
}

function finding(severity, kind, members) {
  return { packet: null, frame: null, kind, ...members, severity };
}

/** The findings at the header of a file. `size` is that of its first key packet, or null. */
export function atHeader({ isIvf, claimed, count, head }, isWhole, size) {
  const found = [];
  if (!isIvf) return found;
  if (isWhole && claimed !== count) found.push(finding("note", "frame_count", { claimed, packets: count }));
  const sides = `${head.width}x${head.height}`;
  if (size !== null && size !== sides) found.push(finding("note", "frame_size", { claimed: sides, size }));
  if (!head.rate || !head.scale) found.push(finding("note", "no_rate", { rate: head.rate, scale: head.scale }));
  return found;
}

/** Those at the end of a file, if the packets are all of its whole records. */
export function atEnd({ cut, count }, isWhole) {
  return isWhole && cut
    ? [finding("damage", "cut_record", { record: count, byte: cut.byte, claimed: cut.claimed, left: cut.left })]
    : [];
}

export class Check {
  /** `timeline` is that of the packets, `header` and `end` are the findings there. */
  constructor(number, timeline, ask, header, end) {
    Object.assign(this, { number, timeline, ask, end });
    this.count = FIRST;
    this.findings = [];
    this.inside = [];
    this.damage = this.notes = this.done = 0;
    this.isOver = false;
    this.failed = null;
    this.take(header);
  }

  take(findings, numbers = null) {
    const damage = numbers ? numbers.damage : findings.filter(({ severity }) => severity === "damage").length;
    this.damage += damage;
    this.notes += numbers ? numbers.notes : findings.length - damage;
    for (const one of findings) if (INSIDE.includes(one.kind)) this.inside.push(one.packet);
    this.findings.push(...findings.slice(0, MOST_FINDINGS - this.findings.length));
  }

  /** A piece. Each question reads from the last key packet on, and the time stamps of all packets. */
  goOn() {
    const { count } = this.timeline;
    try {
      if (this.done < count) {
        const since = performance.now();
        const { findings, numbers } = answer(this.ask, this.done, this.count);
        const took = performance.now() - since;
        this.take(findings, numbers);
        this.done = Math.min(count, this.done + this.count);
        if (took < SHORT / 2) this.count *= 2;
        else if (took > 1.5 * SHORT) this.count = Math.max(FIRST, this.count >> 1);
      }
      if (this.done < count) return;
      this.take(this.end);
    } catch (error) {
      this.failed = error.message;
    }
    this.isOver = true;
  }

  /** What is known of it, with findings from one on. */
  members(first, most) {
    const findings = this.findings.slice(first, first + most);
    const groups = findings.map(({ packet }) =>
      (packet === null ? null : Math.max(0, this.timeline.keyBefore(packet))),
    );
    const isRest = first + findings.length < this.findings.length;
    const { number, damage, notes, done } = this;
    return {
      check: number,
      from: first,
      findings,
      groups,
      damage,
      notes,
      done,
      packets: this.timeline.count,
      over: this.isOver && !isRest,
      failed: this.failed,
    };
  }
}
