// Sessions beside that of the page, in a worker of their own: files as they were opened, edits that are not made,
// exports. Nothing here changes the session of the page, its list, or what redo makes again.

import { answer } from "./checking.js";
import { ivfOf, psnrOf } from "./coding.js";
import { objectsOf } from "../details.js";
import { Session } from "./session.js";

// Bytes of the pictures of cached states.
const MOST_STATES = 1 << 26;
// Packets that are listed at a time, and those of a group that is checked, at most.
const PAGE = 256;
const MOST_GROUP = 1000;

export class Beside {
  constructor(module, sources) {
    Object.assign(this, { module, sources, opened: [], session: null });
  }

  /** The session after these edits. */
  after(lines) {
    this.session ??= new Session(this.module, this.sources, MOST_STATES);
    this.session.whole();
    this.session.follow(lines);
    return this.session;
  }

  /** A file as it was opened. */
  original(source) {
    this.opened[source] ??= new Session(this.module, [this.sources[source]], MOST_STATES);
    this.opened[source].whole();
    return this.opened[source];
  }

  before(source, list) {
    return list.map((number) => this.original(source).frame(number));
  }

  frames(lines, list) {
    const session = this.after(lines);
    return list.map((number) => session.frame(number));
  }

  /** The picture of a packet of a source: that of the frame that shows it, or of the next one, or else of the last
   * one. */
  packet(lines, source, packet) {
    const session = this.after(lines);
    for (let first = packet; ; first += PAGE) {
      const found = objectsOf(session.ask(`list ${first} ${PAGE}`, source));
      const frame = found.find((facts) => facts.frame !== null)?.frame;
      if (frame !== undefined) return [session.frame(frame)];
      if (found.length < PAGE) return [session.frame(Math.max(0, session.count() - 1))];
    }
  }

  /** The findings at the group of pictures that has a packet of source 0, after edits. */
  findings(lines, packet) {
    const session = this.after(lines);
    const ask = (line, source) => session.ask(line, source);
    const kinds = (first, end) => objectsOf(ask(`list ${first} ${end - first}`, 0)).map(({ kind }) => kind);
    const count = Number(ask("count", 0).split(" ")[1]);
    const at = Math.max(0, Math.min(packet, count - 1));
    let first = at;
    for (let begin = at + 1; begin > 0; ) {
      const from = Math.max(0, begin - PAGE);
      const key = kinds(from, begin).lastIndexOf("key");
      first = key < 0 ? from : from + key;
      begin = key < 0 ? from : 0;
    }
    let end = at + 1;
    while (end < Math.min(count, first + MOST_GROUP)) {
      const found = kinds(end, Math.min(count, end + PAGE));
      const key = found.indexOf("key");
      end += key < 0 ? found.length : key;
      if (key >= 0) break;
    }
    return answer(ask, first, Math.min(end, first + MOST_GROUP) - first).findings;
  }

  export(lines) {
    return this.after(lines).calls.export();
  }

  /** Packets that were coded of frames, which `measure` looks at. */
  coded(head, packets) {
    this.packets = new Session(this.module, [ivfOf(head, packets.map((_, place) => place), packets)], MOST_STATES);
  }

  /** The PSNR of some of these packets against the frames after edits, of which the first packet is frame `first`; up
   * to the first one that has fewer decibels. */
  measure(lines, first, from, count, least) {
    const session = this.after(lines);
    const found = [];
    for (let at = from; at < from + count; at++) {
      found.push(psnrOf(session.frame(first + at).samples, this.packets.frame(at).samples));
      if (found.at(-1) < least) break;
    }
    return found;
  }

  /** The frames that are shown as an IVF file, of which coded packets replace some: they are a source more, and the
   * script has the parts of all. */
  exportCoded(lines, { head, stamps, script }, packets) {
    // What follows says how long the last one is shown; no script has it.
    const coded = ivfOf(head, stamps, [...packets, new Uint8Array(0)]);
    const session = new Session(this.module, [...this.sources, coded], 1 << 20);
    session.follow([...lines, `script ${script}`]);
    return session.calls.export();
  }
}
